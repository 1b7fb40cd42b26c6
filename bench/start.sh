#!/usr/bin/env bash
# Runs `bin/lib/start`, by which the programs of bin/ start, in a scratch repository: over a program that tells what it is given, and with a
# `prove` that writes down that it was called, builds that program and lists what the real `prove` would list. Asked is that words,
# folder, input and status go through, that whatever the program is made from is proved again where it changed, and that nothing
# runs behind a proof that fails. Prints what went wrong, how many looks there were and how many went wrong, and ends with 1 if any did.
#
#     bench/start.sh [START]      another text in place of bin/lib/start
set -eu
root=$(cd "$(dirname "$(readlink -f "${BASH_SOURCE[0]}")")/.." && pwd)
start=$(readlink -f "${1:-$root/bin/lib/start}")
scratch=$(mktemp -d)
trap 'rm -rf "$scratch"' EXIT
top=$scratch/top
mkdir -p "$top/bin/lib" "$top/docs" "$scratch/from"
cp "$start" "$top/bin/lib/start"
cp "$root/bin/lib/prove" "$top/bin/lib/real"
cp "$root/bin/lib/ahead" "$top/bin/lib/ahead"
sed 's/^program=.*/program=probe/' "$root/bin/stow" >"$top/bin/probe"
chmod +x "$top/bin/probe"
printf 'below:\nprobe: below\nbeside: below\n' >"$top/crates.txt"
for crate in below probe beside; do
    for part in src specs proofs must-fail data; do
        mkdir -p "$top/crates/$crate/$part/deep/down"
        echo one >"$top/crates/$crate/$part/first"
        echo one >"$top/crates/$crate/$part/deep/down/last"
    done
done
cat >"$top/bin/lib/prove" <<'STUB'
#!/usr/bin/env python3
import importlib.machinery, importlib.util, os, sys
loader = importlib.machinery.SourceFileLoader("real", os.path.join(os.path.dirname(os.path.realpath(__file__)), "real"))
real = importlib.util.module_from_spec(importlib.util.spec_from_loader("real", loader))
loader.exec_module(real)
name, top = sys.argv[1], real.ROOT
with open(f"{top}/proofs", "a") as file:
    file.write(f"{name} read {len(sys.stdin.read())}\n")
out = f"{top}/crates/{name}/out"
os.makedirs(out, exist_ok=True)
with open(f"{out}/{name}.begun", "w") as file:
    file.writelines(f"{it}\n" for it in real.parts_of({name, *real.below(real.crates_of(), name)}))
if os.path.exists(f"{top}/refuse"):
    sys.exit(70)
with open(f"{out}/{name}", "w") as file:
    file.write('#!/usr/bin/env bash\nprintf "in %s\\n" "$PWD"\nprintf "[%s]\\n" "$@"\n[ "${1:-}" != input ] || cat\n[ "${1:-}" != three ] || exit 3\nsleep "${PROBE_SLEEP:-0}"\n')
os.chmod(f"{out}/{name}", 0o755)
os.replace(f"{out}/{name}.begun", f"{out}/{name}.proved")
STUB
chmod +x "$top/bin/lib/prove"

looks=0 wrong=0
look() { # TITLE WANTED FOUND
    looks=$((looks + 1))
    if [ "$2" != "$3" ]; then
        wrong=$((wrong + 1))
        printf '%s\n  wanted %q\n  found  %q\n' "$1" "$2" "$3"
    fi
}
proofs() { cat "$top/proofs" 2>/dev/null || true; rm -f "$top/proofs"; }
run() { # the program's words: sets said, status and proved
    status=0
    said=$(cd "$scratch/from" && "${by:-$top/bin/probe}" "$@" 2>&1; echo "status $?") || true
    status=${said##*status }
    said=${said%status *}
    proved=$(proofs)
}
once='probe read 0'
runs() { # TITLE PROOFS: one run, before which it is proved so often, and which the program's text comes from
    run word
    look "$1: proofs" "$2" "$proved"
    look "$1: text" "in $scratch/from"$'\n'"[word]"$'\n' "$said"
}

runs 'the first run' "$once"
runs 'the second run' ''

# Words, folder, input and status.
words=('a b' '' '*' "'" '"' '\' $'two\nlines' '$HOME' '--budget' 'ü' '')
run "${words[@]}"
look 'words of all kinds' "in $scratch/from"$'\n'"$(printf '[%s]\n' "${words[@]}")"$'\n' "$said"
run
look 'no words' "in $scratch/from"$'\n''[]'$'\n' "$said"
run three
look "the program's status" 3 "$status"
said=$(cd "$scratch/from" && echo given | "$top/bin/probe" input)
look 'input' "in $scratch/from"$'\n''[input]'$'\n'given "$said"
touch "$top/crates/probe/src/first"
said=$(cd "$scratch/from" && echo given | "$top/bin/probe" input)
look 'input, where it is proved before' "in $scratch/from"$'\n''[input]'$'\n'given "$said"
look 'the proof takes none of it' "$once" "$(proofs)"
ln -s "$top/bin/probe" "$scratch/linked"
by=$scratch/linked
runs 'by a link from another folder' ''
by=

# What is said before the program starts, and that it starts nevertheless.
ahead() { # TITLE LINE WORDS..
    local title=$1 line=$2
    shift 2
    run "$@"
    look "$title" "${line:+$line$'\n'}in $scratch/from"$'\n'"$(printf '[%s]\n' "$@")"$'\n' "$said"
}
over='is read, and the plan of X may be written over it; name a new voyage anew'
touch "$scratch/from/X-02.edi" "$scratch/from/ship"
ln -s X-02.edi "$scratch/from/came"
ahead 'an arrival that OUT writes' "stow: X-02.edi $over" plan ship cargo X --arrival X-02.edi
ahead 'the same by a link' "stow: ./came $over" plan --budget 5 ship cargo --arrival=./came X
ahead 'a cargo that OUT writes' "stow: X-02.edi $over" plan ship X-02.edi -- X
ahead 'an arrival that OUT leaves' '' plan ship cargo Y --arrival X-02.edi
ahead 'files that are read alone' '' check ship cargo X --arrival X-02.edi
ahead 'a folder that is missing' 'stow: there is no folder no/, where no/X is to be written' make 3 no/X
ahead 'words of another form' '' plan ship cargo X more
rm "$scratch/from/"*

# The seconds of a search are told on a terminal, and nowhere else.
seconds() { # WHERE OF STANDARD OUTPUT, WORDS..
    (cd "$scratch/from" && PROBE_SLEEP=1.5 script -qec "$top/bin/probe ${*:2} $1" /dev/null </dev/null) | tr -d '\n' | cat -v
}
if command -v script >/dev/null; then
    look 'a search on a terminal' "in $scratch/from^M[plan]^M1s^M" "$(seconds '' plan)"
    look 'a search whose report goes elsewhere' '1s^M^M^[[K' "$(seconds '>/dev/null' plan)"
    look 'a check' "in $scratch/from^M[check]^M" "$(seconds '' check)"
    look 'a search away from a terminal' '' "$(seconds '>/dev/null 2>&1' plan)"
fi

# Each folder counts, at each depth, and crates.txt; files that the program isn't made from don't.
for crate in below probe; do
    for part in src specs proofs; do
        for file in first deep/down/last; do
            echo two >"$top/crates/$crate/$part/$file"
            runs "$crate/$part/$file is changed" "$once"
            runs "$crate/$part/$file was changed" ''
        done
        echo new >"$top/crates/$crate/$part/deep/new"
        runs "$crate/$part has a new file" "$once"
        rm "$top/crates/$crate/$part/deep/new"
        runs "$crate/$part has lost a file" "$once"
        runs "$crate/$part had lost a file" ''
    done
done
echo '# a line' >>"$top/crates.txt"
runs 'crates.txt is changed' "$once"
runs 'crates.txt was changed' ''
for file in crates/probe/must-fail/first crates/probe/data/first crates/beside/src/first crates/beside/proofs/first docs/text; do
    echo two >"$top/$file"
    runs "$file is changed" ''
done
mv "$top/crates/below/specs" "$scratch/specs"
runs 'a folder is gone' "$once"
runs 'a folder was gone' ''
mv "$scratch/specs" "$top/crates/below/specs"
touch "$top/crates/below/src"
runs 'a folder is there again' "$once"
echo three >"$top/crates/below/specs/first"
runs 'it counts again' "$once"

# What is built is looked at too.
rm "$top/crates/probe/out/probe"
runs 'the program is gone' "$once"
chmod -x "$top/crates/probe/out/probe"
runs 'the program is no program' "$once"
rm "$top/crates/probe/out/probe.proved"
runs 'the list is gone' "$once"
runs 'all is there' ''

# Behind a proof that fails nothing runs, now and later, until it is mended.
touch "$top/refuse"
echo four >"$top/crates/below/src/first"
for turn in now later; do
    run word
    look "a failing proof, $turn: proofs" "$once" "$proved"
    look "a failing proof, $turn: text" '' "$said"
    look "a failing proof, $turn: status" 70 "$status"
done
rm "$top/refuse"
runs 'it is mended' "$once"
runs 'it was mended' ''

# A source of the future is never taken as proved.
touch -d '+1 hour' "$top/crates/below/proofs/first"
runs 'a source of the future' "$once"
runs 'a source of the future, again' "$once"
touch "$top/crates/below/proofs/first"
runs 'a source of now' "$once"
runs 'a source of before' ''

# A proved program asks for no kit: it runs where there is another one, and where there is none.
mkdir "$scratch/kit"
printf '#!/bin/sh\necho "another kit"\nexit 1\n' >"$scratch/kit/rt"
chmod +x "$scratch/kit/rt"
PATH=$scratch/kit:$PATH runs 'another kit' ''
PATH=/usr/bin:/bin runs 'no kit' ''

echo "$looks looks, $wrong wrong"
[ "$wrong" = 0 ]
