#!/usr/bin/env bash
# Times `stow plan` of the built program, with its peak memory, on
#   feeder: sixteen stacks of six tiers, six calls, 120 containers;
#   large:  3,000 places in stacks of six tiers, six calls, 2,000 containers: 72,000 variables;
#   past:   the same ship over twelve calls, whose 0-1 program is past the limit of variables.
# Aims: the feeder in at most 50 ms, the large ship in at most 2 s and 256 MB.
set -eu
root=$(cd "$(dirname "$(readlink -f "${BASH_SOURCE[0]}")")/.." && pwd)
"$root/bin/stow" plan >/dev/null || true   # builds the program where sources changed
program=$root/crates/stow_main/out/stow_main
folder=$(mktemp -d)
trap 'rm -rf "$folder"' EXIT
cd "$folder"

profile() { # stacks
    echo 'name = "BENCH"'
    local stack
    for ((stack = 0; stack < $1; stack++)); do
        printf '\n[[stack]]\nbay = %d\nrow = %d\ntiers = [2, 4, 6, 8, 10, 12]\nlengths = "40"\nlimit_kg = 600000\n' \
            $((2 + 4 * (stack / 20))) $((stack % 20))
    done
}

bookings() { # ports, then for each lot: from to number
    local ports=$1 letter list='' number=0
    shift
    for ((letter = 0; letter < ports; letter++)); do
        list+="\"P$(printf "\\$(printf '%03o' $((65 + letter)))")AAA\", "
    done
    printf 'vessel = "BENCH"\nvoyage = "1"\ndate = "2601010000"\nrotation = [%s]\n' "${list%, }"
    while [ $# -gt 0 ]; do
        local left
        for ((left = $3; left > 0; left--)); do
            number=$((number + 1))
            printf '\n[[container]]\nid = "BENU%07d"\nfrom = %d\nto = %d\ntype = "42G1"\nkg = 20000\n' $number "$1" "$2"
        done
        shift 3
    done
}

measure() { # name
    python3 - "$program" "$1" <<'PY'
import os, subprocess, sys, time
program, name = sys.argv[1:]
runs, peak = [], 0
for _ in range(5):
    begin = time.perf_counter()
    child = subprocess.Popen([program, "plan", name + ".ship", name + ".cargo", name], stdout=subprocess.PIPE, text=True)
    said = child.stdout.read()
    _, status, usage = os.wait4(child.pid, 0)
    runs.append(time.perf_counter() - begin)
    peak = max(peak, usage.ru_maxrss)
print(f"{name}: status {os.waitstatus_to_exitcode(status)}, {' '.join(said.split())}; least {min(runs) * 1000:.0f} ms of 5, peak {peak / 1024:.0f} MB")
PY
}

profile 16 >feeder.ship
bookings 6 1 6 24 1 4 24 1 2 24 2 3 24 4 5 24 >feeder.cargo
profile 500 >large.ship
bookings 6 1 6 400 1 4 400 1 2 400 2 3 400 4 5 400 >large.cargo
cp large.ship past.ship
lots=()
for ((from = 1; from <= 10; from++)); do
    lots+=("$from" 12 100 "$from" $((from + 1)) 100)
done
bookings 12 "${lots[@]}" >past.cargo
measure feeder
measure large
measure past
