#!/usr/bin/env python3
"""Measures what each crate costs at the gate, in processor minutes: its proof, the proof of its tests, its must-fail edits, and the
check of the crate as it stands that the edits are tried over ("proof again": the gate makes it anew, and `rt must-fail` in a folder
where the crate was checked before takes that check over).

    bench/gate.py [--at-once N] [--into FILE] [NAME..]
    bench/gate.py --watch [--into FILE] [NAME..]

NAME is a crate as crates.txt has it; with none, all crates are measured. Every figure is user and system time of the prover's processes
in a run of `rt` with one job and from nothing, as the gate proves, looked at twice a second: `rt check`, `rt check --test`, `rt must-fail` (with `--anew`, which kits
that keep nothing pass over). All is done on copies in a temporary folder, so no out/ of the checkout is read or changed; the
libraries below a crate are built first, and aren't counted. The table is sorted by the whole cost of a crate; below it stand the
sums and the chain of crates whose proofs, one after the other, take longest.

--watch       runs the gate itself, `rt ci` (with names, `rt ci NAME..`), and takes the figures from its processes as it goes, looking
              twice a second: nothing is proved twice for the measure. What an earlier run on this machine kept isn't measured
              again, and keeps its figure in FILE
--at-once N   measures N crates side by side (1 where it is missing): processor time hardly changes by it
--into FILE   writes the table between the two lines '<!-- gate table .. -->' of FILE; crates that aren't named keep their rows
"""
import concurrent.futures
import os
import re
import shutil
import subprocess
import sys
import tempfile
import time

ROOT = os.path.dirname(os.path.dirname(os.path.realpath(__file__)))
BUDGET = {"proof": 5.0, "tests": 3.0, "again": 5.0, "edits": 5.0}
WHOLE, CHAIN = 300.0, 40.0
BEGIN, END = "<!-- gate table: begin -->", "<!-- gate table: end -->"
HEAD = ["crate", "proof", "tests", "proof again", "edits", "sum", "edits tried"]


def crates_of(root):
    """Returns each crate's libraries in this repository, by name, lowest crates first."""
    said = {}
    with open(f"{root}/crates.txt", encoding="utf-8") as file:
        for line in file:
            line = line.partition("#")[0].strip()
            if line:
                head, _, rest = line.partition(":")
                said[head.split()[0]] = rest.split()
    deps, done = {name: [it for it in said[name] if it in said] for name in said}, {}

    def visit(name):
        if name not in done:
            for it in deps[name]:
                visit(it)
            done[name] = deps[name]

    for name in sorted(deps):
        visit(name)
    return done


def below(deps, name):
    """Returns the crates that this one stands on, lowest first."""
    found = {it for dep in deps[name] for it in [*below(deps, dep), dep]}
    return [it for it in deps if it in found]


def copied(source, to):
    """Copies a crate, with the library that was built of it, if there is one."""
    os.makedirs(to)
    for part in ("src", "specs", "proofs", "must-fail"):
        if os.path.isdir(f"{source}/{part}"):
            shutil.copytree(f"{source}/{part}", f"{to}/{part}")
    if os.path.isdir(f"{source}/out/rlib"):
        shutil.copytree(f"{source}/out/rlib", f"{to}/out/rlib", copy_function=os.link)


def begin(folder):
    """Makes the top of a repository in a new folder."""
    os.makedirs(f"{folder}/crates")
    for name in ("crates.txt", "HANDLES"):
        shutil.copy(f"{ROOT}/{name}", folder)
    subprocess.run(["git", "init", "-q", folder], check=True)


def keep_to(folder, names):
    """Has the copy's crates.txt list these crates alone."""
    with open(f"{folder}/crates.txt", encoding="utf-8") as file:
        lines = [it for it in file if it.partition("#")[0].partition(":")[0].split()[:1] in [[name] for name in names]]
    with open(f"{folder}/crates.txt", "w", encoding="utf-8") as file:
        file.writelines(lines)


def run(words, folder, log):
    """Runs a command to its end, and returns its status and, by part, the processor minutes of the prover's processes that it started."""
    used = {}
    with open(log, "ab") as out:
        child = subprocess.Popen(words, cwd=folder, stdin=subprocess.DEVNULL, stdout=out, stderr=subprocess.STDOUT)
        while child.poll() is None:
            look(child.pid, used)
            time.sleep(0.5)
    minutes = {}
    for (_, _, part), it in used.items():
        minutes[part] = minutes.get(part, 0.0) + it
    return child.returncode, minutes


def from_nothing(folder):
    """Leaves a crate no earlier work: rt would take what checks elsewhere on this machine kept where a crate's text is the same and its
    own folder of kept work is missing, so the folder is there and empty, and the text ends in a line of its own."""
    shutil.rmtree(f"{folder}/out", ignore_errors=True)
    os.makedirs(f"{folder}/out/incremental")
    with open(next(it for it in (f"{folder}/src/lib.rt", f"{folder}/src/main.rt") if os.path.isfile(it)), "a", encoding="utf-8") as file:
        file.write(f"// measured {os.urandom(16).hex()}\n")


def has_tests(folder):
    return any("#[test]" in open(f"{at}/{it}", encoding="utf-8").read() for at, _, names in os.walk(f"{folder}/src") for it in names)


def measure(base, name, deps):
    """Returns the costs of one crate by part, in a copy of it over the libraries that stand in the base."""
    top = tempfile.mkdtemp(prefix=f"{name}-", dir=os.path.dirname(base))
    root = f"{top}/root"
    begin(root)
    for it in [*below(deps, name), name]:
        copied(f"{base}/crates/{it}", f"{root}/crates/{it}")
    keep_to(root, [*below(deps, name), name])
    folder, log, cost = f"{root}/crates/{name}", f"{top}/log", {}
    edits = len(os.listdir(f"{folder}/must-fail")) if os.path.isdir(f"{folder}/must-fail") else 0
    runs = [(["rt", "check", "--jobs", "1"], folder)]
    runs += [(["rt", "check", "--test", "--jobs", "1"], folder)] * has_tests(folder)
    runs += [(["rt", "must-fail", name, "--anew"], root)] * (edits > 0)
    for words, at in runs:
        from_nothing(folder)
        status, minutes = run(words, at, log)
        if status:
            with open(log, encoding="utf-8", errors="replace") as file:
                print(f"gate: {' '.join(words)} in {name} ended with {status}; its last lines:", *file.read().splitlines()[-12:], sep="\n", file=sys.stderr)
            minutes = dict.fromkeys(minutes, float("nan"))
        cost.update(minutes)
        print(f"gate: {name}:", *[f"{part} {it:.2f}" for part, it in minutes.items()], "minutes", file=sys.stderr, flush=True)
    row = {"edits tried": edits, **{it: cost.get(it, 0.0) for it in BUDGET}}
    shutil.rmtree(top)
    return row


def of_process(pid):
    """Returns the crate and the part that a process of the prover works on, and its processor minutes so far; None of any other process."""
    try:
        with open(f"/proc/{pid}/cmdline", "rb") as file:
            words = file.read().decode(errors="replace").split("\0")
        if not words[0].endswith("/rattle") or "--crate-name" not in words or words[1] not in ("check", "build"):
            return None
        with open(f"/proc/{pid}/stat", encoding="utf-8") as file:
            numbers = file.read().rpartition(")")[2].split()
        over = words[words.index("--incremental") + 1] if "--incremental" in words else ""
        edit = "/rt-edit-" in os.readlink(f"/proc/{pid}/cwd")
        part = ("again" if over.endswith("/seed") else "edits") if edit else "tests" if "--test" in words else "proof"
    except OSError:
        return None
    return words[words.index("--crate-name") + 1], part, (int(numbers[11]) + int(numbers[12])) / os.sysconf("SC_CLK_TCK") / 60


def descendants(root):
    """Returns the processes that a process started, and those that they started."""
    parents = {}
    for pid in filter(str.isdigit, os.listdir("/proc")):
        try:
            with open(f"/proc/{pid}/stat", encoding="utf-8") as file:
                parents.setdefault(int(file.read().rpartition(")")[2].split()[1]), []).append(int(pid))
        except OSError:
            pass
    found = list(parents.get(root, []))
    for pid in found:
        found += parents.get(pid, [])
    return found


def look(root, used):
    """Notes what the prover's processes below a process have taken so far, by process, crate and part."""
    for pid in descendants(root):
        if at := of_process(pid):
            used[pid, at[0], at[1]] = at[2]


def watch(names, deps):
    """Runs the gate, and returns the costs of each crate on which it worked."""
    used, begun = {}, time.monotonic()
    gate = subprocess.Popen(["rt", "ci", *names], cwd=ROOT, stdin=subprocess.DEVNULL)
    while gate.poll() is None:
        look(gate.pid, used)
        time.sleep(0.5)
    print(f"gate: rt ci ended with {gate.returncode} after {(time.monotonic() - begun) / 60:.0f} minutes", file=sys.stderr)
    rows = {}
    for (_, name, part), minutes in used.items():
        if name not in deps:
            continue
        folder = f"{ROOT}/crates/{name}"
        edits = len(os.listdir(f"{folder}/must-fail")) if os.path.isdir(f"{folder}/must-fail") else 0
        row = rows.setdefault(name, {"edits tried": edits})
        row[part] = row.get(part, 0.0) + minutes
    return rows


def chain_of(deps, rows):
    """Returns the chain of crates whose proofs take longest one after the other, and their minutes."""
    best = {}
    for name in deps:
        minutes, before = max((best[it] for it in deps[name]), default=(0.0, []))
        best[name] = (minutes + rows[name]["proof"], [*before, name]) if name in rows else (minutes, before)
    return max(best.values())


def table(deps, rows):
    """Returns the lines of the table, its sums and its longest chain."""
    marked = lambda row, part: f"{row[part]:.1f}{' (over)' if row[part] > BUDGET[part] else ''}"
    whole = lambda row: sum(row[it] for it in BUDGET)
    lines = ["|".join(HEAD), "---" + "|---:" * (len(HEAD) - 1)]
    for name, row in sorted(rows.items(), key=lambda it: -whole(it[1])):
        lines.append(f"`{name}`|{'|'.join(marked(row, it) for it in BUDGET)}|{whole(row):.1f}|{row['edits tried']}")
    sums = {it: sum(row[it] for row in rows.values()) for it in [*BUDGET, "edits tried"]}
    total = sum(sums[it] for it in BUDGET)
    lines.append(f"{len(rows)} crates|{'|'.join(f'{sums[it]:.1f}' for it in BUDGET)}|{total:.1f}|{sums['edits tried']}")
    minutes, chain = chain_of(deps, rows)
    lines += ["", f"Sum: {total:.0f} processor minutes (budget {WHOLE:.0f}). Longest chain: {minutes:.1f} (budget {CHAIN:.0f}), {len(chain)} crates: {', '.join(chain)}."]
    return lines


def rows_in(text):
    """Returns the rows of a table that was written before."""
    found = {}
    for line in text.splitlines():
        cells = [it.strip().removesuffix(" (over)") for it in line.strip("|").split("|")]
        if len(cells) == len(HEAD) and re.fullmatch(r"`\w+`", cells[0]):
            found[cells[0].strip("`")] = {"edits tried": int(cells[6]), **{it: float(cells[at]) for at, it in enumerate(BUDGET, 1)}}
    return found


def measured(names, deps, at_once):
    """Measures crates by runs of their own, and returns their rows."""
    with tempfile.TemporaryDirectory(prefix="gate-") as room:
        base = f"{room}/base"
        begin(base)
        wanted = {it for name in names for it in below(deps, name)}
        for it in deps:
            if it in wanted or it in names:
                copied(f"{ROOT}/crates/{it}", f"{base}/crates/{it}")
                shutil.rmtree(f"{base}/crates/{it}/out", ignore_errors=True)
        keep_to(base, {*wanted, *names})
        for number, it in enumerate([it for it in deps if it in wanted], 1):
            print(f"gate: building {it}, {number} of {len(wanted)} libraries", file=sys.stderr, flush=True)
            status, _ = run(["rt", "lib"], f"{base}/crates/{it}", f"{room}/log")
            if status:
                sys.exit(open(f"{room}/log", encoding="utf-8", errors="replace").read())
        with concurrent.futures.ThreadPoolExecutor(at_once) as pool:
            return dict(zip(names, pool.map(lambda name: measure(base, name, deps), names)))


def main():
    words, at_once, into = sys.argv[1:], 1, None
    watched = words[:1] == ["--watch"]
    words = words[watched:]
    while words and words[0].startswith("--"):
        if words[0] not in ("--at-once", "--into") or len(words) < 2:
            sys.exit(__doc__)
        at_once, into = (int(words[1]), into) if words[0] == "--at-once" else (at_once, os.path.abspath(words[1]))
        words = words[2:]
    deps = crates_of(ROOT)
    lacking = [it for it in words if it not in deps]
    if lacking:
        sys.exit(f"gate: crates.txt has no {lacking[0]}")
    rows = watch(words, deps) if watched else measured(words or [*deps], deps, at_once)
    before, old, after = "", "", ""
    if into:
        with open(into, encoding="utf-8") as file:
            before, _, rest = file.read().partition(BEGIN)
        old, _, after = rest.partition(END)
    said = rows_in(old)
    rows = {name: {**dict.fromkeys(BUDGET, 0.0), **said.get(name, {}), **rows.get(name, {})} for name in deps if name in said or name in rows}
    if not into:
        return print(*table(deps, rows), sep="\n")
    with open(into, "w", encoding="utf-8") as file:
        file.write(f"{before}{BEGIN}\n{chr(10).join(table(deps, rows))}\n{END}{after}")


if __name__ == "__main__":
    main()
