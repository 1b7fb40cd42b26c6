#!/usr/bin/env bash
# Times `stow check` of the built program on eleven departure files of 2,000 containers each (12 calls, one lot from the first to the
# last), beside `stow show` of each of these files, which reads them and lists them.
# Aim: the check in at most 0.5 s, beside what building the 0-1 program takes, which `stow plan` of the same inputs without its files
# takes too; and linear in the files' bytes.
set -eu
root=$(cd "$(dirname "$(readlink -f "${BASH_SOURCE[0]}")")/.." && pwd)
"$root/bin/stow" check >/dev/null || true   # builds the program where sources changed
program=$root/crates/stow_main/out/stow_main
folder=$(mktemp -d)
trap 'rm -rf "$folder"' EXIT
cd "$folder"
python3 - "$program" <<'PY'
import subprocess, sys, time

program = sys.argv[1]


def lay(calls, containers):
    with open("ship.toml", "w") as file:
        file.write('name = "BENCH"\n')
        for stack in range((containers + 5) // 6):
            file.write(f'[[stack]]\nbay = {2 + 4 * (stack // 20)}\nrow = {stack % 20}\ntiers = [2, 4, 6, 8, 10, 12]\nlengths = "40"\nlimit_kg = 600000\n')
    with open("cargo.toml", "w") as file:
        ports = ", ".join(f'"P{chr(65 + call)}AAA"' for call in range(calls))
        file.write(f'vessel = "BENCH"\nvoyage = "1"\ndate = "2601010000"\nrotation = [{ports}]\n')
        for number in range(containers):
            file.write(f'[[container]]\nid = "BENU{number:07}"\nfrom = 1\nto = {calls}\ntype = "42G1"\nkg = 20000\n')


def timed(words):
    best, shown = None, None
    for _ in range(3):
        start = time.time()
        done = subprocess.run([program] + words, stdout=subprocess.PIPE)
        took = time.time() - start
        best = took if best is None else min(best, took)
        shown = (done.returncode, done.stdout.decode().splitlines()[:1])
    return best, shown


for calls, containers in ((12, 500), (12, 1000), (12, 2000)):
    lay(calls, containers)
    took, shown = timed(["plan", "ship.toml", "cargo.toml", "X"])
    print(f"{calls} calls, {containers} containers: plan {took:.3f} s, {shown}")
    took, shown = timed(["check", "ship.toml", "cargo.toml", "X"])
    print(f"    check {took:.3f} s, {shown}")
    reading = sum(timed(["show", f"X-{call:02}.edi"])[0] for call in range(1, calls))
    print(f"    show of the {calls - 1} files {reading:.3f} s")
PY
