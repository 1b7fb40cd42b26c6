#!/usr/bin/env bash
# Times `stow plan` of the built program, with its peak memory, on ships of 3,000 places for both lengths, in the hold and
# on deck, with covers, plugs, stack weights and separations:
#   empty:   twelve calls, 2,000 containers, each for the next call;
#   arrived: the ship of `empty` as it left call 1, with the bookings of the eleven calls that are left.
# Aim: each in at most two seconds, of which the loader's rule takes at most one.
set -eu
root=$(cd "$(dirname "$(readlink -f "${BASH_SOURCE[0]}")")/.." && pwd)
"$root/bin/stow" plan >/dev/null || true   # builds the program where sources changed
program=$root/crates/stow_main/out/stow_main
folder=$(mktemp -d)
trap 'rm -rf "$folder"' EXIT
cd "$folder"

python3 - <<'PY'
ROWS, BAYS, CALLS = 20, 5, 12
PORTS = [f"P{chr(65 + n)}AAA" for n in range(CALLS)]

def stack(bay, row, tiers, plugs):
    text = f'\n[[stack]]\nbay = {bay}\nrow = {row}\ntiers = {tiers}\nlengths = "20/40"\nlimit_kg = 200000\n'
    return text + (f"plugs = {plugs}\n" if plugs else "")

profile = 'name = "BENCH"\n'
covers = ""
for bay in (2 + 4 * n for n in range(BAYS)):
    for row in range(ROWS):
        profile += stack(bay, row, [2, 4, 6, 8, 10], [2] if row < 4 else [])
        profile += stack(bay, row, [82, 84, 86, 88, 90], [82] if row < 4 else [])
    for first in range(0, ROWS, 5):
        pairs = [[bay, row] for row in range(first, first + 5)]
        covers += f"\n[[cover]]\nunder = {pairs}\non = {pairs}\n"
separations = "".join(f'\n[[separate]]\na = "3"\nb = "{b}"\nlevel = 1\n' for b in ("5.1", "8"))

def bookings(calls, number):
    text = f'vessel = "BENCH"\nvoyage = "1"\ndate = "2601010000"\nrotation = {PORTS[CALLS - calls:]}\n'.replace("'", '"')
    for call in range(1, calls):
        for n in range(2000 // (CALLS - 1)):
            number += 1
            kind = ("42G1", "22G1", "22G1", "45R1")[n % 4 if n < 60 else n % 3]
            goods = '\nclass = "{}"\nunno = 1263'.format(("3", "8", "5.1")[n % 3]) if n % 30 == 5 else ""
            text += f'\n[[container]]\nid = "BENU{number:07d}"\nfrom = {call}\nto = {call + 1}\ntype = "{kind}"\nkg = {20000 if kind[0] == "4" else 10000}{goods}\n'
    return text

open("ship", "w").write(profile + covers + separations)
open("empty", "w").write(bookings(CALLS, 0))
open("arrived", "w").write(bookings(CALLS - 1, 100000))
PY

measure() { # name, further words
    python3 - "$program" "$@" <<'PY'
import os, subprocess, sys, time
program, name, *further = sys.argv[1:]
runs, peak = [], 0
for _ in range(3):
    begin = time.perf_counter()
    child = subprocess.Popen([program, "plan", "ship", name, name] + further, stdout=subprocess.PIPE, text=True)
    said = child.stdout.read()
    _, status, usage = os.wait4(child.pid, 0)
    runs.append(time.perf_counter() - begin)
    peak = max(peak, usage.ru_maxrss)
print(f"{name}: status {os.waitstatus_to_exitcode(status)}, {' '.join(said.split())}; least {min(runs) * 1000:.0f} ms of 3, peak {peak / 1024:.0f} MB")
PY
}

measure empty
measure arrived --arrival empty-01.edi
