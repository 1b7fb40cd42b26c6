#!/usr/bin/env bash
# Times the reading of long ship profiles by the built program: 40,000 separations, 50,000 stacks and 4,000 pairs of
# bay and row in hatch covers, each beside a half and a quarter of that, so that the growth shows.
# Aim: at most 300 ms each, growing with the text.
set -eu
root=$(cd "$(dirname "$(readlink -f "${BASH_SOURCE[0]}")")/.." && pwd)
program=${STOW_PROGRAM:-$root/crates/stow_main/out/stow_main}
[ -n "${STOW_PROGRAM:-}" ] || "$root/bin/stow" plan >/dev/null || true   # builds the program where sources changed
folder=$(mktemp -d)
trap 'rm -rf "$folder"' EXIT
cd "$folder"
python3 - "$program" <<'PY'
import itertools, os, subprocess, sys, time

def stack(bay, row, lowest):
    return f'[[stack]]\nbay = {bay}\nrow = {row}\ntiers = [{lowest}]\nlengths = "40"\nlimit_kg = 30000\n'

def stacks(count):
    spots = itertools.product(range(2, 999, 4), range(100), (2, 80))
    return list(itertools.islice(spots, count))

def profile_of_separations(count):
    names = [f"{n}.{m}" for n in range(1, 10) for m in range(40)]
    pairs = itertools.islice(itertools.combinations(names, 2), count)
    return stack(2, 0, 2) + "".join(f'[[separate]]\na = "{a}"\nb = "{b}"\nlevel = 1\n' for a, b in pairs)

def profile_of_stacks(count):
    return "".join(stack(*spot) for spot in stacks(count))

def profile_of_covers(count):
    spots = stacks(count)
    covers = "".join(f"[[cover]]\nunder = [[{bay}, {row}]]\non = [[{bay}, {row}]]\n" for bay, row, lowest in spots if lowest == 2)
    return "".join(stack(*spot) for spot in spots) + covers

def least(program):
    runs, users = [], []
    for _ in range(5):
        begin = time.perf_counter()
        child = subprocess.Popen([program, "plan", "ship", "cargo", "plan"], stdout=subprocess.PIPE, text=True)
        said = child.stdout.read()
        _, _, usage = os.wait4(child.pid, 0)
        runs.append(time.perf_counter() - begin)
        users.append(usage.ru_utime)
    return min(runs), min(users), said.strip()

# No bookings: what is timed ends with the profile.
open("cargo", "w").write("=")
for what, text_of, count in [("separations", profile_of_separations, 40000), ("stacks", profile_of_stacks, 50000), ("cover pairs", profile_of_covers, 4000)]:
    for part in [4, 2, 1]:
        with open("ship", "w") as file:
            file.write('name = "BENCH"\n' + text_of(count // part))
        spent, user, said = least(sys.argv[1])
        print(f"{count // part} {what}: least {1000 * spent:.0f} ms of 5, {1000 * user:.0f} ms of user time ({said})")
PY
