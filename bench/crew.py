#!/usr/bin/env python3
"""Plans ships again and again with several workers, and has each plan audited.

    bench/crew.py PROGRAM INSTANCES JUDGE [--runs N] [--workers N] [--budget N] [--ships NAME,..]

PROGRAM is the built stow, INSTANCES a folder with `instances.py`, which makes the ships. JUDGE is a command (one word, split at
spaces) that is run with the ship, the bookings, the name of the files and `--budget N` in the folder of the files, and ends with 0
where all is as it should be. The runs go round the ships. Each has to end with a status of a plan and no other output; `check` has to
say yes to what was written, with the same numbers; and where the outcome is `optimal` or `no-plan`, the numbers are the same in all
runs of a ship. It prints how often each outcome came, and the longest run.

--runs N        the number of runs (200 where it is missing)
--workers N     the workers of each (4)
--budget N      the nodes of each search (300)
--ships NAME,.. the ships, each GROUP-NUMBER (small-0,three-by-four-1,few-columns-0,covered-0,mixed-0)
"""
import argparse
import collections
import os
import subprocess
import tempfile
import time

WORDS = {0: "optimal", 3: "gap", 4: "no-plan", 5: "undecided"}


def printed(words, folder):
    """Runs a command; its status and its output."""
    ran = subprocess.run(words, cwd=folder, stdout=subprocess.PIPE, stderr=subprocess.STDOUT, text=True, check=False, timeout=600)
    return ran.returncode, ran.stdout


def planned(args, folder, ship):
    """Plans a ship once, and looks at all that was written; the outcome and the numbers."""
    files = [f"{ship}.ship.toml", f"{ship}.cargo.toml", "X"]
    for name in os.listdir(folder):
        if name.startswith("X"):
            os.remove(f"{folder}/{name}")
    status, report = printed([args.program, "plan", *files, "--budget", str(args.budget), "--workers", str(args.workers)], folder)
    lines = report.splitlines()
    if status not in WORDS or len(lines) != 4 or lines[0] != f"outcome {WORDS[status]}":
        raise SystemExit(f"{ship}: status {status}: {report}")
    status, checked = printed([args.program, "check", *files], folder)
    if status != 0 or checked.splitlines() != ["check yes", *lines[1:3]]:
        raise SystemExit(f"{ship}: planned {lines}, and the check ends with {status}: {checked}")
    status, found = printed([*args.judge.split(), *files, "--budget", str(args.budget)], folder)
    if status != 0:
        raise SystemExit(f"{ship}: planned {lines}, and the judge ends with {status}: {found}")
    return lines[0].split(" ")[1], lines[1:3]


def main():
    asked = argparse.ArgumentParser(usage=__doc__, add_help=False)
    asked.add_argument("program", type=os.path.realpath)
    asked.add_argument("instances", type=os.path.realpath)
    asked.add_argument("judge")
    asked.add_argument("--runs", type=int, default=200)
    asked.add_argument("--workers", type=int, default=4)
    asked.add_argument("--budget", type=int, default=300)
    asked.add_argument("--ships", default="small-0,three-by-four-1,few-columns-0,covered-0,mixed-0")
    args = asked.parse_args()
    ships = args.ships.split(",")
    outcomes, numbers, longest = collections.Counter(), {}, 0.0
    with tempfile.TemporaryDirectory() as folder:
        for ship in ships:
            group, number = ship.rsplit("-", 1)
            subprocess.run(["python3", f"{args.instances}/instances.py", group, number, "1", folder], check=True)
        for turn in range(args.runs):
            ship = ships[turn % len(ships)]
            begun = time.perf_counter()
            outcome, found = planned(args, folder, ship)
            longest = max(longest, time.perf_counter() - begun)
            outcomes[ship, outcome] += 1
            if outcome in ("optimal", "no-plan") and numbers.setdefault(ship, found) != found:
                raise SystemExit(f"{ship}: {numbers[ship]} in one run and {found} in another")
    for (ship, outcome), count in sorted(outcomes.items()):
        print(f"{ship}: {outcome} {count} times, {' '.join(numbers.get(ship, []))}")
    print(f"{args.runs} runs, the longest with its checks {longest:.1f} s")


main()
