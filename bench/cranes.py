#!/usr/bin/env python3
"""Measures how near the work lists of `stow cranes` come to the least number of rounds, and how long they take.

    bench/cranes.py INSTANCES [--voyages N] [--at-once N]

INSTANCES is a folder with `instances.py`, as for bench/search.py. N voyages (200 where it is missing), as many of each group, are
planned with a budget of one node, and then ships of 2,000 containers, some with hatch covers; for each call, and for 2, 3 and 4
cranes, a list is made. Printed are the lists, the rounds over the least (mean and worst, and how many pass 1.5), and of the large
ships the slowest list, without the time that `stow check` of the same files takes.
"""
import argparse
import concurrent.futures
import os
import pathlib
import subprocess
import tempfile
import time

ROOT = os.path.dirname(os.path.dirname(os.path.realpath(__file__)))
PROGRAM = os.environ.get("STOW", f"{ROOT}/crates/stow_main/out/stow_main")
ROWS, BAYS = 20, 5


def said(folder, *words):
    done = subprocess.run([PROGRAM, *map(str, words)], cwd=folder, stdout=subprocess.PIPE, text=True)
    return done.returncode, done.stdout


def lists_of(folder, profile, bookings, out):
    """For each call before the last, and each number of cranes, the list's four numbers; none where no plan was found."""
    status, _ = said(folder, "plan", profile, bookings, out, "--budget", 1)
    if status not in (0, 3):
        return []
    found = []
    calls = len(list(pathlib.Path(folder).glob(f"{out}-*.edi")))
    for call in range(1, calls + 1):
        for cranes in (2, 3, 4):
            status, text = said(folder, "cranes", profile, bookings, out, call, cranes)
            assert status == 0, (out, call, cranes, status, text[:100])
            found.append([int(line.split()[1]) for line in text.splitlines()[:4]])
    return found


def stacks(covers):
    text = 'name = "BENCH"\n'
    for bay in (2 + 4 * n for n in range(BAYS)):
        for row in range(ROWS):
            for tiers in ([2, 4, 6, 8, 10], [82, 84, 86, 88, 90]):
                text += f'[[stack]]\nbay = {bay}\nrow = {row}\ntiers = {tiers}\nlengths = "20/40"\nlimit_kg = 1000000\n'
        for first in range(0, ROWS, 5) if covers else ():
            pairs = [[bay, row] for row in range(first, first + 5)]
            text += f"[[cover]]\nunder = {pairs}\non = {pairs}\n"
    return text


def booked(of_number, ports):
    text = f'vessel = "BENCH"\nvoyage = "1"\ndate = "2601010000"\nrotation = {ports}\n'.replace("'", '"')
    for number in range(2000):
        load, to = of_number(number)
        kind = "22G1" if number % 3 else "42G1"
        text += f'[[container]]\nid = "BENU{number:07}"\nfrom = {load}\nto = {to}\ntype = "{kind}"\nkg = 10000\n'
    return text


def large(folder):
    """Ships of 2,000 containers: all loaded at once, and half of them at each of two calls."""
    ports = ["PAAAA", "PBAAA", "PCAAA"]
    cargoes = {"once": booked(lambda n: (1, 3), ports), "twice": booked(lambda n: (1, 2) if n % 2 else (2, 3), ports)}
    for covers in (False, True):
        for name, cargo in cargoes.items():
            ship = f"large-{name}{'-covers' if covers else ''}"
            pathlib.Path(folder, f"{ship}.ship.toml").write_text(stacks(covers))
            pathlib.Path(folder, f"{ship}.cargo.toml").write_text(cargo)
            yield ship


def slowest(folder, ship):
    """How much longer the slowest list takes than a check of the files, in seconds."""
    words = (f"{ship}.ship.toml", f"{ship}.cargo.toml", ship)
    took = []
    for command in [("check",)] + [("cranes", call, cranes) for call in (1, 2) for cranes in (2, 3, 4)]:
        begun = time.perf_counter()
        said(folder, command[0], *words, *command[1:])
        took.append(time.perf_counter() - begun)
    return max(took[1:]), took[0]


def told(title, lists):
    moved = [it for it in lists if it[1] and it[3]]
    ratios = [it[2] / it[3] for it in moved]
    over = sum(it > 1.5 for it in ratios)
    print(f"{title}: {len(moved)} lists, {max(it[1] for it in moved)} moves at most, rounds over the least {sum(ratios) / len(ratios):.3f} in the mean, {max(ratios):.2f} at worst, {over} above 1.5", flush=True)


def main():
    words = argparse.ArgumentParser()
    words.add_argument("instances")
    words.add_argument("--voyages", type=int, default=200)
    words.add_argument("--at-once", type=int, default=1)
    args = words.parse_args()
    maker = f"{args.instances}/instances.py"
    groups = subprocess.run(["python3", maker, "list"], check=True, stdout=subprocess.PIPE, text=True).stdout.split()
    each = -(-args.voyages // len(groups))
    with tempfile.TemporaryDirectory() as folder, concurrent.futures.ThreadPoolExecutor(args.at_once) as pool:
        everything, voyages = [], 0
        for group in groups:
            subprocess.run(["python3", maker, group, "0", str(each), folder], check=True)
            ships = [f"{group}-{number}" for number in range(each)]
            found = list(pool.map(lambda it: lists_of(folder, f"{it}.ship.toml", f"{it}.cargo.toml", it), ships))
            voyages += sum(bool(it) for it in found)
            everything += sum(found, [])
            if any(found):
                told(group, sum(found, []))
        told(f"all {voyages} voyages", everything)
        for ship in list(large(folder)):
            found = lists_of(folder, f"{ship}.ship.toml", f"{ship}.cargo.toml", ship)
            if not found:
                print(f"{ship}: no plan was found")
                continue
            told(ship, found)
            worst, check = slowest(folder, ship)
            print(f"  slowest list {worst:.2f} s, a check of the same files {check:.2f} s")


main()
