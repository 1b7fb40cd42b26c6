#!/usr/bin/env python3
"""Times single calls through the probe: two runs that differ only in how often the call is repeated.

calls.py PROBE    where PROBE is the built voyage_probe

Aims: a departure of 3,000 places with 100 separations is judged in 5 ms; the lifts of twelve calls with 3,000 places and 2,000
containers take 50 ms; the loader takes a second at the limits, with a ship that comes in loaded; 2,000 cell groups are settled in 20 ms.
"""
import pathlib
import random
import subprocess
import sys
import tempfile
import time

ROWS, BAYS, CALLS = 20, 5, 12
PORTS = [f"P{chr(65 + call)}AAA" for call in range(CALLS)]
CLASSES = [f"{n // 9 + 1}.{n % 9 + 1}" for n in range(15)]


def profile(separations, covers):
    text = 'name = "BENCH"\n'
    for bay in (2 + 4 * n for n in range(BAYS)):
        for row in range(ROWS):
            for tiers in ([2, 4, 6, 8, 10], [82, 84, 86, 88, 90]):
                text += f'[[stack]]\nbay = {bay}\nrow = {row}\ntiers = {tiers}\nlengths = "20/40"\nlimit_kg = 1000000\nplugs = [{tiers[0]}]\n'
    for bay in (2 + 4 * n for n in range(BAYS) if covers):
        for first in range(0, ROWS, 5):
            pairs = [[bay, row] for row in range(first, first + 5)]
            text += f"[[cover]]\nunder = {pairs}\non = {pairs}\n"
    pairs = [(a, b) for n, a in enumerate(CLASSES) for b in CLASSES[n + 1:]]
    for a, b in pairs[:separations]:
        text += f'[[separate]]\na = "{a}"\nb = "{b}"\nlevel = 1\n'
    return text


def bookings(containers, calls, kinds=("42G1", "22G1", "22G1")):
    text = 'vessel = "BENCH"\nvoyage = "1"\ndate = "2601010000"\n' + f"rotation = {PORTS}\n".replace("'", '"')
    r = random.Random(1)
    for number in range(containers):
        load, dest = calls(number)
        kind = kinds[number % len(kinds)]
        text += f'[[container]]\nid = "BENU{number:07}"\nfrom = {load}\nto = {dest}\ntype = "{kind}"\nkg = {r.randint(2000, 25000)}\n'
        if number % 10 == 7:
            text += f'class = "{r.choice(CLASSES)}"\n'
    return text


def bay_plan(groups):
    body, number = "UNH+1+BAPLIE:D:95B:UN:SMDG22'", 0
    for tier in (2, 4, 6, 8, 10, 82, 84, 86, 88, 90):
        for bay in (2 + 4 * n for n in range(BAYS)):
            for row in range(ROWS):
                for cell in (bay - 1, bay + 1):
                    if number < groups:
                        body += f"LOC+147+{cell:03}{row:02}{tier:02}'MEA+WT++KGM:10000'LOC+11+{PORTS[number % CALLS]}'EQD+CN+ARVU{number:07}+22G1'"
                        number += 1
    return f"UNB+UNOA:2+L+S+260131:0900+7'{body}UNT+{body.count(chr(39)) + 1}+1'UNZ+1+7'"


def timed(probe, folder, files, question, times):
    text = "".join(f"< {name}\n{body.rstrip()}\n>\n" for name, body in files.items())
    (folder / "questions").write_text(f"{text}voyage {' '.join(files)}\ntimes {times}\n{question}\n")
    best = None
    for _ in range(3):
        start = time.perf_counter()
        said = subprocess.run([probe, "questions"], cwd=folder, stdout=subprocess.PIPE, check=True).stdout.decode()
        took = time.perf_counter() - start
        best = took if best is None else min(best, took)
    return best, said


def measure(probe, title, files, question, times, each, most):
    with tempfile.TemporaryDirectory() as top:
        folder = pathlib.Path(top)
        once, said = timed(probe, folder, files, question, 1)
        often, again = timed(probe, folder, files, question, 1 + times)
    assert said == again
    lines = said.splitlines()
    assert "no plan" not in lines and not any("refused" in line or "no departures" in line for line in lines), lines[:3]
    took = (often - once) / times / each
    print(f"{title}: {took * 1000:.2f} ms (aim {most} ms); {len(lines)} lines, the last {lines[-1][:60]!r}")


def main():
    probe = str(pathlib.Path(sys.argv[1]).resolve())
    r = random.Random(2)

    def some(_):
        load = r.randint(1, CALLS - 1)
        return load, r.randint(load + 1, CALLS)

    whole = {"ship": profile(100, False), "cargo": bookings(1800, lambda _: (1, CALLS), ["22G1"])}
    measure(probe, "judging a departure of 1,800 containers in 3,000 places with 100 separations", whole, "rules", 30, CALLS - 1, 5)
    mixed = {"ship": profile(0, False), "cargo": bookings(2000, some)}
    measure(probe, "lifts of twelve calls, each container from any call to any later one", mixed, "lifts", 20, 1, 50)
    next_call = {"ship": profile(100, True), "cargo": bookings(2000, lambda n: (n % 11 + 1, n % 11 + 2))}
    measure(probe, "lifts of twelve calls, each container for the next one, with covers", next_call, "lifts", 20, 1, 50)
    measure(probe, "the loader, each container for the next call, with covers", next_call, "load", 10, 1, 1000)
    measure(probe, "the loader, each container from any call to any later one", mixed, "load", 10, 1, 1000)
    measure(probe, "the loader, 1,800 from the first call to the last", whole, "load", 10, 1, 1000)
    half = {"ship": profile(100, False), "cargo": bookings(1000, some), "arrival": bay_plan(1000)}
    measure(probe, "the loader, 1,000 come in and 1,000 are booked", half, "load", 10, 1, 1000)
    came = {"ship": profile(0, False), "cargo": bookings(0, some), "arrival": bay_plan(2000)}
    measure(probe, "settling 2,000 groups", came, "cargo", 50, 1, 20)


main()
