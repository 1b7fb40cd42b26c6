#!/usr/bin/env python3
"""Runs parts of the search by themselves: measures them on made ships, and compares what they answer with another model.

usage: bench/parts.py measure INSTANCES [--numbers FIRST COUNT] [--groups NAME,..] [--into FILE]
       bench/parts.py compare INSTANCES JUDGE [--numbers FIRST COUNT] [--groups NAME,..] [--times N]

INSTANCES is a folder with `instances.py`, as for bench/search.py. The program is crates/search_parts, built (`rt run` in its folder).

`measure` runs each part a few times and many times on each ship; what a time costs is the difference, in a processor's seconds, so that neither
reading nor building tables is in it. Parts: `plain` and `kept` tighten the free box by rows that are looked up or kept; `dive` fixes what a
planned voyage has at 1, one variable after the other, and tightens the box after each; `gauge` is the same with the dual value kept for each
box, and `prices` raises multipliers at each node besides, at most 64; `root` raises from none in the tightened free box; `nodes` goes down
by the value 1 from the root with one state; `again` begins the last node of such a way and the root in turn.

JUDGE is a command (one word, split at spaces) that is run with `variables` or `rows`, a profile and bookings, and prints of a program of its
own making what `program_probe` prints; or with `value` or `along`, the same files and records in the form of a certificate, and prints what
`search_parts` prints. The records are made by chance, the same at each run: variables that are fixed, and multipliers, many of them near 2^40
or past it. Where a row is violated, the first one that is found may be another.

--numbers FIRST COUNT   the ships of each group (0 10 where it is missing)
--groups NAME,..        these groups alone (made where it is missing)
--times N               lists of records of each ship (4 where it is missing)
--into FILE             writes the table between the two lines '<!-- parts table .. -->' of FILE
"""
import argparse
import os
import random
import subprocess
import sys
import tempfile

ROOT = os.path.dirname(os.path.dirname(os.path.realpath(__file__)))
PROGRAM = f"{ROOT}/crates/search_parts/out/search_parts"
BEGIN, END = "<!-- parts table: begin -->", "<!-- parts table: end -->"
HEAD = [
    "group", "ships", "tighten, ms", "by kept rows, ms", "dives, nodes a second", "gauge, steps a second", "raised dives, nodes a second",
    "raises of a dive", "raises and steps a second", "root, ms", "sum of root values", "one state, nodes a second", "node begun again, ms", "records above it",
]


def text_of(command, folder, words):
    ran = subprocess.run([*command, *words], cwd=folder, stdout=subprocess.PIPE, text=True, check=False)
    if ran.returncode != 0:
        raise SystemExit(f"{' '.join([*command, *words])}: status {ran.returncode}: {ran.stdout}")
    return ran.stdout


def run(folder, ship, part, number):
    """One part; answers the words of its lines by name, and the processor's seconds."""
    words = [PROGRAM, part, f"{ship}.ship.toml", f"{ship}.cargo.toml", "-", str(number)]
    with subprocess.Popen(words, cwd=folder, stdout=subprocess.PIPE, text=True) as child:
        text = child.stdout.read()
        _, status, used = os.wait4(child.pid, 0)
        child.returncode = os.waitstatus_to_exitcode(status)
    if child.returncode != 0:
        raise SystemExit(f"{ship} {part}: status {child.returncode}: {text}")
    return dict(line.rsplit(" ", 1) for line in text.splitlines() if " " in line), used.ru_utime


def difference(folder, ships, part, few, many):
    """What is counted between a few and many times, of all ships, and the seconds of it."""
    counts, seconds = {}, 0
    for ship in ships:
        (said, took), (more, longer) = run(folder, ship, part, few), run(folder, ship, part, many)
        seconds += max(longer - took, 0)
        for name, number in more.items():
            if name != "no":
                counts[name] = counts.get(name, 0) + int(number) - int(said[name])
    return counts, seconds


def once(folder, ships, part, few, many):
    """The milliseconds of one time of a part, in the mean."""
    _, seconds = difference(folder, ships, part, few, many)
    return f"{1000 * seconds / (many - few) / len(ships):.2f}"


def rate(count, seconds):
    return f"{count / seconds:.0f}" if count and seconds > 0 else ""


def makes(instances, group, numbers, folder):
    first, count = numbers
    subprocess.run(["python3", f"{instances}/instances.py", group, str(first), str(count), folder], check=True)
    return [f"{group}-{number}" for number in range(first, first + count)]


def accepted(instances, group, numbers, folder):
    """The ships of a group that have a voyage whose program is within the limits."""
    ships = makes(instances, group, numbers, folder)
    said = [text_of([PROGRAM], folder, ["kept", f"{ship}.ship.toml", f"{ship}.cargo.toml", "-", "1"]) for ship in ships]
    return [ship for ship, text in zip(ships, said) if "no voyage" not in text and "too large" not in text]


def measured(args, group, folder):
    """The row of one group."""
    ships = accepted(args.instances, group, args.numbers, folder)
    dives, diving = difference(folder, ships, "dive", 1, 201)
    steps, stepping = difference(folder, ships, "gauge", 1, 101)
    raised, raising = difference(folder, ships, "prices", 1, 21)
    nodes, working = difference(folder, ships, "nodes", 1, 6)
    above = sum(int(run(folder, ship, "again", 1)[0]["records"]) for ship in ships)
    return [
        group,
        str(len(ships)),
        once(folder, ships, "plain", 1, 21),
        once(folder, ships, "kept", 1, 101),
        rate(dives.get("nodes"), diving),
        rate(steps.get("steps"), stepping - diving / 2),
        rate(raised.get("nodes"), raising),
        str(raised.get("raises", 0) // 20),
        rate(raised.get("raises", 0) + raised.get("steps", 0), raising),
        once(folder, ships, "root", 1, 41),
        str(sum(int(run(folder, ship, "root", 1)[0]["value"]) for ship in ships)),
        rate(nodes.get("nodes"), working),
        once(folder, ships, "again", 1, 51),
        f"{above / len(ships):.0f}",
    ]


def measure(args):
    rows = []
    with tempfile.TemporaryDirectory() as folder:
        for group in args.groups.split(","):
            rows.append(measured(args, group, folder))
            print(" ".join(rows[-1]), flush=True)
    lines = ["| " + " | ".join(HEAD) + " |", "|---" + "|---:" * (len(HEAD) - 1) + "|"]
    table = "\n".join(lines + ["| " + " | ".join(row) + " |" for row in rows])
    if not args.into:
        print(table)
        return
    with open(args.into, encoding="utf-8") as file:
        head, _, rest = file.read().partition(BEGIN)
    with open(args.into, "w", encoding="utf-8") as file:
        file.write(f"{head}{BEGIN}\n{table}\n{END}{rest.partition(END)[2]}")


AMOUNTS = [1, 15, 16, 17, 1000, 2**20, 2**39, 2**40 - 1, 2**40]


def certificate(records):
    return "\n".join(["stow-cert 1", "outcome gap", "rehandles 1", "bound 0", f"nodes {len(records)}", *records, "end", ""])


def fixing(chance, variables, most):
    """Records that fix variables, half of them at 1."""
    count = min(chance.randint(1, most), len(variables))
    return [f"n {chance.randint(0, 1)}\nb {x}" for x in chance.sample(variables, count)]


def pricing(chance, variables, rows):
    """Records that fix variables and change multipliers, some of which leave their range."""
    records = []
    for record in fixing(chance, variables, 30):
        begin, end = record.split("\n")
        names = [chance.choice(rows[-40:] if chance.random() < 0.3 else rows) for _ in range(chance.randint(0, 3))]
        raises = [f"r {chance.choice(AMOUNTS) * chance.choice([1, 1, 1, -1])} {name}" for name in names for _ in range(chance.randint(1, 2))]
        records.append("\n".join([begin, *raises, end]))
    return records


def answers(text):
    """The lines that may be compared: the row that is violated is not, nor the box then."""
    lines = text.splitlines()
    if lines and lines[0].startswith("violated"):
        return ["violated"]
    return lines


def compared(args, folder, ship, judge):
    """What differs of one ship, and how much was compared."""
    files = [f"{ship}.ship.toml", f"{ship}.cargo.toml"]
    variables = [" ".join(line.split()[1:5]) for line in text_of(judge, folder, ["variables", *files]).splitlines()]
    rows = [line.split(" :")[0] for line in text_of(judge, folder, ["rows", *files]).splitlines()]
    chance, found, violated, past = random.Random(ship), [], 0, 0
    for time in range(args.times):
        for part, records in (("along", fixing(chance, variables, 60)), ("value", pricing(chance, variables, rows))):
            name = f"{ship}.{part}.{time}.cert"
            with open(f"{folder}/{name}", "w", encoding="ascii") as file:
                file.write(certificate(records))
            mine = answers(text_of([PROGRAM], folder, [part, *files, name, "0"]))
            theirs = answers(text_of(judge, folder, [part, *files, name]))
            violated += mine == ["violated"]
            past += "out of range" in mine
            if mine != theirs:
                found.append(f"{part} {time}")
    return found, violated, past


def compare(args):
    ships = wrong = violated = past = 0
    with tempfile.TemporaryDirectory() as folder:
        for group in args.groups.split(","):
            for ship in accepted(args.instances, group, args.numbers, folder):
                found, more, further = compared(args, folder, ship, args.judge.split())
                ships, violated, past = ships + 1, violated + more, past + further
                if found:
                    wrong += 1
                    print(f"{ship}: {', '.join(found)}", flush=True)
    times = ships * args.times
    print(f"{ships} ships: {times} boxes, of which {violated} were violated, and {times} dual values, {past} with a refused multiplier; {wrong} ships differ")
    return 1 if wrong else 0


def main():
    asked = argparse.ArgumentParser(usage=__doc__, add_help=False)
    asked.add_argument("order", choices=["measure", "compare"])
    asked.add_argument("instances")
    asked.add_argument("judge", nargs="?")
    asked.add_argument("--numbers", nargs=2, type=int, default=[0, 10])
    asked.add_argument("--groups", default="made")
    asked.add_argument("--times", type=int, default=4)
    asked.add_argument("--into")
    args = asked.parse_args()
    args.instances = os.path.realpath(args.instances)
    if args.order == "measure":
        return measure(args)
    if not args.judge:
        asked.error("a judge is wanted")
    return compare(args)


if __name__ == "__main__":
    sys.exit(main())
