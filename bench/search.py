#!/usr/bin/env python3
"""Measures how far the search of `stow plan` comes on made ships, perhaps beside another program.

    bench/search.py INSTANCES [--numbers FIRST COUNT] [--budget N] [--groups NAME,..] [--workers N] [--beside PROGRAM] [--at-once N]
        [--tariff LEAST MOST] [--each] [--into FILE]

INSTANCES is a folder with `instances.py`, which makes the ships (`instances.py list` names the groups, `instances.py GROUP FIRST
COUNT FOLDER` writes them), and perhaps `cbc.csv`, with what CBC found on some of them (group, number, calls, containers,
variables, first plan, status, best, bound, seconds). The group `literature` has the ships that `literature.csv` there names, which
`literature.py` makes: transportation matrices of one bay in the form of the literature. The other columns of that file, what other
methods find, are summed below the table, over the ships that have them all.

Ships that `plan` refuses are left out. For each group the table has the sums of costs with a budget of one node, of the search, and
of CBC where it was run on all the ships; how many optima the search proved, and CBC; and the mean and the slowest run, in a
processor's seconds. With --beside each search is made by the other program too, right before, and its sum, proofs and times stand
beside. With --tariff each ship's bookings get a tariff, drawn by the ship's name, the same on every machine; what CBC found is then
read from `cbc-LEAST-MOST.csv`, in the columns of `cbc.csv`.

--numbers FIRST COUNT   the ships of each group (0 6 where it is missing); all of `literature`
--budget N              the nodes of each search (1000 where it is missing)
--groups NAME,..        these groups alone
--workers N             so many workers
--beside PROGRAM        another program
--tariff LEAST MOST     a price from LEAST to MOST for each call but the last
--at-once N             runs N ships side by side (1 where it is missing, since times count)
--each                  prints each ship
--into FILE             writes the table between the two lines '<!-- search table .. -->' of FILE
"""
import argparse
import concurrent.futures
import csv
import os
import random
import subprocess
import tempfile

ROOT = os.path.dirname(os.path.dirname(os.path.realpath(__file__)))
PROGRAM = f"{ROOT}/crates/stow_main/out/stow_main"
BEGIN, END = "<!-- search table: begin -->", "<!-- search table: end -->"
HEAD = ["group", "ships", "budget 1", "search", "CBC", "proved", "CBC proved", "no plan found", "mean, s", "slowest, s"]
BESIDE = ["beside", "proved", "no plan found", "mean, s", "slowest, s"]
LITERATURE = "literature"


def run(program, folder, ship, budget, workers):
    """Plans one ship; answers the report's words by name, and the processor's seconds that it took. None where the ship is refused."""
    words = [program, "plan", f"{ship}.ship.toml", f"{ship}.cargo.toml", f"{ship}-{budget}", "--budget", str(budget)]
    words += ["--workers", str(workers)] if workers != 1 else []
    with subprocess.Popen(words, cwd=folder, stdout=subprocess.PIPE, text=True) as child:
        text = child.stdout.read()
        _, status, used = os.wait4(child.pid, 0)
        child.returncode = os.waitstatus_to_exitcode(status)
    said = dict(line.split(" ", 1) for line in text.splitlines() if " " in line)
    said.setdefault("cost", said.get("rehandles"))
    if child.returncode == 6:
        return None
    if "outcome" not in said:
        raise SystemExit(f"{ship}: status {child.returncode}: {text}")
    return said, used.ru_utime + used.ru_stime


def cost(said):
    """The cost of a report, 0 where there is no plan."""
    return 0 if said["cost"] == "none" else int(said["cost"])


def known(folder, tariff):
    """What CBC found, by group and number."""
    path = f"{folder}/cbc-{tariff[0]}-{tariff[1]}.csv" if tariff else f"{folder}/cbc.csv"
    if not os.path.exists(path):
        return {}
    with open(path, encoding="utf-8") as file:
        return {(row[0], int(row[1])): row for row in csv.reader(file)}


def cbc_of(row):
    """The cost of CBC's best plan, and whether it is proved; None where CBC found none."""
    if row[6] == "loader":
        return 0, True
    best = float(row[7]) if row[7] else None
    return best, row[6].startswith("Optimal")


def peers(folder):
    """What other methods find on the ships of the literature: a row for each ship, with names as keys."""
    with open(f"{folder}/literature.csv", encoding="utf-8") as file:
        return list(csv.DictReader(file))


def priced(path, ship, least, most):
    """Gives the bookings of a ship a tariff with prices from least to most."""
    with open(path, encoding="utf-8") as file:
        lines = file.read().splitlines(keepends=True)
    place = next(k for k, line in enumerate(lines) if line.startswith("rotation = "))
    draw = random.Random(f"tariff {least} {most} {ship}")
    prices = [draw.randint(least, most) for _ in lines[place].split(",")[1:]]
    lines.insert(place + 1, f"tariff = {prices}\n")
    with open(path, "w", encoding="utf-8") as file:
        file.writelines(lines)


def made(args, group, folder):
    """Makes the ships of a group, with a tariff where one is asked for; answers their names, with their numbers."""
    ships = made_plainly(args, group, folder)
    for _, ship in ships if args.tariff else []:
        priced(f"{folder}/{ship}.cargo.toml", ship, *args.tariff)
    return ships


def made_plainly(args, group, folder):
    """Makes the ships of a group; answers their names, with their numbers."""
    if group == LITERATURE:
        names = [row["name"] for row in peers(args.instances)]
        maker = f"{args.instances}/literature.py"
        subprocess.run(["python3", maker, "all", folder], check=True, stdout=subprocess.DEVNULL)
        subprocess.run(["python3", maker, "toml", *(f"{folder}/{name}.mat" for name in names), folder], check=True)
        return list(enumerate(names))
    first, count = args.numbers
    subprocess.run(["python3", f"{args.instances}/instances.py", group, str(first), str(count), folder], check=True)
    return [(number, f"{group}-{number}") for number in range(first, first + count)]


def searched(args, folder, ship):
    """One ship: with a budget of one node, by the other program where there is one, and by the search."""
    begun = run(PROGRAM, folder, ship, 1, 1)
    if begun is None:
        return None
    beside = run(args.beside, folder, ship, args.budget, args.workers) if args.beside else None
    found = run(PROGRAM, folder, ship, args.budget, args.workers)
    if args.each:
        told = [ship] + [f"{said['outcome']} {said['cost']} {said['bound']} {took:.2f}" for said, took in filter(None, (beside, found))]
        print("  " + " | ".join(told), flush=True)
    return begun, beside, found


def proofs(found):
    return str(sum(said["outcome"] in ("optimal", "no-plan") for said, _ in found))


def planless(found):
    return str(sum(said["outcome"] in ("no-plan", "undecided") for said, _ in found))


def times(found):
    took = [it[1] for it in found]
    return [f"{sum(took) / len(took):.2f}", f"{max(took):.2f}"]


def total(found):
    return str(sum(cost(said) for said, _ in found))


def measured(args, group, cbc, folder):
    """The row of one group."""
    ships = made(args, group, folder)
    with concurrent.futures.ThreadPoolExecutor(args.at_once) as pool:
        runs = list(pool.map(lambda it: searched(args, folder, it[1]), ships))
    numbers = [number for (number, _), it in zip(ships, runs) if it]
    begun, beside, found = ([it[k] for it in runs if it] for k in range(3))
    rows = [cbc.get((group, number)) for number in numbers]
    best = [cbc_of(row) if row else None for row in rows]
    whole = all(best) and all(it[0] is not None for it in best)
    return [
        group,
        str(len(numbers)),
        total(begun),
        total(found),
        f"{sum(it[0] for it in best):.0f}" if whole else "",
        proofs(found),
        str(sum(it[1] for it in best)) if all(best) else "",
        planless(found),
        *times(found),
        *([total(beside), proofs(beside), planless(beside), *times(beside)] if args.beside else []),
    ]


def told_peers(folder):
    """The sums of what other methods find on the ships of the literature, where they were run on all."""
    rows = peers(folder)
    names = [name for name in rows[0] if name != "name"]
    whole = [name for name in names if all(row[name] for row in rows)]
    few = [row for row in rows if all(row[name] for name in names)]
    sums = [f"{name} {sum(int(row[name]) for row in rows)}" for name in whole]
    part = [f"{name} {sum(int(row[name]) for row in few)}" for name in names]
    return f"on all {len(rows)}: {', '.join(sums)}\non {len(few)}: {', '.join(part)}"


def as_text(rows, head):
    return "\n".join([" | ".join(head), "---" + "|---:" * (len(head) - 1), *(" | ".join(row) for row in rows)])


def main():
    asked = argparse.ArgumentParser(usage=__doc__, add_help=False)
    asked.add_argument("instances")
    asked.add_argument("--numbers", nargs=2, type=int, default=[0, 6])
    asked.add_argument("--budget", type=int, default=1000)
    asked.add_argument("--groups")
    asked.add_argument("--workers", type=int, default=1)
    asked.add_argument("--beside")
    asked.add_argument("--tariff", nargs=2, type=int)
    asked.add_argument("--at-once", type=int, default=1)
    asked.add_argument("--each", action="store_true")
    asked.add_argument("--into")
    args = asked.parse_args()
    args.instances = os.path.realpath(args.instances)
    args.beside = args.beside and os.path.realpath(args.beside)
    listed = subprocess.run(["python3", f"{args.instances}/instances.py", "list"], stdout=subprocess.PIPE, text=True, check=True)
    whole = listed.stdout.split() + ([LITERATURE] if os.path.exists(f"{args.instances}/literature.csv") else [])
    groups = args.groups.split(",") if args.groups else whole
    cbc, rows = known(args.instances, args.tariff), []
    with tempfile.TemporaryDirectory() as folder:
        for group in groups:
            rows.append(measured(args, group, cbc, folder))
            print(" ".join(rows[-1]), flush=True)
    table = as_text(rows, HEAD + (BESIDE if args.beside else []))
    if LITERATURE in groups:
        print(told_peers(args.instances))
    if args.into:
        with open(args.into, encoding="utf-8") as file:
            text = file.read()
        head, _, rest = text.partition(BEGIN)
        with open(args.into, "w", encoding="utf-8") as file:
            file.write(f"{head}{BEGIN}\n{table}\n{END}{rest.partition(END)[2]}")
    else:
        print(table)


if __name__ == "__main__":
    main()
