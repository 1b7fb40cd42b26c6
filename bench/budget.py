#!/usr/bin/env python3
"""Shows how `--budget` trades time against the gap, on random ships of growing size that sail full.

    bench/budget.py PROGRAM [--budgets N,..] [--ships N] [--into FILE]

PROGRAM is the built stow. For each size and budget the table has the sums of costs and of bounds over the ships, how many plans
are proved best, and the mean and the greatest time of a run, in a processor's seconds.

--budgets N,..   the nodes of each search (1,10,100,1000 where it is missing)
--ships N        so many ships of each size (3 where it is missing)
--into FILE      writes the table between the two lines '<!-- budget table .. -->' of FILE
"""
import argparse
import os
import random
import subprocess
import tempfile

SIZES = [(2, 5, 5), (3, 6, 6), (4, 8, 8), (6, 8, 10), (8, 8, 12), (16, 8, 12)]  # stacks, tiers, calls
BEGIN, END = "<!-- budget table: begin -->", "<!-- budget table: end -->"
HEAD = ["stacks", "calls", "containers", "budget", "cost", "bounds", "proved best", "mean, s", "slowest, s"]


def profile(stacks, tiers):
    cells = ", ".join(str(82 + 2 * tier) for tier in range(tiers))
    lines = [
        f'  {{ bay = {2 + 4 * (s // 8)}, row = {s % 8 + 1}, tiers = [{cells}], lengths = "40", limit_kg = 1000000 }},'
        for s in range(stacks)
    ]
    return "\n".join(['name = "V"', "stack = [", *lines, "]", ""])


def bookings(chance, room, calls):
    """Containers for destinations by chance, as many as there is room for at each call; and their number."""
    aboard, lines = [], []
    for call in range(1, calls):
        aboard = [to for to in aboard if to > call]
        for _ in range(room - len(aboard)):
            to = chance.randint(call + 1, calls)
            aboard.append(to)
            lines.append(f'  {{ id = "AAAU{len(lines) + 1:07d}", from = {call}, to = {to}, type = "42G1", kg = 10000 }},')
    ports = ", ".join(f'"P{call}"' for call in range(1, calls + 1))
    head = ['vessel = "V"', 'voyage = "1"', 'date = "2601010000"', f"rotation = [{ports}]", "container = ["]
    return "\n".join([*head, *lines, "]", ""]), len(lines)


def run(program, folder, ship, budget):
    """Plans one ship; answers the report's words by name, and the processor's seconds that it took."""
    words = [program, "plan", f"{ship}.ship.toml", f"{ship}.cargo.toml", f"{ship}-{budget}", "--budget", str(budget)]
    with subprocess.Popen(words, cwd=folder, stdout=subprocess.PIPE, text=True) as child:
        text = child.stdout.read()
        _, status, used = os.wait4(child.pid, 0)
        child.returncode = os.waitstatus_to_exitcode(status)
    said = dict(line.split(" ", 1) for line in text.splitlines() if " " in line)
    if "outcome" not in said:
        raise SystemExit(f"{ship}: status {child.returncode}: {text}")
    return said, used.ru_utime + used.ru_stime


def made(folder, size, number):
    """Writes a ship of this size; answers its name and the number of its containers."""
    stacks, tiers, calls = size
    name = f"{stacks}-{calls}-{number}"
    text, count = bookings(random.Random(name), stacks * tiers, calls)
    for kind, content in (("ship", profile(stacks, tiers)), ("cargo", text)):
        with open(f"{folder}/{name}.{kind}.toml", "w", encoding="utf-8") as file:
            file.write(content)
    return name, count


def measured(args, folder, size):
    """The rows of one size."""
    ships = [made(folder, size, number) for number in range(args.ships)]
    containers = sum(count for _, count in ships) // len(ships)
    for budget in args.budgets:
        found = [run(args.program, folder, name, budget) for name, _ in ships]
        times = [took for _, took in found]
        yield [
            str(size[0]),
            str(size[2]),
            str(containers),
            str(budget),
            str(sum(int(said["cost"]) for said, _ in found if said["cost"] != "none")),
            str(sum(int(said["bound"]) for said, _ in found)),
            f"{sum(said['outcome'] == 'optimal' for said, _ in found)} of {len(found)}",
            f"{sum(times) / len(times):.2f}",
            f"{max(times):.2f}",
        ]


def main():
    asked = argparse.ArgumentParser(usage=__doc__, add_help=False)
    asked.add_argument("program", type=os.path.realpath)
    asked.add_argument("--budgets", type=lambda text: [int(word) for word in text.split(",")], default=[1, 10, 100, 1000])
    asked.add_argument("--ships", type=int, default=3)
    asked.add_argument("--into")
    args = asked.parse_args()
    rows = []
    with tempfile.TemporaryDirectory() as folder:
        for size in SIZES:
            for row in measured(args, folder, size):
                rows.append(row)
                print(" ".join(row), flush=True)
    table = "\n".join([" | ".join(HEAD), "|".join(["---:"] * len(HEAD)), *(" | ".join(row) for row in rows)])
    if args.into:
        with open(args.into, encoding="utf-8") as file:
            head, _, rest = file.read().partition(BEGIN)
        with open(args.into, "w", encoding="utf-8") as file:
            file.write(f"{head}{BEGIN}\n{table}\n{END}{rest.partition(END)[2]}")
    else:
        print(table)


if __name__ == "__main__":
    main()
