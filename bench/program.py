#!/usr/bin/env python3
"""Compares the 0-1 programs of voyages with those of another model, row by row, and measures how they grow.

usage: bench/program.py compare PROBE JUDGE CASES
       bench/program.py measure PROBE [SHIP CARGO]..

PROBE is the built program `program_probe`. JUDGE is a command (one word, split at spaces) that is run with `sizes`, `variables`, `rows` or
`loaded`, a profile, bookings and a bay plan at arrival (`-` where there is none), and prints of a program of its own making what the probe
prints: the sizes, each variable with its cost and its number of rows, each row with its right side and its terms, and for the loader's plans
the departures, what is lifted and costs, what a lift of each place by itself meets, the ones of their full box, and its cost. CASES is a folder of
folders with `profile.toml`, `cargo.toml` and, where the ship comes in loaded, `arrival.edi`. The terms of a row and the moves of a call may
stand in any order; the moves have to finish each call, and the plans of the full box to cost what it does. It prints how much was
compared, and what differs.

`measure` makes ships of growing size, and prints for each, and for each pair of files that is named, the variables and rows, and the seconds
of the processor and the greatest memory of the whole run of `sizes` (the inputs are read and the program is built), of `sums` (the sums of its
rows besides) and of `tables` (in place of the sums the tables of a search). `-` stands where a run takes more than four gigabytes.
"""
import os
import pathlib
import resource
import subprocess
import sys
import tempfile


def run(command, folder, words):
    return subprocess.run([*command, *words], cwd=folder, capture_output=True, text=True, check=False).stdout


def sorted_terms(line):
    """A row's line with its terms in the order of variables."""
    name, right, terms = line.split(' :')
    numbers = terms.split()
    pairs = sorted(zip(map(int, numbers[::2]), map(int, numbers[1::2])))
    return name, right, pairs


def rows_of(text):
    return [sorted_terms(line) for line in text.splitlines()]


MOVES = ('call', 'alone', 'lift ', 'put', 'off', 'on ', 'finished')


def loaded_of(text):
    """What the loader's plans come to, and what is wrong with what follows from them."""
    lines = text.splitlines()
    told = [line for line in lines if not line.startswith(MOVES)]
    calls = sum(line.startswith('call') for line in lines)
    if 'too large' in told or 'no plans' in told:
        return told, []
    # the loader's plans, their full box, and the plans of that
    cost = [k for k, line in enumerate(told) if line.startswith('cost')][1]
    wrong = []
    if lines.count('finished') != calls:
        wrong.append('a call isn\'t finished')
    if told[-1].split()[1] != told[cost].split()[1]:
        wrong.append('the plans of the box don\'t cost what it does')
    return told[:cost + 1] + [line for line in lines if line.startswith('alone')], wrong


def differences(probe, judge, folder):
    arrival = 'arrival.edi' if (folder / 'arrival.edi').exists() else '-'
    files = ['profile.toml', 'cargo.toml', arrival]
    found, rows = [], 0
    for order in ('sizes', 'variables', 'rows', 'loaded'):
        mine = run(probe, folder, [order, *files, '-'])
        theirs = run(judge, folder, [order, *files])
        if order == 'rows' and 'too large' not in mine:
            mine, theirs = rows_of(mine), rows_of(theirs)
            rows = len(mine)
        elif order == 'loaded':
            (mine, wrong), (theirs, _) = loaded_of(mine), loaded_of(theirs)
            found += wrong
        if mine != theirs:
            found.append(order)
    return found, rows


def compare(probe, judge, cases):
    count = total = wrong = 0
    for folder in sorted(pathlib.Path(cases).iterdir()):
        found, rows = differences([probe], judge.split(), folder)
        count, total = count + 1, total + rows
        if found:
            wrong += 1
            print(folder.name + ': ' + ', '.join(found), flush=True)
    print(f'{count} voyages, {total} rows, {wrong} differ')
    return wrong == 0


def profile(stacks, tiers, lengths, separate=''):
    text = 'name = "V"\n'
    for n in range(stacks):
        names = ', '.join(str(82 + 2 * t) for t in range(tiers))
        text += f'[[stack]]\nbay = {4 * (n // 80) + 2}\nrow = {n % 80 + 1}\ntiers = [{names}]\nlengths = "{lengths}"\nlimit_kg = 1000000\n'
    return text + separate


def cargo(calls, kinds):
    """Bookings of so many kinds over so many calls: by destination and class."""
    ports = ', '.join(f'"{chr(65 + k) * 5}"' for k in range(calls))
    text = f'vessel = "V"\nvoyage = "1"\ndate = "2601010000"\nrotation = [{ports}]\ncontainer = [\n'
    number = 0
    for dest in range(2, calls + 1):
        for danger in kinds:
            number += 1
            text += f'  {{ id = "AAAU{number:07d}", from = 1, to = {dest}, type = "42G1", kg = 10000{danger} }},\n'
    return text + ']\n'


CLASSES = ('', ', class = "3", unno = 1203', ', class = "8", unno = 1789')
APART = '[[separate]]\na = "3"\nb = "8"\nlevel = 3\n'

# a name, stacks, tiers, calls, classes, separations
MADE = [
    ('20 places, 4 calls', 5, 4, 4, CLASSES[:1], ''),
    ('100 places, 6 calls', 20, 5, 6, CLASSES[:1], ''),
    ('300 places, 8 calls', 60, 5, 8, CLASSES[:1], ''),
    ('300 places, 12 calls', 60, 5, 12, CLASSES[:1], ''),
    ('600 places, 12 calls', 120, 5, 12, CLASSES[:1], ''),
    ('695 places, 12 calls', 139, 5, 12, CLASSES[:1], ''),
    ('300 places of one bay, 12 calls, two classes kept apart', 60, 5, 12, CLASSES[1:], APART),
]


def within_memory():
    resource.setrlimit(resource.RLIMIT_AS, (4 << 30, 4 << 30))


def timed(probe, order, ship, booked):
    """What is printed, and the seconds of the processor with the greatest memory in MB."""
    command = [probe, order, str(ship), str(booked), '-', '-']
    process = subprocess.Popen(command, stdout=subprocess.PIPE, text=True, preexec_fn=within_memory)
    text = process.stdout.read()
    _, status, used = os.wait4(process.pid, 0)
    if status:
        return text, '- | -'
    return text, f'{used.ru_utime + used.ru_stime:.3f} | {used.ru_maxrss / 1024:.0f}'


def measure(probe, named):
    print('| voyage | variables | rows | program, s | MB | with sums, s | MB | with tables, s | MB |')
    print('|---|---:|---:|---:|---:|---:|---:|---:|---:|')
    with tempfile.TemporaryDirectory() as root:
        folder = pathlib.Path(root)
        voyages = list(named)
        for n, (name, stacks, tiers, calls, kinds, separate) in enumerate(MADE):
            ship, booked = folder / f'{n}.ship.toml', folder / f'{n}.cargo.toml'
            ship.write_text(profile(stacks, tiers, '40', separate))
            booked.write_text(cargo(calls, kinds))
            voyages.append((name, ship, booked))
        for name, ship, booked in voyages:
            text, program = timed(probe, 'sizes', ship, booked)
            sizes = dict(line.rsplit(' ', 1) for line in text.splitlines() if ' ' in line)
            _, sums = timed(probe, 'sums', ship, booked)
            _, tables = timed(probe, 'tables', ship, booked)
            print(f"| {name} | {sizes.get('variables', text.strip())} | {sizes.get('rows', '')} | {program} | {sums} | {tables} |", flush=True)


def main(words):
    if words[:1] == ['compare'] and len(words) == 4:
        probe = os.path.abspath(words[1])
        return 0 if compare(probe, words[2], words[3]) else 1
    if words[:1] == ['measure'] and len(words) >= 2 and len(words) % 2 == 0:
        files = [os.path.abspath(word) for word in words[2:]]
        measure(os.path.abspath(words[1]), [(ship, ship, booked) for ship, booked in zip(files[::2], files[1::2])])
        return 0
    print(__doc__.split('\n\n')[1], file=sys.stderr)
    return 2


if __name__ == '__main__':
    sys.exit(main(sys.argv[1:]))
