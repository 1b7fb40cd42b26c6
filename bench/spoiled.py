#!/usr/bin/env python3
"""Spoils what `plan` writes, one change at a time, and looks at what `check` answers.

usage: bench/spoiled.py PROGRAM JUDGE [CHANGES]

PROGRAM is the built program `stow`. JUDGE is a command (one word, split at spaces) that is run with `check` and the words behind it, and
prints what another checker says of the same files. Six file sets are planned in folders of their own: a port that is called twice, an
example with dangerous goods, a ship that comes in loaded, and three whose certificates have branches: two that may not stand in one
stack, so that there is no plan; a search over a short and a long stack; and the same voyage with one node, whose certificate is then
written anew with a branch on each variable. CHANGES (10,000) changes are made, each to one departure file or to the certificate: one
byte, one segment or line, or one number. Each answer has to be a `no`, a fault, or a yes that the judge prints too, word for word; no
run may end by a signal, take more than 10 s, or more than 1 GiB. It prints how often each answer came, and the longest run and the
greatest memory; or the first change that got another answer.
"""
import collections
import os
import random
import re
import shutil
import subprocess
import sys
import tempfile
import time

ROOT = os.path.dirname(os.path.dirname(os.path.abspath(__file__)))

TWICE_SHIP = '''name = "V"
[[stack]]
bay = 2
row = 1
tiers = [82, 84]
lengths = "40"
limit_kg = 1000000
'''

TWICE_CARGO = '''vessel = "V"
voyage = "1"
date = "2601010000"
rotation = ["AAAAA", "BBBBB", "CCCCC", "BBBBB"]
container = [
  { id = "AAAU0000001", from = 1, to = 2, type = "42G1", kg = 10000 },
  { id = "AAAU0000002", from = 1, to = 4, type = "42G1", kg = 10000 },
]
'''

LOADED_SHIP = '''name = "V"
[[stack]]
bay = 2
row = 1
tiers = [2, 4]
lengths = "40"
limit_kg = 60000
[[stack]]
bay = 2
row = 2
tiers = [82]
lengths = "20/40"
limit_kg = 60000
plugs = [82]
[[stack]]
bay = 6
row = 3
tiers = [82]
lengths = "40"
limit_kg = 60000
'''

LOADED_CARGO = '''vessel = "V"
voyage = "1"
date = "2601010000"
rotation = ["NLRTM", "DEHAM", "SEGOT"]
container = [{ id = "AAAU0000001", from = 2, to = 3, type = "42G1", kg = 10000 }]
'''


def example(name):
    return os.path.join(ROOT, "examples", name)


def lay_twice(folder):
    for name, text in (("ship.toml", TWICE_SHIP), ("cargo.toml", TWICE_CARGO)):
        with open(os.path.join(folder, name), "w") as file:
            file.write(text)
    return []


def lay_dangerous(folder):
    for name in ("ship.toml", "cargo.toml"):
        shutil.copy(os.path.join(example("dangerous"), name), folder)
    return []


def lay_loaded(folder):
    for name, text in (("ship.toml", LOADED_SHIP), ("cargo.toml", LOADED_CARGO)):
        with open(os.path.join(folder, name), "w") as file:
            file.write(text)
    shutil.copy(os.path.join(example("arrival"), "plan.edi"), folder)
    return ["--arrival", "plan.edi"]


def lay_small(name):
    def lay(folder):
        for file in ("ship.toml", "cargo.toml"):
            shutil.copy(os.path.join(example("small"), name, file), folder)
        return []

    return lay


def divided(folder):
    """A certificate of the short and the long stack with a branch on each of its variables, each half of value 1 a leaf."""
    # Kinds go from call 1 to 3 and from 2 to 4, over four places; variables by put, kind, lifted call and place.
    trips = [(1, 0, 2), (1, 0, 3), (2, 0, 3), (2, 1, 3), (2, 1, 4), (3, 1, 4)]
    branches = [f"n 0\nb {put} {kind} {lifted} {place}\nn 0\nl\n" for put, kind, lifted in trips for place in range(4)]
    with open(os.path.join(folder, "X.cert"), "w") as file:
        file.write(f"stow-cert 1\noutcome gap\nrehandles 2\nbound 0\nnodes {2 * len(branches) + 1}\n{''.join(branches)}n 0\nl\nend\n")


# the folder's name, what lays its inputs, further words of the plan, its status, and what is done with the certificate
SETS = [
    ("twice", lay_twice, [], 0, None),
    ("dangerous", lay_dangerous, [], 0, None),
    ("loaded", lay_loaded, [], 0, None),
    ("kept-apart", lay_small("kept-apart"), [], 4, None),
    ("searched", lay_small("long-and-short"), [], 0, None),
    ("divided", lay_small("long-and-short"), ["--budget", "1"], 3, divided),
]

# What a run may take.
MOST_SECONDS = 10
MOST_BYTES = 1 << 30


def run(words, folder):
    """How a run ended, what it printed, and the seconds and bytes that it took."""
    begin = time.perf_counter()
    child = subprocess.Popen(words, cwd=folder, stdout=subprocess.PIPE, stdin=subprocess.DEVNULL)
    printed = child.stdout.read()
    _, status, usage = os.wait4(child.pid, 0)
    child.returncode = os.waitstatus_to_exitcode(status)
    return child.returncode, printed.decode("latin-1"), time.perf_counter() - begin, usage.ru_maxrss * 1024


def change_byte(chance, text):
    at = chance.randrange(len(text))
    how = chance.randrange(3)
    if how == 0:
        return text[:at] + bytes([chance.choice(b"0123456789ABCDEFKL'+:? \n\x00\xff-")]) + text[at + 1:]
    if how == 1:
        return text[:at] + text[at + 1:]
    return text[:at] + bytes([chance.choice(b"0123456789A'+:?\n")]) + text[at:]


def change_piece(chance, text, end):
    pieces = [piece + end for piece in text.split(end)]
    pieces[-1] = pieces[-1][: -len(end)]
    at = chance.randrange(len(pieces))
    how = chance.randrange(4)
    if how == 0:
        del pieces[at]
    elif how == 1:
        pieces.insert(at, pieces[at])
    elif how == 2:
        other = chance.randrange(len(pieces))
        pieces[at], pieces[other] = pieces[other], pieces[at]
    else:
        pieces = pieces[:at]
    return b"".join(pieces)


def change_number(chance, text):
    places = [found.span() for found in re.finditer(rb"[0-9]+", text)]
    if not places:
        return change_byte(chance, text)
    start, end = chance.choice(places)
    number = int(text[start:end])
    other = chance.choice([number + 1, max(number - 1, 0), number * 10, number + 2, 0, chance.randrange(100), number + 100])
    return text[:start] + str(other).zfill(end - start).encode() + text[end:]


def change(chance, name, text):
    if not text:
        return text + b"0"
    how = chance.randrange(3)
    if how == 0:
        return change_byte(chance, text)
    if how == 1:
        return change_piece(chance, text, b"\n" if name.endswith(".cert") else b"'")
    return change_number(chance, text)


def laid(top, program, judge):
    """The file sets: each with its folder, the words of its check, and the files that are spoiled."""
    sets = []
    for name, lay, more, wanted, then in SETS:
        folder = os.path.join(top, name)
        os.mkdir(folder)
        words = ["ship.toml", "cargo.toml", "X"] + lay(folder)
        status, printed, _, _ = run([program, "plan"] + words + more, folder)
        assert status == wanted, (name, status, printed)
        if then is not None:
            then(folder)
        status, printed, _, _ = run([program, "check"] + words, folder)
        assert status == 0 and run(judge + ["check"] + words, folder)[1] == printed, (name, status, printed)
        sets.append((folder, words, sorted(file for file in os.listdir(folder) if file.startswith("X"))))
    return sets


def wrong_of(status, printed, seconds, size, judged):
    """Why an answer is wrong, or nothing."""
    if seconds > MOST_SECONDS or size > MOST_BYTES:
        return f"it took {seconds:.1f} s and {size} bytes"
    if status == 0:
        said = judged()
        return None if said == printed else f"yes, and the judge says {said!r}"
    if status == 1 and re.fullmatch(r"check no (cert|edifact|baplie|plan|bound|numbers) [0-9].*\n", printed, re.S):
        return None
    if status == 7 and printed.startswith("fault read "):
        return None
    return f"status {status}, {printed!r}"


def main():
    program, judge = os.path.abspath(sys.argv[1]), sys.argv[2].split(" ")
    changes = int(sys.argv[3]) if len(sys.argv) > 3 else 10000
    chance = random.Random(1)
    tally, longest, greatest = collections.Counter(), 0, 0
    with tempfile.TemporaryDirectory() as top:
        sets = laid(top, program, judge)
        for number in range(changes):
            folder, words, names = chance.choice(sets)
            name = chance.choice(names)
            path = os.path.join(folder, name)
            with open(path, "rb") as file:
                text = file.read()
            spoiled = change(chance, name, text)
            with open(path, "wb") as file:
                file.write(spoiled)
            status, printed, seconds, size = run([program, "check"] + words, folder)
            longest, greatest = max(longest, seconds), max(greatest, size)
            wrong = wrong_of(status, printed, seconds, size, lambda: run(judge + ["check"] + words, folder)[1])
            if wrong:
                print(f"change {number}, {name} of {os.path.basename(folder)}: {wrong}")
                print(spoiled.decode("latin-1"))
                sys.exit(1)
            answer = "yes" if status == 0 else " ".join(printed.split(" ")[:3 if status == 1 else 2])
            tally[answer if spoiled != text else "yes, nothing changed"] += 1
            with open(path, "wb") as file:
                file.write(text)
    for answer, count in sorted(tally.items()):
        print(f"{count:6} {answer}")
    print(f"longest {longest:.2f} s, greatest {greatest / (1 << 20):.0f} MB")


main()
