#!/usr/bin/env python3
"""Makes ships of many numbers, the first ones and the last, and checks what is written.

made.py PROGRAM [COUNT]    where PROGRAM is the built stow; 20 numbers, if none are said
"""
import collections
import pathlib
import subprocess
import sys
import tempfile
import time

LAST = 2147483647


def run(program, where, *words):
    return subprocess.run([program, *words], cwd=where, capture_output=True, text=True)


def is_good(program, where, number, ends):
    """Whether a made ship is planned, with plans or after its budget, and its files have a yes."""
    made = run(program, where, "make", str(number), "X")
    ends[made.returncode] += 1
    check = run(program, where, "check", "X.profile.toml", "X.bookings.toml", "X")
    good = made.returncode in (0, 3) and check.returncode == 0 and check.stdout.startswith("check yes\n")
    if not good:
        print(f"{number}: {made.returncode} {made.stdout!r}, {check.returncode} {check.stdout!r}")
    return good


def main():
    program = pathlib.Path(sys.argv[1]).resolve()
    count = int(sys.argv[2]) if len(sys.argv) > 2 else 20
    numbers = [n // 2 if n % 2 == 0 else LAST - n // 2 for n in range(count)]
    ends, wrong, begin = collections.Counter(), 0, time.perf_counter()
    with tempfile.TemporaryDirectory() as where:
        wrong = sum(not is_good(program, where, number, ends) for number in numbers)
        refused = run(program, where, "make", str(LAST + 1), "Y")
        if (refused.returncode, refused.stdout) != (2, "refused words 4\n"):
            wrong += 1
            print(f"{LAST + 1}: {refused.returncode} {refused.stdout!r}")
    seconds = time.perf_counter() - begin
    print(f"{count} numbers: {ends[0]} optimal, {ends[3]} with a gap, {wrong} wrong, {seconds:.1f} s")
    return 1 if wrong else 0


sys.exit(main())
