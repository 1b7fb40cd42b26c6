#!/usr/bin/env python3
"""Plans a ship whose base rows are far more than its sums: one bay of 300 forty-foot places, 12 calls, and two classes kept apart.

usage: bench/apart.py PROGRAM [BUDGET]

PROGRAM is the built program `stow`. The ship has 171,600 variables and 986,700 rows that keep places apart, within all limits; written out,
these rows have 180 million terms. It prints the report of `plan` with this budget (1 where it is missing), the seconds of the processor, and
the greatest memory in MB.
"""
import os
import pathlib
import subprocess
import sys
import tempfile

sys.path.insert(0, os.path.dirname(os.path.realpath(__file__)))
from program import APART, CLASSES, cargo, profile


def main(words):
    if len(words) not in (1, 2):
        print(__doc__.split('\n\n')[1], file=sys.stderr)
        return 2
    program, budget = os.path.abspath(words[0]), (words[1:] or ['1'])[0]
    with tempfile.TemporaryDirectory() as root:
        folder = pathlib.Path(root)
        (folder / 'ship.toml').write_text(profile(60, 5, '40', APART))
        (folder / 'cargo.toml').write_text(cargo(12, CLASSES[1:]))
        command = [program, 'plan', 'ship.toml', 'cargo.toml', 'X', '--budget', budget]
        process = subprocess.Popen(command, cwd=folder, stdout=subprocess.PIPE, text=True)
        text = process.stdout.read()
        _, status, used = os.wait4(process.pid, 0)
    print(text, end='')
    print(f'status {os.waitstatus_to_exitcode(status)}, {used.ru_utime + used.ru_stime:.1f} s, {used.ru_maxrss / 1024:.0f} MB')
    return 0


if __name__ == '__main__':
    sys.exit(main(sys.argv[1:]))
