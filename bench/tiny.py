#!/usr/bin/env python3
"""Plans tiny voyages and compares what `plan` proves with the least cost that an exhaustive search finds.

usage: bench/tiny.py PROGRAM JUDGE CASES [BUDGET]

PROGRAM is the built program `stow`. JUDGE is a command (one word, split at spaces) that is run with a profile, bookings and a bay plan at
arrival (`-` where there is none) and prints `least N`, `none` where there is no legal voyage, or anything else where it gave up. CASES is a
folder of folders with `profile.toml`, `cargo.toml` and, where the ship comes in loaded, `arrival.edi`. Where the search closed, its bound has
to be the least (or one above all costs where there is no voyage); where it didn't, the least has to stand between bound and cost.
`check` has to say yes. It prints how many voyages closed, and each that is wrong.
"""
import pathlib
import subprocess
import sys
import tempfile


def run(command, folder):
    process = subprocess.run(command, cwd=folder, capture_output=True, text=True, check=False)
    return process.returncode, process.stdout


def least_of(text):
    """A number, None where there is no voyage, or '' where the judge gave up."""
    words = text.split()
    if words[:1] == ['least']:
        return int(words[1])
    return None if words == ['none'] else ''


def fault(status, said, least):
    """What is wrong with an answer, if something is."""
    cost, bound = said.get('cost', 'none'), int(said.get('bound', 0))
    if status == 0 and not (least is not None and int(cost) == bound == least):
        return f'{cost} and {bound} where the least is {least}'
    if status == 4 and least is not None:
        return f'no plan where the least is {least}'
    if status == 3 and not (least is not None and bound <= least <= int(cost)):
        return f'{cost} and {bound} where the least is {least}'
    if status == 5 and least is not None and bound > least:
        return f'bound {bound} where the least is {least}'
    return None if status in (0, 3, 4, 5) else f'status {status}'


def look_at(program, judge, case, out, budget):
    """Whether the search closed, whether the judge knows the least, and what is wrong."""
    files = [str(case / 'profile.toml'), str(case / 'cargo.toml')]
    arrival = case / 'arrival.edi'
    more = ['--arrival', str(arrival)] if arrival.exists() else []
    status, text = run([program, 'plan', *files, 'X', *more, '--budget', budget], out)
    said = dict(line.split(' ', 1) for line in text.splitlines())
    least = least_of(run([*judge, *files, str(arrival) if more else '-'], case)[1])
    wrong = None if least == '' else fault(status, said, least)
    if wrong is None and not run([program, 'check', *files, 'X', *more], out)[1].startswith('check yes'):
        wrong = 'check says no'
    return status in (0, 4), least != '', wrong


def main(words):
    if len(words) not in (3, 4):
        print(__doc__.split('\n\n')[1], file=sys.stderr)
        return 2
    program, judge, cases = str(pathlib.Path(words[0]).resolve()), words[1].split(), pathlib.Path(words[2])
    budget = words[3] if len(words) == 4 else '1000'
    count = closed = known = wrong = 0
    for case in sorted(cases.resolve().iterdir()):
        with tempfile.TemporaryDirectory() as out:
            is_closed, is_known, fault_of = look_at(program, judge, case, out, budget)
        count, closed, known = count + 1, closed + is_closed, known + is_known
        if fault_of:
            wrong += 1
            print(case.name + ': ' + fault_of, flush=True)
    print(f'{count} voyages, {closed} closed, {known} with a least that is known, {wrong} wrong')
    return 0 if wrong == 0 else 1


if __name__ == '__main__':
    sys.exit(main(sys.argv[1:]))
