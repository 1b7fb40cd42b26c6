#!/usr/bin/env python3
"""Plans the small voyages of examples/small, whose answers were worked out by hand, checks what was written, and spoils a certificate.

small.py PROGRAM    where PROGRAM is the built stow
"""
import pathlib
import subprocess
import sys
import tempfile

# the folder, further words, the status, and what the report begins with
ROWS = [
    # A container that leaves first, under one that leaves later.
    ('on-one-another', [], 0, 'outcome optimal\ncost 1\nbound 1\nnodes 1\n'),
    # The same, where it is dear to turn the two round at the second call: the upper one is lifted at the third.
    ('dear-second-call', [], 0, 'outcome optimal\ncost 3\nbound 3\n'),
    # And where it is dear to lift at the third: they are turned round at the second, which the loader doesn't do.
    ('dear-third-call', [], 0, 'outcome optimal\ncost 1\nbound 1\n'),
    # And where lifting is free at the third.
    ('free-third-call', [], 0, 'outcome optimal\ncost 0\nbound 0\nnodes 1\n'),
    # Two under two, in one stack.
    ('two-on-two', [], 0, 'outcome optimal\ncost 2\nbound 2\n'),
    # Three, and five that leave later, in two stacks of four.
    ('three-and-five', [], 0, 'outcome optimal\ncost 1\nbound 1\nnodes 1\n'),
    # A chain of three pairs of calls, in two stacks.
    ('three-in-turn', [], 0, 'outcome optimal\ncost 1\nbound 1\nnodes 1\n'),
    # No multipliers lift the bound of the first node, and no other may be handled.
    ('long-and-short', ['--budget', '1'], 3, 'outcome gap\ncost 2\nbound 0\nnodes 1\n'),
    # The search finds a plan that costs less than the loader's.
    ('long-and-short', [], 0, 'outcome optimal\ncost 1\nbound 1\n'),
    # Two reefers, and one plug.
    ('one-plug', [], 4, 'outcome no-plan\ncost none\nbound 3\nnodes 1\n'),
    # The reefer's plug is under a cover, and the loader finds no place for it.
    ('under-a-cover', [], 0, 'outcome optimal\ncost 1\nbound 1\n'),
    # The stack carries one of the two.
    ('too-heavy', [], 4, 'outcome no-plan\ncost none\nbound 3\nnodes 1\n'),
    # Each of the two has a stack of its own.
    ('heavy-in-two', [], 0, 'outcome optimal\ncost 0\nbound 0\nnodes 1\n'),
    # The stack carries both, to the kilogram.
    ('just-light-enough', [], 0, 'outcome optimal\ncost 0\nbound 0\nnodes 1\n'),
    # Five lots in sixteen stacks, none on one that leaves earlier.
    ('sixteen-stacks', [], 0, 'outcome optimal\ncost 0\nbound 0\nnodes 1\n'),
    # The two may not stand in one stack.
    ('kept-apart', [], 4, 'outcome no-plan\ncost none\nbound 3\nnodes 3\n'),
    # The same, and one node is too few to tell.
    ('kept-apart', ['--budget', '1'], 5, 'outcome undecided\ncost none\nbound 0\nnodes 1\n'),
]

# a certificate of the first voyage, and what is changed in it, with what the check then prints
CERTIFICATE = """stow-cert 1
outcome optimal
rehandles 1
bound 1
nodes 1
n 0
r 16 cross 40 1 1 2 3 4
l
end
"""
SPOILED = [
    ("", "", "check yes"),
    ("r 16", "r -1", "check no bound 1 1"),
    ("bound 1", "bound 2", "check no bound 4 1 16 17"),
    ("rehandles 1", "rehandles 0", "check no numbers 1 0 1"),
    ("nodes 1", "nodes 2", "check no numbers 2 2 1"),
    ("optimal", "gap", "check no numbers 3"),
    ("l\nend", "b 1 0 3 0\nn 0\nl\nend", "check no bound 5"),
    ("l\nend", "l\nn 0\nl\nend", "check no bound 6"),
    ("l\nend", "b 1 0 3 0\nn 0\nb 1 0 3 0\nend", "check no bound 3 2"),
    ("end\n", "", "check no cert 4"),
]


def spoiled(program, inputs):
    """How many of the changed certificates are answered otherwise."""
    wrong = 0
    with tempfile.TemporaryDirectory() as where:
        out = where + "/X"
        subprocess.run([program, "plan", *inputs, out], capture_output=True)
        for old, new, line in SPOILED:
            pathlib.Path(out + ".cert").write_text(CERTIFICATE.replace(old, new, 1) if old else CERTIFICATE)
            check = subprocess.run([program, "check", *inputs, out], capture_output=True, text=True)
            if check.stdout.split("\n")[0] != line:
                wrong += 1
                print(f"{line}: {check.stdout!r}")
    return wrong


def main():
    program = pathlib.Path(sys.argv[1]).resolve()
    examples = pathlib.Path(__file__).resolve().parent.parent / "examples" / "small"
    wrong = 0
    for folder, words, status, printed in ROWS:
        inputs = [str(examples / folder / name) for name in ("ship.toml", "cargo.toml")]
        with tempfile.TemporaryDirectory() as where:
            out = where + "/X"
            run = subprocess.run([program, "plan", *inputs, out, *words], capture_output=True, text=True)
            check = subprocess.run([program, "check", *inputs, out], capture_output=True, text=True)
        fits = run.returncode == status and run.stdout.startswith(printed)
        said_yes = check.returncode == 0 and check.stdout.startswith("check yes\n")
        if not (fits and said_yes):
            wrong += 1
            print(f"{folder} {' '.join(words)}: {run.returncode} {run.stdout!r}, {check.returncode} {check.stdout!r}")
    wrong += spoiled(program, [str(examples / "on-one-another" / name) for name in ("ship.toml", "cargo.toml")])
    print(f"{len(ROWS)} plans, {len(SPOILED)} certificates, {wrong} wrong")
    return 1 if wrong else 0


sys.exit(main())
