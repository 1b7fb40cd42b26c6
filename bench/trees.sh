#!/usr/bin/env bash
# Times `stow check` of the built program, with its peak memory, on certificates whose trees divide each variable by number:
#   feeder: sixteen stacks of six tiers, six calls, 120 containers: 4,609 records over 2,304 variables, each half of value 1 a leaf;
#   deep:   a ship of one kind that sails twelve calls: 100,321 records over 50,160 variables, and 1,003,185 over 125,400;
#           each half of value 1 is a leaf, or is divided again by the next two variables;
#   short:  the same ship, all halves of 19 variables, whose numbers have one digit: 1,048,575 records, the shortest that a tree can have,
#           and the same with one to three steps, and with a raise, in each record;
#   waits:  the same ship, one branch whose half of value 1 has two million raises while the other waits;
#   zero:   the feeder, whose root raises 960 rows and all of whose 2,305 leaves are from zero;
#   nested: the feeder, 1,900 boxes that wait one behind the other, each from zero with a raise; behind them a record that raises 960 rows, and
#           all halves of the next twelve variables, each leaf from zero;
#   chains: the deep ship, 20,000 and 100,000 boxes that wait one behind the other, each from zero with a raise; and the feeder, all halves of
#           four and of six variables, in each of them 2,200 such boxes;
#   turns:  the deep ship, whose root raises 10,000 rows, and all halves of nine and of eleven variables, in each of them 40 such boxes;
#   made:   the ship of `stow make 1`, with steps and raises by rows of five families: 64 MB, or as many as the first word says.
# Aims: the feeder in at most 1 s, also where its leaves are from zero, the deep trees linear in their records, the made ship in at most
# 10 s and 1 GiB with 64 MB; and for trees of a million records and the made ship with 512 MB (the most that is read) at most 8 times the
# certificate's memory. Beside each stands the time with a certificate of one
# record, in which all but the tree is read and built. Each run has a stack of 1 MiB.
set -eu
root=$(cd "$(dirname "$(readlink -f "${BASH_SOURCE[0]}")")/.." && pwd)
"$root/bin/stow" check >/dev/null || true   # builds the program where sources changed
program=$root/crates/stow_main/out/stow_main
folder=$(mktemp -d)
trap 'rm -rf "$folder"' EXIT
cd "$folder"
"$program" make 1 made >/dev/null || rm -f made.*
python3 - "$program" "${1:-64}" <<'PY'
import os, random, re, resource, subprocess, sys, time
program, megabytes = sys.argv[1], int(sys.argv[2])

def feeder():
    text = 'name = "FEEDER"\n'
    for stack in range(16):
        text += f'\n[[stack]]\nbay = {2 + 4 * (stack // 4)}\nrow = {stack % 4}\ntiers = [2, 4, 6, 8, 10, 12]\nlengths = "40"\nlimit_kg = 600000\n'
    open("feeder.profile.toml", "w").write(text)
    text = 'vessel = "FEEDER"\nvoyage = "1"\ndate = "2601010000"\nrotation = ["PAAAA", "PBBBB", "PCCCC", "PDDDD", "PEEEE", "PFFFF"]\n'
    number = 0
    for load, dest in (1, 6), (1, 4), (1, 2), (2, 3), (4, 5):
        for _ in range(24):
            number += 1
            text += f'\n[[container]]\nid = "BENU{number:07d}"\nfrom = {load}\nto = {dest}\ntype = "42G1"\nkg = 20000\n'
    open("feeder.bookings.toml", "w").write(text)

def kinds(name):
    """Destination, whether it is a reefer, and first load of each kind, in order."""
    seen = {}
    for entry in open(name + ".bookings.toml").read().split("[[container]]")[1:]:
        value = lambda key: int(re.search(rf"^{key} = (-?\d+)$", entry, re.M).group(1))
        kind = (value("to"), "temperature" in entry, value("kg"))
        seen[kind] = min(seen.get(kind, value("from")), value("from"))
    return [(dest, reefer, first) for (dest, reefer, _), first in seen.items()]

def variables(kinds, places, plugs):
    return [(put, kind, lifted, place) for put in range(1, 6) for kind, (dest, reefer, first) in enumerate(kinds) if first <= put
            for lifted in range(put + 1, dest + 1) for place in range(places) if not reefer or place in plugs]

def head(nodes):
    return f"stow-cert 1\noutcome undecided\nrehandles none\nbound 0\nnodes {nodes}\n"

def divided(variable):
    return "b {} {} {} {}\n".format(*variable)

def write(name, variables, branch, leaf):
    with open(name + ".cert", "w") as file:
        file.write(head(2 * len(variables) + 1))
        for variable in variables:
            file.write(f"n 0\n{branch()}{divided(variable)}n 0\n{leaf()}l\n")
        file.write("n 0\nl\nend\n")

def deep(stacks):
    text = 'name = "DEEP"\n'
    for stack in range(stacks):
        text += f'\n[[stack]]\nbay = {2 + 4 * (stack // 20)}\nrow = {stack % 20}\ntiers = [2, 4, 6, 8, 10]\nlengths = "40"\nlimit_kg = 600000\n'
    open("deep.profile.toml", "w").write(text)
    ports = ", ".join(f'"P{chr(65 + call) * 4}"' for call in range(12))
    open("deep.bookings.toml", "w").write(f'vessel = "DEEP"\nvoyage = "1"\ndate = "2601010000"\nrotation = [{ports}]\n\n[[container]]\nid = "BENU0000001"\nfrom = 1\nto = 12\ntype = "42G1"\nkg = 20000\n')
    return [(put, 0, lifted, place) for put in range(1, 12) for lifted in range(put + 1, 13) for place in range(5 * stacks)]

def write_wide(name, variables):
    """Each half of value 1 is divided again by the next two variables."""
    some = variables[: len(variables) - 2]
    with open(name + ".cert", "w") as file:
        file.write(head(8 * len(some) + 1))
        for at, variable in enumerate(some):
            first, second = divided(variables[at + 1]), divided(variables[at + 2])
            half = f"n 0\n{second}n 0\nl\nn 0\nl\n"
            file.write(f"n 0\n{divided(variable)}n 0\n{first}{half}{half}")
        file.write("n 0\nl\nend\n")

def write_short(name, variables, lines):
    """All halves of the variables, with these lines in each record."""
    with open(name + ".cert", "w") as file:
        file.write(head(2 ** (len(variables) + 1) - 1))
        levels = [f"n 0\n{lines}{divided(variable)}" for variable in variables]
        last = levels[-1] + 2 * f"n 0\n{lines}l\n"
        for half in range(2 ** (len(variables) - 1)):
            # as many levels begin here as the number of this last half ends in zeros
            begun = len(levels) - 1 if half == 0 else (half & -half).bit_length() - 1
            file.write("".join(levels[len(levels) - 1 - begun : -1]) + last)
        file.write("end\n")

def write_zero(name, variables, rows):
    """The root raises these rows, and each leaf is from zero."""
    with open(name + ".cert", "w") as file:
        file.write(head(2 * len(variables) + 1))
        for at, variable in enumerate(variables):
            raises = "".join(f"r 1 {it}\n" for it in rows) if at == 0 else ""
            file.write(f"n 0\n{raises}{divided(variable)}n 1\nl\n")
        file.write("n 1\nl\nend\n")

def write_waits(name, variable, count):
    """The half of value 1 has so many raises, while the other waits."""
    with open(name + ".cert", "w") as file:
        file.write(head(3) + f"n 0\n{divided(variable)}n 0\n")
        for _ in range(count // 1000):
            file.write("r 1 cell 9 2\nr -1 cell 9 2\n" * 500)
        file.write("l\nn 0\nl\nend\n")

def write_nested(name, variables, layers, rows, width):
    """So many boxes wait one behind the other, each from zero; behind them a record that raises rows, and all halves of some variables."""
    with open(name + ".cert", "w") as file:
        file.write(head(2 * layers + 2 ** (width + 1) - 1))
        for variable in variables[:layers]:
            file.write(f"n 1\nr 1 {rows[0]}\n{divided(variable)}")
        file.write("n 1\n" + "".join(f"r 1 {it}\n" for it in rows))
        levels = [divided(variable) for variable in variables[layers : layers + width]]
        for half in range(2 ** (width - 1)):
            begun = len(levels) - 1 if half == 0 else (half & -half).bit_length() - 1
            for level in range(len(levels) - 1 - begun, len(levels)):
                file.write(("" if half == 0 and level == 0 else "n 0\n") + levels[level])
            file.write(2 * "n 1\nl\n")
        file.write(layers * "n 1\nl\n" + "end\n")

def write_chains(name, variables, width, layers, row, rows=()):
    """The root raises these rows. All halves of some variables; in each so many boxes wait one behind the other, each from zero with a raise."""
    raises = "".join(f"r 1 {it}\n" for it in rows)
    levels = [f"n 0\n{'' if at else raises}{divided(variable)}" for at, variable in enumerate(variables[:width])]
    chain = "".join(f"n 1\nr 1 {row}\n{divided(variable)}" for variable in variables[width : width + layers]) + (layers + 1) * "n 1\nl\n"
    with open(name + ".cert", "w") as file:
        file.write(head(2**width - 1 + 2**width * (2 * layers + 1)))
        for half in range(2**width):
            begun = width if half == 0 else (half & -half).bit_length() - 1
            file.write("".join(levels[width - begun :]) + chain)
        file.write("end\n")

r = random.Random(1)
def row():
    # a half-cell of 32 stacks with three tiers and two sides
    half = lambda tiers: 6 * r.randrange(32) + 2 * r.choice(tiers) + r.randrange(2)
    call = 1 + r.randrange(5)
    return r.choice([
        lambda: f"cell {call} {half([0, 1, 2])}", lambda: f"support {call} {half([1, 2])}", lambda: f"twenty {call} {half([1, 2])}",
        lambda: f"block {call} {half([0, 1])}", lambda: f"weight {call} {r.randrange(32)}"])()
def raised(number):
    rows = [row() for _ in range(number)]
    return "".join(f"r 7 {it}\nr -7 {it}\n" for it in rows)

def timed(name):
    runs, peak = [], 0
    for _ in range(3):
        begin = time.perf_counter()
        child = subprocess.Popen([program, "check", name + ".profile.toml", name + ".bookings.toml", name], stdout=subprocess.PIPE, text=True,
                                 preexec_fn=lambda: resource.setrlimit(resource.RLIMIT_STACK, (1 << 20, 1 << 20)))
        said = child.stdout.read()
        _, status, usage = os.wait4(child.pid, 0)
        runs.append(time.perf_counter() - begin)
        peak = max(peak, usage.ru_maxrss)
    return min(runs), peak, os.waitstatus_to_exitcode(status), " ".join(said.split())

def measure(name):
    took, peak, status, said = timed(name)
    size = os.path.getsize(name + ".cert")
    with open(name + ".cert", "w") as file:
        file.write(head(1) + "n 0\nl\nend\n")
    print(f"{name}: {size} bytes, status {status}, {said}; least {took:.2f} s of 3, with one record {timed(name)[0]:.2f} s, peak {peak / 1024:.0f} MB, {1024 * peak / size:.1f} times the certificate", flush=True)

feeder()
write("feeder", variables(kinds("feeder"), 96, ()), lambda: "", lambda: "")
measure("feeder")
write("deep", deep(152), lambda: "", lambda: "")
measure("deep")
write_wide("deep", deep(380))
measure("deep")
short = [variable for variable in deep(380) if variable[2] < 10 and variable[3] < 10][:19]
for lines in "", "s cell 9 2\n", "r 0 cell 9 2\n", 2 * "s cell 9 2\n", 3 * "s cell 9 2\n":
    write_short("deep", short, lines)
    measure("deep")
write_zero("feeder", variables(kinds("feeder"), 96, ()), [f"cell {call} {half}" for call in range(1, 6) for half in range(192)])
measure("feeder")
write_nested("feeder", variables(kinds("feeder"), 96, ()), 1900, [f"cell {call} {half}" for call in range(1, 6) for half in range(192)], 12)
measure("feeder")
for layers in 20_000, 100_000:
    write_chains("deep", deep(380), 0, layers, "cell 9 2")
    measure("deep")
for width in 4, 6:
    write_chains("feeder", variables(kinds("feeder"), 96, ()), width, 2200, "cell 1 0")
    measure("feeder")
for width in 9, 11:
    write_chains("deep", deep(380), width, 40, "cell 9 2", [f"cell {call} {half}" for call in range(5, 8) for half in range(3800)][:10_000])
    measure("deep")
write_waits("deep", short[0], 2_000_000)
measure("deep")
if os.path.exists("made.profile.toml"):
    made = variables(kinds("made"), 96, {3 * stack for stack in range(16, 32)})
    each = megabytes * 1_000_000 // (len(made) * 93)
    write("made", made, lambda: raised(each), lambda: "".join(f"s {row()}\n" for _ in range(2 * each)) + raised(each))
    measure("made")
PY
