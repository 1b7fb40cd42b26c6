#!/usr/bin/env python3
"""Compares the loader's departures, the lists of least lifts and the cost of random small ships with those of a reference model:
ships with covers, stacks of each kind, plugs, stack weights and separations, some of which come in loaded.

lists.py PROBE REFERENCE [COUNT]    where PROBE is the built voyage_probe and COUNT the number of ships, 2,000 by default

REFERENCE is a program that is given a folder with the folders 0, 1 and so on, in each of which lie `ship`, `cargo` and perhaps
`arrival`. For each in turn it prints what the probe prints for `load` and `lifts`: lines `departure CALL: PLACE:CONTAINER ..`, or
`no plan`; lines `lifted CALL: CONTAINER ..` and `cost N`, or `no plan`; or, for both, the line that refuses an input.
"""
import pathlib
import random
import subprocess
import sys
import tempfile

LENGTHS = ["40", "20", "20/40", "20/40", "fore", "aft"]


def ship(r):
    stacks, covers = [], []
    for bay in (2, 6)[:r.randint(1, 2)]:
        rows = range(1, r.randint(2, 4))
        for row in rows:
            for first, most in ((2, 3), (82, 3)):
                if r.random() < 0.75:
                    tiers = [first + 2 * n for n in range(r.randint(1, most))]
                    plugs = [tier for tier in tiers if r.random() < 0.4]
                    stacks.append((bay, row, tiers, r.choice(LENGTHS), r.choice([40000, 60000, 90000, 1000000]), plugs))
        for row in rows:
            under = [[bay, row]] if any(s[:2] == (bay, row) and s[2][0] < 80 for s in stacks) else []
            on = [[bay, row]] if any(s[:2] == (bay, row) and s[2][0] > 80 for s in stacks) else []
            if (under or on) and r.random() < 0.7:
                covers.append((under, on))
    if not stacks:
        stacks.append((2, 1, [82, 84], "20/40", 1000000, [82]))
    text = f'name = "V"\nweight_step = {r.choice([1, 500, 1000, 5000])}\n'
    for bay, row, tiers, lengths, limit, plugs in stacks:
        text += f'[[stack]]\nbay = {bay}\nrow = {row}\ntiers = {tiers}\nlengths = "{lengths}"\nlimit_kg = {limit}\nplugs = {plugs}\n'
    for under, on in covers:
        text += f"[[cover]]\nunder = {under}\non = {on}\n"
    for a, b in r.sample([("3", "8"), ("3", "3"), ("8", "5.1")], r.choice([0, 0, 1, 2])):
        text += f'[[separate]]\na = "{a}"\nb = "{b}"\nlevel = {r.randint(1, 3)}\n'
    return text, stacks


def cargo(r, ports):
    text = f'vessel = "V"\nvoyage = "1"\ndate = "2601010000"\nrotation = {ports}\n'.replace("'", '"')
    for number in range(r.choice([0, 3, 6, 10, 16])):
        load = r.randint(1, len(ports) - 1)
        dest = r.randint(load + 1, len(ports))
        text += f'[[container]]\nid = "B{number}"\nfrom = {load}\nto = {dest}\ntype = "{r.choice(["22G1", "42G1", "42G1"])}"\nkg = {r.randint(1, 25000)}\n'
        if r.random() < 0.15:
            text += "temperature = -18\n"
        if r.random() < 0.25:
            text += f'class = "{r.choice(["3", "8", "5.1"])}"\n'
    return text


def arrival(r, stacks, ports):
    groups, number = [], 0
    for bay, row, tiers, lengths, _, plugs in stacks:
        odd = {"fore": [bay - 1], "aft": [bay + 1]}.get(lengths, [bay - 1, bay + 1])
        height = r.randint(0, len(tiers))
        short = 0 if lengths == "40" else height if lengths in ("20", "fore", "aft") else r.randint(0, height)
        for level, tier in enumerate(tiers[:height]):
            for cell in odd if level < short else [bay]:
                cold = "TMP+2+-18:CEL'" if tier in plugs and r.random() < 0.3 else ""
                goods = f"DGS+IMD+{r.choice(['3', '8'])}'" if r.random() < 0.15 else ""
                kind = "22G1" if level < short else "42G1"
                groups.append(f"LOC+147+{cell:03d}{row:02d}{tier:02d}'MEA+WT++KGM:{r.randint(1, 25000)}'{cold}LOC+11+{r.choice(ports)}'EQD+CN+A{number}+{kind}'{goods}")
                number += 1
    r.shuffle(groups)
    body = "UNH+1+BAPLIE:D:95B:UN:SMDG22'" + "".join(groups)
    return f"UNB+UNOA:2+L+S+260131:0900+7'{body}UNT+{body.count(chr(39)) + 1}+1'UNZ+1+7'"


def case(number):
    r = random.Random(number)
    profile, stacks = ship(r)
    ports = [chr(65 + n) * 5 for n in range(r.randint(2, 6))]
    if len(ports) > 3 and r.random() < 0.2:
        ports[-1] = ports[1]
    files = {"ship": profile, "cargo": cargo(r, ports)}
    if r.random() < 0.5:
        files["arrival"] = arrival(r, stacks, ports)
    return files


def main():
    probe, reference = (str(pathlib.Path(word).resolve()) for word in sys.argv[1:3])
    count = int(sys.argv[3]) if len(sys.argv) > 3 else 2000
    with tempfile.TemporaryDirectory() as top:
        questions = ""
        for number in range(count):
            folder = pathlib.Path(top) / str(number)
            folder.mkdir()
            files = case(number)
            for name, text in files.items():
                (folder / name).write_text(text)
                questions += f"< {name}\n{text.rstrip()}\n>\n"
            questions += f"# {number}\nvoyage {' '.join(files)}\nload\nlifts\n"
        (pathlib.Path(top) / "questions").write_text(questions)
        mine = subprocess.run([probe, "questions"], cwd=top, stdout=subprocess.PIPE, check=True).stdout.decode()
        other = subprocess.run([reference, top], stdout=subprocess.PIPE, check=True).stdout.decode()
    answers = [{text.split("\n", 1)[0]: text.split("\n", 1)[1] for text in said.split("# ")[1:]} for said in (mine, other)]
    assert list(answers[0]) == list(answers[1]) == [str(number) for number in range(count)]
    differ = [number for number in answers[0] if answers[0][number] != answers[1][number]]
    for number in differ[:20]:
        print(f"ship {number}: {answers[0][number]!r}\n    in place of {answers[1][number]!r}")
    planned = [text for text in answers[0].values() if "departure" in text]
    lifted = sum("cost 0" not in text for text in planned)
    print(f"{count} ships, {len(planned)} with plans, {lifted} of these at a cost, {sum('refused' in text for text in answers[0].values())} refused; {len(differ)} differ")
    sys.exit(1 if differ else 0)


main()
