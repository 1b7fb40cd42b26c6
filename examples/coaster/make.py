#!/usr/bin/env python3
"""Makes the example of real size: a coaster of about 1,000 TEU, her bookings for eight calls, and the bay plan with which she comes in.

    make.py [FOLDER]     writes ship.toml, cargo.toml and arrival.edi into FOLDER (this folder where it is missing)

The ship: sixteen bays of 40 foot, 06 to 66. Amidships the hold has six rows of three tiers and the deck eight rows of two; both grow
narrower towards the ends. Each bay has two hatch covers, to starboard and to port, on which the deck rows over them stand; the
outermost deck rows stand beside the covers, on stanchions. One bay on deck has reefer plugs in its lower tier. Before and behind them
stand bays of 20 foot, 03 on the forecastle and 69 behind the house, each of four stacks.

The cargo: a loop from Rotterdam by Bremerhaven and Hamburg into the Baltic and back. What loads in the west goes to the Baltic ports,
what loads there goes back to Rotterdam. Flammable liquids (class 3) and oxidizers (class 5.1) may not stand in one stack. The 20-foot
containers cross: what loads first leaves first, in fewer stacks than they would need each by itself. She comes in with the last
round's containers for the western ports.

All is drawn from one number, so every run writes the same files.
"""
import pathlib
import random
import sys

CALLS = ["NLRTM", "DEBRV", "DEHAM", "PLGDY", "LTKLJ", "FIHEL", "SEGOT", "NLRTM"]
FORE, AFT = 2, 70
BAYS = range(6, 70, 4)
REEFER_BAY = 58
CHANCE = random.Random(1956)


def below(n):
    """A number below n. Of Python's generator random() alone is the same in all versions."""
    return int(CHANCE.random() * n)


def pick(weighed):
    """One of these, each as often as its weight says."""
    left = below(sum(weight for _, weight in weighed))
    for item, weight in weighed:
        if left < weight:
            return item
        left -= weight


# ---- the ship


def shape(bay):
    """How many rows and tiers a bay has in the hold, and how many rows on deck."""
    end = min(bay - BAYS[0], BAYS[-1] - bay) // 4  # so many bays from the nearer end
    rows = 4 if end < 2 else 6
    return rows, 2 if end == 0 else 3, rows + 2


def stacks():
    """Each stack: bay, row (odd to starboard, even to port), tiers, lengths, limit, tiers with a plug."""
    for bay, half in ((FORE, "aft"), (AFT, "fore")):
        for row in range(1, 5):
            yield bay, row, [82, 84, 86], half, 60_000, []
    for bay in BAYS:
        hold_rows, hold_tiers, deck_rows = shape(bay)
        for row in range(1, hold_rows + 1):
            yield bay, row, [2 + 2 * tier for tier in range(hold_tiers)], "40", 80_000, []
        for row in range(1, deck_rows + 1):
            yield bay, row, [82, 84], "40", 50_000, [82] if bay == REEFER_BAY else []


def covered(bay, side):
    """The rows under the cover of this side, which are the rows on it."""
    return [row for row in range(1, shape(bay)[0] + 1) if row % 2 == side]


def profile():
    out = ["# A coaster of about 1,000 TEU, made by make.py.", 'name = "BALTIC COASTER"', "weight_step = 10000", ""]
    for bay, row, tiers, length, limit, plugs in stacks():
        out += ["[[stack]]", f"bay = {bay}", f"row = {row}", f"tiers = {tiers}", f'lengths = "{length}"', f"limit_kg = {limit}"]
        out += [f"plugs = {plugs}", ""] if plugs else [""]
    for bay in BAYS:
        for side in (1, 0):
            pairs = [[bay, row] for row in covered(bay, side)]
            out += ["[[cover]]", f"under = {pairs}", f"on = {pairs}", ""]
    return "\n".join([*out, "[[separate]]", 'a = "3"', 'b = "5.1"', "level = 2", ""])


# ---- the containers


def weight():
    return 100 * pick([(30 + below(60), 3), (100 + below(90), 4), (200 + below(80), 3)])


def number(serial):
    return pick([("BALU", 3), ("FSCU", 2), ("TCLU", 2), ("HLXU", 1)]) + f"{serial:07d}"


def long_box(serial, load, to):
    """The keys and values of a booking of 40 foot."""
    it = {"id": number(serial), "from": load, "to": to}
    cargo = pick([("dry", 16), ("empty", 2), ("reefer", 1), ("class 3", 2), ("class 5.1", 2)])
    if cargo == "reefer" and load < 4:
        return it | {"type": "45R1", "kg": 20_000 + 100 * below(80), "vgm": True, "temperature": -18}
    if cargo == "empty" and load >= 4:
        return it | {"type": "42G1", "kg": 3_900, "empty": True}
    if cargo == "class 3" and to == 6:
        return it | {"type": "42G1", "kg": 11_000 + 100 * below(80), "vgm": True, "class": "3", "unno": 1263}
    if cargo == "class 5.1" and to == 6:
        return it | {"type": "42G1", "kg": 11_000 + 100 * below(80), "vgm": True, "class": "5.1", "unno": 1942}
    return it | {"type": pick([("42G1", 1), ("45G1", 1)]), "kg": weight(), "vgm": True}


def short_box(serial, load, to):
    return {"id": number(serial), "from": load, "to": to, "type": "22G1", "kg": 11_000 + 100 * below(80), "vgm": True}


def bookings():
    long = {1: 110, 2: 60, 3: 60, 4: 50, 5: 40, 6: 60, 7: 50}
    short = {1: (5, 8), 2: (6, 5), 3: (7, 8), 4: (8, 2)}  # by call, the one for which they are, and how many
    serial = 1_000_000
    for load, count in long.items():
        for _ in range(count):
            serial += 1 + below(9000)
            yield long_box(serial, load, pick([(4, 3), (5, 2), (6, 3), (7, 2)]) if load < 4 else 8)
        to, count = short.get(load, (8, 0))
        for _ in range(count):
            serial += 1 + below(9000)
            yield short_box(serial, load, to)


def as_toml(value):
    return f'"{value}"' if isinstance(value, str) else str(value).lower()


def cargo():
    out = ["# A round into the Baltic and back, made by make.py.", 'vessel = "BALTIC COASTER"', 'voyage = "0448E"', 'date = "2611280600"']
    out += ["rotation = [" + ", ".join(f'"{port}"' for port in CALLS) + "]", ""]
    for it in bookings():
        out += ["[[container]]", *(f"{key} = {as_toml(value)}" for key, value in it.items()), ""]
    return "\n".join(out)


# ---- the bay plan with which she comes in

def arrived():
    """Each container that is aboard: bay, row, tier, and the call that it is for; each bay is for one call, and its deck for an earlier one."""
    for bay, in_hold, on_deck in [(10, 2, 1), (14, 3, 2), (18, 2, 0), (22, 3, 2), (26, 2, 1), (30, 2, 0), (34, 3, 1)]:
        hold_rows, hold_tiers, deck_rows = shape(bay)
        for row in range(1, hold_rows + 1):
            for tier in range(2, 2 + 2 * hold_tiers, 2):
                yield bay, row, tier, in_hold
        for row in range(1, deck_rows + 1 if on_deck else 1):
            yield bay, row, 82, on_deck


def arrival():
    head = ["UNH+1+BAPLIE:D:95B:UN:SMDG22", "BGM++0447+9", "DTM+137:2611272200:201", "TDT+20+0447W++++++:::BALTIC COASTER"]
    head += ["LOC+5+SEGOT:139:6", "LOC+61+NLRTM:139:6", "DTM+133:2611280600:201"]
    body, serial = [], 8_000_000
    for bay, row, tier, to in arrived():
        serial += 1 + below(900)
        kg = {2: 20_000, 4: 11_000}.get(tier, 3_500) + 100 * below(60)  # the heavy ones below
        body += [f"LOC+147+{bay:03d}{row:02d}{tier:02d}::5", f"MEA+VGM++KGM:{kg}", "LOC+9+FIHEL:139:6"]
        body += [f"LOC+11+{CALLS[to - 1]}:139:6", "RFF+BM:1", f"EQD+CN+{number(serial)}+42G1+++5"]
    tail = [f"UNT+{len(head) + len(body) + 1}+1", "UNZ+1+447"]
    return "".join(f"{line}'\n" for line in ["UNB+UNOA:2+STOW+STOW+261127:2200+447", *head, *body, *tail])


def main():
    folder = pathlib.Path(sys.argv[1] if len(sys.argv) > 1 else __file__).resolve()
    folder = folder if folder.is_dir() else folder.parent
    for name, text in (("ship.toml", profile()), ("cargo.toml", cargo()), ("arrival.edi", arrival())):
        (folder / name).write_text(text, encoding="ascii")


if __name__ == "__main__":
    main()
