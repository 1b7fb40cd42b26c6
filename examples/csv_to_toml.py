#!/usr/bin/env python3
"""Turns a list of bookings from a spreadsheet (saved as CSV) into the bookings that stow reads.

    csv_to_toml.py LIST.csv VESSEL VOYAGE DATE PORT,PORT,.. > cargo.toml

DATE is YYMMDDHHMM, and the ports are those of the rotation, in order. The first line of the list names its columns, in any order:
id, from, to, type and kg; and, where they are wanted, vgm and empty (yes or nothing), temperature, class and unno. Further columns
are passed over. A container loads and leaves at a call's number or at a port: `from` is the first call there, and `to` the first one
behind `from`.
"""
import csv
import sys

COLUMNS = ["id", "from", "to", "type", "kg", "vgm", "empty", "temperature", "class", "unno"]
TEXTS = ["id", "type", "class"]


def call_of(word, ports, behind):
    """The call that a number or a port means, behind this one."""
    if word.isdigit():
        return int(word)
    calls = [call for call, port in enumerate(ports, 1) if port == word and call > behind]
    if not calls:
        raise SystemExit(f"no call at {word} behind call {behind}")
    return calls[0]


def container(row, ports):
    """The lines of one container."""
    row["from"] = call_of(row["from"], ports, 0)
    row["to"] = call_of(row["to"], ports, row["from"])
    yield "[[container]]"
    for name in COLUMNS:
        value = row.get(name, "")
        if value == "":
            continue
        if name in TEXTS:
            value = f'"{value}"'
        elif name in ("vgm", "empty"):
            value = str(value.lower() in ("yes", "true", "x", "1")).lower()
        yield f"{name} = {value}"
    yield ""


def main():
    if len(sys.argv) != 6:
        raise SystemExit(__doc__)
    path, vessel, voyage, date, rotation = sys.argv[1:]
    ports = rotation.split(",")
    listed = ", ".join(f'"{port}"' for port in ports)
    lines = [f'vessel = "{vessel}"', f'voyage = "{voyage}"', f'date = "{date}"', f"rotation = [{listed}]", ""]
    with open(path, encoding="utf-8-sig", newline="") as file:
        for row in csv.DictReader(file):
            words = {(name or "").strip().lower(): (value or "").strip() for name, value in row.items() if isinstance(value, (str, type(None)))}
            lines += container(words, ports)
    print("\n".join(lines))


if __name__ == "__main__":
    main()
