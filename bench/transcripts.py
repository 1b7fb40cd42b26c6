#!/usr/bin/env python3
"""Runs the commands that README and the guide show, and compares what they print with what stands there.

    bench/transcripts.py [--programs STOW STOW_VIEW] [--write] [FILE..]

A block that begins with ```console is a transcript: a line that begins with '$ ' is a command, and the lines behind it are what it
prints, to the next command or the end of the block. A line '..' stands for any lines. The blocks of a file are run in order, in one
empty folder that has the repository's examples/ and, as bin/stow and bin/stow-view, the built programs. Commands that prove don't
stand in such blocks. README's picture, docs/coaster.svg, has to be that of the first departure.

--programs STOW STOW_VIEW   the built programs (those of this checkout where it is missing)
--write                     writes what is printed into the files, in place of what stands there, and the picture
FILE..                      README.md and docs/GUIDE.md where none is named
"""
import argparse
import pathlib
import re
import subprocess
import sys
import tempfile

ROOT = pathlib.Path(__file__).resolve().parent.parent
BUILT = [ROOT / "crates" / name / "out" / name for name in ("stow_main", "stow_view")]
PICTURES = {"README.md": ("round-01.edi.svg", ROOT / "docs" / "coaster.svg")}
BLOCK = re.compile(r"(?<=^```console\n)(.*?)(?=^```$)", re.MULTILINE | re.DOTALL)


def room(folder, programs):
    """Lays the programs and the examples into the folder."""
    (folder / "bin").mkdir()
    for name, program in zip(("stow", "stow-view"), programs):
        (folder / "bin" / name).symlink_to(program.resolve())
    (folder / "examples").symlink_to(ROOT / "examples")


def steps(block):
    """The commands of a block, each with the lines that stand behind it."""
    found = []
    for line in block.splitlines():
        if line.startswith("$ "):
            found.append((line[2:], []))
        else:
            found[-1][1].append(line)
    return found


def fits(shown, printed):
    """Whether the lines are those that stand there."""
    if ".." not in shown:
        return shown == printed
    at = shown.index("..")
    head, tail = shown[:at], shown[at + 1 :]
    return len(printed) >= len(head) + len(tail) and printed[:at] == head and printed[len(printed) - len(tail) :] == tail


def anew(shown, printed):
    """What is to stand there: as many lines as before where some are left out."""
    if ".." not in shown:
        return printed
    at = shown.index("..")
    return [*printed[:at], "..", *printed[len(printed) - (len(shown) - at - 1) :]]


def ran(block, folder, name, counts):
    """Runs a block; returns it as it is to be."""
    lines = []
    for command, shown in steps(block):
        run = subprocess.run(["bash", "-c", command], cwd=folder, stdin=subprocess.DEVNULL, stdout=subprocess.PIPE, stderr=subprocess.STDOUT, text=True)
        printed = run.stdout.splitlines()
        counts["commands"] += 1
        if not fits(shown, printed):
            counts["differ"] += 1
            print(f"{name}: {command}\n  stands there: {shown}\n  is printed:   {printed}")
        lines += [f"$ {command}", *anew(shown, printed)]
    return "".join(f"{line}\n" for line in lines)


def main():
    asked = argparse.ArgumentParser(usage=__doc__, add_help=False)
    asked.add_argument("--programs", nargs=2, type=pathlib.Path, default=BUILT)
    asked.add_argument("--write", action="store_true")
    asked.add_argument("files", nargs="*", type=pathlib.Path, default=[ROOT / "README.md", ROOT / "docs" / "GUIDE.md"])
    args = asked.parse_args()
    counts = {"commands": 0, "differ": 0}
    for path in args.files:
        text = path.read_text(encoding="utf-8")
        with tempfile.TemporaryDirectory() as folder:
            room(pathlib.Path(folder), args.programs)
            new = BLOCK.sub(lambda block: ran(block.group(1), folder, path.name, counts), text)
            if path.name in PICTURES:
                made, kept = PICTURES[path.name]
                picture = (pathlib.Path(folder) / made).read_bytes()
                if not kept.exists() or kept.read_bytes() != picture:
                    counts["differ"] += 1
                    print(f"{path.name}: {made} isn't {kept.name}")
                if args.write:
                    kept.write_bytes(picture)
        if args.write:
            path.write_text(new, encoding="utf-8")
    print(f"{counts['commands']} commands, {counts['differ']} differ")
    return 1 if counts["differ"] and not args.write else 0


sys.exit(main())
