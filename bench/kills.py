#!/usr/bin/env python3
"""Kills runs that write over the files of an earlier voyage, fills their disk, and runs two over one OUT at once.

usage: bench/kills.py PROGRAM [KILLS [PAIRS]]

PROGRAM is the built program `stow`. Each run is a `plan` or a `make` in a folder with the files of an earlier voyage, which has more
calls or other bookings. After it each name has to hold what it held before or the whole new text, in the order in which they are
written, and nothing else may stand there but one file `.stow-PROCESS-NUMBER.part` of a run that was killed.

- KILLS (1,000) runs are killed: half of them at a moment by chance, half up to 5 ms after the first file is begun. Where some names
  hold new texts and others don't, `check` says no, or which file is missing. Each killed run that left a file is run again to its end:
  then all names hold the new texts and nothing else stands there.
- The disk is full: a small file system in memory, of each size at which another file fits; and no file may have more than so many bytes.
  (The first needs the right to mount one, in a name space of its own; without it that is said.) The status is 7, with the name of a file.
- Over a quota: each call of the system that makes, fills, syncs or renames a file is refused once with EDQUOT, which `strace` puts in its
  place. The status is 7, with the name of a file (or nothing where the line itself was refused), or the run's own, with its own files.
- PAIRS (200) times two runs write other voyages over one OUT at once, and what stands under the names is read all the while: each text
  that is read is the earlier one or one of the two.
- Targets that aren't plain files of the folder: see `TARGETS` below.

It prints what was tried and what went wrong, and ends with 1 where anything did.
"""
import itertools
import os
import pathlib
import random
import re
import resource
import shutil
import signal
import stat
import subprocess
import sys
import tempfile
import time

ROOT = pathlib.Path(__file__).resolve().parent.parent
PART = re.compile(r"\.stow-(\d+)-\d+\.part")
INPUTS = ("ship.toml", "cargo.toml")
NOBODY = 65534
QUOTA_CALLS = ("openat", "write", "fdatasync", "fsync", "rename", "renameat", "renameat2")

wrong = []


def look(well, what):
    if not well:
        wrong.append(what)
        print(f"wrong: {what}")


def texts_of(folder):
    """What stands in a folder, but for the inputs."""
    return {it.name: it.read_bytes() for it in sorted(folder.iterdir()) if it.name not in INPUTS and it.is_file()}


class Case:
    """A run over the files of an earlier voyage: its words, the texts before and after, and how long it takes."""

    def __init__(self, program, top, name, earlier, words, inputs):
        self.program, self.name, self.words, self.folder, self.inputs = program, name, words, top / name, inputs
        self.folder.mkdir()
        self.old = {}
        self.lay(earlier[1])
        subprocess.run([program, *earlier[0]], cwd=self.folder, stdout=subprocess.DEVNULL)
        earlier_texts = texts_of(self.folder)
        self.lay()
        begin = time.perf_counter()
        self.printed = self.run()
        self.seconds = time.perf_counter() - begin
        self.new = texts_of(self.folder)
        self.old = earlier_texts
        self.after = self.old | self.new
        # (the order of the names is that of the writes: the ship and bookings of `make`, then the calls, then the certificate)
        self.order = sorted(self.new, key=lambda it: (it.endswith(".cert"), not it.endswith(".toml"), "bookings" in it, it))
        self.told = [it for it in self.order if self.new[it] != self.old.get(it)]
        self.check = ["check", *(INPUTS if words[0] == "plan" else ("X.profile.toml", "X.bookings.toml")), "X"]

    def lay(self, inputs=None, into=None):
        """Leaves the inputs and the earlier voyage in the folder, and nothing else."""
        folder = into or self.folder
        for it in folder.iterdir():
            it.unlink()
        for name, source in zip(INPUTS, inputs or self.inputs):
            shutil.copy(source, folder / name)
        for name, text in self.old.items():
            (folder / name).write_bytes(text)

    def start(self, folder=None, **how):
        return subprocess.Popen([self.program, *self.words], cwd=folder or self.folder, stdout=subprocess.PIPE, text=True, **how)

    def run(self, folder=None, **how):
        process = self.start(folder, **how)
        printed = process.communicate()[0]
        return process.returncode, printed

    def judge(self, what, process=None, folder=None):
        """Looks at a folder after a run that ended early; returns how many names hold new texts, and what else stands there."""
        found = texts_of(folder or self.folder)
        others = [it for it in found if it not in self.after]
        look(len(others) <= (process is not None), f"{what}: left behind {others}")
        for it in others:
            owner = PART.fullmatch(it)
            look(owner and int(owner[1]) == process, f"{what}: left behind {it}")
        for it in self.after:
            look(found.get(it) in (self.old.get(it), self.after[it]), f"{what}: {it} is torn")
        fresh = [found.get(it) == self.new[it] for it in self.told]
        look(fresh == sorted(fresh, reverse=True), f"{what}: not in order, {fresh}")
        return sum(fresh), others


def wait_for_writes(process, folder):
    """Waits until a run has begun its first file, or has changed the folder and ended."""
    begin = os.stat(folder).st_mtime_ns
    while process.poll() is None and os.stat(folder).st_mtime_ns == begin:
        pass


def kill(case, chance, number, answers):
    """Kills a run; returns what its folder holds, and whether a file that was begun stands there."""
    case.lay()
    process = case.start()
    if number % 2:
        wait_for_writes(process, case.folder)
        time.sleep(chance.uniform(0, 0.005))
    else:
        time.sleep(chance.uniform(0, 1.1 * case.seconds))
    process.kill()
    process.communicate()
    ended = process.returncode != -signal.SIGKILL
    fresh, others = case.judge(f"{case.name}, kill {number}", process.pid)
    counted = "ended before" if ended else "all old" if fresh == 0 else "all new" if fresh == len(case.told) else "some new"
    if counted == "some new":
        judged = subprocess.run([case.program, *case.check], cwd=case.folder, stdout=subprocess.PIPE, text=True)
        look(judged.returncode in (1, 7), f"{case.name}, kill {number}: a mix is judged {judged.stdout!r}")
        answer = " ".join(judged.stdout.split()[:3])
        answers[answer] = answers.get(answer, 0) + 1
    if others:
        look(case.run() == case.printed, f"{case.name}, kill {number}: the next run ends otherwise")
        look(texts_of(case.folder) == case.after, f"{case.name}, kill {number}: the next run leaves {sorted(texts_of(case.folder))}")
    return counted, bool(others)


def kills(cases, count, chance):
    counts, answers, left = {}, {}, 0
    for number in range(count):
        how, has_left = kill(cases[number // 2 % len(cases)], chance, number, answers)
        counts[how] = counts.get(how, 0) + 1
        left += has_left
    said = ", ".join(f"{counts[it]} {it}" for it in sorted(counts))
    print(f"{count} kills: {said}; {left} left a file that was begun, which the next run took away")
    print("check of those with some new: " + ", ".join(f"{answers[it]} {it}" for it in sorted(answers)))


def faulted(case, what, folder, **how):
    """A run that some write ends, or that ends well; returns whether a write failed."""
    status, printed = case.run(folder, **how)
    failed = re.fullmatch(r"fault write (.*)\n", printed)
    look((status, printed) == case.printed or status == 7 and failed and failed[1] in case.order, f"{what}: {status} {printed!r}")
    fresh, _ = case.judge(what, None, folder)
    if failed and failed[1] in case.told:
        look(case.told.index(failed[1]) == fresh, f"{what}: {failed[1]}, where {fresh} files are new")
    return bool(failed)


def limited(cases):
    """No file may have more than so many bytes: by a signal that ends the run, or by a fault."""
    count = faults = ended = 0
    for case in cases:
        for size in sorted({0, 1, *(len(text) - 1 for text in case.new.values()), *(len(text) for text in case.new.values())}):
            what = f"{case.name}, files of {size} bytes"

            def limit(with_fault):
                signal.signal(signal.SIGXFSZ, signal.SIG_IGN if with_fault else signal.SIG_DFL)
                resource.setrlimit(resource.RLIMIT_FSIZE, (size, size))

            case.lay()
            faults += faulted(case, what, case.folder, preexec_fn=lambda: limit(True), restore_signals=False)
            case.lay()
            process = case.start(preexec_fn=lambda: limit(False), restore_signals=False)
            process.communicate()
            case.judge(f"{what}, by a signal", process.pid)
            ended += process.returncode == -signal.SIGXFSZ
            count += 2
    print(f"{count} runs with a limit on the bytes of a file: {faults} faults, {ended} ended by a signal")


def full(cases, top):
    """A disk without room: a small file system of its own, mounted in a name space of its own by a run of this script."""
    disk = top / "disk"
    disk.mkdir()
    count = faults = 0
    for case in cases:
        for pages in range(8, 8 + 2 * sum(len(text) // 4096 + 1 for text in case.after.values())):
            options = f"size={pages * 4096},mode=777"
            if subprocess.run(["mount", "-t", "tmpfs", "-o", options, "stow", str(disk)], stderr=subprocess.DEVNULL).returncode:
                return print("no full disk: a file system can't be mounted here")
            try:
                case.lay(into=disk)
                faults += faulted(case, f"{case.name}, a disk of {pages} pages", disk)
                count += 1
            except OSError:
                pass  # (no room for the earlier voyage)
            finally:
                subprocess.run(["umount", str(disk)], check=True)
    print(f"{count} runs on a disk with little room: {faults} faults")


def refused(cases, top):
    """A quota, by refused calls: `strace` answers one call of a kind by EDQUOT, the first of a run, the second, and so on."""
    if not shutil.which("strace"):
        return print("no quota: there is no strace here")
    told = top / "calls"
    count = faults = 0
    for case in cases:
        for call in QUOTA_CALLS:
            for number in itertools.count(1):
                case.lay()
                tracing = ["strace", "-f", "-qq", "-o", str(told), "-e", f"trace={call}", "-e", f"inject={call}:error=EDQUOT:when={number}"]
                ran = subprocess.run([*tracing, case.program, *case.words], cwd=case.folder, stdout=subprocess.PIPE, text=True)
                injected = [it for it in told.read_text().splitlines() if "(INJECTED)" in it]
                if not injected:
                    break
                what = f"{case.name}, {call} {number} over the quota"
                fault = re.fullmatch(r"fault (read|write) (.*)\n", ran.stdout)
                well = (ran.returncode, ran.stdout) == case.printed or ran.returncode == 7 and (fault or not ran.stdout)
                look(well, f"{what}: {ran.returncode} {ran.stdout!r}")
                fresh, _ = case.judge(what)
                if fault and fault[1] == "read":
                    look(fresh == 0, f"{what}: {fresh} files are new")
                elif fault and fault[2] in case.told:
                    look(case.told.index(fault[2]) == fresh, f"{what}: {fault[2]}, where {fresh} files are new")
                elif not fault:
                    look(fresh == len(case.told), f"{what}: {fresh} files are new")
                count += 1
                faults += bool(fault)
    print(f"{count} calls refused as over a quota: {faults} faults")


def pairs(one, two, count, chance):
    """Two runs over one OUT at once."""
    reads = mixed = 0
    names = one.after | two.after
    for number in range(count):
        what = f"pair {number}"
        one.lay()
        first = one.start()
        time.sleep(chance.uniform(0, 0.01))
        second = two.start(one.folder)
        while first.poll() is None or second.poll() is None:
            for it in names:
                text = (one.folder / it).read_bytes() if (one.folder / it).exists() else None
                reads += 1
                look(text in (one.old.get(it), one.new.get(it, one.old.get(it)), two.new.get(it)), f"{what}: {it} is torn")
        for case, process in ((one, first), (two, second)):
            look((process.returncode, process.communicate()[0]) == case.printed, f"{what}: status {process.returncode}")
        found = texts_of(one.folder)
        look(set(found) == set(names), f"{what}: left {sorted(set(found) ^ set(names))}")
        for it in names:
            look(found[it] in (one.after.get(it), two.after.get(it)), f"{what}: {it} is torn")
        mixed += not all(found[it] == one.after[it] for it in one.new) and not all(found[it] == two.after[it] for it in two.new)
    print(f"{count} pairs of runs over one OUT: {reads} texts read meanwhile, {mixed} left files of both")


def as_nobody():
    """Gives up the rights of the first user, for whom nothing is read-only."""
    if os.geteuid() == 0:
        os.setgroups([])
        os.setgid(NOBODY)
        os.setuid(NOBODY)


def link(folder):
    os.rename(folder / "X.cert", folder / "far.cert")
    os.symlink("far.cert", folder / "X.cert")


def far_link(folder):
    (folder / "far").mkdir()
    os.chmod(folder / "far", 0o777)
    os.symlink("far/X.cert", folder / "middle")
    os.unlink(folder / "X.cert")
    os.symlink(folder / "middle", folder / "X.cert")


def circle(folder):
    os.unlink(folder / "X.cert")
    os.symlink("X.cert", folder / "X.cert")


def hard_link(folder):
    os.link(folder / "X.cert", folder / "kept.cert")


def read_only(folder):
    os.chmod(folder / "X.cert", 0o444)


def private(folder):
    os.chmod(folder / "X.cert", 0o600)


def device(folder):
    os.unlink(folder / "X.cert")
    os.symlink("/dev/full", folder / "X.cert")


def nothing_made(folder):
    os.chmod(folder, 0o555)


def a_folder(folder):
    os.unlink(folder / "X.cert")
    (folder / "X.cert").mkdir()


# what is done to the folder before the run, which file has to hold what after it, and whether the certificate fails
TARGETS = (
    ("a link to a file: the file is replaced", link, lambda at, old, new: (at / "X.cert").is_symlink() and (at / "far.cert").read_bytes() == new, False),
    ("links to no file: it is made", far_link, lambda at, old, new: (at / "X.cert").is_symlink() and (at / "far" / "X.cert").read_bytes() == new, False),
    ("a link to itself", circle, lambda at, old, new: (at / "X.cert").is_symlink(), True),
    ("a file of two names: the other keeps its text", hard_link, lambda at, old, new: (at / "kept.cert").read_bytes() == old and (at / "X.cert").read_bytes() == new, False),
    ("a file that may not be written", read_only, lambda at, old, new: (at / "X.cert").read_bytes() == old, True),
    ("a file of its owner: its rights stay", private, lambda at, old, new: stat.S_IMODE((at / "X.cert").stat().st_mode) == 0o600, False),
    ("a device takes the bytes as they come", device, lambda at, old, new: (at / "X.cert").is_symlink(), True),
    ("a folder under the name", a_folder, lambda at, old, new: (at / "X.cert").is_dir(), True),
    ("a folder in which nothing can be made", nothing_made, lambda at, old, new: (at / "X.cert").read_bytes() == old, True),
)


def targets(case):
    for name, prepare, holds, fails in TARGETS:
        with tempfile.TemporaryDirectory() as top:
            folder = pathlib.Path(top) / "at"
            folder.mkdir()
            os.chmod(top, 0o755)
            case.lay(into=folder)
            for it in folder.iterdir():
                os.chmod(it, 0o666)
                os.chown(it, NOBODY if os.geteuid() == 0 else -1, -1)
            os.chmod(folder, 0o777)
            prepare(folder)
            status, printed = case.run(folder, preexec_fn=as_nobody)
            os.chmod(folder, 0o777)
            look(holds(folder, case.old["X.cert"], case.new["X.cert"]), f"{name}: it doesn't hold that")
            look(printed.startswith("fault write X") if fails else (status, printed) == case.printed, f"{name}: {status} {printed!r}")
            look(not any(PART.fullmatch(it) for it in os.listdir(folder)), f"{name}: a file is left")
    print(f"{len(TARGETS)} targets of other kinds")


def main():
    program = str(pathlib.Path(sys.argv[1]).resolve())
    count = int(sys.argv[2]) if len(sys.argv) > 2 else 1000
    couples = int(sys.argv[3]) if len(sys.argv) > 3 else 200
    chance = random.Random(70)
    feeder, guide = ROOT / "examples" / "feeder", ROOT / "examples" / "guide"
    with tempfile.TemporaryDirectory() as top:
        top = pathlib.Path(top)
        os.chmod(top, 0o755)
        own = top / "first.toml"
        words = ["BALTIC DART", "0101N", "2612010600", "NLRTM,DEHAM,DKAAR,SEGOT"]
        own.write_bytes(subprocess.run([ROOT / "examples" / "csv_to_toml.py", guide / "bookings.csv", *words], capture_output=True, check=True).stdout)
        long, short = (feeder / "ship.toml", feeder / "cargo.toml"), (guide / "ship.toml", own)
        plan = ["plan", *INPUTS, "X"]
        cases = [
            Case(program, top, "a short voyage over a long one", (plan, long), plan, short),
            Case(program, top, "a long voyage over a short one", (plan, short), plan, long),
            Case(program, top, "a made voyage over another", (["make", "7", "X"], long), ["make", "8", "X"], long),
        ]
        other = Case(program, top, "a third made voyage", (["make", "7", "X"], long), ["make", "9", "X"], long)
        for case in cases:
            print(f"{case.name}: {len(case.new)} files, {sum(map(len, case.new.values()))} bytes, {case.seconds:.3f} s")
        targets(cases[0])
        limited(cases)
        full(cases, top)
        refused(cases, top)
        pairs(cases[2], other, couples, chance)
        kills(cases, count, chance)
    print(f"{len(wrong)} wrong")
    return 1 if wrong else 0


if __name__ == "__main__":
    if len(sys.argv) < 2:
        sys.exit(__doc__)
    # (a file system is mounted where no other process sees it)
    if os.geteuid() == 0 and "STOW_KILLS" not in os.environ and shutil.which("unshare"):
        if subprocess.run(["unshare", "--mount", "true"], stderr=subprocess.DEVNULL).returncode == 0:
            os.environ["STOW_KILLS"] = "own"
            os.execvp("unshare", ["unshare", "--mount", sys.executable, *sys.argv])
    sys.exit(main())
