#!/usr/bin/env python3
"""Measures the nodes a second of `stow plan` with several workers, beside those with one.

    bench/workers.py INSTANCES [--numbers FIRST COUNT] [--budget N] [--groups NAME,..] [--workers N,..] [--runs N] [--beside] [--same] [--program FILE]

INSTANCES is a folder with `instances.py`, which makes the ships (`instances.py list` names the groups, `instances.py GROUP FIRST
COUNT FOLDER` writes them). Ships that need fewer than 2,000 nodes with one worker are left out. From each run one with a budget of
1,001 nodes is taken off, with as many workers: so what comes before the search, all voyages by chance among it, doesn't count, but
what comes behind it does, since it grows with the nodes: one tree of all records, and the check of its bound. "A second" is by the
clock, so nothing else is to run; "us a node" is the processor time of all workers, which other programs spoil less.

What processors do while others rest isn't what they do while all are busy, least of all those of a virtual machine. With --beside a
program with few workers runs beside copies of itself, so that as many workers run as with the most: four programs of one worker, two
of two, one of four. So "times" says what the workers of one program cost each other, and not what busy processors do. Each run then
stands for as many searches: one time the four programs of one worker, two times the two of two, four times the one of four.

Several workers search other parts of the tree than one does, and nodes there can take more or less time. With --same the workers also
run on one processor, where they take turns, so that they search as they do on several: "same" is how many times as fast they are on
one processor each as on one for all, which tells what the processors bring from what the nodes of another tree take.

--numbers FIRST COUNT   the ships of each group (0 3 where it is missing)
--budget N              the nodes of each search (100000 where it is missing)
--groups NAME,..        these groups alone
--workers N,..          these numbers of workers (1,2,4 where it is missing); the first is what the others stand beside
--runs N                how often each run is made (1 where it is missing), one number of workers after the other, and every other time
                        from the most workers on; each ship is run once before one is run again, so that minutes in which the
                        machine is slow spoil one run of a ship and not all; the middle of each figure counts, "times" among them
--beside                each run beside copies of itself, as above; all their nodes are divided by all their seconds
--same                  the same workers on one processor besides, as above: with --beside as many programs of them as there are workers
                        at most, each on a processor of its own
--program FILE          the program that is measured, in place of the built one
"""
import argparse
import concurrent.futures
import os
import statistics
import subprocess
import sys
import tempfile
import time

ROOT = os.path.dirname(os.path.dirname(os.path.realpath(__file__)))
FIRST = 1001


class Run:
    """One run: the nodes that were handled, the seconds by the clock and those of all processors; no nodes where the ship is refused."""

    def __init__(self, program, folder, ship, out, budget, workers, processors):
        words = [program, "plan", f"{ship}.ship.toml", f"{ship}.cargo.toml", out, "--budget", str(budget), "--workers", str(workers)]
        begun = time.perf_counter()
        running = subprocess.Popen(words, cwd=folder, stdout=subprocess.PIPE, text=True)
        os.sched_setaffinity(running.pid, processors)
        printed = running.stdout.read()
        _, status, used = os.wait4(running.pid, 0)
        self.seconds = time.perf_counter() - begun
        running.returncode = os.waitstatus_to_exitcode(status)
        self.used = used.ru_utime + used.ru_stime
        said = dict(line.split(" ", 1) for line in printed.splitlines() if " " in line)
        if running.returncode != 6 and "nodes" not in said:
            raise SystemExit(f"{ship}: status {running.returncode}: {printed}")
        self.nodes = int(said.get("nodes", 0))


def side_by_side(args, folder, ship, budget, workers, bound):
    """Runs of one search: one, or with --beside as many as there are workers at most, so many of them at the same time as make up the most workers. Where they are bound, each has one processor for all its workers."""
    together = (max(args.workers) // (1 if bound else workers)) if args.beside else 1
    searches = max(args.workers) if args.beside else 1
    all_processors = sorted(os.sched_getaffinity(0))

    def run(k):
        processors = {all_processors[k % len(all_processors)]} if bound else all_processors
        return Run(args.program, folder, ship, f"X{k}", budget, workers, processors)

    with concurrent.futures.ThreadPoolExecutor(together) as pool:
        return [done for first in range(0, searches, together) for done in pool.map(run, range(first, first + together))]


class Speed:
    """What a search did past its first nodes: the nodes, those a second by the clock, and the processor time of each."""

    def __init__(self, args, folder, ship, workers, bound=False):
        firsts = side_by_side(args, folder, ship, FIRST, workers, bound)
        wholes = side_by_side(args, folder, ship, args.budget, workers, bound)
        self.first, self.nodes = firsts[0].nodes, wholes[0].nodes
        self.past = self.nodes - self.first

        def past(what):
            return sum(map(what, wholes)) - sum(map(what, firsts))

        nodes = past(lambda run: run.nodes)
        self.rate = nodes / max(past(lambda run: run.seconds), 0.001)
        self.used = 1e6 * past(lambda run: run.used) / max(nodes, 1)


class Series:
    """The runs of one ship: in each its speed with each number of workers, and with --same that of several on one processor."""

    def __init__(self, ship):
        self.ship, self.rounds, self.bound = ship, [], []

    def run(self, args, folder):
        """Makes one more run."""
        order = args.workers if len(self.rounds) % 2 == 0 else args.workers[::-1]
        speeds = {workers: Speed(args, folder, self.ship, workers) for workers in order}
        self.rounds.append([speeds[workers] for workers in args.workers])
        if not self.is_long():
            return
        if args.same:
            self.bound.append([Speed(args, folder, self.ship, workers, bound=True) for workers in args.workers[1:]])
        times = " ".join(f"{speed.rate / self.rounds[-1][0].rate:.2f}" for speed in self.rounds[-1])
        print(f"run {len(self.rounds)} of {args.runs}: {self.ship} {times}", file=sys.stderr, flush=True)

    def is_long(self):
        """Whether the ship needs nodes enough to tell a speed."""
        one = self.rounds[0][0]
        return one.first >= FIRST and one.past >= 1000

    def row(self, workers):
        """The middle of each figure."""
        row = [self.ship]
        for place in range(len(workers)):
            speeds = [one_round[place] for one_round in self.rounds]
            rate = statistics.median(speed.rate for speed in speeds)
            times = statistics.median(one_round[place].rate / one_round[0].rate for one_round in self.rounds)
            used = statistics.median(speed.used for speed in speeds)
            row += [str(speeds[0].nodes), f"{rate:.0f}", f"{times:.2f}", f"{used:.0f}"]
            if self.bound and place > 0:
                same = statistics.median(free[place].rate / one[place - 1].rate for free, one in zip(self.rounds, self.bound))
                row.append(f"{same:.2f}")
        return row


def main():
    asked = argparse.ArgumentParser(usage=__doc__, add_help=False)
    asked.add_argument("instances")
    asked.add_argument("--numbers", nargs=2, type=int, default=[0, 3])
    asked.add_argument("--budget", type=int, default=100000)
    asked.add_argument("--groups")
    asked.add_argument("--workers", default="1,2,4")
    asked.add_argument("--runs", type=int, default=1)
    asked.add_argument("--beside", action="store_true")
    asked.add_argument("--same", action="store_true")
    asked.add_argument("--program", default=f"{ROOT}/crates/stow_main/out/stow_main")
    args = asked.parse_args()
    args.workers = [int(n) for n in args.workers.split(",")]
    args.program = os.path.realpath(args.program)
    maker = f"{os.path.realpath(args.instances)}/instances.py"
    listed = subprocess.run(["python3", maker, "list"], stdout=subprocess.PIPE, text=True, check=True)
    groups = args.groups.split(",") if args.groups else listed.stdout.split()
    head = ["ship"]
    for place, n in enumerate(args.workers):
        head += [f"{what} ({n})" for what in ("nodes", "a second", "times", "us a node")]
        head += [f"same ({n})"] if args.same and place > 0 else []
    print("| " + " | ".join(head) + " |")
    print("|---" + "|---:" * (len(head) - 1) + "|")
    first, count = args.numbers
    with tempfile.TemporaryDirectory() as folder:
        for group in groups:
            subprocess.run(["python3", maker, group, str(first), str(count), folder], check=True)
        series = [Series(f"{group}-{number}") for group in groups for number in range(first, first + count)]
        for _ in range(args.runs):
            for one in series:
                one.run(args, folder)
            series = [one for one in series if one.is_long()]
    for one in series:
        print("| " + " | ".join(one.row(args.workers)) + " |")


main()
