#!/usr/bin/env python3
"""Lets each allocation of a run fail in turn.

usage: bench/allocations.py PROGRAM [MOST]

PROGRAM is the built program `stow`, which takes its memory from `malloc` and its kin of the C library; a small library of those, made by
`cc` and loaded before it, counts the calls and lets one of them fail. The runs are the plan of a voyage with one rehandle, the search
over a short and a long stack with 1, 2 and 16 workers, and a check, each over files of an earlier voyage. Of each run all allocations
fail in turn, or MOST (all) of them evenly spread. The status has to be 8, with `memory` printed, or that of the run where none fails,
with the same printed; each file is as it was or as the run writes it, and where the status is the run's own, as the run writes it.
Several workers may find another tree and other plans in each run: of theirs the printed outcome, cost and bound have to be the
same, and where the status is the run's own, `check` has to say yes to the files, with these numbers. No run may take a minute.
"""
import os
import shutil
import subprocess
import sys
import tempfile

ROOT = os.path.dirname(os.path.dirname(os.path.abspath(__file__)))

SHIM = r'''
#define _GNU_SOURCE
#include <dlfcn.h>
#include <errno.h>
#include <fcntl.h>
#include <stdlib.h>
#include <sys/syscall.h>
#include <unistd.h>

extern void *__libc_malloc(size_t);
extern void *__libc_calloc(size_t, size_t);
extern void *__libc_realloc(void *, size_t);
extern void *__libc_memalign(size_t, size_t);

static long calls, failing = -1;

static int fails(void) {
    long call = __atomic_add_fetch(&calls, 1, __ATOMIC_SEQ_CST);
    if (failing < 0) {
        const char *text = getenv("FAILING_ALLOCATION");
        failing = text ? atol(text) : 0;
    }
    return call == failing;
}

void *malloc(size_t size) { if (fails()) { errno = ENOMEM; return NULL; } return __libc_malloc(size); }
void *calloc(size_t n, size_t size) { if (fails()) { errno = ENOMEM; return NULL; } return __libc_calloc(n, size); }
void *realloc(void *p, size_t size) { if (fails()) { errno = ENOMEM; return NULL; } return __libc_realloc(p, size); }
void *memalign(size_t a, size_t size) { if (fails()) { errno = ENOMEM; return NULL; } return __libc_memalign(a, size); }
void *aligned_alloc(size_t a, size_t size) { if (fails()) { errno = ENOMEM; return NULL; } return __libc_memalign(a, size); }
int posix_memalign(void **p, size_t a, size_t size) { if (fails()) return ENOMEM; *p = __libc_memalign(a, size); return *p ? 0 : ENOMEM; }

__attribute__((destructor)) static void tell(void) {
    const char *name = getenv("ALLOCATIONS_FILE");
    if (!name) return;
    char text[24];
    int at = 24;
    long n = calls;
    do { text[--at] = '0' + n % 10; n /= 10; } while (n);
    int file = open(name, O_WRONLY | O_CREAT | O_TRUNC, 0600);
    if (file < 0) return;
    if (write(file, text + at, 24 - at) < 0) { }
    close(file);
}

/* by this call the program ends, and destructors don't run */
void _exit(int status) { tell(); for (;;) syscall(SYS_exit_group, status); }
'''

CERTIFICATE = """stow-cert 1
outcome optimal
rehandles 1
bound 1
nodes 1
n 0
r 16 cross 40 1 1 2 3 4
l
end
"""

PLAN = ["plan", "ship.toml", "cargo.toml", "X"]

# the run's name, its example, its words, and whether its departure files are laid for a check
RUNS = [("one rehandle", "on-one-another", PLAN, False)]
RUNS += [(f"search, {n} workers", "long-and-short", PLAN + ["--workers", str(n)], False) for n in (1, 2, 16)]
RUNS += [("check", "on-one-another", ["check"] + PLAN[1:], True)]

OLD = b"old\n"


def lay(folder, example, program, checked):
    for file in ("ship.toml", "cargo.toml"):
        shutil.copy(os.path.join(ROOT, "examples", "small", example, file), folder)
    if checked:
        subprocess.run([program] + PLAN, cwd=folder, check=True, stdout=subprocess.DEVNULL)
        with open(os.path.join(folder, "X.cert"), "w") as file:
            file.write(CERTIFICATE)


def written(folder):
    files = {}
    for name in sorted(os.listdir(folder)):
        if name.startswith("X"):
            with open(os.path.join(folder, name), "rb") as file:
                files[name] = file.read()
    return files


def put(folder, files):
    for name, text in files.items():
        with open(os.path.join(folder, name), "wb") as file:
            file.write(text)


def run(program, words, folder, shim, failing, counted=None):
    environment = {"LD_PRELOAD": shim, "FAILING_ALLOCATION": str(failing)}
    if counted:
        environment["ALLOCATIONS_FILE"] = counted
    done = subprocess.run([program] + words, cwd=folder, env=environment, stdout=subprocess.PIPE, stderr=subprocess.PIPE, timeout=60)
    return done.returncode, done.stdout


def is_right(own, status, printed, before, after, found):
    """Whether a run ended as it should, with its files as they were or as the run writes them."""
    if status == 8:
        return printed in (b"memory\n", b"") and all(found[name] in (before[name], after[name]) for name in found)
    return (status, printed) == own and found == after


def is_alike(program, folder, words, own, status, printed, before, found):
    """The same for a run of several workers, each of which may find another tree and other plans."""
    if status == 8:
        return printed in (b"memory\n", b"") and found.keys() == before.keys()
    told = own[1].splitlines()[:3]
    checked = subprocess.run([program, "check"] + words[1:4], cwd=folder, stdout=subprocess.PIPE).stdout.splitlines()
    return status == own[0] and printed.splitlines()[:3] == told and checked == [b"check yes"] + told[1:]


def measure(program, shim, top, most, name, example, words, checked):
    folder = os.path.join(top, name.replace(" ", "-").replace(",", ""))
    os.mkdir(folder)
    lay(folder, example, program, checked)
    before = written(folder)
    counted = os.path.join(top, "count")
    own = run(program, words, folder, shim, 0, counted)
    after = written(folder)
    if not checked:
        before = {file: OLD for file in after}
    with open(counted) as file:
        count = int(file.read())
    step = max(1, count // most) if most else 1
    tally = {}
    for failing in range(1, count + 1, step):
        put(folder, before)
        status, printed = run(program, words, folder, shim, failing)
        found = written(folder)
        if "--workers" in words and words[-1] != "1":
            right = is_alike(program, folder, words, own, status, printed, before, found)
        else:
            right = is_right(own, status, printed, before, after, found)
        if not right:
            print(f"{name}: allocation {failing}: status {status}, {printed!r}")
            sys.exit(1)
        tally[status] = tally.get(status, 0) + 1
    told = ", ".join(f"{times} times status {status}" for status, times in sorted(tally.items()))
    print(f"{name}: own status {own[0]}, {count} allocations, of which {sum(tally.values())} failed in turn: {told}", flush=True)


def main():
    program, most = os.path.abspath(sys.argv[1]), int(sys.argv[2]) if len(sys.argv) > 2 else 0
    with tempfile.TemporaryDirectory() as top:
        source, shim = os.path.join(top, "shim.c"), os.path.join(top, "shim.so")
        with open(source, "w") as file:
            file.write(SHIM)
        subprocess.run(["cc", "-shared", "-fPIC", "-O1", "-o", shim, source], check=True)
        for row in RUNS:
            measure(program, shim, top, most, *row)


main()
