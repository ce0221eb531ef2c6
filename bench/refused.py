#!/usr/bin/env python3
"""Refuses memory to the program, one allocation after another, and checks how each run ends.

    bench/refused.py PROGRAM [STEP [WORD ..]]

PROGRAM is the built spatial_cli, linked against the C library at run time, and cc compiles what stands in the place of
malloc and realloc. The WORDs are `replay` or `threads`, and `--workers N`; they are `replay` where they are left out.
Three scripts are played: a key that is there already, two sessions that wait for each other, and a map of 200 boxes
with a grid. Of each it is counted how often a whole run asks for memory; then each STEPth of these askings is refused,
every one where STEP is left out: in one run alone, in another one with all that come after it.

Each run has to end with status 5, nothing printed and the message; or with status 0 and a report that
`bench/check_serial.py` accepts: its commits, executed one after another on a plain list, give the printed answers and
leave the printed rows, by that file and by the program itself. The first run that ends otherwise ends the script with status 1. How many ended each way is printed.
"""

import mmap
import os
import struct
import subprocess
import sys
import tempfile

from check_serial import fault, report_of, script

REFUSING = r"""
#define _GNU_SOURCE
#include <dlfcn.h>
#include <errno.h>
#include <fcntl.h>
#include <stddef.h>
#include <stdlib.h>
#include <sys/mman.h>
#include <unistd.h>

/* The file's first number is that of the first refused call, its second that of the last, its third counts them all. */
static unsigned long none[3];
static unsigned long *told = none;

__attribute__((constructor)) static void start(void) {
    int file = open(getenv("REFUSED"), O_RDWR);
    void *map = mmap(0, sizeof none, PROT_READ | PROT_WRITE, MAP_SHARED, file, 0);
    close(file);
    if (map == MAP_FAILED) _exit(99);
    told = map;
}

static int refused(void) {
    unsigned long call = __atomic_add_fetch(told + 2, 1, __ATOMIC_SEQ_CST);
    return told[0] <= call && call <= told[1];
}

void *malloc(size_t size) {
    static void *(*real)(size_t);
    if (!real) real = dlsym(RTLD_NEXT, "malloc");
    if (refused()) { errno = ENOMEM; return NULL; }
    return real(size);
}

void *realloc(void *old, size_t size) {
    static void *(*real)(void *, size_t);
    if (!real) real = dlsym(RTLD_NEXT, "realloc");
    if (refused()) { errno = ENOMEM; return NULL; }
    return real(old, size);
}
"""
LAST = 2**62
SECONDS = 60
ALL = "status 0, none without memory"


def spot(x, y):
    return x, y, x, y


def city():
    """A map of 20 by 10 blocks with streets between them, and a visitor, a builder and a wrecker."""
    rows = {}
    for key in range(1, 201):
        left, low = (key - 1) % 20 * 50, (key - 1) // 20 * 40
        rows[key] = left + 5, low + 5, left + 45, low + 35
    visit = [("select", None, ("intersects",), (0, 0, 120, 60))]
    build = [("insert", 201, None, spot(500, 200))]
    wreck = [("select", None, ("distance", "<=", 10), spot(50, 20)), ("delete", 200, None, None)]
    sessions = [(number, 0, [(body, "commit")]) for number, body in enumerate((visit, build, wreck), 1)]
    return ["grid 0 0 1000 400"], rows, sessions, [1] * 4000 + [2] * 100


def scripts():
    """Each script's name, settings, rows, sessions and turns."""
    twice = [("insert", 1, None, spot(5, 5)), ("get", 1, None, None)]
    yield "a key that is there", [], {1: spot(0, 0)}, [(1, 0, [(twice, "commit")])], []
    up = [("update", 1, None, spot(10, 10)), ("update", 2, None, spot(20, 20))]
    down = [("update", 2, None, spot(30, 30)), ("update", 1, None, spot(40, 40))]
    turns = [1, 1, 1, 1, 2, 2, 2, 2, 1, 1, 2, 2]
    yield "a deadlock", [], {1: spot(1, 1), 2: spot(2, 2)}, [(1, 0, [(up, "commit")]), (2, 0, [(down, "commit")])], turns
    yield ("a map", *city())


class Refusals:
    """The program with memory that it can be refused."""

    def __init__(self, program, words, folder):
        self.command = [program, *words]
        source, library, told = (os.path.join(folder, name) for name in ("refused.c", "refused.so", "told"))
        with open(source, "w", encoding="ascii") as file:
            file.write(REFUSING)
        subprocess.run(["cc", "-O2", "-shared", "-fPIC", "-o", library, source, "-ldl"], check=True)
        with open(told, "wb") as file:
            file.write(bytes(24))
        with open(told, "r+b") as file:
            self.told = mmap.mmap(file.fileno(), 24)
        self.environment = {"LD_PRELOAD": library, "REFUSED": told}

    def run(self, given, first, last):
        """The ended process, and how often it asked for memory, where the askings from the first to the last are refused."""
        self.told[:] = struct.pack("3Q", first, last, 0)
        done = subprocess.run(self.command, input=given, capture_output=True, env=self.environment, timeout=SECONDS)
        return done, struct.unpack("3Q", self.told[:])[2]


def ending(program, case, done):
    """How a run has ended, by name, and what is wrong with it, if anything is."""
    _, lines, rows, sessions, _ = case
    if done.returncode == 5 and not done.stdout and done.stderr == b"out of memory\n":
        return "status 5", None
    if done.returncode or done.stderr:
        return "otherwise", f"status {done.returncode}, {done.stderr}"
    report = report_of(done.stdout.decode())
    wanting = any(fields[0] == "no" for fields in report[1])
    return ("status 0, some without memory" if wanting else ALL), fault(program, lines, rows, sessions, report, True)


def refuse(program, refusals, case, step):
    """Refuses each asking of the script in turn, and tells how the runs ended. True where none ended wrongly."""
    name, lines, rows, sessions, turns = case
    given = script(lines, rows, sessions, turns).encode()
    whole, asked = refusals.run(given, LAST, LAST)
    end, wrong = ending(program, case, whole)
    if wrong or end != ALL:
        print(f"{name}: {end} with ample memory: {wrong}")
        return False
    for which, last in ("alone", 0), ("and all after it", LAST):
        ends = {}
        for first in range(1, asked + 1, step):
            done, reached = refusals.run(given, first, last or first)
            end, wrong = ending(program, case, done) if reached >= first else ("not reached", None)
            if wrong:
                print(f"{name}: asking {first} refused, {which}: {wrong}")
                return False
            ends[end] = ends.get(end, 0) + 1
        print(f"{name}: {asked} askings, {sum(ends.values())} refused in turn, {which}: {ends}", flush=True)
    return True


def main():
    program = os.path.abspath(sys.argv[1])
    step = int(sys.argv[2]) if len(sys.argv) > 2 else 1
    with tempfile.TemporaryDirectory() as folder:
        refusals = Refusals(program, sys.argv[3:] or ["replay"], folder)
        return 0 if all(refuse(program, refusals, case, step) for case in scripts()) else 1


if __name__ == "__main__":
    sys.exit(main())
