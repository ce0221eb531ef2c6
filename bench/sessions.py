#!/usr/bin/env python3
"""Runs scripts by the threads of their sessions, replays what was printed of their turns, and times both.

    bench/sessions.py PROGRAM [CORES]

PROGRAM is the built spatial_cli, and CORES, 4 where it is left out, how many processors it may use.

First, ten scripts of 8 sessions that contend for a few rows, half of them with a grid and half with turns of their own,
are each run 20 times by `threads --trace --labels`. The script with the printed line in place of its schedule lines is
replayed with its labels, and has to print the same bytes but for that line. The first difference ends it with status 1.
How many schedules were printed, and what became of the transactions, is told.

Then times by the clock, the least of three runs each; nothing is asserted on them. 24 selects, each of which refines
500 stars of 256 spots, are shared among 1, 2, 4 and 8 sessions, beside what they take by `replay`. Last, 64 sessions
that each update one row 4 times in a transaction of its own.
"""

import math
import os
import random
import subprocess
import sys
import time

SCRIPTS = 10
SESSIONS = 8
REPEATS = 20
RUNS = 3
ROWS = 500
SPOTS = 256
SELECTS = 24


def call(program, words, script):
    """What is printed of the script."""
    return subprocess.run([program, *words], input=script.encode(), capture_output=True, check=True).stdout.decode()


def spot(draw):
    """One of nine points, so that rows meet."""
    return f"POINT ({draw.randint(0, 2) * 10} {draw.randint(0, 2) * 10})"


def statement(draw):
    """A statement on a few keys and points."""
    kind = draw.choice(["insert", "update", "update", "delete", "get", "select", "delete where", "filter", "plan"])
    if kind in ("insert", "update"):
        return f"{kind} {draw.randint(1, 8)} {spot(draw)}"
    if kind in ("delete", "get"):
        return f"{kind} {draw.randint(1, 8)}"
    if kind == "filter":
        return f"filter {spot(draw)}"
    return f"{kind} intersects {spot(draw)}"


def conflicting(seed):
    """The script's lines, and its schedule lines."""
    draw = random.Random(seed)
    lines = ["grid 0 0 40 40"] if seed % 2 else []
    lines += [f"row {key} {spot(draw)}" for key in range(1, 5)]
    for session in range(1, SESSIONS + 1):
        lines.append(f"session {session}" + (f" priority {draw.randint(-3, 3)}" if draw.random() < 0.5 else ""))
        for _ in range(draw.randint(1, 4)):
            lines += ["begin"] + [statement(draw) for _ in range(draw.randint(1, 5))] + [draw.choice(["commit", "commit", "commit", "rollback"])]
    turns = [str(draw.randint(1, SESSIONS)) for _ in range(200)]
    return lines, ["schedule " + " ".join(turns)] if seed % 4 > 1 else []


def replays(program):
    """Runs the scripts, and replays each by the turns that were printed."""
    schedules, endings = set(), {"commit": 0, "rolled back": 0, "victim": 0, "no memory": 0}
    for seed in range(SCRIPTS):
        lines, turns = conflicting(seed)
        for again in range(REPEATS):
            text = call(program, ["threads", "--trace", "--labels", "--workers", "2"], "\n".join(lines + turns) + "\n")
            told, schedule = text[:-1].rsplit("\n", 1)
            if not schedule.startswith("schedule "):
                sys.exit(f"script {seed}, run {again}: no schedule")
            replayed = call(program, ["replay", "--labels"], "\n".join(lines + [schedule]) + "\n")
            if replayed != told + "\n":
                sys.exit(f"script {seed}, run {again}: the replay prints otherwise")
            schedules.add((seed, schedule))
            for ending in endings:
                endings[ending] += sum(line.startswith(ending) for line in told.split("\n"))
    print(f"{SCRIPTS} scripts, {REPEATS} runs each: all replay to the same bytes; {len(schedules)} different schedules; {endings}", flush=True)


def star(centre, inner, outer):
    """A star polygon."""
    spots = []
    for k in range(SPOTS):
        radius = outer if k % 2 == 0 else inner
        angle = 2 * math.pi * k / SPOTS
        spots.append((round(centre[0] + radius * math.cos(angle)), round(centre[1] + radius * math.sin(angle))))
    return "POLYGON ((" + ", ".join(f"{x} {y}" for x, y in spots + spots[:1]) + "))"


def least(program, words, script):
    """The least time by the clock of several runs."""
    best = math.inf
    for _ in range(RUNS):
        start = time.perf_counter()
        call(program, words, script)
        best = min(best, time.perf_counter() - start)
    return best


def refined(program):
    """Times selects that refine much, shared among sessions."""
    draw = random.Random(7)
    rows = [star((draw.randint(-900_000, 900_000), draw.randint(-900_000, 900_000)), 6_000_000, 9_000_000) for _ in range(ROWS)]
    table = "".join(f"row {key} {row}\n" for key, row in enumerate(rows, 1))
    select = f"select contains {star((0, 0), 1_000_000, 1_200_000)}\n"
    rest = least(program, ["replay"], table)
    first = None
    for sessions in (1, 2, 4, 8):
        each = f"begin\n{select * (SELECTS // sessions)}commit\n"
        script = table + "".join(f"session {s}\n{each}" for s in range(1, sessions + 1))
        took = least(program, ["threads"], script) - rest
        turns = least(program, ["replay"], script) - rest
        first = first or took
        print(f"{sessions} sessions  threads {took * 1000:9.1f} ms  replay {turns * 1000:9.1f} ms  {first / took:5.2f} times as fast as one session", flush=True)


def one_row(program):
    """Times 64 sessions that all update one row."""
    body = "".join(f"begin\nupdate 1 POINT ({n} {n})\ncommit\n" for n in range(4))
    script = "row 1 POINT (0 0)\n" + "".join(f"session {s}\n{body}" for s in range(1, 65))
    print(f"64 sessions on one row  threads {least(program, ['threads'], script) * 1000:9.1f} ms  replay {least(program, ['replay'], script) * 1000:9.1f} ms")


def main():
    program = sys.argv[1]
    cores = sorted(os.sched_getaffinity(0))[: int(sys.argv[2]) if len(sys.argv) > 2 else 4]
    os.sched_setaffinity(0, cores)
    print(f"{len(cores)} processors")
    replays(program)
    refined(program)
    one_row(program)


if __name__ == "__main__":
    main()
