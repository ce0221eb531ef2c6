#!/usr/bin/env python3
"""Plays the cases of tests/ and examples/ against the built program. README.md beside it tells what a case is.

    tests/play.py [PROGRAM ..]

Each PROGRAM is a built spatial_cli. Where none is named, both that `rt ci` leaves are played, as two compilers built
them. Each difference is printed, and last a line `N passed, M failed` over all runs. The status is 1 where one failed,
or where there is no program or no case.
"""

import concurrent.futures
import os
import pathlib
import subprocess
import sys
import typing

TESTS = pathlib.Path(__file__).resolve().parent
TOP = TESTS.parent
BUILT = TOP / "crates" / "spatial_cli" / "out"
FILES = set("script args stdout begins replayed stderr status in out err also under cuts".split())
SECONDS = 60
SHOWN = 12
LONGEST = 200
PIECE = 100


class Case(typing.NamedTuple):
    """A case: its name, and what its files hold, by their names."""

    name: str
    files: dict

    def bytes_of(self, file):
        return self.files.get(file, b"")

    def lines_of(self, file):
        """The lines of a file, each of which ends with a line feed; what lacks has none."""
        return self.bytes_of(file).split(b"\n")[:-1]

    def fronts(self):
        """The groups of lines of the file `under`, each behind an empty line."""
        return [group.strip(b"\n") + b"\n" for group in self.bytes_of("under").split(b"\n\n") if group]


class Ended(typing.NamedTuple):
    """How a run ended, and what it wrote. What a device took isn't seen, and stands here as nothing."""

    status: int
    stdout: bytes
    stderr: bytes


def files_of(folder):
    return {file.name: file.read_bytes() for file in folder.iterdir() if file.is_file()}


def cases_of(folder):
    """The cases below a folder. A file that a case lacks is its group's."""
    found = []
    for one in sorted(it for it in folder.iterdir() if it.is_dir() and it.name != "__pycache__"):
        inner = [it for it in one.iterdir() if it.is_dir()]
        groups = [(it, f"{one.name}/{it.name}") for it in sorted(inner)] or [(one, one.name)]
        shared = files_of(one) if inner else {}
        found += [Case(name, {**shared, **files_of(it)}) for it, name in groups]
    return found


def examples_of(folder):
    """The cases of the examples: each script is played, and played with labels where an example has them."""
    found = []
    for script in sorted(folder.glob("*.script")):
        files = {"script": script.read_bytes(), "args": b"replay\n"}
        cuts = script.with_suffix(".cuts")
        more = {"cuts": cuts.read_bytes()} if cuts.exists() else {}
        text = script.with_suffix(".expected").read_bytes()
        found.append(Case(f"examples/{script.name}", {**files, **more, "stdout": text}))
        labels = script.with_suffix(".labels")
        if labels.exists():
            text = labels.read_bytes()
            found.append(Case(f"examples/{labels.name}", {**files, "args": b"replay\n--labels\n", "stdout": text}))
    return found


def opened(name, is_input):
    """The file of a device that isn't a pipe of ours: None where there is none, or where it is closed."""
    if name in ("", "closed"):
        return None
    if name == "pipe":
        ours, theirs = os.pipe()
        os.close(ours)
        return theirs
    return os.open(name, os.O_RDONLY if is_input else os.O_WRONLY)


def run(program, words, script, case=Case("", {})):
    """Runs the program, with the devices of the case in the place of its input and its outputs."""
    names = [case.bytes_of(it).decode().strip() for it in ("in", "out", "err")]
    ends = [end for name, end in zip(names, ("<&-", ">&-", "2>&-")) if name == "closed"]
    start = [b"/bin/sh", b"-c", f'exec "$0" "$@" {" ".join(ends)}'.encode()] if ends else []
    files = [opened(name, place == 0) for place, name in enumerate(names)]
    pipes = [subprocess.PIPE if file is None else file for file in files]
    given = {"input": script} if files[0] is None else {"stdin": files[0]}
    try:
        done = subprocess.run(
            [*start, os.fsencode(program), *words], stdout=pipes[1], stderr=pipes[2], timeout=SECONDS, **given
        )
        return Ended(done.returncode, done.stdout or b"", done.stderr or b"")
    except subprocess.TimeoutExpired:
        return Ended(-1, b"", f"no end within {SECONDS} seconds".encode())
    finally:
        for file in files:
            if file is not None:
                os.close(file)


def shown(text):
    """The first lines of a text, each behind four blanks, with what isn't printable spelled out."""
    lines = [repr(line[:LONGEST])[2:-1] + " .." * (len(line) > LONGEST) for line in text.splitlines()]
    return "\n".join(f"    {line}" for line in lines[:SHOWN] + [".."] * (len(lines) > SHOWN)) or "    nothing"


def from_difference(wanted, came):
    """The lines of both texts from the first one on that differs, and its number."""
    wanted, came = wanted.splitlines(keepends=True), came.splitlines(keepends=True)
    same = next((at for at, (one, other) in enumerate(zip(wanted, came)) if one != other), min(len(wanted), len(came)))
    return b"".join(wanted[same:]), b"".join(came[same:]), same + 1


def difference(what, wanted, came):
    """What is printed of two texts that differ, or nothing."""
    if wanted == came:
        return []
    wanted, came, line = from_difference(wanted, came)
    return [f"  {what} from line {line} on, wanted:\n{shown(wanted)}\n  came:\n{shown(came)}"]


def differences(case, ended):
    """How what a run wrote differs from what its case wants."""
    status = int(case.bytes_of("status") or b"0")
    found = [f"  status {status} was wanted, and {ended.status} came"] if status != ended.status else []
    stdout = ended.stdout
    if "begins" in case.files:
        stdout = stdout[: len(case.bytes_of("begins"))]
    return (
        found
        + difference("standard output", case.bytes_of("begins") or case.bytes_of("stdout"), stdout)
        + difference("standard error", case.bytes_of("stderr"), ended.stderr)
    )


def played(program, case, front=b"", more=()):
    """Plays the case once, with these bytes before its script and these words after its own."""
    words = case.lines_of("args") + list(more)
    ended = run(program, words, front + case.bytes_of("script"), case)
    found = differences(case, ended)
    if "replayed" in case.files and not found:
        again = run(program, [b"replay"], ended.stdout)
        wanted = Case(case.name, {"begins": case.bytes_of("replayed")})
        found += [f"  what was printed, replayed:\n{it}" for it in differences(wanted, again)]
    return found


def lengths_of(case):
    """The lengths that the file `cuts` names: of each line, from its first number to its second."""
    found = set()
    for line in case.lines_of("cuts"):
        first, last = map(int, line.split())
        found.update(range(first, last + 1))
    return found


def cut(program, case, fronts):
    """Plays fronts of the script. Those of the lengths in `cuts` are scripts; each other one is refused at its end."""
    lengths, script, found = lengths_of(case), case.bytes_of("script"), []
    for length in fronts:
        front = script[:length]
        ended = run(program, case.lines_of("args"), front)
        line = front.count(b"\n") + (not front.endswith(b"\n"))
        is_well = ended.status == 0 and ended.stdout and not ended.stderr
        told = f"script line {line}: ".encode()
        is_refused = ended.status == 2 and not ended.stdout and ended.stderr.startswith(told)
        if not (is_well if length in lengths else is_refused):
            wanted = "is a script" if length in lengths else f"is refused at its line {line}"
            found.append(f"  the front of {length} bytes {wanted}: status {ended.status} came\n{shown(ended.stderr)}")
    return found


def jobs_of(case):
    """The runs of a case: a name for each, and what plays it by a program and gives the differences."""
    jobs = [(case.name, lambda program: played(program, case))]
    for front in case.fronts():
        name = f"{case.name} under {front.decode().strip()!r}"
        jobs.append((name, lambda program, front=front: played(program, case, front)))
    for line in case.lines_of("also"):
        more = line.split()
        jobs.append((f"{case.name} {line.decode()}", lambda program, more=more: played(program, case, b"", more)))
    every = range(len(case.bytes_of("script")) + 1) if "cuts" in case.files else ()
    for first in every[::PIECE]:
        fronts = every[first : first + PIECE]
        name = f"{case.name} cut at {fronts[0]} to {fronts[-1]}"
        jobs.append((name, lambda program, fronts=fronts: cut(program, case, fronts)))
    return jobs


def misnamed(case):
    """The files of the case that nothing reads."""
    return sorted(set(case.files) - FILES)


def programs():
    """The programs to be played: those that are named, or those that were built."""
    named = [pathlib.Path(word).resolve() for word in sys.argv[1:]]
    return named or [it for it in (BUILT / "spatial_cli", BUILT / "spatial_cli.by-rattle") if it.exists()]


def main():
    cases = cases_of(TESTS) + examples_of(TOP / "examples")
    faults = [f"{case.name} has a file {name}, which means nothing" for case in cases for name in misnamed(case)]
    runs = [run for case in cases for run in jobs_of(case)]
    jobs = [(f"{name} by {program.name}", job, program) for program in programs() for name, job in runs]
    if not jobs:
        faults.append("there is no program or no case: `rt ci` builds the program, and `rt run` in crates/spatial_cli")
    print(f"{len(jobs)} runs of {len(cases)} cases", flush=True)
    passed = 0
    with concurrent.futures.ThreadPoolExecutor(2 * (os.cpu_count() or 1)) as pool:
        for name, found in pool.map(lambda it: (it[0], it[1](it[2])), jobs):
            passed += not found
            faults += ["\n".join([f"DIFFERS {name}", *found])] if found else []
    print("\n".join([*faults, f"{passed} passed, {len(faults)} failed"]))
    return 1 if faults else 0


if __name__ == "__main__":
    sys.exit(main())
