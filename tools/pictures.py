#!/usr/bin/env python3
"""Makes the pictures of docs/pictures, or compares them with what would be made.

    tools/pictures.py [PROGRAM] [--compare]

PROGRAM is the built spatial_cli; where it is left out, the one that the repository's own check has left. The runs of
two examples, and the maps and the timeline of docs/TOWN.md, are made anew. With --compare nothing is written; each
picture that differs has a line, and the status is then 1.
"""

import argparse
import contextlib
import pathlib
import subprocess
import sys
import tempfile

from common import BAD_INPUT, TOP, Refused, add_quiet, ask, program_at, run
from town import TOOLS, town

FOLDER = TOP / "docs" / "pictures"
RUNS = {"phantom": "A phantom that waits", "deadlock": "A deadlock"}
OF_TOWN = ("town-query.svg", "town-row.svg", "town-timeline.svg")


def timeline(program, name, title, folder):
    """Makes the timeline of an example."""
    script = TOP / "examples" / f"{name}.script"
    report = folder / f"{name}.labels"
    report.write_text(ask(program, ["replay", "--labels"], script.read_text()))
    words = [sys.executable, TOOLS / "timeline.py", report, script, "-o", folder / f"{name}.svg", "--title", title]
    if subprocess.run(list(map(str, words)), check=False).returncode:
        raise Refused(str(script), 0, "its timeline wasn't made")


def made(program, quiet):
    """All pictures by their names."""
    with tempfile.TemporaryDirectory() as room:
        folder = pathlib.Path(room)
        for name, title in RUNS.items():
            timeline(program, name, title, folder)
        town(program, folder / "town", quiet)
        files = [folder / f"{name}.svg" for name in RUNS] + [folder / "town" / name for name in OF_TOWN]
        return {file.name: file.read_text() for file in files}


def differing(pictures):
    """The names of the pictures that docs/pictures has otherwise, or hasn't."""
    found = []
    for name, text in pictures.items():
        with contextlib.suppress(OSError):
            if (FOLDER / name).read_text() == text:
                continue
        found.append(name)
    return found + sorted(file.name for file in FOLDER.iterdir() if file.name not in pictures)


def main():
    """Makes or compares the pictures."""
    parser = argparse.ArgumentParser(prog="pictures.py", description="Makes the pictures of docs/pictures.")
    parser.add_argument("program", nargs="?", metavar="PROGRAM", help="the built spatial_cli")
    parser.add_argument("--compare", action="store_true", help="only tell which of them differ")
    add_quiet(parser)
    words = parser.parse_args()
    pictures = made(program_at(words.program), words.quiet)
    if words.compare:
        names = differing(pictures)
        print("\n".join(f"docs/pictures/{name} isn't what would be made" for name in names) or "all pictures are alike")
        return BAD_INPUT if names else 0
    FOLDER.mkdir(parents=True, exist_ok=True)
    for name, text in pictures.items():
        (FOLDER / name).write_text(text)
    print("\n".join(f"docs/pictures/{name}" for name in pictures))
    return 0


if __name__ == "__main__":
    run(main)
