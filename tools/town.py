#!/usr/bin/env python3
"""The worked case of docs/TOWN.md, step by step, each step told by its command line.

    tools/town.py [PROGRAM] [--to FOLDER]

PROGRAM is the built spatial_cli; where it is left out, the one that the repository's own check has left. FOLDER,
out/town where it is left out, then has the town, its script, the report with labels, the rows as GeoJSON again, the
maps and the timeline.
"""

import argparse
import pathlib
import shlex
import subprocess
import sys

from common import TOP, Refused, add_quiet, program_at, run

TOOLS = TOP / "tools"
STREET = ("--box", "-4000", "-1500", "8000", "8000")
PARK = ("--box", "5000", "3000", "18000", "15000")


class Steps:
    """Commands that are told and run one after another, with files of a folder."""

    def __init__(self, folder, quiet):
        self.folder, self.quiet = folder, quiet

    def file(self, name):
        """A file of the folder."""
        return self.folder / name

    def run(self, words, source=None, to=None):
        """Tells and runs a command, from a file and to a file where they are named."""
        named = shlex.join(plain(word) for word in words)
        named += f" < {plain(self.file(source))}" if source else ""
        named += f" > {plain(self.file(to))}" if to else ""
        if not self.quiet:
            print(named, file=sys.stderr, flush=True)
        given = self.file(source).read_bytes() if source else b""
        done = subprocess.run([str(word) for word in words], input=given, stdout=subprocess.PIPE, check=False)
        if done.returncode:
            raise Refused(named, 0, f"ended with {done.returncode}")
        if to:
            self.file(to).write_bytes(done.stdout)

    def tool(self, name, *words, to=None):
        """Runs one of the tools; words that begin with a bare @ are files of the folder."""
        found = [self.file(word[1:]) if str(word).startswith("@") else word for word in words]
        self.run([sys.executable, TOOLS / name, *found], to=to)


def plain(word):
    """A word as one would write it at the top of the repository."""
    return "python3" if word == sys.executable else str(word).removeprefix(f"{TOP}/")


def town(program, folder, quiet):
    """Makes all files of the case in a folder."""
    folder.mkdir(parents=True, exist_ok=True)
    steps = Steps(folder, quiet)
    told = ["--quiet"] if quiet else []
    steps.tool("parcels.py", "7", to="town.geojson")
    steps.tool("import.py", "@town.geojson", "--key", "id", "--autogrid", *told, to="town.rows")
    steps.run(["cat", steps.file("town.rows"), TOOLS / "town.sessions"], to="town.script")
    steps.run([program, "replay", "--labels"], "town.script", "town.report")
    steps.tool("export.py", "@town.report", "--like", "@town.script", to="back.geojson")
    texts, asked = ("@town.script", "@town.report"), ("--program", program)
    steps.tool("map.py", *texts, to="whole.svg")
    steps.tool("map.py", *texts, "--query", "1.1.1", *asked, *STREET, to="town-query.svg")
    steps.tool("map.py", *texts, "--row", "1885", *asked, *PARK, to="town-row.svg")
    steps.tool("timeline.py", *texts, "--title", "A street, and a tree in it", to="town-timeline.svg")


def main():
    """Makes the case."""
    parser = argparse.ArgumentParser(prog="town.py", description="Makes the worked case of docs/TOWN.md.")
    parser.add_argument("program", nargs="?", metavar="PROGRAM", help="the built spatial_cli")
    parser.add_argument("--to", type=pathlib.Path, default=TOP / "out" / "town", metavar="FOLDER", help="where it goes")
    add_quiet(parser)
    words = parser.parse_args()
    town(program_at(words.program), words.to.resolve(), words.quiet)
    return 0


if __name__ == "__main__":
    run(main)
