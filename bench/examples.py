#!/usr/bin/env python3
"""Compares with the files of examples/ what repeats them: the tutorial and the program's stored run.

    bench/examples.py

docs/TUTORIAL.md must show each script that has labels, and its labels, and the stored run of crates/spatial_cli must be
the first example. What a script prints is compared by tests/play.py. Each difference has a line, and the last line is
`N passed, M failed`; the status is 1 where something differs.
"""

import pathlib
import sys

TOP = pathlib.Path(__file__).resolve().parent.parent
EXAMPLES = TOP / "examples"
CRATE = TOP / "crates" / "spatial_cli"
STORED = {"stdin": "first.script", "stdout": "first.expected"}


def is_shown(file):
    """Whether the tutorial shows each line of the file, those of a script and the labels of a text, in order."""
    shown = iter((TOP / "docs" / "TUTORIAL.md").read_text().splitlines())
    lines = file.read_text().splitlines()
    if file.suffix == ".labels":
        lines = [line for line in lines if line.startswith("  session ")]
    return all(any(line.strip() in one for one in shown) for line in lines)


def main():
    told = [file for labels in EXAMPLES.glob("*.labels") for file in (labels.with_suffix(".script"), labels)]
    faults = [f"{file.name} isn't in the tutorial" for file in sorted(told) if not is_shown(file)]
    for stored, example in STORED.items():
        if (CRATE / stored).read_bytes() != (EXAMPLES / example).read_bytes():
            faults.append(f"the stored {stored} isn't {example}")
    passed = len(told) + len(STORED) - len(faults)
    print("\n".join([*faults, f"{passed} passed, {len(faults)} failed"]))
    return 1 if faults else 0


if __name__ == "__main__":
    sys.exit(main())
