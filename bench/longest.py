#!/usr/bin/env python3
"""Plays a script of as many bytes as one may have, and one of a byte more.

    bench/longest.py PROGRAM

PROGRAM is the built spatial_cli. The first script, a comment of 67,108,864 bytes, has to be played; the second one has to
be refused. How long each took is printed, and the status is 1 where one ends otherwise.
"""

import subprocess
import sys
import time

MOST = 67_108_864
CASES = ((MOST, (0, b"rows 0\n", b"")), (MOST + 1, (2, b"", b"script too long\n")))


def main():
    faults = 0
    for size, wanted in CASES:
        begun = time.monotonic()
        done = subprocess.run([sys.argv[1], "replay"], input=b"#" * size, capture_output=True)
        taken = time.monotonic() - begun
        ended = done.returncode, done.stdout, done.stderr
        faults += ended != wanted
        print(f"{size} bytes: status {done.returncode} after {taken:.1f} s" + ("" if ended == wanted else f": {ended}"))
    return 1 if faults else 0


if __name__ == "__main__":
    sys.exit(main())
