#!/usr/bin/env python3
"""Runs the tests of the tools; the last line is `N passed, M failed`, and the status 1 where any failed.

    tools/tests/run.py [PROGRAM]

PROGRAM is the built spatial_cli; where it is left out, the one that the repository's own check has left. No test is
skipped: where there is no program, that is told and nothing is run.
"""

import pathlib
import sys
import unittest

HERE = pathlib.Path(__file__).resolve().parent
sys.path[:0] = [str(HERE), str(HERE.parent)]

import common  # noqa: E402
import helpers  # noqa: E402


def main():
    """Runs all tests."""
    try:
        helpers.PROGRAM = common.program_at(sys.argv[1] if len(sys.argv) > 1 else None)
    except common.Refused as refusal:
        print(f"{refusal}\n0 passed, 1 failed")
        return common.BAD_INPUT
    suite = unittest.defaultTestLoader.discover(str(HERE), pattern="*_test.py")
    result = unittest.TextTestRunner(stream=sys.stdout, verbosity=1).run(suite)
    failed = len(result.failures) + len(result.errors) + len(result.unexpectedSuccesses) + len(result.skipped)
    print(f"{result.testsRun - failed} passed, {failed} failed")
    return common.BAD_INPUT if failed or not result.testsRun else 0


if __name__ == "__main__":
    common.run(main)
