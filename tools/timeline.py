#!/usr/bin/env python3
"""Draws a run's labels as a timeline: a lane for each session, and time going down.

    tools/timeline.py REPORT [SCRIPT] [-o OUT] [--labels FIRST LAST]

REPORT is what `replay --labels`, or `threads --labels --trace`, has printed. Each label is a mark in its session's
lane, in the order of the trace; transactions are bars from their begin to their end; a wait is a red line until the
session goes on, with an arrow to each session waited for; a victim's bar is crossed out, with its cycle; commits bear
their number. With SCRIPT, the script of the run, each ask tells its statement. Beside the lanes stands each label's
text where there are at most 400 labels, and in any case it is shown where one points at the mark.
"""

import argparse

from common import Refused, add_quiet, read_text, run, write_text
from lanes import Timeline
from reports import is_report, read_report
from scripts import read_script


def words_of():
    """The words of the command line."""
    parser = argparse.ArgumentParser(prog="timeline.py", description="Draws a run's labels as a timeline.")
    parser.add_argument("files", nargs="+", metavar="FILE", help="a report with labels, and the script of its run")
    parser.add_argument("-o", dest="out", metavar="OUT", help="where the SVG is written")
    parser.add_argument("--labels", nargs=2, type=int, metavar=("FIRST", "LAST"), help="draw only these, from 1")
    parser.add_argument("--title", metavar="TEXT", help="what stands above the picture")
    add_quiet(parser)
    words = parser.parse_args()
    if len(words.files) > 2:
        parser.error("there is one report, and one script at most")
    if words.labels and not 1 <= words.labels[0] <= words.labels[1]:
        parser.error("the labels are counted from 1, and the last isn't before the first")
    return parser, words


def read_files(parser, words):
    """The report with its labels, and the script or None."""
    report = script = None
    for file in words.files:
        text = read_text(file)
        if is_report(text) and report is None:
            report = read_report(file, text, words.quiet)
        elif not is_report(text) and script is None:
            script = read_script(file, text, words.quiet)
        else:
            parser.error("two files of one kind")
    if report is None:
        parser.error("a report must be among the files")
    if not report.labels:
        raise Refused(report.file, 0, "the report has no labels: print it with --labels")
    return report, script


def main():
    """Draws the timeline."""
    parser, words = words_of()
    report, script = read_files(parser, words)
    first, last = words.labels or (1, len(report.labels))
    if first > len(report.labels):
        raise Refused(report.file, 0, f"there are {len(report.labels)} labels, and none from {first}")
    title = words.title or f"{len(report.labels)} labels"
    write_text(words.out, Timeline(report, script, first, min(last, len(report.labels)), title).draw())
    return 0


if __name__ == "__main__":
    run(main)
