"""Reads reports with their labels, as docs/FORMATS.md tells them, and what a query of one has seen."""

import re
from typing import NamedTuple

from common import Refused
from texts import Lines, first_word

HEAD = re.compile(r"(commit|rolled back|victim|no memory) (.* )?session [0-9]+ transaction [0-9]+|rows [0-9]+\s*\Z")
COMMIT = re.compile(r"commit ([0-9]+) session ([0-9]+) transaction ([0-9]+)\Z")
OTHER = re.compile(r"(rolled back|victim|no memory) session ([0-9]+) transaction ([0-9]+)( cycle [0-9 ]+)?\Z")
LABEL = re.compile(r"  session ([0-9]+) (begin|ask|take|put|wait|victim|answer|commit|rollback) (.+)\Z")
NUMBERED = ("begin", "ask", "commit")
KEY = r"row (?:[0-9]+|end)|cell end|cell (?:out|[0-9]+(?:\.[0-9]+)*) row [0-9]+"
LOCK = re.compile(rf"({KEY}) (S|U|X|RangeS-S|RangeS-U|RangeI-N|RangeX-X)((?: for)?)((?: [0-9]+)*)\Z")
CELL = re.compile(r"cell (\S+) row ([0-9]+)\Z")


class Commit(NamedTuple):
    """A commit, at its place from 1, and its answers."""

    session: int
    transaction: int
    answers: list


class Label(NamedTuple):
    """A label: its session and kind and what stands behind its kind; the key, the mode and those waited for of a lock;
    the number of a begin, an ask or a commit."""

    session: int
    kind: str
    rest: str
    key: str = ""
    mode: str = ""
    others: tuple = ()
    number: int = 0

    def cell(self):
        """The path and the row of the key of a cell, or None."""
        found = CELL.match(self.key)
        return (found.group(1), int(found.group(2))) if found else None

    def text(self):
        """The label as the report has it."""
        return f"session {self.session} {self.kind} {self.rest}"


class Report(NamedTuple):
    """A report: its commits by their order, how many transactions ended otherwise, its rows by key, its labels."""

    file: str
    commits: list
    others: int
    rows: dict
    labels: list | None


def is_report(text):
    """Whether the text begins as a report does."""
    return bool(HEAD.match(text.split("\n", 1)[0]))


def commits_of(lines):
    """The commits, each with its answers."""
    commits = []
    while found := COMMIT.match(lines.peek()):
        lines.take()
        place, session, transaction = map(int, found.groups())
        if place != len(commits) + 1:
            lines.refuse(f"the place {place} stands where {len(commits) + 1} must stand")
        commits.append(Commit(session, transaction, []))
        while lines.peek().startswith("  "):
            commits[-1].answers.append(lines.take().strip())
    return commits


def counted(lines, word):
    """The number behind the word that heads a part."""
    head, rest = first_word(lines.take())
    if head != word:
        lines.refuse(f"a line that begins with {word!r} must stand here")
    return lines.number(rest)


def rows_of(lines):
    """The rows by key."""
    rows = {}
    for _ in range(counted(lines, "rows")):
        line = lines.take()
        if not line.startswith("  "):
            lines.refuse("a row must stand here")
        key, shape = first_word(line)
        rows[lines.number(key)] = lines.shape(shape)
    return rows


def label_of(lines):
    """The label of a line."""
    found = LABEL.match(lines.take())
    if not found:
        lines.refuse("a label must stand here")
    session, kind, rest = int(found.group(1)), found.group(2), found.group(3)
    if kind in NUMBERED:
        return Label(session, kind, rest, number=lines.number(rest))
    if kind == "victim":
        return Label(session, kind, rest, others=members_of(lines, rest))
    if kind not in ("take", "put", "wait"):
        return Label(session, kind, rest)
    lock = LOCK.match(rest)
    if not lock or (kind == "wait") != bool(lock.group(3)):
        lines.refuse(f"{rest!r} names no lock")
    key, mode, _, others = lock.groups()
    return Label(session, kind, rest, key, mode, tuple(map(int, others.split())))


def members_of(lines, rest):
    """The sessions of a victim's cycle."""
    head, members = first_word(rest)
    if head != "cycle":
        lines.refuse("a cycle must stand here")
    return tuple(lines.number(word) for word in members.split())


def read_report(file, text, quiet):
    """The report of a text."""
    lines = Lines(file, text, quiet)
    commits, others, labels = commits_of(lines), 0, None
    while OTHER.match(lines.peek()):
        lines.take()
        others += 1
    rows = rows_of(lines)
    if lines.peek().startswith("labels "):
        labels = [label_of(lines) for _ in range(counted(lines, "labels"))]
    if lines.peek().startswith("schedule"):
        lines.take()
    if not lines.is_end():
        lines.take()
        lines.refuse("nothing may stand behind a report")
    return Report(file, commits, others, rows, labels)


# -- What a query has seen --------------------------------------------------------------------------------------------


def change(rows, statement, answer):
    """Changes the rows as the statement's answer tells."""
    word, rest = first_word(answer)
    if word == "inserted" or (word == "done" and statement.kind == "update"):
        rows[statement.key] = statement.shape
    elif word == "done":
        del rows[statement.key]
    elif word == "deleted":
        for key in rest.split():
            del rows[int(key)]


def seen_by(script, report, name):
    """The rows that a query of a committed transaction has seen, and the keys that it answered."""
    script.statement(name)
    session, transaction, number = map(int, name.split("."))
    rows = dict(script.rows)
    try:
        for commit in report.commits:
            is_own = (commit.session, commit.transaction) == (session, transaction)
            statements = script.sessions[commit.session][commit.transaction - 1].statements
            for statement, answer in list(zip(statements, commit.answers))[: number - 1 if is_own else None]:
                change(rows, statement, answer)
            if is_own:
                return rows, keys_of(commit.answers[number - 1])
    except (KeyError, IndexError):
        raise Refused(report.file, 0, f"this is no report of {script.file}") from None
    raise Refused(report.file, 0, f"transaction {transaction} of session {session} isn't among the commits")


def keys_of(answer):
    """The keys of a query's answer."""
    words = answer.split()
    at = words.index("keys") if "keys" in words else words.index("deleted") if "deleted" in words else len(words)
    return [int(word) for word in words[at + 1 :]]
