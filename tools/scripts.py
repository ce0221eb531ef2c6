"""Reads scripts, as docs/FORMATS.md tells them."""

import re
from typing import NamedTuple

import wkt
from cells import Grid, grid_of
from common import Refused, read_text
from texts import NUMBER, Lines, first_word

TESTS = ("intersects", "contains", "within", "equals", "touches")
QUERIES = ("select", "plan", "filter", "delete where")
# What the import tells of its rows, so that it can be undone.
FIT = re.compile(r"# offset (\S+) (\S+) scale (\S+)\Z")


class Statement(NamedTuple):
    """A statement: its line, kind and whole text; its key, test, bound of distances and shape where it has them."""

    line: int
    kind: str
    text: str
    key: int | None = None
    test: str | None = None
    bound: int = 0
    shape: wkt.Shape | None = None


class Transaction(NamedTuple):
    """The statements from a begin to its commit or rollback."""

    statements: list
    end: str


class Script(NamedTuple):
    """A script: its grid where it has one, its window, its rows by key, its sessions' transactions, and the offset and
    scale that its comment tells."""

    file: str
    grid: Grid | None
    window: int
    rows: dict
    sessions: dict
    fit: tuple | None

    def statement(self, name):
        """The statement that is named by its session, transaction and number, as 1.2.3."""
        if not re.match(r"[0-9]+\.[0-9]+\.[0-9]+\Z", name):
            raise Refused(self.file, 0, f"{name!r} is no SESSION.TRANSACTION.STATEMENT")
        session, transaction, number = map(int, name.split("."))
        transactions = self.sessions.get(session, [])
        if not 1 <= transaction <= len(transactions):
            raise Refused(self.file, 0, f"there is no transaction {transaction} of a session {session}")
        statements = transactions[transaction - 1].statements
        if not 1 <= number <= len(statements):
            raise Refused(self.file, 0, f"there is no statement {name}: the transaction has {len(statements)}")
        return statements[number - 1]


class Reader:
    """What has been read of a script so far."""

    def __init__(self, lines):
        self.lines, self.grid, self.window, self.fit = lines, None, 64, None
        self.rows, self.sessions, self.session, self.statements = {}, {}, None, None

    def line(self, text):
        """Reads one line."""
        word, rest = first_word(text)
        if not word or word.startswith("#"):
            found = FIT.match(text.strip())
            self.fit = found.groups() if found else self.fit
            return
        known = {"grid": self.grid_line, "autogrid": self.grid_line, "window": self.window_line, "row": self.row_line}
        known |= {"session": self.session_line, "schedule": self.schedule_line}
        known |= dict.fromkeys(("begin", "commit", "rollback"), self.border_line)
        known.get(word, self.statement_line)(word, rest)

    def grid_line(self, word, rest):
        """Reads the grid."""
        words = [word, *rest.split()]
        if len(words) < 5 or not all(NUMBER.match(it) for it in words[1:5]):
            self.lines.refuse("four numbers must stand in a grid line")
        if not all(it.isalpha() or NUMBER.match(it) for it in words[5:]):
            self.lines.refuse("a word of the grid line is neither a density nor a number")
        try:
            self.grid = grid_of(words, " ".join(words[:5]))
        except ValueError:
            self.grid = None
        if self.grid is None:
            self.lines.refuse("these words make no grid")

    def window_line(self, _, rest):
        """Reads how many cells a query's shape may have."""
        self.window = self.lines.number(rest)

    def row_line(self, _, rest):
        """Reads a row."""
        key, shape = self.keyed(rest)
        if self.rows and key <= next(reversed(self.rows)):
            self.lines.refuse(f"key {key} isn't above the last row's")
        self.rows[key] = shape

    def session_line(self, _, rest):
        """Begins a session."""
        self.session = self.lines.number(first_word(rest)[0])
        if self.statements is not None or self.session in self.sessions:
            self.lines.refuse("a session can't begin here")
        self.sessions[self.session] = []

    def schedule_line(self, _, rest):
        """Reads whose turns come."""
        for word in rest.split():
            if self.lines.number(word) not in self.sessions:
                self.lines.refuse(f"there is no session {word}")

    def border_line(self, word, _):
        """Begins or ends a transaction."""
        if self.session is None or (word == "begin") != (self.statements is None):
            self.lines.refuse(f"{word} can't stand here")
        if word == "begin":
            self.statements = []
            return
        self.sessions[self.session].append(Transaction(self.statements, word))
        self.statements = None

    def statement_line(self, word, rest):
        """Reads a statement."""
        if word not in ("insert", "update", "delete", "get", "select", "plan", "filter"):
            self.lines.refuse(f"no line of a script begins with {word!r}")
        if self.statements is None:
            self.lines.refuse(f"{word} stands outside a transaction")
        self.statements.append(self.statement(word, rest))

    def statement(self, word, rest):
        """The statement of a line."""
        at, text = self.lines.at, f"{word} {rest}"
        if word in ("insert", "update"):
            key, shape = self.keyed(rest)
            return Statement(at, word, text, key=key, shape=shape)
        if word == "filter":
            return Statement(at, word, text, test="intersects", shape=self.lines.shape(rest))
        if word == "get" or (word == "delete" and first_word(rest)[0] != "where"):
            return Statement(at, word, text, key=self.lines.number(rest))
        if word == "delete":
            word, rest = "delete where", first_word(rest)[1]
        test, bound, rest = self.test(rest)
        return Statement(at, word, text, test=test, bound=bound, shape=self.lines.shape(rest))

    def test(self, rest):
        """The test of a query, its bound of distances, and what stands behind it."""
        test, rest = first_word(rest)
        if test in TESTS:
            return test, 0, rest
        order, rest = first_word(rest)
        bound, rest = first_word(rest)
        if test != "distance" or order not in ("<", "<="):
            self.lines.refuse("no test of shapes stands in the query")
        return f"{test} {order} {bound}", self.lines.number(bound), rest

    def keyed(self, rest):
        """The key and the shape of a line."""
        key, shape = first_word(rest)
        return self.lines.number(key), self.lines.shape(shape)


def read_script(file, text, quiet):
    """The script of a text."""
    lines = Lines(file, text, quiet)
    reader = Reader(lines)
    while not lines.is_end():
        reader.line(lines.take())
    if reader.statements is not None:
        lines.refuse("the text ends within a transaction")
    return Script(file, reader.grid, reader.window, reader.rows, reader.sessions, reader.fit)


def load_script(file, quiet):
    """The script of a file."""
    return read_script(file, read_text(file), quiet)
