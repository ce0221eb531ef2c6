#!/usr/bin/env python3
"""Plays random scripts in several orders of turns, and checks each report by executing its commits one after another.

    bench/check_serial.py PROGRAM [SCRIPTS [SEED]]

PROGRAM is the built spatial_cli; there are 200 scripts where SCRIPTS is left out, with 10 schedules each. The commits,
in printed order, must be transactions of the script that end with commit, each once, each session's in order, and
each other transaction must have one line. They are executed twice: by this file, on a plain list of points and boxes,
whose geometry is written here from the definitions and takes nothing from the program; and by the program itself, as
a script of one session. The answers and the last rows must be the same. The list leaves a filter's keys and a plan's
counts open within their bounds; those of the program's own serial run must be the same too. The status is 1 at the
first report that differs, whose script is printed.
"""

import random
import subprocess
import sys

SCHEDULES = 10
SIDE = 12
TESTS = ("intersects", "contains", "within", "equals", "touches")


def shape():
    """A point or a box, as its left, low, right and high."""
    x, y = random.randint(0, SIDE), random.randint(0, SIDE)
    if random.random() < 0.5:
        return x, y, x, y
    return x, y, x + random.randint(1, 5), y + random.randint(1, 5)


def text(a):
    left, low, right, high = a
    if left == right:
        return f"POINT ({left} {low})"
    return f"POLYGON (({left} {low}, {right} {low}, {right} {high}, {left} {high}, {left} {low}))"


def is_point(a):
    return a[0] == a[2]


def meets(a, b):
    """Whether the closed boxes have a point in common."""
    return a[0] <= b[2] and b[0] <= a[2] and a[1] <= b[3] and b[1] <= a[3]


def meets_inside(a, b):
    """Whether a point is inside both; a point's only point is its inside."""
    def spans(low, high, other_low, other_high):
        if low == high and other_low == other_high:
            return low == other_low
        if low == high:
            return other_low < low < other_high
        if other_low == other_high:
            return low < other_low < high
        return max(low, other_low) < min(high, other_high)

    return spans(a[0], a[2], b[0], b[2]) and spans(a[1], a[3], b[1], b[3])


def lies_in(a, b):
    return b[0] <= a[0] and a[2] <= b[2] and b[1] <= a[1] and a[3] <= b[3]


def gap(a, b):
    """The square of the distance."""
    across = max(b[0] - a[2], a[0] - b[2], 0)
    up = max(b[1] - a[3], a[1] - b[3], 0)
    return across * across + up * up


def satisfies(test, a, b):
    name = test[0]
    if name == "distance":
        return gap(a, b) < test[2] ** 2 if test[1] == "<" else gap(a, b) <= test[2] ** 2
    if name == "intersects":
        return meets(a, b)
    if name == "contains":
        return lies_in(b, a) and meets_inside(a, b)
    if name == "within":
        return lies_in(a, b) and meets_inside(a, b)
    if name == "equals":
        return a == b
    return meets(a, b) and not meets_inside(a, b)


def a_test():
    if random.random() < 0.3:
        return "distance", random.choice(("<", "<=")), random.randint(0, 6)
    return (random.choice(TESTS),)


def a_statement():
    word = random.choice(("insert", "insert", "update", "update", "delete", "get", "select", "select", "plan", "filter", "delete where"))
    key = random.randint(1, 9) if word in ("insert", "update", "delete", "get") else None
    test = a_test() if word in ("select", "plan", "delete where") else None
    return word, key, test, shape() if word not in ("delete", "get") else None


def spelled(statement):
    word, key, test, given = statement
    fields = [word] + ([str(key)] if key else []) + (list(map(str, test)) if test else [])
    return " ".join(fields + ([text(given)] if given else []))


def settings():
    lines = []
    if random.random() < 0.7:
        lines.append("grid 0 0 16 16 low low low low" + random.choice(("", " 1", " 4", " 64")))
        lines += random.choice(([], ["window 1"], ["window 9"]))
    return lines


def made():
    """A script's settings, rows, and sessions as their number, priority and transactions of statements and an end."""
    rows = {key: shape() for key in range(1, 9) if random.random() < 0.5}
    sessions = []
    for number in sorted(random.sample(range(1, 65), random.randint(2, 5))):
        transactions = []
        for _ in range(random.randint(1, 3)):
            transactions.append(([a_statement() for _ in range(random.randint(0, 4))], "commit" if random.random() < 0.85 else "rollback"))
        sessions.append((number, random.choice((0, 0, 0, -1, 2)), transactions))
    return settings(), rows, sessions


def script(lines, rows, sessions, schedule):
    lines = lines + [f"row {key} {text(rows[key])}" for key in sorted(rows)]
    for number, priority, transactions in sessions:
        lines.append(f"session {number}" + (f" priority {priority}" if priority else ""))
        for statements, end in transactions:
            lines += ["begin", *map(spelled, statements), end]
    return "\n".join(lines + ["schedule " + " ".join(map(str, schedule))]) + "\n"


def answer_is(rows, statement, answer):
    """Whether the plain list gives this answer; the list is changed as the answer says."""
    word, key, test, given = statement
    if word == "insert":
        wanted = "duplicate" if key in rows else "inserted"
        rows.setdefault(key, given)
        return answer == wanted
    if word in ("update", "delete"):
        wanted = "done" if key in rows else "missing"
        if word == "delete":
            rows.pop(key, None)
        elif key in rows:
            rows[key] = given
        return answer == wanted
    if word == "get":
        return answer == (f"shape {text(rows[key])}" if key in rows else "none")
    keys = [key for key in sorted(rows) if satisfies(test or ("intersects",), rows[key], given)]
    fields = answer.split()
    if word == "filter":
        found = list(map(int, fields[1:]))
        return fields[0] == "keys" and found == sorted(set(found)) and set(keys) <= set(found) <= set(rows)
    if word == "plan":
        found, sure, tested = map(int, fields[1:4])
        return fields[0] == "plan" and found == sure + tested and found >= len(keys) >= sure and fields[4:] == ["keys", *map(str, keys)]
    for key in keys if word == "delete where" else []:
        del rows[key]
    return fields == ["deleted" if word == "delete where" else "keys", *map(str, keys)]


def report_of(printed):
    """The commits as session, transaction and answers, the lines of the others, and those of the rows."""
    commits, others, rows = [], [], None
    for line in printed.splitlines():
        fields = line.split()
        if rows is not None:
            rows.append(line[2:])
        elif fields[0] == "rows":
            rows = []
        elif fields[0] == "commit":
            assert int(fields[1]) == len(commits) + 1
            commits.append((int(fields[3]), int(fields[5]), []))
        elif line.startswith("  "):
            commits[-1][2].append(line[2:])
        else:
            others.append(fields)
    return commits, others, rows


def play(program, given):
    """The report of a script."""
    done = subprocess.run([program, "replay"], input=given.encode(), capture_output=True, check=True)
    return report_of(done.stdout.decode())


def fault(program, lines, rows, sessions, report, refused=False):
    """What is wrong with a report, if anything is; where memory was refused, transactions may have wanted it."""
    commits, others, printed = report
    by_number = {number: transactions for number, _, transactions in sessions}
    ended = [(session, number) for session, number, _ in commits]
    for fields in others:
        session, number = int(fields[fields.index("session") + 1]), int(fields[fields.index("transaction") + 1])
        ended.append((session, number))
        if fields[0] == "rolled" and by_number[session][number - 1][1] != "rollback":
            return "a rollback that the script hasn't"
        if fields[0] == "no" and not refused:
            return "want of memory"
    if sorted(ended) != sorted((session, number + 1) for session in by_number for number in range(len(by_number[session]))):
        return "the outcomes aren't one for each transaction"
    if any(ended[i][0] == ended[k][0] and ended[i][1] > ended[k][1] for k in range(len(commits)) for i in range(k)):
        return "commits of a session out of its order"
    plain, serial = dict(rows), []
    for session, number, answers in commits:
        statements, end = by_number[session][number - 1]
        if end != "commit" or len(answers) != len(statements):
            return "a commit that the script hasn't"
        serial.append((statements, "commit"))
        for statement, answer in zip(statements, answers):
            if not answer_is(plain, statement, answer):
                return f"commit {len(serial)}: {spelled(statement)} answered {answer}"
    if printed != [f"{key} {text(plain[key])}" for key in sorted(plain)]:
        return "other rows are left"
    again = play(program, script(lines, rows, [(1, 0, serial)], []))
    if [answers for _, _, answers in again[0]] != [answers for _, _, answers in commits] or again[2] != printed:
        return "the commits as one session's transactions answer otherwise"
    return None


def main():
    program = sys.argv[1]
    count = int(sys.argv[2]) if len(sys.argv) > 2 else 200
    random.seed(int(sys.argv[3]) if len(sys.argv) > 3 else 7)
    ends = {"commit": 0, "rolled": 0, "victim": 0}
    orders = 0
    for _ in range(count):
        lines, rows, sessions = made()
        numbers = [number for number, _, _ in sessions]
        reports = set()
        for _ in range(SCHEDULES):
            given = script(lines, rows, sessions, random.choices(numbers, k=random.randint(0, 80)))
            report = play(program, given)
            wrong = fault(program, lines, rows, sessions, report)
            if wrong:
                print(f"{given}{wrong}")
                return 1
            reports.add(str(report))
            ends["commit"] += len(report[0])
            for fields in report[1]:
                ends[fields[0]] += 1
        orders += len(reports)
    print(f"{count} scripts, {SCHEDULES} schedules each, {orders} different reports: {ends}")
    return 0


if __name__ == "__main__":
    sys.exit(main())
