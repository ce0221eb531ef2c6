#!/usr/bin/env python3
"""Times scripts of 64 sessions that run beside each other, and prints the figures. Nothing is asserted on time.

    bench/interleaved.py PROGRAM [RUNS]

PROGRAM is the built spatial_cli; each figure is the median of RUNS runs, 3 where it is left out.

First 3,200 transactions, 50 of each session, over tables of 200, 1,000 and 5,000 random rectangles with a grid: each
selects with a small window, updates a row and inserts one. A figure is the time of the script less that of one with
the rows alone, for each transaction: processor time of the user, and time by the clock. The commits, the victims and
the turns in which a session waited (that the program doesn't print) make a part of the cost, so the first two stand
beside. The exponent tells how the processor time grows from one table to the next: 1 would be the growth of the table
itself. Where sqlite3 with SpatiaLite, or PostgreSQL with PostGIS, is installed, its times for the same transactions,
one after another, stand beside.

Then scripts of 25,000, 50,000 and 100,000 statements, of 64 sessions and of one session with three statements a
transaction, and of one transaction that selects and inserts. Last, updates of one row in one transaction: the cells
that the row has left stay present to the end of the transaction. The exponent is wanted at 1 in all of them.
"""

import math
import os
import random
import resource
import shutil
import statistics
import subprocess
import sys
import tempfile
import time

SIDE = 100_000
SESSIONS = 64
TRANSACTIONS = 3_200
ROWS = (200, 1_000, 5_000)
STATEMENTS = (25_000, 50_000, 100_000)
UPDATES = (1_000, 2_000, 4_000)
EXTENSIONS = ("/usr/lib/x86_64-linux-gnu/mod_spatialite.so",)
SERVERS = ("/usr/lib/postgresql/15/bin", "/usr/lib/postgresql/16/bin", "/usr/lib/postgresql/17/bin")


def box(largest):
    x, y = random.randrange(SIDE - largest), random.randrange(SIDE - largest)
    w, h = random.randint(1, largest), random.randint(1, largest)
    return f"POLYGON (({x} {y}, {x + w} {y}, {x + w} {y + h}, {x} {y + h}, {x} {y}))"


def transactions(count, rows):
    """So many transactions over a table with so many rows, as triples of statements with their shapes."""
    made = []
    for number in range(1, count + 1):
        made.append([("select", 0, box(200)), ("update", random.randint(1, rows), box(900)), ("insert", rows + number, box(900))])
    return made


def spelled(statement):
    word, key, shape = statement
    return f"select intersects {shape}" if word == "select" else f"{word} {key} {shape}"


def table(rows):
    lines = [f"grid 0 0 {SIDE} {SIDE}"] + [f"row {key} {shape}" for key, shape in enumerate(rows, 1)]
    return "\n".join(lines) + "\n"


def sessions(made, count):
    """The lines of so many sessions that share the transactions, each a run of them."""
    lines = []
    share = -(-len(made) // count)
    for number in range(count):
        lines.append(f"session {number + 1}")
        for statements in made[number * share : (number + 1) * share]:
            lines += ["begin", *map(spelled, statements), "commit"]
    return "\n".join(lines) + "\n"


def timed(words, text, runs):
    """The medians of the user's processor time and of the time by the clock, and what the last run printed."""
    users, clocks = [], []
    for _ in range(runs):
        with tempfile.TemporaryFile() as given:
            given.write(text.encode())
            given.seek(0)
            before, start = resource.getrusage(resource.RUSAGE_CHILDREN), time.perf_counter()
            done = subprocess.run(words, stdin=given, capture_output=True, check=True)
            clocks.append(time.perf_counter() - start)
            users.append(resource.getrusage(resource.RUSAGE_CHILDREN).ru_utime - before.ru_utime)
    return statistics.median(users), statistics.median(clocks), done.stdout.decode()


def exponent(before, now):
    """How the second of two pairs of a size and a time has grown."""
    if not before or now[1] <= 0 or before[1] <= 0:
        return ""
    return f"  exponent {math.log(now[1] / before[1]) / math.log(now[0] / before[0]):5.2f}"


def spatialite(extension, rows, made, runs):
    """The time of a transaction with SpatiaLite and its R-tree, one after another, in memory."""
    head = [f"SELECT load_extension('{extension}');", "SELECT InitSpatialMetaData(1);", "CREATE TABLE t (k INTEGER PRIMARY KEY);"]
    head += ["SELECT AddGeometryColumn('t', 'g', 0, 'POLYGON', 'XY');", "BEGIN;"]
    head += [f"INSERT INTO t VALUES ({key}, GeomFromText('{shape}', 0));" for key, shape in enumerate(rows, 1)]
    head += ["COMMIT;", "SELECT CreateSpatialIndex('t', 'g');"]
    body = []
    for (_, _, window), (_, key, shape), (_, new, other) in made:
        frame = f"GeomFromText('{window}', 0)"
        body += ["BEGIN;", f"SELECT k FROM t WHERE ROWID IN (SELECT ROWID FROM SpatialIndex WHERE f_table_name = 't' AND search_frame = {frame}) AND Intersects(g, {frame});"]
        body += [f"UPDATE t SET g = GeomFromText('{shape}', 0) WHERE k = {key};", f"INSERT INTO t VALUES ({new}, GeomFromText('{other}', 0));", "COMMIT;"]
    load = timed(["sqlite3", ":memory:"], "\n".join(head), runs)
    whole = timed(["sqlite3", ":memory:"], "\n".join(head + body), runs)
    return (whole[0] - load[0]) / len(made), (whole[1] - load[1]) / len(made)


class PostGis:
    """A server of its own in a folder of its own, under the user postgres where this is root."""

    def __init__(self, programs):
        self.programs = programs
        self.folder = tempfile.mkdtemp(prefix="interleaved-")
        self.user = ["runuser", "-u", "postgres", "--"] if os.getuid() == 0 else []
        if self.user:
            shutil.chown(self.folder, "postgres")
        self.run([f"{programs}/initdb", "-D", f"{self.folder}/data", "-A", "trust", "-U", "postgres"])
        options = f"-k {self.folder} -c listen_addresses="
        self.run([f"{programs}/pg_ctl", "-D", f"{self.folder}/data", "-w", "-l", f"{self.folder}/log", "-o", options, "start"])

    def run(self, words):
        subprocess.run(self.user + words, check=True, stdout=subprocess.DEVNULL, cwd=self.folder)

    def stop(self):
        self.run([f"{self.programs}/pg_ctl", "-D", f"{self.folder}/data", "-m", "fast", "-w", "stop"])
        shutil.rmtree(self.folder)

    def time(self, rows, made):
        """The time of a transaction by the clock, one after another in one session, by one run."""
        words = ["psql", "-h", self.folder, "-U", "postgres", "-q", "-v", "ON_ERROR_STOP=1", "postgres"]
        head = ["CREATE EXTENSION IF NOT EXISTS postgis;", "DROP TABLE IF EXISTS t;", "CREATE TABLE t (k bigint PRIMARY KEY, g geometry);", "BEGIN;"]
        head += [f"INSERT INTO t VALUES ({key}, '{shape}');" for key, shape in enumerate(rows, 1)]
        head += ["COMMIT;", "CREATE INDEX ON t USING gist (g);", "ANALYZE t;"]
        timed(words, "\n".join(head), 1)
        body = ["SET default_transaction_isolation = 'serializable';"]
        for (_, _, window), (_, key, shape), (_, new, other) in made:
            body += ["BEGIN;", f"SELECT k FROM t WHERE ST_Intersects(g, '{window}'::geometry);"]
            body += [f"UPDATE t SET g = '{shape}' WHERE k = {key};", f"INSERT INTO t VALUES ({new}, '{other}');", "COMMIT;"]
        return timed(words, "\n".join(body), 1)[1] / len(made)


def growing_tables(program, runs):
    extension = next((e for e in EXTENSIONS if os.path.exists(e)), None) if shutil.which("sqlite3") else None
    programs = next((s for s in SERVERS if os.path.exists(f"{s}/initdb")), None)
    has_postgis = programs and os.path.exists("/usr/share/postgresql/" + programs.split("/")[4] + "/extension/postgis.control")
    server = PostGis(programs) if has_postgis else None
    before = None
    for count in ROWS:
        rows = [box(900) for _ in range(count)]
        made = transactions(TRANSACTIONS, count)
        load = timed([program, "replay"], table(rows), runs)
        whole = timed([program, "replay"], table(rows) + sessions(made, SESSIONS), runs)
        user, clock = (whole[0] - load[0]) / TRANSACTIONS, (whole[1] - load[1]) / TRANSACTIONS
        ends = [line.split()[0] for line in whole[2].splitlines()]
        line = f"{count:5} rows  transaction {user * 1e6:8.1f} us user {clock * 1e6:8.1f} us clock"
        line += f"  commits {ends.count('commit'):4} victims {ends.count('victim'):4}" + exponent(before, (count, user))
        before = (count, user)
        if extension:
            lite = spatialite(extension, rows, made, runs)
            line += f"  SpatiaLite {lite[0] * 1e6:8.1f} us user {lite[1] * 1e6:8.1f} us clock"
        if server:
            line += f"  PostGIS {server.time(rows, made) * 1e6:8.1f} us clock"
        print(line, flush=True)
    if server:
        server.stop()


def growing_scripts(program, runs, name, sizes, lines):
    """Times scripts of these sizes over one table, lines telling the sessions of a size."""
    before = None
    rows = table([box(900) for _ in range(1_000)])
    for statements in sizes:
        user, clock, text = timed([program, "replay"], rows + lines(statements), runs)
        ends = [line.split()[0] for line in text.splitlines()]
        line = f"{statements:6} statements of {name}  {user:7.3f} s user {clock:7.3f} s clock"
        print(line + f"  commits {ends.count('commit'):5} victims {ends.count('victim'):5}" + exponent(before, (statements, user)), flush=True)
        before = (statements, user)


def by_threes(count):
    """So many sessions whose transactions select, update and insert."""
    return lambda statements: sessions(transactions(statements // 3, 1_000), count)


def in_one(statements):
    """One transaction that selects and inserts in turns."""
    made = transactions(statements // 2, 1_000)
    return sessions([[statement for select, _, insert in made for statement in (select, insert)]], 1)


def of_one_row(statements):
    """One transaction that moves one row so many times."""
    return sessions([[("update", 1, box(900)) for _ in range(statements)]], 1)


def main():
    program = sys.argv[1]
    runs = int(sys.argv[2]) if len(sys.argv) > 2 else 3
    random.seed(7)
    print(f"load of the machine {os.getloadavg()[0]:.1f}, {len(os.sched_getaffinity(0))} processors")
    growing_tables(program, runs)
    growing_scripts(program, runs, "64 sessions", STATEMENTS, by_threes(SESSIONS))
    growing_scripts(program, runs, "one session", STATEMENTS, by_threes(1))
    growing_scripts(program, runs, "one transaction", STATEMENTS, in_one)
    growing_scripts(program, runs, "one transaction at one row", UPDATES, of_one_row)


if __name__ == "__main__":
    main()
