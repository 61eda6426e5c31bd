#!/usr/bin/env python3
"""Times voodoo beside other tools on the same files, and prints a table.

    bench/bench.py [--rounds N] [--rows N,N,..] [--only "WORKLOAD;.."]

Each workload is a query over one table that the script makes in a folder of its own. Each tool runs it from cold start to the
printed answer, reading the CSV file too: sqlite3 imports it into a database in memory. The answers are compared. The rounds are
interleaved: each round runs every tool once. A time is the median of the rounds: seconds of the processor, which other work on
the machine changes least, and seconds of the clock. A peak is the greatest resident memory of any round; one of some 16 MB says
only that there was no more. Tools that are not installed are left out.
"""

import argparse
import datetime
import hashlib
import os
import platform
import shutil
import statistics
import subprocess
import sys
import tempfile
import time
from dataclasses import dataclass

TOP = os.path.dirname(os.path.dirname(os.path.abspath(__file__)))
PROGRAM = os.path.join(TOP, "crates", "voodoo", "out", "voodoo")

SCHEMAS = {
    "t": "CREATE TABLE t (a INTEGER NOT NULL);\n",
    "made": "CREATE TABLE made (id INTEGER NOT NULL PRIMARY KEY, kind VARCHAR(5) NOT NULL, "
    "shipped DATE NOT NULL, amount INTEGER NOT NULL);\n",
    "lines": "CREATE TABLE lines (id INTEGER NOT NULL PRIMARY KEY, kind VARCHAR(5) NOT NULL, part INTEGER NOT NULL, "
    "shipped DATE NOT NULL, quantity INTEGER NOT NULL, price INTEGER NOT NULL, discount INTEGER NOT NULL, tax INTEGER NOT NULL);\n",
}
SQLITE_COLUMNS = {
    "t": "a INTEGER NOT NULL",
    "made": "id INTEGER PRIMARY KEY, kind TEXT, shipped TEXT, amount INTEGER",
    "lines": "id INTEGER PRIMARY KEY, kind TEXT, part INTEGER, shipped TEXT, quantity INTEGER, price INTEGER, discount INTEGER, tax INTEGER",
}
KINDS = ("AIR", "RAIL", "SHIP", "TRUCK")


@dataclass
class Workload:
    """A query over a table; where it is the sum of one column, the column's name and its number from 1."""

    table: str
    query: str
    column: tuple = ()


WORKLOADS = {
    "sum of t": Workload("t", "SELECT SUM(a) AS total FROM t", ("a", 1)),
    "sum of made": Workload("made", "SELECT SUM(amount) AS total FROM made", ("amount", 4)),
    "filter and group": Workload(
        "lines",
        "SELECT kind, COUNT(*) AS n, SUM(price) AS total FROM lines "
        "WHERE shipped >= DATE '1995-01-01' AND price > 5000 GROUP BY kind ORDER BY kind",
    ),
    # As the first query of TPC-H: a date, two columns to group by, and aggregates of products.
    "many aggregates": Workload(
        "lines",
        "SELECT kind, tax, SUM(quantity) AS quantities, SUM(price) AS prices, SUM(price * (100 - discount)) AS discounted, "
        "SUM(price * (100 - discount) * (100 + tax)) AS charged, AVG(quantity) AS quantity, AVG(price) AS price, "
        "AVG(discount) AS discount, COUNT(*) AS n FROM lines WHERE shipped <= DATE '1998-09-02' GROUP BY kind, tax ORDER BY kind, tax",
    ),
    "sort": Workload("lines", "SELECT id, price, shipped FROM lines ORDER BY price DESC, id"),
    "100,000 groups": Workload("lines", "SELECT part, COUNT(*) AS n, SUM(price) AS total FROM lines GROUP BY part ORDER BY part"),
}


def days():
    """The days of seven years from 1992 on."""
    first = datetime.date(1992, 1, 1)
    return [(first + datetime.timedelta(d)).isoformat() for d in range(2557)]


def whole_numbers(rows):
    """A column of whole numbers of nine digits, as a generator of a linear congruence gives them."""
    x = 12345
    yield "a\n"
    for _ in range(rows):
        x = (x * 1103515245 + 12345) % 2**31
        yield f"{100_000_000 + x % 900_000_000}\n"


def four_columns(rows, seed=1):
    """The four-column table: a key, one of four kinds, a day of seven years from 1992 on, an amount."""

    def u(i, k):
        return ((seed % 1000003) * 7919 + i * (104729 + k)) % 1000003

    dates = days()
    yield "id,kind,shipped,amount\n"
    for i in range(1, rows + 1):
        yield f"{i},{KINDS[u(i, 1) % 4]},{dates[u(i, 2) % 2557]},{u(i, 3) - 500000}\n"


def order_lines(rows):
    """A table as that of TPC-H's lines, of whole numbers: a key, a kind, one of 100,000 parts, a day, a quantity, a price, a discount and a tax."""
    dates = days()
    x = 12345
    yield "id,kind,part,shipped,quantity,price,discount,tax\n"
    for i in range(1, rows + 1):
        x = (x * 6364136223846793005 + 1442695040888963407) % 2**64
        u = x >> 20
        yield (
            f"{i},{KINDS[u % 4]},{(u >> 2) % 100000},{dates[(u >> 7) % 2557]},{(u >> 11) % 50 + 1},"
            f"{(u >> 13) % 100000},{(u >> 9) % 11},{(u >> 5) % 9}\n"
        )


TABLES = {"t": whole_numbers, "made": four_columns, "lines": order_lines}


def make(folder, workload, rows):
    """Writes the schema, the table, line by line, and the query; gives the folder and the number of the table's bytes."""
    place = os.path.join(folder, "tables")
    os.mkdir(place)
    table = workload.table
    files = {
        "schema.sql": [SCHEMAS[table]],
        f"{table}.csv": TABLES[table](rows),
        "query.sql": [workload.query + "\n"],
        "sqlite.txt": [
            f"CREATE TABLE {table} ({SQLITE_COLUMNS[table]});\n",
            f".mode csv\n.headers on\n.import --skip 1 {place}/{table}.csv {table}\n",
            workload.query.replace("DATE '", "'") + ";\n",
        ],
    }
    for name, lines in files.items():
        with open(os.path.join(place, name), "w", encoding="utf-8") as file:
            file.writelines(lines)
    return place, os.path.getsize(os.path.join(place, f"{table}.csv"))


# Each tool: the words of its command, and the file that it reads as its standard input; none where it has no such query.


def voodoo(place, workload):
    schema, query = os.path.join(place, "schema.sql"), os.path.join(place, "query.sql")
    return [PROGRAM, "--db", schema, "--mode", "sql", "--text", query], os.devnull


def sqlite(place, workload):
    return ["sqlite3", ":memory:"], os.path.join(place, "sqlite.txt")


def pandas(place, workload):
    if not workload.column:
        return None
    code = f"import pandas; print('total'); print(pandas.read_csv({place + '/' + workload.table + '.csv'!r})[{workload.column[0]!r}].sum())"
    return [sys.executable, "-c", code], os.devnull


def datamash(place, workload):
    if not workload.column:
        return None
    command = f"echo total; datamash -t, --header-in --format %.0f sum {workload.column[1]}"
    return ["sh", "-c", command], f"{place}/{workload.table}.csv"


def installed():
    """The tools that are there, each with its version."""
    tools = {"voodoo": (voodoo, "this repository")}
    if shutil.which("sqlite3"):
        out = subprocess.run(["sqlite3", "--version"], capture_output=True, text=True, check=True).stdout
        tools["sqlite3"] = (sqlite, out.split()[0])
    if shutil.which("datamash"):
        out = subprocess.run(["datamash", "--version"], capture_output=True, text=True, check=True).stdout
        tools["datamash"] = (datamash, out.split("\n")[0].split()[-1])
    found = subprocess.run([sys.executable, "-c", "import pandas; print(pandas.__version__)"], capture_output=True, text=True)
    if found.returncode == 0:
        tools["pandas"] = (pandas, found.stdout.strip())
    return tools


@dataclass
class Run:
    """What one run printed, its seconds of the processor and of the clock, and its peak of resident memory in bytes."""

    answer: object
    cpu: float
    wall: float
    peak: int


# A longer answer is kept as its sum alone, so that this script's own memory, which a child's peak counts, stays small.
LONGEST = 1 << 16


def answer_in(file):
    """An answer: its fields, or the sum of a longer text, whose numbers are all whole."""
    file.seek(0, os.SEEK_END)
    if file.tell() <= LONGEST:
        file.seek(0)
        return [line.split(",") for line in file.read().decode().replace("\r", "").strip().split("\n")]
    file.seek(0)
    found = hashlib.sha256()
    while piece := file.read(LONGEST):
        found.update(piece.replace(b"\r", b""))
    return found.hexdigest()


def is_same_field(ours, theirs):
    """Whether fields are equal, but for what a quotient that is cut off at its scale lacks of one that is not."""
    if ours == theirs:
        return True
    try:
        scale = len(ours.partition(".")[2])
        return abs(float(ours) - float(theirs)) < 10**-scale
    except ValueError:
        return False


def is_same(ours, theirs):
    if isinstance(ours, str) or isinstance(theirs, str):
        return ours == theirs
    return len(ours) == len(theirs) and all(
        len(a) == len(b) and all(map(is_same_field, a, b)) for a, b in zip(ours, theirs)
    )


def run(words, given):
    """Runs a command. The system counts a child's peak from before its program begins, so it is never below this script's own size."""
    with open(given, "rb") as lines, tempfile.TemporaryFile("w+b") as out:
        start = time.perf_counter()
        child = subprocess.Popen(words, stdin=lines, stdout=out)
        _, status, usage = os.wait4(child.pid, 0)
        seconds = time.perf_counter() - start
        child.returncode = os.waitstatus_to_exitcode(status)
        if child.returncode != 0:
            sys.exit(f"bench: {words[0]} ended with {child.returncode}")
        return Run(answer_in(out), usage.ru_utime + usage.ru_stime, seconds, usage.ru_maxrss * 1024)


def measure(tools, place, workload, rounds):
    """For each tool the medians of its seconds and its greatest peak; every answer has to be the same."""
    commands = {name: tool(place, workload) for name, (tool, _version) in tools.items()}
    runs = {name: [] for name, command in commands.items() if command}
    for _ in range(rounds):
        for name in runs:
            runs[name].append(run(*commands[name]))
    ours = runs["voodoo"][0].answer
    for name, found in runs.items():
        if not all(is_same(ours, one.answer) for one in found):
            sys.exit(f"bench: {name} answers otherwise than voodoo")
    return {
        name: Run(
            None,
            statistics.median(one.cpu for one in found),
            statistics.median(one.wall for one in found),
            max(one.peak for one in found),
        )
        for name, found in runs.items()
    }


def main():
    parser = argparse.ArgumentParser(description=__doc__.split("\n")[0])
    parser.add_argument("--rounds", type=int, default=7)
    parser.add_argument("--rows", default="1000,100000,1000000")
    parser.add_argument("--only", help="workloads, separated by semicolons")
    given = parser.parse_args()
    # The script builds the program where it is missing or older than its sources; without words it ends with 2.
    subprocess.run([os.path.join(TOP, "voodoo")], stderr=subprocess.DEVNULL, check=False)
    if not os.path.exists(PROGRAM):
        sys.exit("bench: the program is not built")
    tools = installed()
    print(f"{platform.machine()}, {os.cpu_count()} processors; " + ", ".join(f"{n} {v}" for n, (_, v) in tools.items()))
    print("| workload | rows | bytes | tool | processor s | clock s | peak MB | peak / file | processor / voodoo's |")
    print("|---|---|---|---|---|---|---|---|---|")
    folder = tempfile.mkdtemp(prefix="voodoo-bench-")
    chosen = given.only.split(";") if given.only else WORKLOADS
    try:
        for title in chosen:
            for rows in map(int, given.rows.split(",")):
                place, size = make(folder, WORKLOADS[title], rows)
                found = measure(tools, place, WORKLOADS[title], given.rounds)
                ours = found["voodoo"].cpu
                for name, of in found.items():
                    by = "" if name == "voodoo" else f"{of.cpu / ours:.1f}"
                    print(
                        f"| {title} | {rows} | {size} | {name} | {of.cpu:.4f} | {of.wall:.4f} | {of.peak / 1e6:.1f} "
                        f"| {of.peak / size:.1f} | {by} |",
                        flush=True,
                    )
                shutil.rmtree(place)
    finally:
        shutil.rmtree(folder)


if __name__ == "__main__":
    main()
