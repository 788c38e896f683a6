"""How long questions take among many assets, beside the same questions in SQL on the same machine.

    python3 bench/questions.py [--runs N]

`segments` of three classes over a route of 100,000 rows, `at` in a thousand places of a route among 1,000,000 assets on
1,000 routes, `find` of a thousand assets and `totals`: asked of a desk in memory, and of Python's sqlite3 in memory, which has the
same tables and an index over rows by route and place. The desk is asked by bench/desk_bench: its source is laid as a crate,
lrs_desk_bench, into a copy of the repository's crates with the libraries that are built, where `rt run` proves and builds it (and
the libraries that are not built). Totals are summed over the table of what was entered: nothing is retired or abandoned here. SQL
finds the values of each stretch between two ends, and does not join stretches of equal values. A line has the least of the runs.
"""

import argparse
import pathlib
import shutil
import sqlite3
import subprocess
import sys
import tempfile
import time

TOP = pathlib.Path(__file__).resolve().parent.parent
SOURCES = TOP / "bench" / "desk_bench"
BENCH = "lrs_desk_bench"
USED = "lrs_measure lrs_position lrs_events lrs_desk lrs_sheet"
HEADER = "key,verb,a,b,c,d,e,f,g,h,i\n"
CLASSES = ["C0", "C1", "C2"]
PLACES = 1_000
CALLS = 20
TABLES = """
CREATE TABLE asset (number INTEGER NOT NULL, class TEXT NOT NULL, value TEXT NOT NULL, lateral INTEGER NOT NULL, PRIMARY KEY (number)) STRICT;
CREATE TABLE span (asset INTEGER NOT NULL REFERENCES asset, route TEXT NOT NULL, lo INTEGER NOT NULL, hi INTEGER NOT NULL, side INTEGER NOT NULL, PRIMARY KEY (asset, route, lo)) STRICT;
CREATE INDEX span_place ON span (route, lo);
CREATE TABLE entered (edit INTEGER NOT NULL, asset INTEGER NOT NULL, link INTEGER NOT NULL, lo INTEGER NOT NULL, hi INTEGER NOT NULL, side INTEGER NOT NULL, PRIMARY KEY (edit, asset, link, lo, side)) STRICT;
"""
AT = "SELECT asset, class, side, lateral, value FROM span JOIN asset ON number = asset WHERE route = ? AND lo <= ? AND lo > ? - 1000 AND hi > ? ORDER BY asset"
FIND = "SELECT route, lo, hi, side FROM span WHERE asset = ? ORDER BY route, lo"
TOTALS = "SELECT class, SUM(hi - lo) FROM entered JOIN asset ON number = asset GROUP BY class ORDER BY class"
VALUE = "(SELECT CASE WHEN hi > a THEN value END FROM span JOIN asset ON number = asset WHERE route = :route AND class = '{0}' AND lo <= a ORDER BY lo DESC LIMIT 1)"
SEGMENTS = f"""
WITH points AS (SELECT 0 AS p UNION SELECT lo FROM span WHERE route = :route UNION SELECT hi FROM span WHERE route = :route),
     pieces AS (SELECT p AS a, LEAD(p) OVER (ORDER BY p) AS b FROM points)
SELECT a, b, {", ".join(VALUE.format(name) for name in CLASSES)} FROM pieces WHERE b IS NOT NULL
"""


class Sample:
    """Routes with so many rows each: of another asset each, 5 mm long every 10 mm, of three classes in turn, on both sides."""

    def __init__(self, routes, rows):
        self.routes, self.rows, self.length = routes, rows, 10 * rows

    def entered(self):
        for route in range(1, self.routes + 1):
            for row in range(self.rows):
                yield (route - 1) * self.rows + row + 1, CLASSES[row % 3], f"R{route}", 10 * row, f"v{row % 7}"

    def sheet(self):
        lines = [f"c{name},class,{name},exclusive,,,,,,,\n" for name in CLASSES]
        for n in range(1, self.routes + 1):
            lines.append(f"l{n},link,{n},{self.length},,,,,,,\nr{n},route,R{n},{n}:0:{self.length}:+,0:0 {self.length}:{self.length},,,,,,\n")
        lines += [f"e{n},enter,{n},{kind},{route},B,abs,{at},{at + 5},{value},0\n" for n, kind, route, at, value in self.entered()]
        return (HEADER + "".join(lines)).encode()

    def tables(self):
        db = sqlite3.connect(":memory:")
        db.executescript(TABLES)
        db.executemany("INSERT INTO asset VALUES (?, ?, ?, 0)", ((n, kind, value) for n, kind, _, _, value in self.entered()))
        db.executemany("INSERT INTO span VALUES (?, ?, ?, ?, 0)", ((n, route, at, at + 5) for n, _, route, at, _ in self.entered()))
        entered = ((n, n, int(route[1:]), at, at + 5, side) for n, _, route, at, _ in self.entered() for side in (1, 2))
        db.executemany("INSERT INTO entered VALUES (?, ?, ?, ?, ?, ?)", entered)
        db.commit()
        return db


def laid(folder):
    """The folder of the benchmark as a crate, in a copy of the repository's crates with their libraries."""
    for crate in (TOP / "crates").iterdir():
        ignored = lambda at, names: [name for name in names if pathlib.Path(at).name == "out" and name != "rlib"]
        shutil.copytree(crate, folder / "crates" / crate.name, ignore=ignored)
    bench = folder / "crates" / BENCH
    (bench / "src").mkdir(parents=True)
    shutil.copy(SOURCES / "main.txt", bench / "src" / "main.rt")
    for name in ("stdin", "stdout"):
        shutil.copy(SOURCES / name, bench)
    (folder / "crates.txt").write_text((TOP / "crates.txt").read_text() + f"{BENCH}: {USED}\n")
    return bench


def built(folder):
    """The benchmark's program, which rt proves, builds and runs once over its own small sheet."""
    bench = laid(folder)
    with open(bench / "stdin", "rb") as sheet:
        subprocess.run(["rt", "run"], cwd=bench, stdin=sheet, stdout=sys.stderr, check=True)
    program = bench / "out" / BENCH
    said = subprocess.run([program], input=(bench / "stdin").read_bytes(), capture_output=True, check=True).stdout
    assert said == (bench / "stdout").read_bytes(), said
    return program


def asked_of_the_desk(program, sample):
    """What a call of each question takes there, in seconds."""
    told = subprocess.run([program, "R1", *CLASSES], input=sample.sheet(), capture_output=True, check=True).stdout.decode()
    return {line.partition(":")[0]: int(line.split()[1]) / 1e9 for line in told.splitlines()}


def asked_in_sql(sample, db):
    start = time.perf_counter()
    for number in range(PLACES):
        place = number * 367 % PLACES * sample.length // PLACES
        db.execute(AT, ("R1", place, place, place)).fetchall()
    at = (time.perf_counter() - start) / PLACES
    start = time.perf_counter()
    found = db.execute(SEGMENTS, {"route": "R1"}).fetchall()
    segments = time.perf_counter() - start
    assert len(found) >= 2 * sample.rows - 1
    assets = sample.routes * sample.rows
    start = time.perf_counter()
    for number in range(PLACES):
        db.execute(FIND, (assets // PLACES * number + 1,)).fetchall()
    find = (time.perf_counter() - start) / PLACES
    start = time.perf_counter()
    assert len(db.execute(TOTALS).fetchall()) == len(CLASSES)
    return {"at": at, "segments": segments, "find": find, "totals": time.perf_counter() - start}


def least(runs, ask):
    told = [ask() for _ in range(runs)]
    return {name: min(each[name] for each in told) for name in told[0]}


def main():
    parser = argparse.ArgumentParser()
    parser.add_argument("--runs", type=int, default=3)
    runs = parser.parse_args().runs
    with tempfile.TemporaryDirectory(prefix="desk-bench-") as folder:
        program = built(pathlib.Path(folder))
        for what, sample in [("one route of 100,000 rows", Sample(1, 100_000)), ("1,000,000 assets on 1,000 routes", Sample(1_000, 1_000))]:
            db = sample.tables()
            ours, theirs = least(runs, lambda: asked_of_the_desk(program, sample)), least(runs, lambda: asked_in_sql(sample, db))
            for name in ["segments", "at", "find", "totals"]:
                print(f"{what}: {name}: desk {1e6 * ours[name]:,.2f} µs, sqlite3 {1e6 * theirs[name]:,.2f} µs")


main()
