"""How fast assets are entered into a file, beside Python's sqlite3 and PostgreSQL on the same machine.

    python3 bench/files.py [RECORDS] [--disk FOLDER] [--runs N] [--without-postgres] [--page BYTES]

A sheet of 15,000 accepted records over 50 routes, each of which enters an asset, is done by the program over a file,
from a file and through a pipe, on tmpfs, over a file on a disk and in memory; by Python's sqlite3, which writes the same rows into the same tables in
one transaction a record, and in one for 1,024 records as the program does (WAL, synchronous FULL), and tests nothing; and by PostgreSQL 15 with an exclusion constraint,
one call of a function and one commit a record. They take turns; a line has the seconds of the fastest of the
runs, without those of a sheet that only makes the routes, and records a second. Before and after the runs on a disk
stands what one fdatasync of 4 KB takes there, and for the program how many of them, and how many bytes, a record
writes. PostgreSQL is installed by apt-get where it is missing. ROADLRS names another program to measure. With --page the
stores of the first two have pages of so many bytes: sqlite3 makes the empty file that each begins with.
"""

import argparse
import os
import pathlib
import pwd
import shutil
import sqlite3
import statistics
import subprocess
import sys
import tempfile
import time

TOP = pathlib.Path(__file__).resolve().parent.parent
BUILT = TOP / "crates" / "lrs_cli" / "out" / "lrs_cli"
HEADER = b"key,verb,a,b,c,d,e,f,g,h,i\n"
TMPFS = pathlib.Path("/dev/shm")
ROUTES = 50
LENGTH = 1_000_000_000
STEP = 1_000
TABLES = """
CREATE TABLE version (v INTEGER NOT NULL, PRIMARY KEY (v)) STRICT;
CREATE TABLE link (number INTEGER NOT NULL, length INTEGER NOT NULL, PRIMARY KEY (number)) STRICT;
CREATE TABLE class (name TEXT NOT NULL, kind INTEGER NOT NULL, PRIMARY KEY (name)) STRICT;
CREATE TABLE asset (number INTEGER NOT NULL, class TEXT NOT NULL REFERENCES class, value TEXT NOT NULL, lateral INTEGER NOT NULL, PRIMARY KEY (number)) STRICT;
CREATE TABLE piece (route TEXT NOT NULL, n INTEGER NOT NULL, link INTEGER NOT NULL REFERENCES link, a INTEGER NOT NULL, b INTEGER NOT NULL, dir INTEGER NOT NULL, PRIMARY KEY (route, n)) STRICT;
CREATE TABLE mark (route TEXT NOT NULL, n INTEGER NOT NULL, chainage INTEGER NOT NULL, measure INTEGER NOT NULL, PRIMARY KEY (route, n)) STRICT;
CREATE TABLE ref (name TEXT NOT NULL, route TEXT NOT NULL, place INTEGER NOT NULL, PRIMARY KEY (name)) STRICT;
CREATE TABLE span (asset INTEGER NOT NULL REFERENCES asset, route TEXT NOT NULL, lo INTEGER NOT NULL, hi INTEGER NOT NULL, side INTEGER NOT NULL, PRIMARY KEY (asset, route, lo)) STRICT;
CREATE TABLE entered (edit INTEGER NOT NULL, asset INTEGER NOT NULL, link INTEGER NOT NULL, lo INTEGER NOT NULL, hi INTEGER NOT NULL, side INTEGER NOT NULL, PRIMARY KEY (edit, asset, link, lo, side)) STRICT;
CREATE TABLE gone (edit INTEGER NOT NULL, cause INTEGER NOT NULL, asset INTEGER NOT NULL, link INTEGER NOT NULL, lo INTEGER NOT NULL, hi INTEGER NOT NULL, side INTEGER NOT NULL, PRIMARY KEY (edit, cause, asset, link, lo, side)) STRICT;
CREATE TABLE edit (number INTEGER NOT NULL, token TEXT NOT NULL UNIQUE, line TEXT NOT NULL, PRIMARY KEY (number)) STRICT;
CREATE TABLE origin (asset INTEGER NOT NULL REFERENCES asset, edit INTEGER NOT NULL, PRIMARY KEY (asset)) STRICT;
"""
POSTGRES_TABLES = """
CREATE EXTENSION btree_gist;
CREATE TABLE asset (number bigint PRIMARY KEY, class text NOT NULL, value text NOT NULL, away integer NOT NULL);
CREATE TABLE span (asset bigint NOT NULL REFERENCES asset, class text NOT NULL, route text NOT NULL, places int8range NOT NULL, side smallint NOT NULL,
  EXCLUDE USING gist (class WITH =, route WITH =, side WITH =, places WITH &&));
CREATE TABLE entered (edit bigint, asset bigint, link integer, lo bigint, hi bigint, side smallint, PRIMARY KEY (edit, asset, link, lo, side));
CREATE TABLE edit (number bigint PRIMARY KEY, token text NOT NULL UNIQUE, line text NOT NULL);
CREATE TABLE origin (asset bigint PRIMARY KEY REFERENCES asset, edit bigint NOT NULL);
CREATE FUNCTION enter(n bigint, token text, line text, asset bigint, class text, route text, link integer, lo bigint, hi bigint) RETURNS void LANGUAGE plpgsql AS $$
BEGIN
  INSERT INTO asset VALUES (asset, class, '80', 0);
  INSERT INTO span VALUES (asset, class, route, int8range(lo, hi), 0);
  INSERT INTO entered VALUES (n, asset, link, lo, hi, 0);
  INSERT INTO edit VALUES (n, token, line);
  INSERT INTO origin VALUES (asset, n);
END $$;
"""


class Entered:
    """The n-th asset that is entered, from 0: of the exclusive class, on one of the routes, behind those before it there."""

    def __init__(self, n):
        self.asset, self.number = n + 1, 2 * ROUTES + 2 + n
        self.link = n % ROUTES + 1
        self.route = f"R{self.link}"
        self.low = n // ROUTES * STEP
        self.high = self.low + STEP - 100
        self.key = f"k{self.number}"
        self.line = f"enter,{self.asset},SPEED,{self.route},L,abs,{self.low},{self.high},80,0"

    def record(self):
        return f"{self.key},{self.line}\n".encode()


def made_before():
    """The records that make the class, the links and the routes."""
    records = [b"c1,class,SPEED,exclusive,,,,,,,\n"]
    for n in range(1, ROUTES + 1):
        records.append(b"l%d,link,%d,%d,,,,,,,\n" % (n, n, LENGTH))
        records.append(b"r%d,route,R%d,%d:0:%d:+,0:0 %d:%d,,,,,,\n" % (n, n, n, LENGTH, LENGTH, LENGTH))
    return records


def make_empty(path, page):
    """Makes a file without tables whose pages have so many bytes, if that is asked for."""
    if page:
        db = sqlite3.connect(path, isolation_level=None)
        db.execute(f"PRAGMA page_size = {page}")
        db.execute("VACUUM")
        db.close()


class Roadlrs:
    """The program over a file in a folder, or in memory."""

    def __init__(self, program, sheets, folder=None, page=None, through_pipe=False):
        self.program, self.sheets, self.folder, self.page, self.through_pipe = program, sheets, folder, page, through_pipe
        self.name = "roadlrs, through a pipe" if through_pipe else "roadlrs"

    def seconds(self, count, trace=None):
        """The seconds of a run over a new store."""
        with tempfile.TemporaryDirectory(dir=self.folder) as name:
            store = ":memory:" if self.folder is None else f"{name}/roads.db"
            if self.folder is not None:
                make_empty(store, self.page)
            sheet = self.sheets[count]
            words = [self.program, "edit", store, "stdin" if self.through_pipe else sheet]
            started = time.monotonic()
            with subprocess.Popen(["cat", sheet], stdout=subprocess.PIPE) as cat:
                done = subprocess.run([*(trace or []), *words], stdin=cat.stdout if self.through_pipe else subprocess.DEVNULL, stdout=subprocess.PIPE, check=False)
                cat.stdout.close()
            spent = time.monotonic() - started
        accepted = done.stdout.count(b",done,")
        if done.returncode != 0 or accepted != 2 * ROUTES + 1 + count:
            sys.exit(f"{self.program} ended with {done.returncode} and accepted {accepted} records")
        return spent


class Sqlite:
    """Python's sqlite3, which writes the same rows, of so many records in one transaction, and tests nothing."""

    def __init__(self, folder, page=None, together=1):
        self.folder, self.page, self.together = folder, page, together
        self.name = f"sqlite3 {sqlite3.sqlite_version} of Python" + ("" if together == 1 else f", {together} records a transaction")

    def seconds(self, count):
        with tempfile.TemporaryDirectory(dir=self.folder) as name:
            make_empty(f"{name}/roads.db", self.page)
            db = sqlite3.connect(f"{name}/roads.db", isolation_level=None)
            db.execute("PRAGMA journal_mode = WAL")
            db.execute("PRAGMA synchronous = FULL")
            db.executescript(TABLES)
            db.execute("INSERT INTO class VALUES ('SPEED', 2)")
            all_entered = [Entered(n) for n in range(count)]
            started = time.monotonic()
            for n, it in enumerate(all_entered):
                if n % self.together == 0:
                    db.execute("BEGIN IMMEDIATE")
                db.execute("INSERT INTO asset VALUES (?, 'SPEED', '80', 0)", (it.asset,))
                db.execute("INSERT INTO span VALUES (?, ?, ?, ?, 0)", (it.asset, it.route, it.low, it.high))
                db.execute("INSERT INTO entered VALUES (?, ?, ?, ?, ?, 0)", (it.number, it.asset, it.link, it.low, it.high))
                db.execute("INSERT INTO edit VALUES (?, ?, ?)", (it.number, it.key, it.line))
                db.execute("INSERT INTO origin VALUES (?, ?)", (it.asset, it.number))
                if (n + 1) % self.together == 0 or n + 1 == count:
                    db.execute("COMMIT")
            spent = time.monotonic() - started
            db.close()
        return spent


class Postgres:
    """PostgreSQL with its default settings, on a socket of its own, and one client."""

    def __init__(self, folder):
        self.room = pathlib.Path(tempfile.mkdtemp(dir=folder))
        self.home = postgres_home()
        self.as_user = {}
        if os.geteuid() == 0:
            user = pwd.getpwnam("postgres")
            os.chown(self.room, user.pw_uid, user.pw_gid)
            self.as_user = {"user": user.pw_uid, "group": user.pw_gid, "extra_groups": []}
        self.name = subprocess.run([self.home / "postgres", "--version"], capture_output=True, text=True, check=True).stdout.strip().split(" (D")[0].replace("postgres (PostgreSQL)", "PostgreSQL")
        self.call("initdb", "-D", self.room / "data", "-A", "trust", "-U", "postgres", "-E", "UTF8", "--locale=C")
        self.call("pg_ctl", "-D", self.room / "data", "-w", "-l", self.room / "log", "-o", f"-k {self.room} -h ''", "start")
        self.runs = 0

    def call(self, command, *words, given=None):
        done = subprocess.run([self.home / command, *map(str, words)], input=given, stdout=subprocess.DEVNULL, cwd=self.room, check=False, **self.as_user)
        if done.returncode != 0:
            sys.exit(f"{command} ended with {done.returncode}")

    def statements(self, database, given):
        self.call("psql", "-h", self.room, "-U", "postgres", "-q", "-X", "-v", "ON_ERROR_STOP=1", "-d", database, given=given)

    def seconds(self, count):
        self.runs += 1
        database = f"roads{self.runs}"
        self.call("createdb", "-h", self.room, "-U", "postgres", database)
        self.statements(database, POSTGRES_TABLES.encode())
        calls = b"".join(b"SELECT enter(%d,'%s','%s',%d,'SPEED','%s',%d,%d,%d);\n" % (it.number, it.key.encode(), it.line.encode(), it.asset, it.route.encode(), it.link, it.low, it.high) for it in map(Entered, range(count)))
        started = time.monotonic()
        self.statements(database, calls)
        spent = time.monotonic() - started
        self.call("dropdb", "-h", self.room, "-U", "postgres", database)
        return spent

    def stop(self):
        self.call("pg_ctl", "-D", self.room / "data", "-w", "-m", "fast", "stop")
        shutil.rmtree(self.room)


def postgres_home():
    """Where PostgreSQL's programs lie, which are installed where they are missing."""
    found = sorted(pathlib.Path("/usr/lib/postgresql").glob("*/bin/initdb"))
    if not found:
        subprocess.run(["apt-get", "update", "-qq"], check=True)
        subprocess.run(["apt-get", "install", "-y", "-qq", "postgresql-15"], check=True, stdout=subprocess.DEVNULL, env={**os.environ, "DEBIAN_FRONTEND": "noninteractive"})
        found = sorted(pathlib.Path("/usr/lib/postgresql").glob("*/bin/initdb"))
    return found[-1].parent


def sync_of(folder):
    """The microseconds of one fdatasync of 4 KB more at the end of a file, in the middle of 300."""
    spent = []
    with tempfile.NamedTemporaryFile(dir=folder) as file:
        for _ in range(300):
            file.write(bytes(4096))
            file.flush()
            started = time.monotonic()
            os.fdatasync(file.fileno())
            spent.append(time.monotonic() - started)
    return statistics.median(spent) * 1e6


def written_by(program, count):
    """What the program writes of one record, by strace where it is there: calls of fdatasync, of write, and bytes."""
    if shutil.which("strace") is None:
        return None
    found = []
    for records in (0, count):
        with tempfile.NamedTemporaryFile() as log:
            program.seconds(records, ["strace", "-f", "-qq", "-e", "trace=fdatasync,fsync,pwrite64,write,pwritev", "-o", log.name])
            calls = pathlib.Path(log.name).read_text().splitlines()
        writes = [line for line in calls if "write" in line and "(1," not in line]
        found.append((sum("sync(" in line for line in calls), len(writes), sum(int(line.rsplit("= ", 1)[1].split()[0]) for line in writes)))
    return [(whole - base) / count for base, whole in zip(*found)]


def print_line(where, name, count, spent):
    print(f"{where:<8}{name:<58}{spent:>9.3f} s{count / spent:>12,.0f}/s{spent / count * 1e6:>9.1f} µs", flush=True)


def measure(where, stores, count, runs):
    """The fastest of some runs of each store, which take turns."""
    least = {}
    for _ in range(runs):
        for store in stores:
            base, whole = store.seconds(0), store.seconds(count)
            least.setdefault(store.name, []).append(whole - base)
    for name, spent in least.items():
        print_line(where, name, count, min(spent))


def over_folder(where, folder, program, sheets, given):
    stores = [Roadlrs(program, sheets, folder, given.page), Roadlrs(program, sheets, folder, given.page, through_pipe=True), Sqlite(folder, given.page), Sqlite(folder, given.page, 256)]
    postgres = None if given.without_postgres else Postgres(folder)
    try:
        measure(where, [*stores, *([postgres] if postgres else [])], given.records, given.runs)
    finally:
        if postgres:
            postgres.stop()
    return stores[0]


def main():
    reader = argparse.ArgumentParser(description=__doc__.splitlines()[0])
    reader.add_argument("records", nargs="?", type=int, default=15_000)
    reader.add_argument("--disk", default=str(TOP))
    reader.add_argument("--runs", type=int, default=3)
    reader.add_argument("--without-postgres", action="store_true")
    reader.add_argument("--page", type=int)
    given = reader.parse_args()
    program = os.environ.get("ROADLRS", str(BUILT))
    if program == str(BUILT):
        subprocess.run([str(TOP / "roadlrs"), "--help"], stdout=subprocess.DEVNULL, check=True)
    with tempfile.TemporaryDirectory() as name:
        sheets = {}
        for count in {0, 1_000, given.records}:
            sheets[count] = f"{name}/sheet{count}"
            with open(sheets[count], "wb") as sheet:
                sheet.write(HEADER)
                sheet.writelines([*made_before(), *(Entered(n).record() for n in range(count))])
        measure("memory", [Roadlrs(program, sheets)], given.records, given.runs)
        over_folder("tmpfs", TMPFS, program, sheets, given)
        print(f"disk    one fdatasync of 4 KB: {sync_of(given.disk):.0f} µs", flush=True)
        ours = over_folder("disk", given.disk, program, sheets, given)
        print(f"disk    one fdatasync of 4 KB: {sync_of(given.disk):.0f} µs", flush=True)
        written = written_by(ours, 1_000)
        if written:
            print("a record: {:.2f} fdatasync, {:.2f} writes, {:,.0f} bytes".format(*written), flush=True)


if __name__ == "__main__":
    main()
