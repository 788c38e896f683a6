"""What it costs to keep PostgreSQL up to date with two inventories by docs/recipes/postgresql/follow.py.

    python3 bench/postgresql.py [--assets N]

bench/country/country.py writes the sheets of two countries of so many assets (100,000). Of each, 1,000 assets are held back. It measures a first
load; then 1,000 `enter` of both together, and 1,000 route edits, each sheet in one, and looked at once behind it; and 1,000 route edits, one
after the other, while a loader looks each second. PostgreSQL has its default settings, and the program that ROADLRS names serves from files.
"""

import argparse
import http.client
import os
import pathlib
import subprocess
import sys
import tempfile
import time

from files import BUILT, HEADER, TOP, Postgres

RECIPE = TOP / "docs" / "recipes" / "postgresql"
PROGRAM = os.environ.get("ROADLRS", str(BUILT))
NAMES = ("north", "south")
TABLES = ("links", "routes", "pieces", "marks", "referents", "rows")


def records(path):
    return path.read_bytes().splitlines(keepends=True)[1:]


def seconds_of(pid):
    """Seconds of a processor that a process has used, and those of its children that have ended."""
    fields = pathlib.Path(f"/proc/{pid}/stat").read_text().rpartition(")")[2].split()
    return sum(map(int, fields[11:15])) / os.sysconf("SC_CLK_TCK")


class Country:
    """An inventory that is served, and what it has not been sent yet."""

    def __init__(self, folder, name, seed, assets):
        self.name, self.port, made = name, 18_400 + seed, folder / name
        words = ["bench/country/country.py", "write", made, "--assets", assets, "--seed", seed]
        subprocess.run([sys.executable, *map(str, words)], cwd=TOP, check=True, stdout=subprocess.DEVNULL)
        entered, self.edits = records(made / "assets.csv"), records(made / "edits.csv")
        step = len(entered) // 500
        self.held = entered[::step][:500]
        kept = set(self.held)
        whole = records(made / "links.csv") + records(made / "routes.csv") + [line for line in entered if line not in kept]
        db = folder / f"{name}.db"
        subprocess.run([PROGRAM, "edit", db, "stdin"], input=HEADER + b"".join(whole), check=True, stdout=subprocess.DEVNULL)
        self.child = subprocess.Popen([PROGRAM, "serve", db, str(self.port), "1000000"], stdout=subprocess.PIPE)
        self.child.stdout.readline()

    def ask(self, target, body=None):
        connection = http.client.HTTPConnection("127.0.0.1", self.port, timeout=600)
        connection.request("GET" if body is None else "POST", target, body)
        return connection.getresponse().read()

    def send(self, lines):
        """How many of these records were done."""
        return self.ask("/v1/edits", HEADER + b"".join(lines)).count(b",done,")

    def count(self):
        return self.ask("/v1/log").count(b"\n") - 1


class Loader:
    """The loader and the database, and what they have used since."""

    def __init__(self, postgres, countries):
        self.postgres = postgres
        self.database = f"host={postgres.room} user=postgres dbname=roads"
        self.given = [f"{it.name}=http://127.0.0.1:{it.port}" for it in countries]
        self.environment = {**os.environ, "PATH": f"{postgres.home}:{os.environ['PATH']}"}
        postgres.call("createdb", "-h", postgres.room, "-U", "postgres", "roads")
        postgres.statements("roads", (RECIPE / "schema.sql").read_bytes())

    def value(self, statement):
        words = ["psql", "-X", "-A", "-t", "-d", self.database, "-c", statement]
        return int(subprocess.run(words, env=self.environment, capture_output=True, check=True).stdout)

    def words(self, *options):
        return [sys.executable, str(RECIPE / "follow.py"), *options, self.database, *self.given]

    def wal(self):
        return self.value("SELECT pg_current_wal_lsn() - '0/0'")

    def used(self):
        """Seconds of a processor of PostgreSQL's first process and of those that it has seen end, as each connection's."""
        pid = (self.postgres.room / "data" / "postmaster.pid").read_text().split()[0]
        return seconds_of(pid)

    def once(self, what, *options):
        wal, used, started = self.wal(), self.used(), time.monotonic()
        child = subprocess.Popen(self.words("--once", *options), env=self.environment, stdout=subprocess.DEVNULL)
        _, status, usage = os.wait4(child.pid, 0)
        passed = time.monotonic() - started
        if status:
            sys.exit("the loader failed")
        print(
            f"{what}: {passed:.2f} s; of a processor the loader and psql {usage.ru_utime + usage.ru_stime:.2f} s, PostgreSQL {self.used() - used:.2f} s; "
            f"{usage.ru_maxrss / 1e3:.0f} MB of memory, {(self.wal() - wal) / 1e6:.2f} MB of PostgreSQL's log",
            flush=True,
        )


def sizes(loader, countries):
    for table in TABLES:
        entries, size = loader.value(f"SELECT count(*) FROM roadlrs.{table}"), loader.value(f"SELECT pg_total_relation_size('roadlrs.{table}')")
        print(f"  {table}: {entries:,} entries, {size / 1e6:.1f} MB")
    for it in countries:
        log = it.ask("/v1/log")
        print(f"  {it.name}: {log.count(bytes([10])) - 1:,} edits, a log of {len(log) / 1e6:.2f} MB")


def followed(loader, countries, count):
    """Edits one after the other, while the loader looks each second: how long until the last is there."""
    edits = sum(it.count() for it in countries)
    wal, before = loader.wal(), loader.used()
    child = subprocess.Popen(loader.words("--every", "1", "--quick"), env=loader.environment, stdout=subprocess.PIPE, text=True)
    try:
        started, done = time.monotonic(), 0
        for n in range(count):
            done += sum(it.send([it.edits.pop(0)]) for it in countries)
            time.sleep(0.005)
        sent = time.monotonic()
        while loader.value("SELECT sum(edits) FROM roadlrs.followed") < edits + done:
            time.sleep(0.02)
        ended = time.monotonic()
        used = seconds_of(child.pid)
    finally:
        child.terminate()
        commits = child.communicate()[0].count("\n")
    print(
        f"{done} route edits one by one in {sent - started:.1f} s, looked at each second: the last is there {ended - sent:.2f} s later, "
        f"{commits} transactions; of a processor the loader and psql {used:.2f} s, PostgreSQL {loader.used() - before:.2f} s; "
        f"{(loader.wal() - wal) / 1e6:.2f} MB of PostgreSQL's log",
        flush=True,
    )


def main():
    parser = argparse.ArgumentParser()
    parser.add_argument("--assets", type=int, default=100_000)
    given = parser.parse_args()
    with tempfile.TemporaryDirectory() as name:
        folder = pathlib.Path(name)
        folder.chmod(0o755)
        countries, postgres = [Country(folder, name, seed, given.assets) for seed, name in enumerate(NAMES, 1)], Postgres(name)
        try:
            loader = Loader(postgres, countries)
            loader.once("first load")
            sizes(loader, countries)
            loader.once("nothing new, whole logs compared")
            loader.once("nothing new, --quick", "--quick")
            done = sum(it.send(it.held) for it in countries)
            loader.once(f"{done} enter", "--quick")
            done = 0
            for it in countries:
                taken, it.edits = it.edits[:500], it.edits[500:]
                done += it.send(taken)
            loader.once(f"{done} route edits", "--quick")
            followed(loader, countries, 500)
            sizes(loader, countries)
        finally:
            for it in countries:
                it.child.kill()
            postgres.stop()


if __name__ == "__main__":
    main()
