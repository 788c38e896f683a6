"""A PostgreSQL of a test: its cluster is made in a folder of its own, belongs to an unprivileged user, and is reached by a socket there alone."""

import contextlib
import os
import pathlib
import shutil
import signal
import subprocess
import tempfile
import time

from program import TOP

RECIPE = TOP / "docs" / "recipes" / "postgresql"

# Seconds that a step of the cluster may take on a machine with much beside it.
SOON = 120

SETTINGS = {"listen_addresses": "", "fsync": "off", "shared_buffers": "16MB", "max_connections": "20", "max_wal_size": "256MB"}


def binaries():
    """The folder of the newest PostgreSQL that Debian's packages have put on the machine."""
    found = sorted(pathlib.Path("/usr/lib/postgresql").glob("*/bin/initdb"), key=lambda path: float(path.parts[4]))
    assert found, "PostgreSQL is not installed"
    return found[-1].parent


def unprivileged():
    """Settings of a run, by which PostgreSQL takes it: it does not run as root."""
    return {"user": "postgres", "group": "postgres", "extra_groups": []} if os.getuid() == 0 else {}


class Cluster:
    """A cluster that runs, and its database."""

    def __init__(self, folder):
        self.folder, self.database = folder, f"host={folder} dbname=postgres user=roads"
        self.environment = {**os.environ, "PATH": f"{binaries()}:{os.environ['PATH']}", "LC_ALL": "C"}

    def sql(self, text, database=None):
        """What psql prints."""
        words = ["psql", "-X", "-w", "-q", "-A", "-t", "-v", "ON_ERROR_STOP=1", "-d", database or self.database]
        done = subprocess.run(words, input=text, capture_output=True, text=True, env=self.environment, timeout=SOON)
        assert (done.returncode, done.stderr) == (0, ""), (text[:300], done.stderr)
        return done.stdout

    def fresh(self, name):
        """A new database with the tables of the recipe; hands back what follow.py is told of it."""
        self.sql(f"CREATE DATABASE {name}")
        database = f"host={self.folder} dbname={name} user=roads"
        self.sql((RECIPE / "schema.sql").read_text(), database)
        return database

    def answers(self):
        words = ["psql", "-X", "-w", "-q", "-d", self.database, "-c", ""]
        return subprocess.run(words, capture_output=True, env=self.environment, timeout=SOON).returncode == 0


@contextlib.contextmanager
def cluster():
    folder = tempfile.mkdtemp(prefix="roads-", dir="/tmp")
    settings = {"env": {**os.environ, "LC_ALL": "C"}, "cwd": folder, "stdin": subprocess.DEVNULL, **unprivileged()}
    try:
        if os.getuid() == 0:
            shutil.chown(folder, "postgres", "postgres")
        made = [binaries() / "initdb", "-D", "data", "-A", "trust", "-U", "roads", "-E", "UTF8", "--locale=C", "--no-sync"]
        subprocess.run(made, check=True, timeout=SOON, stdout=subprocess.DEVNULL, **settings)
        told = [word for name, value in SETTINGS.items() for word in ("-c", f"{name}={value}")]
        with open(f"{folder}/log", "wb") as log:
            words = [binaries() / "postgres", "-D", "data", "-k", folder, *told]
            child = subprocess.Popen(words, stdout=log, stderr=log, start_new_session=True, **settings)
        try:
            found, until = Cluster(folder), time.monotonic() + SOON
            while not found.answers():
                assert child.poll() is None and time.monotonic() < until, pathlib.Path(folder, "log").read_text()
                time.sleep(0.1)
            yield found
        finally:
            # it ends at once, and its children with it
            child.send_signal(signal.SIGQUIT)
            try:
                child.wait(timeout=SOON)
            except subprocess.TimeoutExpired:
                os.killpg(child.pid, signal.SIGKILL)
                child.wait(timeout=SOON)
    finally:
        shutil.rmtree(folder, ignore_errors=True)
