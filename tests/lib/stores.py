"""Inventories in files, which Python's sqlite3 looks into and changes."""

import contextlib
import hashlib
import pathlib
import shutil
import sqlite3
import subprocess
import tempfile

from program import FIRST, FIRST_REPLIES, HEADER, ends, faults, lines, record, run

# The columns of each table, with its key, its references and its unique columns: the order is that in which an unsound table is named.
TABLES = {
    "version": ("v", "v", {}, ""),
    "link": ("number length", "number", {}, ""),
    "class": ("name kind", "name", {}, ""),
    "asset": ("number class value lateral", "number", {"class": ("class", "name")}, ""),
    "piece": ("route n link a b dir", "route n", {"link": ("link", "number")}, ""),
    "mark": ("route n chainage measure", "route n", {}, ""),
    "ref": ("name route place", "name", {}, ""),
    "span": ("asset route lo hi side", "asset route lo", {"asset": ("asset", "number")}, ""),
    "entered": ("edit asset link lo hi side", "edit asset link lo side", {}, ""),
    "gone": ("edit cause asset link lo hi side", "edit cause asset link lo side", {}, ""),
    "edit": ("number token line", "number", {}, "token"),
    "origin": ("asset edit", "asset", {"asset": ("asset", "number")}, ""),
}
TEXTS = {"name", "class", "value", "route", "token", "line"}

# what the sheet of all tables has, after the first sheet
MORE = (
    "e1,enter,10,SPEED,A1,B,abs,3000,9000,80,0",
    "e2,enter,11,RAIL,A1,L,abs,0,6000,steel,150",
    "e3,enter,12,SIGN,A1,R,abs,9000,,STOP,0",
    "e4,ref,KM2,A1,abs,2000",
    "e5,retire,11,A1,abs,1000,2000",
    "e6,split,A1,5000,A2",
)
MORE_REPLIES = b"".join(b"e%d,done,%d\n" % (n, 7 + n) for n in range(1, 7))

# Its rows. Kinds of classes: 0 point, 1 stretch, 2 exclusive. Sides: 0 L, 1 R, 2 both; those of spans are seen along the route, those of
# ledgers along the link. Directions of pieces: 0 forwards, 1 backwards. Causes in `gone`: 0 retired, 1 abandoned.
MORE_ROWS = {
    "version": [(2,)],
    "link": [(1, 5000), (2, 3000), (3, 2000)],
    "class": [("RAIL", 1), ("SIGN", 0), ("SPEED", 2)],
    "asset": [(10, "SPEED", "80", 0), (11, "RAIL", "steel", 150), (12, "SIGN", "STOP", 0)],
    "piece": [("A1", 0, 1, 0, 5000, 0), ("A2", 0, 2, 0, 3000, 1)],
    "mark": [("A1", 0, 0, 0), ("A1", 1, 5000, 6000), ("A2", 0, 0, 6000), ("A2", 1, 3000, 9000)],
    "ref": [("KM2", "A1", 1666)],
    "span": [(10, "A1", 2500, 5000, 2), (10, "A2", 0, 3000, 2), (11, "A1", 0, 833, 0), (11, "A1", 1667, 5000, 0), (12, "A2", 2999, 3000, 1)],
    "entered": [
        (8, 10, 1, 2500, 5000, 0),
        (8, 10, 1, 2500, 5000, 1),
        (8, 10, 2, 0, 3000, 0),
        (8, 10, 2, 0, 3000, 1),
        (9, 11, 1, 0, 5000, 0),
        (10, 12, 2, 0, 1, 0),
    ],
    "gone": [(12, 0, 11, 1, 833, 1667, 0)],
    "edit": [
        (1, "s1", "link,1,5000"),
        (2, "s2", "link,2,3000"),
        (3, "s3", "link,3,2000"),
        (4, "s4", "class,SPEED,exclusive"),
        (5, "s5", "class,RAIL,stretch"),
        (6, "s6", "class,SIGN,point"),
        (7, "s7", "route,A1,1:0:5000:+ 2:0:3000:-,0:0 5000:6000 8000:9000"),
        (8, "e1", "enter,10,SPEED,A1,B,abs,3000,9000,80,0"),
        (9, "e2", "enter,11,RAIL,A1,L,abs,0,6000,steel,150"),
        (10, "e3", "enter,12,SIGN,A1,R,abs,9000,,STOP,0"),
        (11, "e4", "ref,KM2,A1,abs,2000"),
        (12, "e5", "retire,11,A1,abs,1000,2000"),
        (13, "e6", "split,A1,5000,A2"),
    ],
    "origin": [(10, 8), (11, 9), (12, 10)],
}


@contextlib.contextmanager
def folder():
    """The path of a store that is not there yet, in a folder of its own."""
    with tempfile.TemporaryDirectory() as name:
        yield pathlib.Path(name) / "roads.db"


def edit(path, sheet, **settings):
    return run("edit", str(path), "stdin", given=sheet, **settings)


def more_sheet(*texts):
    return HEADER + b"".join(record(text) for text in texts)


def make(path, *texts):
    """A store of the first sheet, and of these records after it."""
    ends(edit(path, FIRST), FIRST_REPLIES, 0)
    if texts:
        ends(edit(path, more_sheet(*texts)), lines(*(f"{text.partition(',')[0]},done,{n}" for n, text in enumerate(texts, 8))), 0)


def make_full(path):
    """A store with rows in each table."""
    make(path, *MORE)


def settle(path):
    """All that the store holds goes into its file, whether or not the program has closed it."""
    change(path, "PRAGMA user_version")


def look(path, *statements):
    """What the statements give, each as a list of rows, of a copy of the store: the store is not touched."""
    with tempfile.TemporaryDirectory() as name:
        copy = pathlib.Path(name) / path.name
        for end in ("", "-wal"):
            beside = path.with_name(path.name + end)
            if beside.exists():
                shutil.copy(beside, copy.with_name(copy.name + end))
        with contextlib.closing(sqlite3.connect(copy)) as db:
            return [db.execute(statement).fetchall() for statement in statements]


def change(path, *statements):
    """Does the statements with Python's sqlite3, without a look at references, and leaves no log."""
    with contextlib.closing(sqlite3.connect(path, isolation_level=None)) as db:
        db.execute("PRAGMA foreign_keys = OFF")
        for statement in statements:
            db.execute(statement)
        db.execute("PRAGMA wal_checkpoint(TRUNCATE)")


def rows_of(path):
    """The rows of each table, in order."""
    columns = {table: ", ".join(said[0].split()) for table, said in TABLES.items()}
    found = look(path, *(f"SELECT {columns[table]} FROM {table} ORDER BY {columns[table]}" for table in TABLES))
    return dict(zip(TABLES, found))


def is_whole(path):
    """sqlite3 finds nothing wrong with the file, and no reference to a row that is not there."""
    integrity, references, version = look(path, "PRAGMA integrity_check", "PRAGMA foreign_key_check", "SELECT v FROM version")
    assert integrity == [("ok",)], integrity
    assert references == [], references
    assert version == [(2,)], version


def digest(path):
    return hashlib.sha256(path.read_bytes()).hexdigest()


def as_first(path):
    """The store becomes one of version 1."""
    change(path, "DROP TABLE origin", "UPDATE version SET v = 1")


def refuses(path, name):
    """The store is not opened, for this fault; its file, which has no log beside it, stays byte for byte as it was."""
    path.with_name(path.name + "-wal").unlink(missing_ok=True)
    before = digest(path)
    faults(edit(path, FIRST), name)
    assert digest(path) == before, name


def shell(path, text):
    """What the sqlite3 shell answers."""
    return subprocess.run(["sqlite3", str(path), text], capture_output=True, check=True, timeout=60).stdout
