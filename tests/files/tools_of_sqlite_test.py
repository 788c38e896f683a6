"""What SQLite's own programs do to a file: it opens with the rows that it had, or is refused, and `--explain` says why."""

import subprocess

import pytest

from program import FIRST, FIRST_REPLIES, ends, run
from stores import MORE_ROWS, change, edit, folder, is_whole, make_full, refuses, rows_of

AGAIN = FIRST_REPLIES.replace(b"done", b"again")


def opens(path):
    """The file is opened for a question and for an edit, and has the rows that it had."""
    assert run("totals", "--existing", str(path)).status == 0
    ends(edit(path, FIRST), AGAIN, 0)
    is_whole(path)
    assert rows_of(path) == MORE_ROWS


def sqlite3(path, *commands, given=b""):
    return subprocess.run(["sqlite3", "-bail", str(path), *commands], input=given, capture_output=True, check=True, timeout=60).stdout


HARMLESS = {
    "VACUUM": ("VACUUM",),
    "pages of another size": ("PRAGMA page_size = 512", "VACUUM"),
    "REINDEX": ("REINDEX",),
    "a log": ("PRAGMA journal_mode = WAL",),
    "a log and back": ("PRAGMA journal_mode = WAL", "PRAGMA journal_mode = DELETE"),
    "other journals": ("PRAGMA journal_mode = DELETE", "PRAGMA journal_mode = PERSIST", "PRAGMA journal_mode = TRUNCATE"),
    "PRAGMA optimize": ("PRAGMA optimize",),
    "numbers of the file": ("PRAGMA user_version = 7", "PRAGMA application_id = 7"),
    "ANALYZE, and its tables go": ("ANALYZE", "DROP TABLE sqlite_stat1", "DROP TABLE IF EXISTS sqlite_stat4"),
    "a table comes and goes": ("CREATE TABLE note (text TEXT)", "INSERT INTO note VALUES ('x')", "DROP TABLE note"),
    "an index comes and goes": ("CREATE INDEX by_length ON link (length)", "DROP INDEX by_length"),
}


@pytest.mark.parametrize("what", HARMLESS)
def test_a_file_that_sqlite_worked_on_opens(what):
    with folder() as path:
        make_full(path)
        change(path, *HARMLESS[what])
        opens(path)


COPIES = {
    ".dump": lambda path, copy: sqlite3(copy, given=sqlite3(path, ".dump")),
    ".backup": lambda path, copy: sqlite3(path, f".backup {copy}"),
    ".clone": lambda path, copy: sqlite3(path, f".clone {copy}"),
    "VACUUM INTO": lambda path, copy: sqlite3(path, f"VACUUM INTO '{copy}'"),
}


@pytest.mark.parametrize("what", COPIES)
def test_a_copy_that_sqlite_made_opens(what):
    with folder() as path, folder() as copy:
        make_full(path)
        COPIES[what](path, copy)
        opens(copy)


def is_refused_for(path, reason):
    refuses(path, "Open")
    said = run("totals", str(path), "--explain").stderr.decode().splitlines()[0]
    assert said.startswith(f"explain: {path}: ") and reason in said, said


REFUSED = {
    "ANALYZE": (("ANALYZE",), "it has TABLE sqlite_stat1, which no inventory has"),
    "a table less": (("DROP TABLE gone",), "other tables than an inventory's: version link class asset piece mark ref span entered edit origin"),
    "an index more": (("CREATE INDEX by_length ON link (length)",), "it has INDEX by_length, which no inventory has"),
    "free pages that go": (("PRAGMA auto_vacuum = FULL", "VACUUM"), "malformed"),
}


@pytest.mark.parametrize("what", REFUSED)
def test_a_file_that_is_refused_is_told_why(what):
    statements, reason = REFUSED[what]
    with folder() as path:
        make_full(path)
        change(path, *statements)
        is_refused_for(path, reason)


def test_a_dump_in_another_encoding_is_refused():
    with folder() as path, folder() as copy:
        make_full(path)
        sqlite3(copy, given=b"PRAGMA encoding = 'UTF-16';\n" + sqlite3(path, ".dump"))
        is_refused_for(copy, "malformed")
