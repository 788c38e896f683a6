"""What only looks: questions and reports of a file, which is opened for them without a connection."""

import os
import shutil
import socket
import sqlite3
import struct
import subprocess

import pytest

from program import FIRST, FIRST_REPLIES, PATIENCE, PROGRAM, ends, faults, run, shown_on
from serving import Server, connect, started
from stores import MORE_ROWS, as_first, change, digest, edit, folder, is_whole, make_full, rows_of, settle

LOOKS = [
    "at A1 abs 3000",
    "where A1 3000",
    "where link 2 5",
    "translate A1 abs 3000 int",
    "strip A1 L SPEED",
    "diagram A2",
    "totals",
    "lengths",
    "find 10",
    "route A1",
    "list links",
    "rows",
    "gone",
    "log",
]

# What goes by a connection, which tests all that SQLite's rules say of the file.
TESTED = ["edit DB stdin", "audit DB", "serve DB 28117 1"]


def answers(path):
    """What is printed to each question and report."""
    printed = []
    for text in LOOKS:
        name, *words = text.split()
        ended = run(name, str(path), *words)
        assert (ended.stderr, ended.status) == (b"", 0), (text, ended)
        printed.append(ended.stdout)
    return printed


@pytest.fixture(scope="module")
def answered():
    """The answers about the store with rows in each table; none of them is empty."""
    with folder() as path:
        make_full(path)
        printed = answers(path)
    assert all(printed), printed
    return printed


def damage_an_index(path):
    """Changes a letter of a key in the index of classes: the table still has SIGN."""
    with sqlite3.connect(path) as db:
        size = db.execute("PRAGMA page_size").fetchone()[0]
        (page,) = db.execute("SELECT rootpage FROM sqlite_schema WHERE name = 'sqlite_autoindex_class_1'").fetchone()
    found = bytearray(path.read_bytes())
    at = found.index(b"SIGN", (page - 1) * size, page * size)
    found[at + 3] = ord("M")
    path.write_bytes(found)


def done_in_order(sheet):
    """The replies to a sheet whose records are all accepted, from the first edit on."""
    keys = [line.split(b",")[0] for line in sheet.splitlines()[1:]]
    return b"".join(b"%s,done,%d\n" % (key, n) for n, key in enumerate(keys, 1))


def copy_with_log(path, to):
    """Copies a store that a program serves and nobody writes, with the commits of its log."""
    for end in ("", "-wal"):
        shutil.copy(f"{path}{end}", f"{to}{end}")


def test_what_looks_writes_nothing(answered):
    with folder() as path:
        make_full(path)
        before = digest(path)
        assert answers(path) == answered
        assert digest(path) == before and rows_of(path) == MORE_ROWS
        is_whole(path)


def test_a_damaged_index_is_seen_by_what_tests_the_file(answered):
    with folder() as path:
        make_full(path)
        settle(path)
        damage_an_index(path)
        assert answers(path) == answered
        before = digest(path)
        for text in TESTED:
            name, _, *words = text.split()
            faults(run(name, str(path), *words, given=FIRST), "Open")
        assert digest(path) == before


@pytest.mark.parametrize("sums", [[], ["--sums"]])
def test_the_commits_of_a_log_are_seen_and_stay(tmp_path, answered, sums):
    path, copy = tmp_path / "roads.db", tmp_path / "copy.db"
    with folder() as full:
        make_full(full)
        log = run("log", str(full)).stdout
    with started(db=path, options=sums) as server:
        server.does("edits", log, done_in_order(log))
        copy_with_log(path, copy)
    if not sums:
        assert copy.with_name("copy.db-wal").stat().st_size > 4096
    assert answers(copy) == answered
    assert rows_of(copy) == MORE_ROWS
    ends(edit(copy, FIRST), FIRST_REPLIES.replace(b"done", b"again"), 0)
    assert answers(copy) == answered


def test_a_store_that_is_served_is_not_looked_at(tmp_path):
    path = tmp_path / "roads.db"
    with started(db=path):
        for text in LOOKS:
            name, *words = text.split()
            faults(run(name, str(path), *words, "--wait", "0"), "Open")


def test_rows_that_stand_for_no_inventory_are_named():
    """The same table, whether the rows break a rule of SQLite's or one of ours."""
    for statement, table in [
        ("UPDATE span SET hi = 100000 WHERE asset = 11", "span"),
        ("DELETE FROM link WHERE number = 2", "piece"),
        ("UPDATE mark SET chainage = 4000 WHERE route = 'A1' AND n = 1", "mark"),
        ("UPDATE edit SET number = 99 WHERE number = 13", "edit"),
    ]:
        with folder() as path:
            make_full(path)
            change(path, statement)
            for text in ["edit DB stdin", *(f"{look.split()[0]} DB {' '.join(look.split()[1:])}" for look in LOOKS)]:
                name, _, *words = text.split()
                faults(run(name, str(path), *words, given=FIRST), f"Unsound:{table}")


def test_other_files_are_opened_as_they_are_for_edits(answered):
    with folder() as path:
        make_full(path)
        as_first(path)
        assert answers(path) == answered
        assert rows_of(path) == MORE_ROWS
    with folder() as path:
        make_full(path)
        change(path, "DELETE FROM origin", "DROP TABLE origin")
        faults(run("totals", str(path)), "Unsound:origin")
    with folder() as path:
        path.write_bytes(b"no database" * 1_000)
        faults(run("totals", str(path)), "Open")
        faults(run("rows", str(path)), "Open")
        assert list(path.parent.iterdir()) == [path]


def run_with_terminal(*words):
    """The output of a run whose standard error is a terminal, and what that shows."""
    outer, inner = os.openpty()
    reader, seen = shown_on(outer)
    try:
        done = subprocess.run([PROGRAM, *words], stdin=subprocess.DEVNULL, stdout=subprocess.PIPE, stderr=inner, timeout=PATIENCE)
    finally:
        os.close(inner)
        reader.join()
        os.close(outer)
    return done, b"".join(seen)


def test_a_long_file_is_named_while_it_is_opened():
    with folder() as path:
        make_full(path)
        assert run_with_terminal("totals", str(path))[1] == b""
        sheet = b"key,verb,a,b,c,d,e,f,g,h,i\n" + b"".join(b"k%d,link,%d,5,,,,,,,\n" % (n, n) for n in range(10, 70_010))
        path.with_suffix(".csv").write_bytes(sheet)
        assert run("edit", str(path), str(path.with_suffix(".csv"))).status == 0
        assert path.stat().st_size > 4_000_000
        size = path.stat().st_size // 1_000_000
        for words in (["totals"], ["audit"]):
            done, shown = run_with_terminal(words[0], str(path))
            assert done.returncode == 0
            # behind it an audit that takes more than a second shows how far it is
            assert shown.startswith(f"opening {path}, {size} MB, about 1 s\r\x1b[K".encode()), shown


# ---- the end of a service


def served(most, *options, half=False):
    """What a service tells of so many connections in which the first sheet is sent, one of them only in part."""
    server = Server(most, options=options)
    for turn in range(most):
        if half and turn == 1:
            with connect(server.port) as stream:
                stream.sendall(b"POST /v1/edits HTTP/1.1\r\nContent-Length: 900\r\n\r\nkey")
                # closed so, the connection is reset
                stream.setsockopt(socket.SOL_SOCKET, socket.SO_LINGER, struct.pack("ii", 1, 0))
        else:
            server.does("edits", FIRST, FIRST_REPLIES if turn == 0 else FIRST_REPLIES.replace(b"done", b"again"))
    written, told, status = server.end()
    assert (written, status) == (b"", 0)
    return told.decode().splitlines()


def test_a_service_tells_how_many_were_cut_off():
    assert served(3, "--log", half=True)[-1] == "served 2 in full, 1 cut off"
    assert served(1, "--log")[-1] == "served 1 in full, 0 cut off"
    assert served(2) == []
