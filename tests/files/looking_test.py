"""Who only asks makes nothing and leaves nothing, whatever stands at the path; and what makes an inventory, where."""

import contextlib
import os
import shutil
import sqlite3
import struct
import subprocess
import sys

import pytest

from program import FIRST, FIRST_REPLIES, HEADER, PATIENCE, PROGRAM, Ended, ends, faults, run, shown_on
from serving import free_port, started
from stores import MORE_ROWS, change, edit, is_whole, make, make_full, rows_of, settle

SURVEY = b"key,asset,class,route,side,method,from,to,value,offset\n"
QUESTIONS = b"key,question,a,b,c,d\nq1,at,A1,abs,3000,\nq2,find,10,,,\n"

# each command that asks, with what it is given
ASKS = [
    ("at A1 abs 3000", b""),
    ("where A1 3000", b""),
    ("where link 2 5", b""),
    ("translate A1 abs 3000 int", b""),
    ("strip A1 L SPEED", b""),
    ("diagram A2", b""),
    ("totals", b""),
    ("lengths", b""),
    ("find 10", b""),
    ("route A1", b""),
    ("list routes", b""),
    ("rows", b""),
    ("gone", b""),
    ("log", b""),
    ("log --key e5", b""),
    ("ask stdin", QUESTIONS),
]
CHECK = ("check stdin", HEADER + b"n1,link,9,5,,,,,,,\n")


def words_of(text, path):
    """The words of a command, with the path behind the first of them."""
    name, *words = text.split()
    return [name, str(path), *words]


def log_of(path):
    return path.with_name(path.name + "-wal")


def trace(folder):
    """All that a folder tells: names, bytes, sizes and times of change, its own too; not when something was read."""
    found = {}
    for path in [folder, *sorted(folder.rglob("*"))]:
        seen = path.lstat()
        body = path.read_bytes() if path.is_file() else sorted(child.name for child in path.iterdir()) if path.is_dir() else None
        found[str(path)] = (seen.st_mode, seen.st_ino, seen.st_size, seen.st_mtime_ns, seen.st_ctime_ns, body)
    return found


@contextlib.contextmanager
def untouched(folder):
    before = trace(folder)
    yield
    assert trace(folder) == before


# Root passes over permissions unless these are taken away.
UNPRIVILEGED = ["setpriv", "--bounding-set=-all", "--inh-caps=-all"] if os.geteuid() == 0 else []


def run_unprivileged(*words, given=b""):
    done = subprocess.run([*UNPRIVILEGED, PROGRAM, *words], input=given, stdout=subprocess.PIPE, stderr=subprocess.PIPE, timeout=PATIENCE)
    return Ended(done)


def answers(path, runs=run):
    """What is printed to each question, a sheet of them, and a sheet that is tried."""
    printed = []
    for text, given in [*ASKS, CHECK]:
        ended = runs(*words_of(text, path), given=given)
        assert ended.status == 0 and (text == CHECK[0] or ended.stderr == b""), (text, ended)
        printed.append(ended.stdout)
    return printed


@pytest.fixture(scope="module")
def full(tmp_path_factory):
    """A store with rows in each table; alone, without a log."""
    path = tmp_path_factory.mktemp("full") / "roads.db"
    make_full(path)
    settle(path)
    log_of(path).unlink(missing_ok=True)
    return path


@pytest.fixture(scope="module")
def answered(full):
    printed = answers(full)
    assert all(printed), printed
    return printed


def copy_alone(full, folder):
    shutil.copy(full, folder / "roads.db")


def copy_closed(full, folder):
    """With the log that a good end leaves."""
    make_full(folder / "roads.db")
    assert log_of(folder / "roads.db").stat().st_size == 41


def copy_with_commits(full, folder):
    """With a log that has what the file lacks, as after a crash."""
    sheet = run("log", str(full)).stdout
    (folder / "served").mkdir()
    path = folder / "served" / "served.db"
    with started(db=path) as server:
        keys = [line.split(b",")[0] for line in sheet.splitlines()[1:]]
        server.does("edits", sheet, b"".join(b"%s,done,%d\n" % (key, n) for n, key in enumerate(keys, 1)))
        shutil.copy(path, folder / "roads.db")
        shutil.copy(log_of(path), log_of(folder / "roads.db"))
    shutil.rmtree(folder / "served")
    assert log_of(folder / "roads.db").stat().st_size > 4096


def copy_with_empty_log(full, folder):
    shutil.copy(full, folder / "roads.db")
    log_of(folder / "roads.db").touch()


def copy_beside_other_log(full, folder):
    """With what is no log, which SQLite passes over."""
    shutil.copy(full, folder / "roads.db")
    log_of(folder / "roads.db").write_bytes(b"no log" * 1_000)


def copy_with_sums(full, folder):
    sheet = run("log", str(full)).stdout
    assert run("edit", "--sums", str(folder / "roads.db"), "stdin", given=sheet).status == 0


FILES = [copy_alone, copy_closed, copy_with_commits, copy_with_empty_log, copy_beside_other_log, copy_with_sums]


@pytest.mark.parametrize("lay", FILES)
def test_asking_an_inventory_leaves_no_trace(full, answered, tmp_path, lay):
    lay(full, tmp_path)
    with untouched(tmp_path):
        assert answers(tmp_path / "roads.db") == answered
    assert rows_of(tmp_path / "roads.db") == MORE_ROWS
    is_whole(tmp_path / "roads.db")


@pytest.mark.parametrize("lay", FILES)
def test_what_may_not_be_written_can_be_asked(full, answered, tmp_path, lay):
    folder = tmp_path / "kept"
    folder.mkdir()
    lay(full, folder)
    for path in folder.iterdir():
        path.chmod(0o444)
    folder.chmod(0o555)
    try:
        assert subprocess.run([*UNPRIVILEGED, "touch", folder / "other"], stderr=subprocess.DEVNULL).returncode != 0
        with untouched(tmp_path):
            assert answers(folder / "roads.db", run_unprivileged) == answered
            faults(run_unprivileged("edit", str(folder / "roads.db"), "stdin", given=FIRST), "Open")
    finally:
        folder.chmod(0o755)


def test_a_link_is_followed_to_a_file_that_may_not_be_written(full, answered, tmp_path):
    (tmp_path / "kept").mkdir()
    shutil.copy(full, tmp_path / "kept" / "roads.db")
    (tmp_path / "link.db").symlink_to("kept/roads.db")
    with untouched(tmp_path):
        assert answers(tmp_path / "link.db") == answered


def test_the_file_may_be_asked_by_many_at_once_and_written_once_they_have_read_it(full, tmp_path):
    path = tmp_path / "roads.db"
    shutil.copy(full, path)
    header, first, second = QUESTIONS.splitlines(keepends=True)
    with subprocess.Popen([PROGRAM, "ask", path, "stdin"], stdin=subprocess.PIPE, stdout=subprocess.PIPE) as asking:
        with untouched(tmp_path):
            asking.stdin.write(header + first)
            asking.stdin.flush()
            assert asking.stdout.readline().startswith(b"q1,")
            ends(run("find", str(path), "10"), run("find", str(full), "10").stdout, 0)
        ends(run("edit", str(path), "stdin", "--wait", "0", given=FIRST), FIRST_REPLIES.replace(b"done", b"again"), 0)
        assert b"q2," in asking.communicate(second, timeout=PATIENCE)[0] and asking.returncode == 0


# Another program has the file until its standard input ends: this one would drop the lock once it read the file.
HOLD = """
import sqlite3, sys
db = sqlite3.connect(sys.argv[1], isolation_level=None)
db.execute("PRAGMA locking_mode = EXCLUSIVE")
db.execute("BEGIN EXCLUSIVE")
db.execute("SELECT v FROM version").fetchall()
print("held", flush=True)
sys.stdin.read()
"""


def test_a_file_that_another_writes_is_not_asked(full, tmp_path):
    path = tmp_path / "roads.db"
    shutil.copy(full, path)
    with subprocess.Popen([sys.executable, "-c", HOLD, path], stdin=subprocess.PIPE, stdout=subprocess.PIPE) as other:
        assert other.stdout.readline() == b"held\n"
        with untouched(tmp_path):
            for text, given in [*ASKS, CHECK]:
                faults(run(*words_of(text, path), "--wait", "0", given=given), "Open")
        other.stdin.close()


def test_a_journal_that_sqlite_left_is_left_to_it(full, tmp_path):
    path = tmp_path / "roads.db"
    shutil.copy(full, path)
    path.with_name("roads.db-journal").write_bytes(b"\xd9\xd5\x05\xf9" * 200)
    with untouched(tmp_path):
        for text, given in [*ASKS, CHECK, ("audit", b"")]:
            faults(run(*words_of(text, path), given=given), "Open")


def test_an_audit_of_a_closed_inventory_keeps_its_bytes(full, tmp_path):
    """It is opened as for edits, so its log may be made anew; the file keeps its bytes and its rows."""
    path = tmp_path / "roads.db"
    shutil.copy(full, path)
    before = path.read_bytes()
    ends(run("audit", str(path)), b"sound, and as its log says\n", 0)
    assert path.read_bytes() == before
    assert {child.name for child in tmp_path.iterdir()} <= {"roads.db", "roads.db-wal"}
    assert not log_of(path).exists() or log_of(path).stat().st_size == 41


# ---- what stands at a path


def empty_log(copies):
    """The log without a commit of an inventory with pages of 4,096 bytes, that was copied so often into the file."""
    head = struct.pack(">4I8s", 0x377F0682, 3007000, 4096, copies % 2**32, b"\1saltsal")
    a = b = 0
    for first, second in struct.iter_unpack("<2I", head):
        a = (a + first + b) % 2**32
        b = (b + second + a) % 2**32
    return head + struct.pack(">2I", a, b) + bytes(9)


# of an inventory that is being made, and of one that was closed
FRESH_LOG, COPIED_LOG = empty_log(-1), empty_log(0)


def beside(file, log):
    """A file and a log of these bytes; none of them where that is None."""

    def lay(path):
        if file is not None:
            path.write_bytes(file)
        if log is not None:
            log_of(path).write_bytes(log)

    return lay


def other_database(path):
    with contextlib.closing(sqlite3.connect(path)) as db:
        db.execute("CREATE TABLE t (a REAL)")
        db.execute("CREATE TABLE u (a)")


def database_without_tables(path):
    with contextlib.closing(sqlite3.connect(path, isolation_level=None)) as db:
        db.execute("PRAGMA page_size = 1024")
        db.execute("VACUUM")
    assert path.stat().st_size == 1024


def tables_too_many(path):
    make_full(path)
    change(path, "CREATE TABLE note (text TEXT) STRICT")
    log_of(path).unlink(missing_ok=True)


def cut_short(path):
    make_full(path)
    os.truncate(path, 5000)
    log_of(path).unlink(missing_ok=True)


def half_made(path):
    """A first page that lacks its first byte, which is written last, beside the log of an inventory that is being made."""
    path.write_bytes(bytes(4096))
    log_of(path).write_bytes(FRESH_LOG)


VACANT = {"nothing": beside(None, None), "an empty file": beside(b"", None)}

REMNANTS = {
    "an empty file beside an empty log": beside(b"", b""),
    "an empty file beside a log's first byte": beside(b"", b"\0"),
    "an empty file beside half a log": beside(b"", b"\0" + FRESH_LOG[1:20]),
    "an empty file beside a log that was not copied": beside(b"", FRESH_LOG),
    "a byte beside a log that is being written": beside(b"\0", b"\0" + FRESH_LOG[1:]),
    "a byte beside a log that was not copied": beside(b"\0", FRESH_LOG),
}

FOREIGN = {
    "a log alone": beside(None, COPIED_LOG),
    "a fresh log alone": beside(None, FRESH_LOG),
    "an empty log alone": beside(None, b""),
    "a log with commits alone": beside(None, COPIED_LOG + bytes(5000)),
    "an empty file beside a log that was copied": beside(b"", COPIED_LOG),
    "a byte beside a log that was copied": beside(b"\0", COPIED_LOG),
    "an empty file beside a log with commits": beside(b"", FRESH_LOG + bytes(5000)),
    "a byte": beside(b"\0", None),
    "a file of 99 bytes": beside(b"SQLite format 3\0" + bytes(83), None),
    "a file of 99 bytes beside a log": beside(b"SQLite format 3\0" + bytes(83), FRESH_LOG),
    "a folder": lambda path: path.mkdir(),
    "a pipe": lambda path: os.mkfifo(path),
}

# files as long as an inventory that are none, and that no opening for edits takes
OTHERS = {
    "a text": beside(b"%PDF-1.7 no inventory\n" * 500, None),
    "zeros": beside(bytes(8192), None),
    "another database": other_database,
    "an inventory and a table more": tables_too_many,
    "an inventory that is cut short": cut_short,
}

# files that asking does not make an inventory of, and an edit does
UNMADE = {"a database without tables": database_without_tables, "a first page that is being written": half_made}


@pytest.mark.parametrize("what", [*VACANT, *REMNANTS, *FOREIGN, *OTHERS, *UNMADE])
def test_asking_what_is_no_inventory_makes_nothing(tmp_path, what):
    path = tmp_path / "roads.db"
    {**VACANT, **REMNANTS, **FOREIGN, **OTHERS, **UNMADE}[what](path)
    with untouched(tmp_path):
        for text, given in [*ASKS, ("audit", b"")]:
            faults(run(*words_of(text, path), given=given), "Open")
            faults(run(*words_of(text, path), "--existing", given=given), "Open")
        faults(run(*words_of(CHECK[0], path), "--existing", given=CHECK[1]), "Open")
        tried = run(*words_of(CHECK[0], path), given=CHECK[1])
        if what in VACANT:
            assert (tried.stdout, tried.status) == (b"n1,done,1\n", 0), tried
        else:
            faults(tried, "Open")


def served(path, *options):
    """A service that ends at once, and says first that it listens."""
    port = str(free_port())
    return run("serve", str(path), port, "0", *options), f"listening {port}\n".encode()


@pytest.mark.parametrize("what", [*VACANT, *REMNANTS])
def test_an_inventory_is_made_where_nothing_is_or_its_making_was_cut_off(tmp_path, what):
    lay = {**VACANT, **REMNANTS}[what]
    for name, make_by in [("edit", lambda path: edit(path, FIRST)), ("survey", lambda path: run("survey", str(path), "stdin", given=SURVEY)), ("serve", lambda path: served(path)[0])]:
        path = tmp_path / f"{name}.db"
        lay(path)
        ended = make_by(path)
        assert (ended.stderr, ended.status) == (b"", 0), (name, ended)
        is_whole(path)


@pytest.mark.parametrize("what", [*VACANT, *REMNANTS, *FOREIGN])
def test_none_is_made_where_one_has_to_be_there(tmp_path, what):
    path = tmp_path / "roads.db"
    {**VACANT, **REMNANTS, **FOREIGN}[what](path)
    with untouched(tmp_path):
        faults(run("edit", str(path), "stdin", "--existing", given=FIRST), "Open")
        faults(run("survey", str(path), "stdin", "--existing", given=SURVEY), "Open")
        faults(served(path, "--existing")[0], "Open")


@pytest.mark.parametrize("what", FOREIGN)
def test_none_is_made_of_what_is_something_else(tmp_path, what):
    path = tmp_path / "roads.db"
    FOREIGN[what](path)
    with untouched(tmp_path):
        faults(edit(path, FIRST), "Open")
        faults(run("survey", str(path), "stdin", given=SURVEY), "Open")
        faults(served(path)[0], "Open")


@pytest.mark.parametrize("what", UNMADE)
def test_an_edit_makes_an_inventory_of_a_file_that_was_begun(tmp_path, what):
    path = tmp_path / "roads.db"
    UNMADE[what](path)
    ends(edit(path, FIRST), FIRST_REPLIES, 0)
    is_whole(path)


def test_nothing_is_made_in_a_folder_that_is_not_there(tmp_path):
    (tmp_path / "link.db").symlink_to("none/roads.db")
    with untouched(tmp_path):
        for path in (tmp_path / "none" / "roads.db", tmp_path / "link.db"):
            for text, given in [*ASKS, ("audit", b""), ("edit stdin", FIRST)]:
                faults(run(*words_of(text, path), given=given), "Open")


def test_a_file_that_is_gone_beside_its_log_is_not_begun_anew(tmp_path):
    """What a removed file leaves is a log that says nothing; an inventory that is made there would look like the old one, empty."""
    path = tmp_path / "roads.db"
    make(path)
    assert log_of(path).stat().st_size == 41
    path.unlink()
    with untouched(tmp_path):
        for words in (["edit", str(path), "stdin"], ["edit", str(path), "stdin", "--existing"], ["totals", str(path)], ["log", str(path)], ["audit", str(path)], ["check", str(path), "stdin"]):
            faults(run(*words, given=FIRST), "Open")
    log_of(path).unlink()
    ends(edit(path, FIRST), FIRST_REPLIES, 0)


def shown_with_terminal(*words, given):
    """The output of a run whose standard error is a terminal, and what that shows."""
    outer, inner = os.openpty()
    reader, seen = shown_on(outer)
    try:
        done = subprocess.run([PROGRAM, *words], input=given, stdout=subprocess.PIPE, stderr=inner, timeout=PATIENCE)
    finally:
        os.close(inner)
        reader.join()
        os.close(outer)
    return done.stdout, b"".join(seen)


def test_it_is_said_on_a_terminal_that_an_inventory_is_made(tmp_path):
    path = tmp_path / "roads.db"
    assert b"inventory" not in shown_with_terminal("check", str(path), "stdin", given=FIRST)[1]
    assert shown_with_terminal("edit", str(path), "stdin", given=FIRST) == (FIRST_REPLIES, f"makes a new inventory: {path}\r\n".encode())
    assert shown_with_terminal("edit", str(path), "stdin", given=FIRST) == (FIRST_REPLIES.replace(b"done", b"again"), b"")
    assert shown_with_terminal("totals", str(path), given=b"")[1] == b""
