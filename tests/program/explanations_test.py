"""What the program says beside its answers: words that cannot be read, faults that are explained, help on verbs, and the options of all commands."""

import os
import pathlib
import re
import signal
import sqlite3
import subprocess
import tempfile

import pytest

from program import FIRST, FIRST_REPLIES, HEADER, PROGRAM, TOP, ends, faults, long_sheet, on_terminal, run, sheet_of, with_files_up_to
from stores import change, edit, is_whole, make_full


@pytest.fixture
def top():
    with tempfile.TemporaryDirectory() as folder:
        yield pathlib.Path(folder)


# ---- words that cannot be read

BAD = [
    (["at", "DB", "a1", "abs", "5"], 'hint: "a1" is no route name;'),
    (["at", "DB", "A1", "km", "5"], 'hint: "km" is no method;'),
    (["at", "DB", "A1", "abs", "300.0"], 'hint: "300.0" is no position by abs; a whole number, as 3000'),
    (["at", "DB", "A1", "rel", "KM2"], 'hint: "KM2" is no position by rel;'),
    (["translate", "DB", "A1", "int", "0.5", "abs"], 'hint: "0.5" is no position by int;'),
    (["translate", "DB", "A1", "int", "1/2", "km"], 'hint: "km" is no way to say a position;'),
    (["strip", "DB", "A1", "B", "SPEED"], None),
    (["strip", "DB", "A1", "X", "SPEED"], 'hint: "X" is no side of an answer; L or R'),
    (["strip", "DB", "A1", "L", "SPEED", "speed", "x"], 'hint: "speed" is no class name;'),
    (["diagram", "DB", "A1", "--from", "1.5"], 'hint: "1.5" is no place;'),
    (["diagram", "DB", "A1", "--to", "1km"], 'hint: "1km" is no place;'),
    (["find", "DB", "0"], 'hint: "0" is no asset number;'),
    (["list", "DB", "roads"], 'hint: "roads" is no list; routes, links, classes, refs, marks or pieces'),
    (["rows", "DB", "--route", "a"], 'hint: "a" is no route name;'),
    (["rows", "DB", "--class", "a"], 'hint: "a" is no class name;'),
    (["rows", "DB", "--asset", "a"], 'hint: "a" is no asset number;'),
    (["overlay", "DB", "SPEED", "speed"], 'hint: "speed" is no class name;'),
    (["overlay", "DB", "SPEED", "--side", "B"], 'hint: "B" is no side of an answer; L or R'),
    (["overlay", "DB", "SPEED", "--to", "1km"], 'hint: "1km" is no place;'),
    (["gone", "DB", "--edit", "x"], 'hint: "x" is no number of an edit;'),
    (["gone", "DB", "--since", "x"], 'hint: "x" is no number of an edit;'),
    (["gone", "DB", "--until", "y"], 'hint: "y" is no number of an edit;'),
    (["gone", "DB", "--class", "a"], 'hint: "a" is no class name;'),
    (["history", "DB", "a"], 'hint: "a" is no asset number;'),
    (["list", "DB", "refs", "--route", "a"], 'hint: "a" is no route name;'),
    (["list", "DB", "links", "--route", "A1"], 'hint: "links" is a list without this option;'),
    (["rows", "DB", "--exact", "--on-links"], 'hint: "--on-links" is a second form of rows;'),
    (["log", "DB", "--until", "x"], 'hint: "x" is no number of an edit;'),
    (["log", "DB", "--until", "7", "--key", "k1"], 'hint: "7" is a second question beside --key;'),
    (["log", "DB", "--until", "7", "--sum"], 'hint: "7" is a second question beside --sum;'),
    (["log", "DB", "x"], 'hint: "x" is no number of an edit;'),
    (["log", "DB", "--key", "a b"], 'hint: "a b" is no key;'),
    (["log", "DB", "3", "--key", "k1"], 'hint: "3" is a second question beside --key;'),
    (["lengths", "DB", "--route", "a"], 'hint: "a" is no route name;'),
    (["lengths", "DB", "--by", "SPEED,speed,x"], 'hint: "speed" is no class name;'),
    (["where", "DB", "A1", "1,5"], 'hint: "1,5" is no place;'),
    (["where", "DB", "A1", "1", "5"], 'hint: "A1" is not link;'),
    (["where", "DB", "link", "x", "5"], 'hint: "x" is no link number;'),
    (["where", "DB", "link", "1", "x"], 'hint: "x" is no millimetre of a link;'),
    (["serve", "DB", "0", "5"], 'hint: "0" is no port;'),
    (["serve", "DB", "8080", "x"], 'hint: "x" is no number of connections;'),
]


@pytest.mark.parametrize("words, hint", BAD)
def test_a_word_that_cannot_be_read_is_told(words, hint):
    ended = run(*(":memory:" if word == "DB" else word for word in words))
    if hint is None:
        assert ended.status == 1 and b"hint" not in ended.stderr, ended
        return
    told, error = ended.stderr.decode().splitlines()
    assert (ended.stdout, ended.status) == (b"", 2) and told.startswith(hint) and error.startswith("error: "), ended


# ---- faults


def explained(*words, given=b"", **settings):
    """What is explained of the fault in which the run ends, behind which its own line stands as ever: the fault, and these lines, alike
    where that is asked for and where standard error is a terminal. Elsewhere the one line stands alone."""
    ended = run(*words, "--explain", given=given, **settings)
    *said, last = ended.stderr.decode().splitlines()
    said = [line for line in said if line.startswith("explain: ")]
    assert ended.status == 3 and said and said[-1].startswith("explain: docs/"), ended
    plain = run(*words, given=given, **settings)
    assert (plain.stdout, plain.stderr.decode().splitlines()[-1], plain.status) == (ended.stdout, last, 3), (plain, ended)
    assert b"explain: " not in plain.stderr, plain
    unasked, shown = on_terminal(["stderr"], *words, given=given, **settings)
    assert (unasked.stdout, unasked.status) == (ended.stdout, 3) and shown.replace(b"\r\n", b"\n").endswith(("\n".join([*said, last]) + "\n").encode()), (shown, ended)
    return last.removeprefix("roadlrs: fault "), said


def there(top):
    """The files of a folder with their bytes; an opening that is refused may leave an empty log beside one."""
    return {path.name: path.read_bytes() if path.is_file() else None for path in top.iterdir() if not (path.name.endswith("-wal") and path.stat().st_size < 100)}


def is_unopened(path, part, *words):
    """The command of these words does not open the inventory that DB stands for, and this is said of it; the lines."""
    fault, said = explained(*(str(path) if word == "DB" else word for word in words or ("list", "DB", "routes")))
    assert fault == "Open" and said[0].startswith(f"explain: {path}: ") and part in said[0], said
    return said


def test_files_that_cannot_be_opened(top):
    (top / "folder").mkdir()
    os.mkfifo(top / "pipe")
    (top / "text").write_bytes(b"hello\n" * 100)
    with sqlite3.connect(top / "other") as other:
        other.execute("CREATE TABLE t (a)")
        other.execute("CREATE TABLE u (a)")
    other.close()
    make_full(top / "lost")
    (top / "lost-wal").write_bytes(b"x" * 5000)
    (top / "lost").unlink()
    cases = [("none", "there is no such file"), ("none/x", f"there is no folder {top}/none"), ("folder", "it is a folder"), ("pipe", "it is a device, a pipe")]
    cases += [("text", "not a database"), ("other", "other tables than an inventory's: t u"), ("lost", "and a log, named -wal, lies beside it")]
    for name, part in cases:
        before = there(top)
        is_unopened(top / name, part)
        assert there(top) == before, name
    make_full(top / "cut")
    os.truncate(top / "cut", 5000)
    assert explained("at", str(top / "cut"), "A1", "abs", "5")[0] in ("Open", "Unsound:link")


def test_an_inventory_that_is_not_there(top):
    """What is said goes by whether the command makes one."""
    assert "edit and survey make one" in is_unopened(top / "x", "no such file", "rows", "DB")[1]
    for option in (["--existing"], ["--expect", "0123456789abcdef"]):
        assert "without --existing and --expect a new one is made" in is_unopened(top / "x", "no such file", "edit", "DB", "stdin", *option)[1]
    assert "make the folder" in is_unopened(top / "none" / "x", "there is no folder", "edit", "DB", "stdin")[1]
    is_unopened("/proc/x", "it is not there, and was not made", "edit", "DB", "stdin")
    assert list(top.iterdir()) == []


@pytest.mark.parametrize("log", [b"", b"x", None, b"x" * 5000], ids=["an empty log", "a byte of a log", "the log of a good end", "a long log"])
@pytest.mark.parametrize("kept", [None, 0, 1, 50, 99])
def test_a_file_that_is_missing_or_cut_short_beside_a_log(top, kept, log):
    """What was found, and not that the folder may not be written; an inventory is made where a making was cut off alone."""
    db = top / "roads.db"
    make_full(db)
    beside = top / "roads.db-wal"
    assert beside.stat().st_size == 41
    if log is not None:
        beside.write_bytes(log)
    if kept is None:
        db.unlink()
    else:
        os.truncate(db, kept)
    is_remnant = kept in (0, 1) and log in (b"", b"x")
    for words in (["totals", "DB"], ["audit", "DB"], ["edit", "DB", "stdin", "--existing"], *([] if is_remnant else [["edit", "DB", "stdin"]])):
        said = is_unopened(db, "the file is empty" if is_remnant else "it is missing or cut short, and a log, named -wal, lies beside it", *words)
        if not is_remnant:
            assert said[1] == "explain: bring the file back: what was committed is in both; or remove the log, to begin anew", said
        elif "--existing" in words:
            assert said[1] == "explain: name an inventory; without --existing and --expect one is made in an empty file", said


def test_a_link_is_followed_to_the_log_beside_its_file(top):
    (top / "kept").mkdir()
    make_full(top / "kept" / "roads.db")
    (top / "link").symlink_to("kept/roads.db")
    os.truncate(top / "kept" / "roads.db", 0)
    assert "a log, named -wal, lies beside it" in is_unopened(top / "link", "cut short", "edit", "DB", "stdin")[0]
    (top / "kept" / "roads.db").unlink()
    for words in (["totals", "DB"], ["edit", "DB", "stdin"]):
        assert "name a file" in is_unopened(top / "link", "it is a link to a file that is not there", *words)[1]


def test_a_file_of_a_byte_is_no_database(top):
    (top / "byte").write_bytes(b"x")
    for words in (["totals", "DB"], ["edit", "DB", "stdin"], ["edit", "DB", "stdin", "--existing"]):
        is_unopened(top / "byte", "it is not a database of SQLite's", *words)


ADDED = {
    "VIEW lengths": ["CREATE VIEW lengths AS SELECT length FROM link"],
    "TABLE note": ["CREATE TABLE note (text TEXT)"],
    "TABLE sqlite_stat1": ["ANALYZE", "DROP TABLE IF EXISTS sqlite_stat4"],
    "INDEX by_length": ["CREATE INDEX by_length ON link (length)"],
}


@pytest.mark.parametrize("what", ADDED)
def test_what_was_added_is_named_and_can_be_taken_away(top, what):
    db = top / "roads.db"
    make_full(db)
    change(db, *ADDED[what])
    said = is_unopened(db, f"it has {what}, which no inventory has")
    command = re.fullmatch(r"explain: (sqlite3 .*) takes it away; the file was not changed", said[1])[1]
    assert command == f"sqlite3 {db} 'DROP {what}'"
    subprocess.run(["sh", "-ec", command], check=True, timeout=60)
    assert run("totals", str(db)).status == 0
    is_whole(db)


def test_a_database_that_is_not_understood(top):
    """One with a trigger is not opened by the kit's sqlite, as one that is damaged."""
    db = top / "roads.db"
    make_full(db)
    change(db, "CREATE TRIGGER later AFTER INSERT ON link BEGIN SELECT 1; END")
    assert "has a trigger" in is_unopened(db, "not a database that obeys its schema")[1]


def tables_in_another_order(db, other):
    """Makes the other file from a store: the same rows, and `class` is the first table that is made."""
    with sqlite3.connect(db) as store:
        lines = [line for line in store.iterdump() if line not in ("BEGIN TRANSACTION;", "COMMIT;")]
    store.close()
    first = [line for line in lines if line.startswith("CREATE TABLE class")]
    assert len(first) == 1
    with sqlite3.connect(other) as made:
        made.executescript("".join(first + [line for line in lines if line not in first]))
    made.close()


def test_tables_in_another_order_are_named_and_can_be_copied(top):
    make_full(top / "roads.db")
    tables_in_another_order(top / "roads.db", top / "OLD.db")
    fault, said = explained("totals", str(top / "OLD.db"))
    assert fault == "Open" and "in another order" in said[0], said
    (top / "HEADER.csv").write_bytes(FIRST.split(b"\n")[0] + b"\n")
    page = (TOP / "docs" / "OPERATING.md").read_text()
    commands = re.search(r"^(\./roadlrs edit NEW\.db HEADER\.csv\n.*?)^```$", page, re.M | re.S)[1]
    subprocess.run(["bash", "-ec", commands.replace("./roadlrs", str(PROGRAM))], cwd=top, check=True, stdout=subprocess.DEVNULL)
    for words in (("totals",), ("list", "routes"), ("log",)):
        command, *rest = words
        ends(run(command, top / "NEW.db", *rest), run(command, top / "roads.db", *rest).stdout, 0)


def is_holder(said, process):
    """The process is named, where the system lists its locks."""
    locks = pathlib.Path("/proc/locks")
    if locks.exists() and f" {process} " in locks.read_text():
        name = pathlib.Path(f"/proc/{process}/comm").read_text().strip()
        assert said.endswith(f"another program has it open: {name}, process {process}"), said


def test_a_file_that_another_program_has(top):
    db = top / "roads.db"
    make_full(db)
    server = subprocess.Popen([PROGRAM, "serve", db, "28117", "5"], stdout=subprocess.PIPE)
    try:
        assert server.stdout.readline() == b"listening 28117\n"
        fault, said = explained("totals", str(db), "--wait", "0")
        assert fault == "Open" and "another program has it open" in said[0], said
        is_holder(said[0], server.pid)
        fault, said = explained("serve", ":memory:", "28117", "5")
        assert fault == "Door" and "28117" in said[0], said
    finally:
        server.send_signal(signal.SIGKILL)
        server.wait()
        server.stdout.close()


def test_a_file_that_a_reader_of_sqlite_has(top):
    db = top / "roads.db"
    make_full(db)
    reader = sqlite3.connect(db, isolation_level=None)
    try:
        reader.execute("BEGIN")
        reader.execute("SELECT * FROM link").fetchall()
        said = explained("edit", str(db), "stdin", "--wait", "0", given=FIRST)[1]
        assert "another program has it open" in said[0], said
        is_holder(said[0], os.getpid())
    finally:
        reader.close()


def test_files_that_the_system_does_not_open(top):
    (top / "loop").symlink_to(top / "loop")
    make_full(top / "one")
    os.link(top / "one", top / "two")
    is_unopened(top / "two", "a second name")
    fault, said = explained("totals", str(top / "loop"))
    assert fault == "Open" and said[0].startswith(f"explain: {top / 'loop'}: ") and len(said[0].split(": ")[2]) > 5, said


# ---- faults of sheets


HEADERS = {
    "edit": "key,verb,a,b,c,d,e,f,g,h,i",
    "survey": "key,asset,class,route,side,method,from,to,value,offset",
    "ask": "key,question,a,b,c,d",
}


@pytest.fixture
def sheet_at(top):
    """Says what is explained of a sheet of these bytes, in a file: the fault, the line on the sheet, and what follows that."""
    make_full(top / "roads.db")

    def said_of(command, text, *options):
        sheet = top / "a sheet"
        sheet.write_bytes(text)
        fault, said = explained(command, str(top / "roads.db"), str(sheet), *options)
        assert said[0].startswith(f"explain: {sheet}: "), said
        return fault, said[0].removeprefix(f"explain: {sheet}: "), "\n".join(said[1:])

    return said_of


@pytest.mark.parametrize("command", HEADERS)
def test_another_header_is_shown(sheet_at, command):
    header = HEADERS[command]
    fault, line, rest = sheet_at(command, b"key,what,x\n1,2,3\n")
    assert fault == "BadHeader" and line.startswith("line 1: ") and "what" in line and f"the header {header} is wanted" in line, line
    assert "nothing was " in rest
    for text, trace in [
        (header.replace(",", ";"), "semicolons"),
        (header.replace(",", "\t"), "tabs"),
        ("sep=,\n" + header, "sep="),
        (header.upper(), "small letters"),
        ("PK\x03\x04\x14\x00", "workbook"),
    ]:
        assert trace in sheet_at(command, (text + "\n").encode())[2], text
    assert "UTF-16" in sheet_at(command, (header + "\n").encode("utf-16"))[2]


@pytest.mark.parametrize("command", HEADERS)
def test_what_is_shown_of_a_sheet_is_short_and_printable(sheet_at, command):
    for text in (b"\x1b[31mred\x07\xff\n", b"x" * 100_000, b"\x1b" * 1_000 + b"," * 1_000):
        fault, line, rest = sheet_at(command, text)
        assert fault == "BadHeader" and len(line) < 1_500 and all(" " <= c <= "~" for c in line), line


def test_the_header_of_the_other_kind_is_known(sheet_at):
    assert "this is the header of a survey" in sheet_at("edit", HEADERS["survey"].encode() + b"\n")[1]
    assert "this is the header of an edit sheet" in sheet_at("survey", HEADER)[1]


def test_a_record_of_another_width_is_shown(sheet_at):
    fault, line, rest = sheet_at("edit", HEADER + b"k1,link,1,5,,,,,,,\n\"a\nb\",link\n")
    assert fault == "BadCsv" and line.startswith("line 3: the record has 2 fields, and 11 are wanted"), line
    assert "--resume" in rest
    fault, line, rest = sheet_at("ask", b"key,question,a,b,c,d\n1,routes,,,\n")
    assert fault == "BadCsv" and line.startswith("line 2: the record has 5 fields, and 6 are wanted"), line
    assert "ask again" in rest


def test_a_sheet_that_is_tried_is_told_once(sheet_at):
    """The advice says where it stops; the explanation does not say so again."""
    for command, *options in (["edit", "--all"], ["check"], ["survey", "--all"], ["check", "--survey"]):
        fault, line, rest = sheet_at(command, b"key,what,x\n", *options)
        assert fault == "BadHeader" and "key,what,x" not in line and "nothing was done" in rest, line
    fault, line, rest = sheet_at("edit", FIRST + b"a,b\n", "--all")
    assert fault == "BadCsv" and "nothing was done" in rest, (line, rest)


def test_sheets_that_are_read_once():
    """Of standard input there is nothing more to read: what is wanted is said, and what says where it is wrong."""
    fault, said = explained("edit", ":memory:", "stdin", given=b"a,b\n")
    assert fault == "BadHeader" and HEADERS["edit"] in said[0] and "roadlrs check DB FILE says where" in said[1], said
    fault, said = explained("survey", ":memory:", "stdin", given=b"a,b\n")
    assert fault == "BadHeader" and HEADERS["survey"] in said[0] and "--survey" in said[1], said
    assert explained("edit", ":memory:", "stdin", given=FIRST + b"a,b\n")[0] == "BadCsv"
    with tempfile.TemporaryDirectory() as folder:
        pipe = pathlib.Path(folder) / "pipe"
        os.mkfifo(pipe)
        for given in (b"a,b\n", FIRST + b"a,b\n"):
            writer = subprocess.Popen(["sh", "-c", 'cat >"$0"', pipe], stdin=subprocess.PIPE)
            ended = subprocess.Popen([PROGRAM, "edit", ":memory:", pipe, "--explain"], stdout=subprocess.PIPE, stderr=subprocess.PIPE)
            writer.communicate(given)
            assert b"explain: " in ended.communicate(timeout=60)[1] and ended.returncode == 3


def test_a_sheet_that_is_not_read(top):
    for name, part in (("none.csv", "No such file"), (".", "it is a folder")):
        fault, said = explained("edit", ":memory:", str(top / name))
        assert fault == "Read" and said[0].startswith(f"explain: {top / name}: ") and part in said[0], said
        assert "nothing was done" in said[1] and not any("kept" in line for line in said), said


# ---- faults of what is written


def test_the_reason_of_the_system_is_told(top):
    with open("/dev/full", "wb") as full:
        fault, said = explained("edit", ":memory:", "stdin", given=FIRST, stdout=full)
        assert fault == "Write" and "No space left on device" in said[0], said
    fault, said = explained("page", str(top / "none" / "page"))
    assert fault == "Write" and said[0].startswith(f"explain: {top / 'none' / 'page'}: the folder could not be made"), said


def test_nothing_is_explained_to_a_reader_that_went():
    sheet = long_sheet(500)[0]
    for words in (["edit", ":memory:", "stdin"], ["edit", ":memory:", "stdin", "--explain"]):
        reader, writer = os.pipe()
        os.close(reader)
        try:
            ended, shown = on_terminal(["stderr"], *words, given=sheet, stdout=writer)
        finally:
            os.close(writer)
        assert (ended.status, shown) == (3, b""), (ended, shown)


def test_a_commit_that_fails_is_explained(top):
    sheet = long_sheet(3_000)[0]
    db = str(top / "roads.db")
    assert run("edit", db, "stdin", given=HEADER).status == 0
    ended = run("edit", db, "stdin", "--explain", given=sheet, **with_files_up_to(100_000))
    *said, last = ended.stderr.decode().splitlines()
    assert last == "roadlrs: fault Keep" and said[0].startswith(f"explain: {db}: the disk is full"), ended
    assert "--resume" in said[2], said
    assert run("edit", db, "stdin", "--resume", given=sheet).status == 0


# ---- rows that break a rule

BROKEN = {
    "a stretch of nothing": ("UPDATE span SET hi = lo WHERE asset = 12", "span", "the row 12 A2 2999: it ends where it begins"),
    "a kind of no class": ("UPDATE class SET kind = 7 WHERE name = 'RAIL'", "class", "the row RAIL: its kind is none of"),
    "a link of no length": ("UPDATE link SET length = 0 WHERE number = 3", "link", "the row 3: its length is out of range"),
    "an offset": ("UPDATE asset SET lateral = 100001 WHERE number = 11", "asset", "the row 11: its lateral offset"),
    "a direction": ("UPDATE piece SET dir = 2 WHERE route = 'A2'", "piece", "the row A2 0: its direction"),
    "a referent of no route": ("UPDATE ref SET route = 'B9'", "ref", "the row KM2: there is no such route"),
    "a link that is not there": ("UPDATE piece SET link = 99", "piece", "a rule of its rows is broken: "),
    "two marks that do not rise": ("UPDATE mark SET measure = 0 WHERE route = 'A1'", "mark", "a rule of its rows is broken: "),
}


@pytest.mark.parametrize("what", BROKEN)
def test_a_row_that_breaks_a_rule_is_named(top, what):
    statement, table, part = BROKEN[what]
    db = top / "roads.db"
    make_full(db)
    change(db, statement)
    fault, said = explained("totals", str(db))
    assert fault == f"Unsound:{table}" and said[0].startswith(f"explain: {db}: {fault}: {part}"), (fault, said)


def test_nothing_is_explained_where_nothing_stops():
    ends(run("edit", ":memory:", "stdin", "--explain", given=FIRST), FIRST_REPLIES, 0)
    ends(run("--explain", "at", ":memory:", "A1", "abs", "5"), b"", 1, b"roadlrs: NoRoute\n")


# ---- inventories that have to be there


@pytest.mark.parametrize("words", [["edit", "DB", "stdin"], ["survey", "DB", "stdin"], ["totals", "DB"], ["check", "DB", "stdin"], ["serve", "DB", "28118", "0"]])
def test_an_inventory_that_has_to_be_there(top, words):
    words = [str(top / "new.db") if word == "DB" else word for word in words]
    for place in range(len(words) + 1):
        faults(run(*words[:place], "--existing", *words[place:], given=FIRST), "Open")
        assert list(top.iterdir()) == []


def test_an_inventory_that_is_there(top):
    ends(edit(top / "roads.db", sheet_of("z1,link,9,9")), b"z1,done,1\n", 0)
    ends(run("edit", str(top / "roads.db"), "stdin", "--existing", given=FIRST), FIRST_REPLIES.replace(b"done,7", b"done,8").replace(b"done,6", b"done,7").replace(b"done,5", b"done,6").replace(b"done,4", b"done,5").replace(b"done,3", b"done,4").replace(b"done,2", b"done,3").replace(b"done,1", b"done,2"), 0)
    ends(run("totals", ":memory:", "--existing"), b"", 0)


# ---- a reader that goes


def ends_quietly(words, given=b""):
    """The run whose reader has gone says nothing, and its status is that of a fault."""
    reader, writer = os.pipe()
    os.close(reader)
    try:
        ended = run(*words, given=given, stdout=writer)
    finally:
        os.close(writer)
    assert (ended.stderr, ended.status) == (b"", 3), ended


def test_a_reader_that_goes(top):
    sheet, replies = long_sheet(500)
    ends_quietly(["edit", ":memory:", "stdin"], sheet)
    ends(edit(top / "roads.db", sheet), replies, 0)
    for words in (["list", top / "roads.db", "links"], ["log", top / "roads.db"], ["--help"], ["help", "enter"]):
        ends_quietly(words)


def test_a_full_disk_is_told():
    with open("/dev/full", "wb") as full:
        ended = run("edit", ":memory:", "stdin", given=FIRST, stdout=full)
    assert (ended.stderr, ended.status) == (b"roadlrs: fault Write\n", 3), ended


# ---- help on verbs

SHEETS = (TOP / "docs" / "SHEETS.md").read_text()
VERBS = re.findall(r"^### `(\w+)`$", SHEETS, re.M)


def section(verb):
    return re.split(r"^##", SHEETS.partition(f"\n### `{verb}`\n")[2], flags=re.M)[0]


def test_there_is_help_on_each_verb():
    assert len(VERBS) == 15
    for verb in VERBS:
        ended = run("help", verb)
        assert (ended.stderr, ended.status) == (b"", 0), ended
        text = ended.stdout.decode()
        assert text.startswith(f"{verb}: ") and max(len(line) for line in text.splitlines() if "," + verb + "," not in line) <= 80
        table = section(verb).partition("| Refused |")[2]
        causes = [cause.replace("`", "") for cause in re.findall(r"^\| (`[^|]*?) \|", table, re.M)]
        assert re.findall(r"^([A-Z]\w+(?::N)?(?:, \w+)*)  ", text.partition("in this order:\n")[2], re.M) == causes, verb
        fields = re.findall(r"^\| (\w[\w ]*) \| ([a-i]), ([C-K]) \|", section(verb), re.M)
        assert re.findall(r"^(\w[\w ]*?) +([a-i]), ([C-K])  ", text, re.M) == fields and fields, verb


@pytest.mark.parametrize("verb", VERBS)
def test_the_example_of_each_verb_can_be_read(verb):
    record = re.search(r"^Example:\n(.*)$", run("help", verb).stdout.decode(), re.M).group(1)
    ended = run("edit", ":memory:", "stdin", given=b"key,verb,a,b,c,d,e,f,g,h,i\n" + record.encode() + b"\n")
    assert b"Malformed" not in ended.stdout and ended.stdout.count(b"\n") == 1, ended


def test_help_on_commands_is_as_it_was():
    assert run("help", "edit").stdout == run("edit", "--help").stdout
    ended = run("help", "mow")
    assert (ended.stdout, ended.status) == (b"", 2) and ended.stderr, ended


def test_the_help_on_verbs_is_that_of_the_page():
    subprocess.run(["python3", "-B", TOP / "tools" / "verb_help.py"], check=True, timeout=60)
