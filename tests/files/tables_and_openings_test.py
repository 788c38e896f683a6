"""An inventory in a file: its tables, what is opened and what is not, and files of the first version."""

import contextlib
import os
import random
import shutil
import sqlite3
import subprocess

from program import BUILT, FIRST, FIRST_REPLIES, HEADER, PATIENCE, PROGRAM, Ended, ends, faults, lines, record, run, sheet_of
from stores import (
    MORE,
    MORE_REPLIES,
    MORE_ROWS,
    TABLES,
    TEXTS,
    as_first,
    change,
    digest,
    edit,
    folder,
    is_whole,
    look,
    make,
    make_full,
    more_sheet,
    refuses,
    rows_of,
    settle,
    shell,
)

AGAIN = FIRST_REPLIES.replace(b"done", b"again")

SURVEY_HEADER = b"key,asset,class,route,side,method,from,to,value,offset\n"


def test_a_sheet_over_a_file_is_answered_as_in_memory():
    with folder() as path:
        sheet = FIRST + more_sheet(*MORE)[len(HEADER) :]
        for db in (":memory:", path):
            ends(edit(db, sheet), FIRST_REPLIES + MORE_REPLIES, 0)
        is_whole(path)


def test_the_rows_of_the_sheet_of_all_tables():
    """Each row of each table, whether the sheet comes at once or record by record."""
    assert list(MORE_ROWS) == list(TABLES) and all(MORE_ROWS.values())
    with folder() as path:
        make_full(path)
        assert rows_of(path) == MORE_ROWS
    with folder() as path:
        make(path)
        for number, text in enumerate(MORE, 8):
            ends(edit(path, more_sheet(text)), lines(f"{text[:2]},done,{number}"), 0)
        assert rows_of(path) == MORE_ROWS


def test_an_inventory_is_there_again():
    with folder() as path:
        make_full(path)
        ends(edit(path, FIRST), AGAIN, 0)
        ends(edit(path, more_sheet(*MORE)), MORE_REPLIES.replace(b"done", b"again"), 0)
        assert rows_of(path) == MORE_ROWS
        ends(edit(path, more_sheet("e7,enter,10,RAIL,A1,L,abs,0,10,x,0", "e8,link,9,5")), lines("e7,refused,AssetKnown", "e8,done,14"), 1)
        assert rows_of(path) == {**MORE_ROWS, "link": [*MORE_ROWS["link"], (9, 5)], "edit": [*MORE_ROWS["edit"], (14, "e8", "link,9,5")]}


def size_of_a_page(path, *first):
    """Asks sqlite3 for the size of a page in bytes, after these statements."""
    with contextlib.closing(sqlite3.connect(path, isolation_level=None)) as db:
        for statement in first:
            db.execute(statement)
        return db.execute("PRAGMA page_size").fetchone()[0]


def test_a_store_whose_pages_have_another_size():
    for size in (512, 1024, 65536):
        with folder() as path:
            assert size_of_a_page(path, f"PRAGMA page_size = {size}", "VACUUM") == size == path.stat().st_size
            make_full(path)
            ends(edit(path, FIRST), AGAIN, 0)
            is_whole(path)
            assert size_of_a_page(path) == size


def test_surveys_and_sheets_at_one_file():
    survey = b"key,asset,class,route,side,method,from,to,value,offset\np1,20,SIGN,A1,L,abs,9000,,STOP,0\n"
    with folder() as path:
        make(path)
        ends(run("survey", str(path), "stdin", given=survey), b"p1,done,8\n", 0)
        ends(edit(path, more_sheet("p1,enter,20,SIGN,A1,L,abs,9000,,STOP,0")), b"p1,again,8\n", 0)
        is_whole(path)


def test_an_empty_sheet_makes_an_empty_store():
    with folder() as path:
        ends(edit(path, HEADER), b"", 0)
        is_whole(path)
        assert {table: rows for table, rows in rows_of(path).items() if rows} == {"version": [(2,)]}


def test_a_store_with_the_first_of_the_tables_gets_the_others():
    tables = list(TABLES)
    for count in (1, 4, 8, 11):
        with folder() as path:
            ends(edit(path, HEADER), b"", 0)
            change(path, *(f"DROP TABLE {table}" for table in reversed(tables[count:])))
            ends(edit(path, FIRST), FIRST_REPLIES, 0)
            is_whole(path)
            assert set(rows_of(path)) == set(tables)


def log_of(path):
    return path.with_name(path.name + "-wal")


def test_a_program_that_ends_leaves_all_that_it_committed_in_the_database_file(tmp_path):
    """The file is closed: it holds the rows without its log, which has no commit any more."""
    path, alone = tmp_path / "roads.db", tmp_path / "alone.db"
    ends(edit(path, FIRST), FIRST_REPLIES, 0)
    assert log_of(path).stat().st_size < 568
    shutil.copy(path, alone)
    assert rows_of(alone) == rows_of(path) and rows_of(alone)["edit"]


def test_a_log_with_commits_whose_database_is_lost_is_kept():
    with folder() as path, folder() as lost:
        child = subprocess.Popen([PROGRAM, "edit", path, "stdin"], stdin=subprocess.PIPE, stdout=subprocess.PIPE)
        child.stdin.write(FIRST)
        child.stdin.flush()
        for reply in FIRST_REPLIES.splitlines(keepends=True):
            assert child.stdout.readline() == reply
        shutil.copy(log_of(path), log_of(lost))
        child.communicate(timeout=PATIENCE)
        log = digest(log_of(lost))
        for empty in (False, True):
            if empty:
                lost.touch()
            for ended in (edit(lost, FIRST), run("totals", str(lost)), run("rows", str(lost)), run("audit", str(lost))):
                faults(ended, "Open")
                assert digest(log_of(lost)) == log
                assert lost.exists() == empty and (not empty or lost.stat().st_size == 0)


# ---- sums of pages, where they are asked for


def flipped(path, place):
    """The file with one bit changed."""
    whole = bytearray(path.read_bytes())
    whole[place // 8] ^= 1 << place % 8
    return bytes(whole)


def test_a_file_with_sums_tells_a_changed_bit():
    drawn = random.Random(7)
    with folder() as path, folder() as other:
        ends(run("edit", "--sums", str(path), "stdin", given=FIRST), FIRST_REPLIES, 0)
        ends(edit(path, more_sheet(*MORE)), MORE_REPLIES, 0)
        assert rows_of(path) == MORE_ROWS
        told = 0
        for _ in range(60):
            other.write_bytes(flipped(path, drawn.randrange(8 * path.stat().st_size)))
            log_of(other).unlink(missing_ok=True)
            ended = edit(other, HEADER)
            if ended.status == 0:
                assert rows_of(other) == MORE_ROWS
            else:
                faults(ended, "Open")
                told += 1
        assert told > 40, told


def test_a_file_goes_on_as_it_was_made():
    for first, then in ((["--sums"], []), ([], ["--sums"])):
        with folder() as path:
            ends(run("edit", *first, str(path), "stdin", given=FIRST), FIRST_REPLIES, 0)
            reserved = path.read_bytes()[20]
            assert (reserved > 0) == bool(first)
            ends(run("survey", *then, str(path), "stdin", given=SURVEY_HEADER), b"", 0)
            ends(run("edit", *then, str(path), "stdin", given=FIRST), AGAIN, 0)
            assert path.read_bytes()[20] == reserved
            is_whole(path)


def test_each_table_has_its_columns_its_key_and_its_references():
    with folder() as path:
        make(path)
        names, version = look(path, "SELECT name FROM sqlite_master WHERE type = 'table' ORDER BY name", "PRAGMA user_version")
        assert [name for name, in names] == sorted(TABLES), names
        assert look(path, "SELECT count(*) FROM sqlite_master WHERE type IN ('view', 'trigger')") == [[(0,)]]
        strict = {name: is_strict for _, name, kind, _, _, is_strict in look(path, "PRAGMA table_list")[0] if kind == "table"}
        for table, (columns, key, references, unique) in TABLES.items():
            has_table(path, table, columns.split(), key.split(), references, unique)
            assert strict[table] == 1, table
        assert version == [(0,)]


def has_table(path, table, columns, key, references, unique):
    info, keys, indexes = look(path, f"PRAGMA table_info({table})", f"PRAGMA foreign_key_list({table})", f"PRAGMA index_list({table})")
    wanted = [(name, "TEXT" if name in TEXTS else "INTEGER", 1, None, key.index(name) + 1 if name in key else 0) for name in columns]
    assert [row[1:] for row in info] == wanted, (table, info)
    assert {row[3]: (row[2], row[4] or TABLES[row[2]][1]) for row in keys} == references, (table, keys)
    assert all(row[5:7] == ("NO ACTION", "NO ACTION") for row in keys), keys
    found = [tuple(name for _, _, name in look(path, f"PRAGMA index_info({row[1]})")[0]) for row in indexes if row[3] == "u"]
    assert found == ([tuple(unique.split())] if unique else []), (table, found)


def test_the_shell_opens_the_file():
    with folder() as path:
        make_full(path)
        told = shell(path, "PRAGMA integrity_check; PRAGMA foreign_key_check; SELECT v FROM version; SELECT max(number) FROM edit")
        assert told == b"ok\n2\n13\n"


def test_the_rows_of_the_first_sheet():
    with folder() as path:
        make(path, "e1,enter,10,SPEED,A1,B,abs,3000,9000,80,0")
        found = rows_of(path)
        assert (found["link"], found["class"]) == (MORE_ROWS["link"], MORE_ROWS["class"])
        assert found["piece"] == [("A1", 0, 1, 0, 5000, 0), ("A1", 1, 2, 0, 3000, 1)]
        assert found["mark"] == [("A1", 0, 0, 0), ("A1", 1, 5000, 6000), ("A1", 2, 8000, 9000)]
        assert found["asset"] == [(10, "SPEED", "80", 0)] and found["origin"] == [(10, 8)]
        assert found["span"] == [(10, "A1", 2500, 8000, 2)]
        assert sorted(found["entered"]) == [(8, 10, 1, 2500, 5000, 0), (8, 10, 1, 2500, 5000, 1), (8, 10, 2, 0, 3000, 0), (8, 10, 2, 0, 3000, 1)]
        assert found["edit"] == MORE_ROWS["edit"][:8]
        assert found["version"] == [(2,)] and found["ref"] == found["gone"] == []


# what comes after the sheet of all tables, and the replies
COMMANDS = [
    ("e7,turn,A2", "e7,done,14"),
    ("e8,join,A1,A2", "e8,done,15"),
    ("e9,renumber,A1,B1", "e9,done,16"),
    ("f1,supersede,30,SPEED,B1,L,abs,3000,4000,100,0", "f1,done,17"),
    ("f2,close,B1", "f2,done,18"),
    ("f3,unref,KM2", "f3,refused,NoRef"),
]


def test_each_command_leaves_a_whole_file():
    with folder() as path:
        ends(edit(path, FIRST), FIRST_REPLIES, 0)
        for text, reply in [*zip(MORE, MORE_REPLIES.decode().splitlines()), *COMMANDS]:
            ends(edit(path, more_sheet(text)), lines(reply), 1 if "refused" in reply else 0)
            is_whole(path)


# ---- the first version


def test_a_store_of_the_first_version_is_brought_up():
    with folder() as path:
        make_full(path)
        as_first(path)
        ends(edit(path, more_sheet(*MORE)), MORE_REPLIES.replace(b"done", b"again"), 0)
        is_whole(path)
        assert rows_of(path) == MORE_ROWS


def test_a_store_of_the_first_version_with_its_last_table_is_brought_up():
    with folder() as path:
        make_full(path)
        change(path, "DELETE FROM origin", "UPDATE version SET v = 1")
        ends(edit(path, FIRST), AGAIN, 0)
        assert rows_of(path) == MORE_ROWS


def test_a_store_that_is_up_is_not_written_to():
    with folder() as path:
        make_full(path)
        ends(edit(path, HEADER), b"", 0)
        before = digest(path)
        ends(edit(path, FIRST), AGAIN, 0)
        assert digest(path) == before


def test_an_unsound_store_of_the_first_version_keeps_its_rows():
    for table, text in [("span", "UPDATE span SET hi = hi + 1"), ("gone", "DELETE FROM gone"), ("edit", "DELETE FROM edit WHERE number = 8")]:
        with folder() as path:
            make_full(path)
            change(path, "DELETE FROM origin", "UPDATE version SET v = 1", text)
            before = rows_of(path)
            faults(edit(path, FIRST), f"Unsound:{table}")
            assert rows_of(path) == before, table


def test_origins_in_a_store_of_the_first_version():
    with folder() as path:
        make_full(path)
        change(path, "UPDATE version SET v = 1")
        before = rows_of(path)
        faults(edit(path, FIRST), "Unsound:origin")
        assert rows_of(path) == before


def test_a_store_without_a_row_is_a_new_one():
    with folder() as path:
        ends(edit(path, HEADER), b"", 0)
        change(path, "DELETE FROM version")
        ends(edit(path, FIRST), FIRST_REPLIES, 0)
        is_whole(path)
        ends(edit(path, FIRST), AGAIN, 0)


# ---- unsound rows

UNSOUND = (
    ("version", "UPDATE version SET v = 3"),
    ("version", "UPDATE version SET v = 0"),
    ("version", "DELETE FROM version"),
    ("version", "INSERT INTO version VALUES (1)"),
    ("link", "UPDATE link SET length = 0 WHERE number = 3"),
    ("link", "INSERT INTO link VALUES (1000000, 5)"),
    ("class", "UPDATE class SET kind = 3 WHERE name = 'SIGN'"),
    ("class", "INSERT INTO class VALUES ('a b', 1)"),
    ("asset", "UPDATE asset SET class = 'ROAD' WHERE number = 10"),
    ("asset", "UPDATE asset SET lateral = -1 WHERE number = 10"),
    ("piece", "UPDATE piece SET b = 5001 WHERE link = 1"),
    ("piece", "UPDATE piece SET n = 7 WHERE link = 2 AND n = 0"),
    ("piece", "UPDATE piece SET dir = 2 WHERE link = 1"),
    ("mark", "UPDATE mark SET measure = 0 WHERE route = 'A1'"),
    ("mark", "DELETE FROM mark WHERE route = 'A2'"),
    ("ref", "UPDATE ref SET place = 9000"),
    ("ref", "UPDATE ref SET route = 'Z9'"),
    ("span", "UPDATE span SET side = 3 WHERE asset = 12"),
    ("span", "UPDATE span SET route = 'Z9' WHERE asset = 12"),
    ("span", "INSERT INTO span VALUES (99, 'A1', 0, 1, 0)"),
    ("entered", "UPDATE entered SET hi = 5001 WHERE asset = 10 AND link = 1"),
    ("entered", "UPDATE entered SET asset = 99 WHERE asset = 10"),
    ("gone", "UPDATE gone SET hi = hi + 1"),
    ("gone", "DELETE FROM span WHERE asset = 12"),
    ("gone", "UPDATE gone SET cause = 2"),
    ("edit", "UPDATE edit SET number = 20 WHERE number = 13"),
    ("edit", "DELETE FROM edit WHERE number = 8"),
    ("origin", "UPDATE origin SET edit = 7 WHERE asset = 10"),
    ("origin", "DELETE FROM origin WHERE asset = 10"),
    ("origin", "INSERT INTO origin VALUES (99, 8)"),
    # references to rows that are gone, which the kit's sqlite refuses to open
    ("asset", "DELETE FROM class WHERE name = 'SPEED'"),
    ("piece", "DELETE FROM link WHERE number = 1"),
    ("span", "DELETE FROM asset WHERE number = 10"),
)


def test_the_first_unsound_table_is_named():
    for table, text in UNSOUND:
        with folder() as path:
            make_full(path)
            change(path, text)
            refuses(path, f"Unsound:{table}")


# the same of an inventory with one asset, on both sides of A1 from 2,500 to 8,000
UNSOUND_WITH_ONE_ASSET = (
    ("version", "UPDATE version SET v = 7"),
    ("link", "INSERT INTO link VALUES (4, 0)"),
    ("class", "UPDATE class SET kind = 3 WHERE name = 'SIGN'"),
    ("asset", "UPDATE asset SET lateral = 100001 WHERE number = 10"),
    ("piece", "UPDATE piece SET n = 2 WHERE route = 'A1' AND n = 1"),
    ("mark", "UPDATE mark SET chainage = 7999 WHERE route = 'A1' AND chainage = 8000"),
    ("ref", "INSERT INTO ref VALUES ('KM2', 'A1', 8000)"),
    ("span", "INSERT INTO span VALUES (10, 'A1', 7000, 8000, 2)"),
    ("entered", "UPDATE entered SET hi = 5001 WHERE link = 1 AND side = 0"),
    ("gone", "DELETE FROM entered WHERE asset = 10"),
    ("gone", "INSERT INTO gone VALUES (9, 0, 10, 1, 0, 1, 0)"),
    ("edit", "DELETE FROM edit WHERE number = 8"),
    ("origin", "UPDATE origin SET edit = 7 WHERE asset = 10"),
)


def test_the_first_unsound_table_of_an_inventory_with_one_asset_is_named():
    for table, text in UNSOUND_WITH_ONE_ASSET:
        with folder() as path:
            make(path, "e1,enter,10,SPEED,A1,B,abs,3000,9000,80,0")
            change(path, text)
            refuses(path, f"Unsound:{table}")


def test_the_first_unsound_table_of_the_first_version_is_named():
    """The rows stay as they are, whether the store has the table of origins or not; a reference to a row that is gone is told like any other."""
    for table, text in UNSOUND:
        if table not in ("version", "origin"):
            with folder() as path:
                make_full(path)
                change(path, "DELETE FROM origin", "UPDATE version SET v = 1", text)
                before = rows_of(path)
                faults(edit(path, FIRST), f"Unsound:{table}")
                assert rows_of(path) == before, text
            with folder() as path:
                make_full(path)
                as_first(path)
                change(path, text)
                faults(edit(path, FIRST), f"Unsound:{table}")


def test_an_unsound_table_is_named_before_a_later_one():
    for table, texts in (
        ("class", ["UPDATE class SET kind = 3 WHERE name = 'SIGN'", "UPDATE asset SET class = 'ROAD' WHERE number = 10"]),
        ("asset", ["DELETE FROM class WHERE name = 'SPEED'", "DELETE FROM link WHERE number = 1"]),
        ("span", ["INSERT INTO span VALUES (99, 'A1', 0, 1, 0)", "INSERT INTO origin VALUES (99, 8)"]),
    ):
        with folder() as path:
            make_full(path)
            for text in texts:
                change(path, text)
            refuses(path, f"Unsound:{table}")


def test_a_broken_reference_beside_other_tables_is_no_store():
    with folder() as path:
        make_full(path)
        change(path, "CREATE TABLE other (a INTEGER)")
        change(path, "UPDATE asset SET class = 'ROAD' WHERE number = 10")
        refuses(path, "Open")


# ---- what is no store


def test_files_that_are_no_database():
    drawn = random.Random(15)
    contents = [b"not a database\n", b"ab", b"SQLite format 3\0", bytes(5000), drawn.randbytes(100), drawn.randbytes(20_000)]
    for content in contents:
        with folder() as path:
            path.write_bytes(content)
            refuses(path, "Open")


def test_a_store_that_is_cut_short():
    with folder() as path:
        make_full(path)
        settle(path)
        whole = path.read_bytes()
        for size in (99, 100, 4095, 4096, 8192, len(whole) - 4096, len(whole) - 1):
            path.write_bytes(whole[:size])
            refuses(path, "Open")


def test_a_store_with_a_page_of_other_bytes():
    drawn = random.Random(16)
    with folder() as path:
        make_full(path)
        settle(path)
        whole = path.read_bytes()
        for page in range(len(whole) // 4096):
            path.write_bytes(whole[: page * 4096] + drawn.randbytes(4096) + whole[(page + 1) * 4096 :])
            refuses(path, "Open")


OTHER_TABLES = (
    "CREATE TABLE note (id INTEGER PRIMARY KEY, text TEXT)",
    "DROP TABLE gone",
    "ALTER TABLE link ADD COLUMN name TEXT",
    "CREATE VIEW long AS SELECT * FROM link WHERE length > 5",
    "CREATE INDEX by_length ON link (length)",
    "ANALYZE",
    "CREATE TRIGGER no_link AFTER INSERT ON link BEGIN DELETE FROM mark; END",
)


def test_stores_with_other_tables():
    for text in OTHER_TABLES:
        with folder() as path:
            make_full(path)
            change(path, text)
            refuses(path, "Open")


def test_another_database():
    with folder() as path:
        with sqlite3.connect(path) as db:
            db.execute("CREATE TABLE note (id INTEGER PRIMARY KEY, text TEXT)")
            db.execute("INSERT INTO note (text) VALUES ('hello')")
        refuses(path, "Open")


def test_a_folder_and_a_path_in_no_folder():
    with folder() as path:
        for given in (path.parent, path.parent / "none" / "roads.db", ""):
            faults(edit(given, FIRST), "Open")
        assert list(path.parent.iterdir()) == []


def as_nobody(path, sheet):
    """A run as a user who owns nothing, of a copy of the program that everybody may start."""
    program = path.with_name("program")
    shutil.copy(BUILT, program)
    program.chmod(0o755)
    how = {"input": sheet, "capture_output": True, "timeout": PATIENCE}
    return Ended(subprocess.run([program, "edit", str(path), "stdin"], user=65534, group=65534, extra_groups=[], **how))


def test_a_store_that_may_not_be_written():
    with folder() as path:
        make_full(path)
        path.chmod(0o444)
        path.parent.chmod(0o755)
        before = digest(path)
        faults(as_nobody(path, FIRST) if os.geteuid() == 0 else edit(path, FIRST), "Open")
        assert digest(path) == before
        path.chmod(0o644)
        ends(edit(path, FIRST), AGAIN, 0)


def test_a_link_to_a_store():
    with folder() as path:
        make_full(path)
        link = path.with_name("link.db")
        link.symlink_to(path)
        ends(edit(link, FIRST), AGAIN, 0)
        os.link(path, path.with_name("second.db"))
        refuses(path, "Open")


def test_a_sheet_that_stops_in_the_middle_keeps_what_was_done():
    sheet = sheet_of("s1,link,1,5000", "s2,link,2,3000") + b"of one field\n" + record("s3,link,3,5")
    with folder() as path:
        faults(edit(path, sheet), "BadCsv", b"s1,done,1\ns2,done,2\n")
        ends(edit(path, sheet_of("s2,link,2,3000", "s3,link,3,5")), b"s2,again,2\ns3,done,3\n", 0)
        is_whole(path)


def test_a_store_copied_after_its_run_is_the_store():
    with folder() as path:
        make_full(path)
        copy = path.with_name("copy.db")
        shutil.copy(path, copy)
        ends(edit(copy, FIRST), AGAIN, 0)
        assert rows_of(copy) == MORE_ROWS
