"""The program stops before each of its changes of a file in turn: a write to the store or its log, a change of a length, a sync, or
the write of a reply. Either all stays that was written, or half of what is to be written is there too, or the power goes, and
nothing stays that was not synced. The same sheet, sent again, ends as if nothing had stopped."""

import pathlib
import shutil
import tempfile

import pytest

from program import BUILT, FIRST, FIRST_REPLIES, ends, lines, record
from refusing import Stop, with_each_refused
from stores import as_first, edit, is_whole, make, rows_of

RECORDS = ["e1,enter,10,SPEED,A1,B,abs,3000,9000,80,0", "e4,split,A1,5000,A2", "e5,join,A1,A2"]
SHEET = FIRST + b"".join(map(record, RECORDS))
REPLIES = FIRST_REPLIES + lines("e1,done,8", "e4,done,9", "e5,done,10")
# what leaves a gap in an asset, and a part of it abandoned
REALIGNED = ["e1,enter,10,SPEED,A1,B,abs,3000,9000,80,0", "e6,recalibrate,A1,0:0 8000:8000", "e8,realign,A1,4000,6000,3:0:2000:+,0:0 8000:8000"]
ENDS = ["program", "tearing", "power"]


def with_log(path):
    """The files of a store."""
    return [path, path.with_name(path.name + "-wal")]


def copied(path, to):
    """A copy of a store with its log."""
    for old, new in zip(with_log(path), with_log(to)):
        if old.exists():
            shutil.copyfile(old, new)
    return to


def acknowledged(ended):
    """The lines that went out whole before the stop."""
    return ended.stdout[: ended.stdout.rfind(b"\n") + 1].splitlines(keepends=True)


def goes_on(path, sheet, answered, expected, stop, in_flight):
    """The sheet is sent again: what was answered is answered `again`, the first of those in flight may be, and the rest is done."""
    assert answered == expected[: len(answered)], (stop, answered)
    ended = edit(path, sheet)
    refused = any(b",refused," in line for line in expected)
    assert (ended.stderr, ended.status) == (b"", 1 if refused else 0), (stop, ended)
    said = ended.stdout.splitlines(keepends=True)
    assert len(said) == len(expected), (stop, ended)
    kept = True
    for n, (line, done) in enumerate(zip(said, expected)):
        again = done.replace(b",done,", b",again,")
        kept = n < len(answered) or (kept and n < len(answered) + in_flight and line == again)
        assert line == (again if kept else done), (stop, n, ended)


def in_group(answered, expected):
    """How many lines behind those that are answered may be of commands in flight: those up to the first refusal."""
    rest = expected[len(answered) :]
    accepted = [b",done," in line for line in rest]
    return accepted.index(False) + 1 if False in accepted else len(rest)


def quoted(sheet):
    """The same sheet, with a quote in its header: its records are done one by one, since more of a quoted field may come."""
    return sheet.replace(b"key,", b'"key",', 1)


@pytest.mark.parametrize("by", ENDS)
@pytest.mark.parametrize("one_by_one", [True, False])
def test_a_sheet_is_stopped_at_each_change(by, one_by_one):
    """From a new file on: links, classes, a route, a speed limit, a split and a join."""
    given = quoted(SHEET) if one_by_one else SHEET
    with tempfile.TemporaryDirectory() as folder:
        top = pathlib.Path(folder)
        expected = REPLIES.splitlines(keepends=True)
        ends(edit(top / "whole.db", SHEET), REPLIES, 0)
        wanted = rows_of(top / "whole.db")

        def test(stop):
            path = top / f"{stop.number}.db"
            ended = stop.run(BUILT, "edit", path, "stdin", given=given)
            assert ended.status == (137 if stop.was_reached else 0), (stop.number, ended)
            answered = acknowledged(ended)
            goes_on(path, SHEET, answered, expected, stop.number, 1 if one_by_one else in_group(answered, expected))
            assert rows_of(path) == wanted, stop.number
            is_whole(path)

        assert with_each_refused(by, test, what=Stop) > (50 if one_by_one else 10)


@pytest.mark.parametrize("by", ENDS)
def test_a_sheet_in_a_file_is_stopped_at_each_change(by):
    """Its records are kept together; a refusal ends a group of them."""
    with tempfile.TemporaryDirectory() as folder:
        top = pathlib.Path(folder)
        sheet = FIRST + b"".join(map(record, [*RECORDS[:1], "x1,link,1,7", *RECORDS[1:]]))
        (top / "sheet.csv").write_bytes(sheet)
        replies = FIRST_REPLIES + lines("e1,done,8", "x1,refused,LinkKnown", "e4,done,9", "e5,done,10")
        expected = replies.splitlines(keepends=True)
        ends(edit(top / "whole.db", sheet), replies, 1)
        wanted = rows_of(top / "whole.db")

        def test(stop):
            path = top / f"{stop.number}.db"
            ended = stop.run(BUILT, "edit", path, top / "sheet.csv")
            assert ended.status == (137 if stop.was_reached else 1), (stop.number, ended)
            answered = acknowledged(ended)
            goes_on(path, sheet, answered, expected, stop.number, in_group(answered, expected))
            assert rows_of(path) == wanted, stop.number
            is_whole(path)

        assert with_each_refused(by, test, what=Stop) > 10


@pytest.mark.parametrize("by", ENDS)
@pytest.mark.parametrize("records", [RECORDS, REALIGNED])
def test_bringing_up_a_store_is_stopped_at_each_change(by, records):
    """A store of version 1 is opened, and brought up to version 2: an opening after the stop finds the same inventory."""
    with tempfile.TemporaryDirectory() as folder:
        top = pathlib.Path(folder)
        make(top / "whole.db", *records)
        wanted = rows_of(top / "whole.db")
        as_first(copied(top / "whole.db", top / "first.db"))
        sheet = FIRST + b"".join(map(record, records))
        again = lines(*(f"s{n},again,{n}" for n in range(1, 8)), *(f"{text.partition(',')[0]},again,{n}" for n, text in enumerate(records, 8)))

        def test(stop):
            path = copied(top / "first.db", top / f"{stop.number}.db")
            ended = stop.run(BUILT, "edit", path, "stdin", given=sheet)
            assert ended.status == (137 if stop.was_reached else 0), (stop.number, ended)
            ends(edit(path, sheet), again, 0)
            assert rows_of(path) == wanted, stop.number
            is_whole(path)

        assert with_each_refused(by, test, what=Stop) > 5
