"""What `check` says on standard error about each record that would be refused: the cases of advice_cases.txt."""

import pathlib
import tempfile

import pytest

from advice_cases import cases, make_begun
from program import run, sheet_of


@pytest.fixture(scope="module")
def db():
    with tempfile.TemporaryDirectory() as folder:
        path = pathlib.Path(folder) / "roads.db"
        make_begun(path)
        yield path


@pytest.mark.parametrize("kind, sheet, replies, fault, advice", list(cases()))
def test_advice(db, kind, sheet, replies, fault, advice):
    ended = run("check", str(db), "stdin", *(["--survey"] if kind == "survey" else []), given=sheet)
    said = ended.stderr.decode().splitlines()
    if fault:
        assert (ended.stdout, ended.status, said) == (replies, 3, [*advice, f"roadlrs: fault {fault}"]), ended
        return
    count = replies.count(b"\n")
    summary = f"{count} record{'' if count == 1 else 's'}: 0 would be done, 0 again, {count} refused"
    assert (ended.stdout, ended.status, said) == (replies, 1, [*advice, summary]), ended


def test_there_are_cases():
    assert len(list(cases())) > 75


def test_a_sheet_that_would_be_done_has_a_summary(db):
    ended = run("check", str(db), "stdin", given=sheet_of("n1,link,77,5", "b8,link,3,1000"))
    assert (ended.stdout, ended.status, ended.stderr) == (b"n1,done,10\nb8,again,8\n", 0, b"2 records: 1 would be done, 1 again, 0 refused\nchanges: adds 1 link\n"), ended


def test_all_says_what_keeps_a_sheet_from_being_done(db):
    """Records that are passed over are counted: the line is that of the sheet."""
    sheet = sheet_of("b8,link,3,1000", "n1,link,77,5", "n2,close,A9")
    ended = run("edit", str(db), "stdin", "--all", "--resume", given=sheet)
    advice = b"line 4, key n2: column C (a, the route): no route has this name: mend it, or put the record that makes the route before this one\n"
    said = b"resumes behind record 1, key b8\n" + advice + b"2 records: 1 would be done, 0 again, 1 refused\nchanges: adds 1 link\n"
    assert (ended.stdout, ended.status, ended.stderr) == (b"", 1, said), ended
