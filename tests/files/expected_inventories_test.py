"""`--expect ID`: a job is done only with the inventory of this identity."""

import pathlib
import tempfile

import pytest

from program import HEADER, ends, faults, run, sheet_of
from stores import edit, make_full, rows_of

OTHER = "0123456789abcdef"


@pytest.fixture
def top():
    with tempfile.TemporaryDirectory() as folder:
        yield pathlib.Path(folder)


@pytest.fixture
def db(top):
    make_full(top / "roads.db")
    return top / "roads.db"


def identity_of(path):
    return run("log", str(path), "1", "--sum").stdout.decode().split()[1][:16]


def jobs(db, top):
    """The words of jobs of each kind that are soon done, and a sheet beside them."""
    sheet, questions = top / "sheet.csv", top / "questions.csv"
    sheet.write_bytes(sheet_of("s1,link,1,5000", "f1,link,9,7"))
    questions.write_bytes(b"key,question,a,b,c,d\nq1,find,10,,,\n")
    return [
        ["at", db, "A1", "abs", "3000"],
        ["list", db, "routes"],
        ["log", db],
        ["log", db, "--sum"],
        ["ask", db, questions],
        ["check", db, sheet],
        ["audit", db],
        ["serve", db, "18099", "0"],
        ["edit", db, sheet, "--all"],
        ["edit", db, sheet],
    ]


def test_the_expected_inventory_is_worked_with_as_ever(db, top):
    twin = top / "twin.db"
    make_full(twin)
    identity = identity_of(db)
    assert identity == identity_of(twin) and len(identity) == 16
    for words, others in zip(jobs(db, top), jobs(twin, top)):
        plain, expecting = run(*others), run(*words, "--expect", identity)
        assert (expecting.stdout, expecting.stderr, expecting.status) == (plain.stdout, plain.stderr, plain.status), words
        assert plain.status == 0, plain


def test_with_another_one_nothing_is_done(db, top):
    before = rows_of(db)
    for words in jobs(db, top):
        faults(run(*words, f"--expect={OTHER}"), "OtherInventory")
    assert rows_of(db) == before


def test_the_identity_stays_as_edits_are_added(db):
    identity = identity_of(db)
    edit(db, sheet_of("f1,close,A2"))
    assert identity_of(db) == identity


def test_an_inventory_without_edits_is_none_that_is_expected(db, top):
    empty = top / "empty.db"
    ends(edit(empty, HEADER), b"", 0)
    faults(run("log", empty, "--expect", identity_of(db)), "OtherInventory")
    faults(run("log", ":memory:", "--expect", identity_of(db)), "OtherInventory")


def test_none_is_made_where_one_is_expected(db, top):
    identity = identity_of(db)
    sheet = top / "sheet.csv"
    sheet.write_bytes(sheet_of("s1,link,1,5000"))
    for words in [["edit", top / "new.db", sheet], ["check", top / "new.db", sheet], ["serve", top / "new.db", "18099", "0"]]:
        faults(run(*words, "--expect", identity), "Open")
    assert not (top / "new.db").exists()


@pytest.mark.parametrize("given", ["", "x", OTHER[:15], OTHER + "0", OTHER.upper(), "0123456789abcdeg"])
def test_what_is_no_identity(db, given):
    ended = run("log", db, "--expect", given)
    assert (ended.stdout, ended.status) == (b"", 2) and f"invalid value '{given}' for '--expect <ID>'".encode() in ended.stderr, ended


def test_the_last_one_counts(db):
    assert run("log", db, "--expect", OTHER, f"--expect={identity_of(db)}", "--sum").status == 0
    faults(run("--expect", identity_of(db), "log", "--expect", OTHER, db), "OtherInventory")
    assert run("log", db, "--expect").status == 2


def test_it_is_explained(db, top):
    ended = run("list", db, "links", "--expect", OTHER, "--explain")
    assert f"explain: {db}: its identity is {identity_of(db)}, and not {OTHER}\n".encode() in ended.stderr, ended
    ends(edit(top / "empty.db", HEADER), b"", 0)
    ended = run("log", top / "empty.db", "--expect", OTHER, "--explain")
    assert f"explain: {top / 'empty.db'}: it has no edits, so its identity is not {OTHER}\n".encode() in ended.stderr, ended
