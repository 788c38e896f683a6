"""What a sheet would be answered (`check`), and sheets that are done as a whole or not at all (`--all`)."""

import pathlib
import random
import tempfile

import pytest

from program import FIRST, FIRST_REPLIES, HEADER, ends, faults, lines, record, run, sheet_of
from sent_sheets import REPLIES, ROWS, SHEET, random_record
from stores import MORE, digest, edit, make, rows_of, settle

SURVEY_HEADER = b"key,asset,class,route,side,method,from,to,value,offset\n"


@pytest.fixture
def top():
    with tempfile.TemporaryDirectory() as folder:
        yield pathlib.Path(folder)


def checked(db, sheet, *words, given=b""):
    """What `check` writes and how it ends; the inventory has the same rows as before."""
    before = rows_of(db)
    ended = run("check", str(db), sheet, *words, given=given)
    assert rows_of(db) == before, ended
    return ended


def test_a_check_says_what_edit_says(top):
    drawn = random.Random(7)
    for seed in range(40):
        db, copy = top / f"{seed}.db", top / f"{seed}-copy.db"
        begun = sheet_of("z1,link,999,9", *(random_record(drawn, n) for n in range(1, 12)))
        sheet = sheet_of(*(random_record(drawn, n) for n in range(6, 30)))
        for path in (db, copy):
            edit(path, begun)
        said = checked(db, "stdin", given=sheet)
        done = edit(copy, sheet)
        assert (said.stdout, said.status) == (done.stdout, done.status), (seed, said, done)


def test_a_check_of_a_survey(top):
    db = top / "roads.db"
    make(db)
    survey = SURVEY_HEADER + b"a1,10,SPEED,A1,L,abs,10,20,50,0\na2,11,SPEED,A1,L,abs,15,20,50,0\n"
    said = checked(db, "stdin", "--survey", given=survey)
    assert (said.stdout, said.status) == (b"a1,done,8\na2,refused,Overlap:10\n", 1), said
    faults_alone = checked(db, "stdin", given=survey)
    assert (faults_alone.stdout, faults_alone.status) == (b"", 3) and faults_alone.stderr.endswith(b"roadlrs: fault BadHeader\n"), faults_alone


@pytest.mark.parametrize("sheet", [b"a,b\n", FIRST + b"of one field\n", b""])
def test_a_check_of_a_broken_sheet(top, sheet):
    db = top / "roads.db"
    ends(edit(db, sheet_of("z1,link,9,9")), b"z1,done,1\n", 0)
    said = checked(db, "stdin", given=sheet)
    ends(edit(top / "copy.db", sheet_of("z1,link,9,9")), b"z1,done,1\n", 0)
    done = edit(top / "copy.db", sheet)
    assert (said.stdout, said.status) == (done.stdout, done.status) and said.stderr.endswith(done.stderr), (said, done)


def test_a_check_touches_no_file(top):
    db, sheet = top / "roads.db", top / "sheet.csv"
    make(db, *MORE)
    settle(db)
    sheet.write_bytes(sheet_of("n1,link,77,5", "n2,close,A1", "n3,close,A1"))
    before = digest(db)
    ended = run("check", db, sheet)
    assert (ended.stdout, ended.status) == (b"n1,done,14\nn2,done,15\nn3,refused,NoRoute\n", 1), ended
    assert digest(db) == before


def test_a_check_without_an_inventory_makes_none(top):
    db = top / "new.db"
    ended = run("check", db, "stdin", given=FIRST)
    assert (ended.stdout, ended.status) == (FIRST_REPLIES, 0), ended
    assert list(top.iterdir()) == []


def test_a_check_in_memory():
    ended = run("check", ":memory:", "stdin", given=SHEET)
    assert (ended.stdout, ended.status) == (REPLIES, 1), ended


def test_a_check_of_a_sheet_that_is_not_there(top):
    make(top / "roads.db")
    faults(run("check", top / "roads.db", top / "nowhere.csv"), "Read")


def test_all_or_nothing(top):
    db = top / "roads.db"
    make(db)
    before = rows_of(db)
    ended = run("edit", db, "stdin", "--all", given=sheet_of("n1,link,77,5", "n2,close,B9", "n3,link,78,5"))
    assert (ended.stdout, ended.status) == (b"", 1) and ended.stderr.endswith(b"3 records: 2 would be done, 0 again, 1 refused\nchanges: adds 2 links\n"), ended
    assert rows_of(db) == before
    ends(run("edit", db, "stdin", "--all", given=sheet_of("n1,link,77,5", "n3,link,78,5")), b"n1,done,8\nn3,done,9\n", 0)
    ends(run("edit", db, "stdin", "--all", given=sheet_of("n1,link,77,5", "n3,link,78,5")), b"n1,again,8\nn3,again,9\n", 0)


@pytest.mark.parametrize("sheet, fault", [(b"a,b\n", "BadHeader"), (sheet_of("n1,link,77,5") + b"of one field\n", "BadCsv")])
def test_a_broken_sheet_is_not_begun(top, sheet, fault):
    db = top / "roads.db"
    make(db)
    before = rows_of(db)
    ended = run("edit", db, "stdin", "--all", given=sheet)
    assert (ended.stdout, ended.status) == (b"", 3) and ended.stderr.endswith(f"roadlrs: fault {fault}\n".encode()), ended
    assert rows_of(db) == before


def test_all_of_a_survey(top):
    db = top / "roads.db"
    make(db)
    good = SURVEY_HEADER + b"a1,10,SPEED,A1,L,abs,10,20,50,0\n"
    bad = good + b"a2,11,SPEED,A1,L,abs,15,20,50,0\n"
    ended = run("survey", db, "stdin", "--all", given=bad)
    assert (ended.stdout, ended.status) == (b"", 1), ended
    ends(run("survey", db, "stdin", "--all", given=good), b"a1,done,8\n", 0)


def test_all_of_the_rest(top):
    """With --resume it is the rest that must be accepted: x1 and x2 before it were refused, and are decided."""
    db = top / "roads.db"
    ends(edit(db, sheet_of(*(text for text, _ in ROWS[:4]))), lines(*(reply for _, reply in ROWS[:4])), 1)
    rest = sheet_of(*(text for text, _ in ROWS[:4]), "k4,link,2,7")
    ends(run("edit", db, "stdin", "--all", "--resume", given=rest), b"k4,done,4\n", 0, b"resumes behind record 4, key k3\n")


def test_all_of_a_long_sheet(top):
    """More records than are kept together; the last one is refused, and then it is not."""
    db, sheet = top / "roads.db", top / "sheet.csv"
    rows = b"".join(record(f"k{n},link,{n},5") for n in range(1, 1001))
    sheet.write_bytes(HEADER + rows + record("k0,link,1,5"))
    ended = run("edit", db, sheet, "--all")
    assert (ended.stdout, ended.status) == (b"", 1), ended
    assert not db.exists()
    sheet.write_bytes(HEADER + rows)
    ends(run("edit", db, sheet, "--all"), b"".join(b"k%d,done,%d\n" % (n, n) for n in range(1, 1001)), 0)
