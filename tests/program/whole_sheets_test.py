"""A sheet whose last line has no end may have been cut off: it is done, as the format says, and refused with `--whole`."""

import pathlib
import tempfile

import pytest

from program import FIRST, FIRST_REPLIES, ends, faults, lines, on_terminal, record, run, run_sheet
from stores import edit, make, rows_of

SURVEY_HEADER = b"key,asset,class,route,side,method,from,to,value,offset\n"
WAYS = [["--whole"], ["--whole", "--all"], ["--resume", "--whole"], ["--all", "--whole", "--resume"]]


@pytest.fixture
def top():
    with tempfile.TemporaryDirectory() as folder:
        yield pathlib.Path(folder)


def told(ended):
    return ended.stdout, ended.status


@pytest.mark.parametrize("end", [b"\n", b"\r\n", b"\r", b"\n\n", b"\n\r\n"])
def test_a_sheet_with_its_last_end_is_done_as_without(end):
    sheet = FIRST.rstrip(b"\n") + end
    ends(run_sheet(sheet), FIRST_REPLIES, 0)
    ends(run("edit", ":memory:", "stdin", "--whole", given=sheet), FIRST_REPLIES, 0)


def test_wherever_a_sheet_is_cut():
    """All of it is done, or nothing."""
    for cut in range(len(FIRST) + 1):
        sheet = FIRST[:cut]
        ended = run("edit", ":memory:", "stdin", "--whole", given=sheet)
        if sheet.endswith(b"\n") or not sheet:
            assert told(ended) == told(run_sheet(sheet)), cut
        else:
            faults(ended, "CutOff")


@pytest.mark.parametrize("given", ["file", "stdin"])
@pytest.mark.parametrize("way", WAYS, ids=" ".join)
def test_a_cut_sheet_changes_nothing(top, way, given):
    db, sheet = top / "roads.db", FIRST + record("k,link,9,50").rstrip(b"\n")
    make(db)
    before = rows_of(db)
    (top / "sheet.csv").write_bytes(sheet)
    name = "stdin" if given == "stdin" else str(top / "sheet.csv")
    faults(run("edit", db, name, *way, given=sheet), "CutOff")
    assert rows_of(db) == before
    assert run("edit", db, name, "--resume", given=sheet).stdout == lines("k,done,8")


@pytest.mark.parametrize("way", WAYS, ids=" ".join)
def test_a_whole_sheet_goes_on_and_is_done_at_once_as_without(top, way):
    rest = [word for word in way if word != "--whole"]
    for sheet in [FIRST + record("k,link,9,50"), FIRST + record("k,link,1,50"), FIRST + b"of one field\n", b"a,b\n"]:
        for number, words in enumerate([way, rest]):
            edit(top / f"{number}.db", FIRST)
        ended, without = (run("edit", top / f"{number}.db", "stdin", *words, given=sheet) for number, words in enumerate([way, rest]))
        assert (told(ended), ended.stderr) == (told(without), without.stderr), sheet
        assert rows_of(top / "0.db") == rows_of(top / "1.db")
        for path in top.iterdir():
            path.unlink()


def test_a_number_that_broke_off(top):
    """An offset of 1500 mm that is cut to 15 is one, too."""
    db, asset = top / "roads.db", SURVEY_HEADER + b"a1,10,SPEED,A1,L,abs,10,20,50,1500\n"
    make(db)
    for cut in range(1, 4):
        faults(run("survey", db, "stdin", "--whole", given=asset[:-cut]), "CutOff")
    ends(run("survey", db, "stdin", "--whole", given=asset), b"a1,done,8\n", 0)
    assert b",1500," in run("rows", db).stdout


def test_a_sheet_that_is_not_there_is_not_read(top):
    faults(run("edit", ":memory:", top / "nowhere.csv", "--whole"), "Read")


def test_what_is_said_of_a_cut_sheet(top):
    sheet = top / "sheet.csv"
    sheet.write_bytes(FIRST + b"x9,link,9,5")
    for name, said in [("stdin", "its last line has no end"), (str(sheet), 'its last line has no end: "x9,link,9,5"')]:
        ended = run("edit", ":memory:", name, "--whole", "--explain", given=sheet.read_bytes())
        first, second, *_, last = ended.stderr.decode().splitlines()
        assert (first, second) == (f"explain: {name}: {said}", "explain: it may have been cut off there; nothing was done"), ended
        assert (last, ended.stdout, ended.status) == ("roadlrs: fault CutOff", b"", 3), ended
        ended, shown = on_terminal(["stderr"], "edit", ":memory:", name, "--whole", given=sheet.read_bytes())
        assert (ended.stdout, ended.status) == (b"", 3) and first.encode() in shown, shown


def test_it_is_an_option_of_those_that_do_sheets():
    for words in [["check", ":memory:", "stdin"], ["ask", ":memory:", "stdin"], ["totals", ":memory:"]]:
        assert run(*words, "--whole").status == 2, words
    assert run("edit", ":memory:", "stdin", "--whole", "--whole").status == 2
