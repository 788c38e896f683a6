"""What LibreOffice 7.4 of Debian 12 wrote, without a window: tidied, and compared with the lists that it opened.

The `.fods` of spreadsheets/ have German formats of numbers and dates, typographic quotes, no-break spaces and a minus. It saved them by
`soffice --headless --convert-to`: as `.csv` by `csv:Text - txt - csv (StarCalc):59,34,76,1,,0,false,true`, as `.txt` by
`txt:Text - txt - csv (StarCalc):9,34,65535,1,,0,false,true`. It opened two lists of `--text`, saved them as `.xlsx`, and as CSV again."""

import pathlib

import pytest

from program import ends, run
from sent_sheets import MISTAKEN
from stores import edit

SAVED = pathlib.Path(__file__).resolve().parent / "spreadsheets"

EDITS = b"""key,verb,a,b,c,d,e,f,g,h,i
d1,link,1,5000,,,,,,,
d2,class,SIGN,point,,,,,,,
d3,route,A1,1:0:5000:+,0:0 5000:6000,,,,,,
d4,ref,KM2,A1,abs,2000,,,,,
d-5,ref,KM1,A1,rel,KM2-500,,,,,
"""
SURVEY = b"""key,asset,class,route,side,method,from,to,value,offset
s1,11,SIGN,A1,L,abs,3000,,STOP,1500
s2,12,SIGN,A1,R,int,1/3,,007,0
s3,13,SIGN,A1,R,rel,KM2-250,,1-2,0
"""
SEPARATORS = {".csv": ["semicolons between fields became commas"], ".txt": ["UTF-16 became UTF-8", "tabs between fields became commas"]}
MENDED_EDITS = [
    "line 1: the header became key,verb,a,b,c,d,e,f,g,h,i",
    'line 2, column B (key): "\\xe2\\x80\\x9ed1\\xe2\\x80\\x9c" became "d1"',
    'line 2, column C (a): "1,0" became "1"',
    'line 2, column D (b): "5000,0" became "5000"',
    "line 3: a row of empty cells was left out",
    'line 5, column C (a): "\\xc2\\xa0A1" became "A1"',
    'line 5, column E (c): "0:0\\xc2\\xa05000:6000" became "0:0 5000:6000"',
    'line 7, column B (key): "d\\xe2\\x80\\x935" became "d-5"',
    'line 7, column F (d): "KM2\\xe2\\x88\\x92500" became "KM2-500"',
]
MENDED_SURVEY = [
    'line 2, column A (key): "\\xe2\\x80\\x9cs1\\xe2\\x80\\x9d" became "s1"',
    'line 2, column G (from): "3000,0" became "3000"',
    'line 2, column I (value): "\\xc2\\xbbSTOP\\xc2\\xab" became "STOP"',
    'line 2, column J (offset): "1500,0" became "1500"',
    'line 4, column G (from): "KM2\\xe2\\x88\\x92250" became "KM2-250"',
    'line 4, column I (value): "1-2\\x0a" became "1-2"',
]
DOUBTS = [
    'line 2, column G (from): "3.000" can be read in two ways; a measure is wanted, a whole number from 0 to 100000000000',
    'line 2, column J (offset): "1.500" can be read in two ways; a whole number of millimetres from 0 to 100000 is wanted',
    'line 3, column G (from): "01.03.2026" may be a date that was made of a proportion; a part of the route\'s length is wanted, as 1/3: '
    "two whole numbers up to 1000000, the first not above the second",
    "nothing is written",
]


def lines_of(said):
    return "".join(line + "\n" for line in said).encode()


@pytest.mark.parametrize("ending", SEPARATORS)
def test_what_it_saved_becomes_sheets_that_are_done(tmp_path, ending):
    sheets = []
    for name, sheet, mended, options in [("edits", EDITS, MENDED_EDITS, []), ("survey", SURVEY, MENDED_SURVEY, ["--survey"])]:
        tidied = run("tidy", str(SAVED / (name + ending)), *options)
        ends(tidied, sheet, 0, lines_of(SEPARATORS[ending] + mended))
        sheets.append(tidied.stdout)
    ends(edit(tmp_path / "roads.db", sheets[0]), b"d1,done,1\nd2,done,2\nd3,done,3\nd4,done,4\nd-5,done,5\n", 0)
    ends(run("survey", str(tmp_path / "roads.db"), "stdin", given=sheets[1]), b"s1,done,6\ns2,done,7\ns3,done,8\n", 0)


@pytest.mark.parametrize("ending", SEPARATORS)
def test_numbers_in_groups_and_dates_are_named_and_not_changed(ending):
    ends(run("tidy", str(SAVED / ("doubts" + ending)), "--survey"), b"", 1, lines_of(DOUBTS))


def test_lists_of_text_come_back_as_the_plain_ones(tmp_path):
    """So nothing in them became a formula, a date or a number."""
    db = tmp_path / "roads.db"
    assert edit(db, MISTAKEN).status == 0
    ends(run("log", str(db)), (SAVED / "log.csv").read_bytes(), 0)
    # saved from release 0.8.17, which named the last column otherwise
    ends(run("rows", str(db), "--exact"), (SAVED / "rows.csv").read_bytes().replace(b",entered_by\n", b",entry\n"), 0)


def test_a_workbook_is_no_text():
    """Who gives one is told that it is one."""
    book = SAVED / "rows.xlsx"
    ended = run("tidy", str(book))
    assert (ended.stdout, ended.status) == (b"", 1) and ended.stderr.endswith(b"nothing is written\n"), ended
    assert b"workbook" in run("edit", ":memory:", str(book), "--explain").stderr
