"""Lists whose cells a spreadsheet takes as text (`--text`): not as formulas, dates or numbers."""

import csv
import io
import pathlib
import random
import re
import tempfile

import pytest

from program import ends, faults, lines, run, sheet_of
from sent_sheets import MISTAKEN, random_record
from stores import edit, make_full

LISTS = [
    ["lengths"],
    ["lengths", "--route", "1-2"],
    ["lengths", "--by", "1E5"],
    *(["list", what] for what in ("routes", "links", "classes", "refs", "marks", "pieces")),
    ["list", "refs", "--exact"],
    ["rows"],
    ["rows", "--class", "1E5"],
    ["rows", "--class", "NONE9"],
    ["gone"],
    ["rows", "--exact"],
    ["rows", "--on-links"],
    ["rows", "--columns", "value,route,asset"],
    ["overlay", "1E5"],
    ["gone", "--edit", "1"],
    ["gone", "--since", "2", "--until", "9"],
    ["log"],
    ["log", "3"],
    ["log", "11"],
    ["log", "--key=-A1"],
]


@pytest.fixture(scope="module")
def db():
    with tempfile.TemporaryDirectory() as folder:
        path = pathlib.Path(folder) / "roads.db"
        assert edit(path, MISTAKEN).status == 0
        yield path


def cells(text):
    return list(csv.reader(io.StringIO(text.decode(), newline="")))


def as_text(plain):
    """The lists of the program have no quotes, so a line is its cells between commas."""
    assert b'"' not in plain and b"=" not in plain and b"\r" not in plain
    shown = [",".join(f'"=""{cell}"""' if cell else "" for cell in line.split(",")) for line in plain.decode().split("\n")]
    return "\n".join(shown).encode()


def is_in_cells(db, words):
    plain, text = run(words[0], db, *words[1:]), run(words[0], db, *words[1:], "--text")
    assert (text.stderr, text.status) == (plain.stderr, plain.status), (plain, text)
    assert text.stdout == as_text(plain.stdout), (plain, text)
    assert cells(text.stdout) == [[f'="{cell}"' if cell else "" for cell in row] for row in cells(plain.stdout)]
    return plain.stdout


@pytest.mark.parametrize("words", LISTS, ids=" ".join)
def test_each_cell_of_a_list_is_text(db, words):
    is_in_cells(db, words)
    is_in_cells(":memory:", words)


def test_what_a_spreadsheet_would_take_for_something_else(db):
    """The pages name these: so such cells there are, and others there are none."""
    plain = b"".join(is_in_cells(db, words) for words in LISTS)
    found = {cell for row in cells(plain) for cell in row}
    assert {"-A1", "-1", "1-2", "MAR1", "1:2", "1E5", "007", "1/3"} <= found
    # the direction of a piece
    assert not [cell for cell in found - {"+"} if re.search('["=@\t]|^[+]', cell)]


def test_lists_of_drawn_sheets():
    drawn = random.Random(11)
    with tempfile.TemporaryDirectory() as folder:
        for seed in range(5):
            path = pathlib.Path(folder) / f"{seed}.db"
            make_full(path)
            edit(path, sheet_of(*(random_record(drawn, n) for n in range(1, 60))))
            for words in [["lengths"], ["list", "marks"], ["rows"], ["gone"], ["log"]]:
                is_in_cells(path, words)


def test_a_long_list(tmp_path):
    path = tmp_path / "roads.db"
    assert edit(path, sheet_of(*(f"k{n},link,{n},{n}" for n in range(1, 20_001)))).status == 0
    assert len(is_in_cells(path, ["list", "links"])) > 3 * 65_536
    assert len(is_in_cells(path, ["log"])) > 3 * 65_536


def test_a_refused_question_prints_nothing(db):
    for words in [["rows", db, "--route", "A9"], ["log", db, "--key", "none"]]:
        plain = run(*words)
        assert (plain.stdout, plain.status) == (b"", 1), plain
        ends(run(*words, "--text"), b"", 1, plain.stderr)


def test_a_full_disk(db):
    with open("/dev/full", "wb") as full:
        faults(run("rows", db, "--text", stdout=full), "Write")


def test_a_log_of_text_is_no_edit_sheet(db):
    log = run("log", db, "--text").stdout
    faults(run("edit", ":memory:", "stdin", given=log), "BadHeader")
    ends(run("edit", ":memory:", "stdin", given=re.sub(b'"=""|"""', b"", log)), lines(*(f"{row[0]},done,{n}" for n, row in enumerate(cells(run("log", db).stdout)[1:], 1))), 0)


def test_it_is_an_option_of_lists_alone():
    for words in [["totals", ":memory:"], ["find", ":memory:", "1"], ["route", ":memory:", "A1"], ["ask", ":memory:", "stdin"], ["edit", ":memory:", "stdin"], ["audit", ":memory:"]]:
        assert run(*words, "--text").status == 2, words
