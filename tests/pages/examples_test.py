"""examples/: the sheets of the small county, as its page walks through them."""

import csv
import re

import pytest

from documents import do_command, follow, table
from program import TOP

FOLDER = TOP / "examples"
PAGE = FOLDER / "README.md"


def records(name):
    with open(FOLDER / name, newline="") as sheet:
        return list(csv.reader(sheet))[1:]


@pytest.fixture(scope="module")
def walk(tmp_path_factory):
    """The walk of the page: the folder that it leaves, and its commands with what they print."""
    folder = tmp_path_factory.mktemp("county")
    (folder / "examples").symlink_to(FOLDER)
    return folder, follow(PAGE, folder)


def test_each_command_of_the_walk_prints_what_the_page_shows(walk):
    assert len(walk[1]) > 10


def test_each_sheet_is_on_the_page_with_its_records():
    rows = table(PAGE.read_text(), "Sheet")
    said = {re.search(r"\]\((.*?)\)", name)[1]: int(number) for name, number, _ in rows}
    assert said == {path.name: len(records(path.name)) for path in FOLDER.glob("*.csv")}


@pytest.mark.parametrize("name", ["network", "classes", "survey-2025", "year-2026"])
def test_each_record_is_accepted_but_those_refused_on_purpose(walk, name):
    word = "survey" if "survey" in name else "edit"
    printed, status = do_command(walk[0], f"./roadlrs {word} county.db examples/{name}.csv")
    assert status == 0 and re.fullmatch(r"(.*,again,\d+\n)+", printed), printed


def test_each_record_refused_on_purpose_stands_on_the_page_with_its_cause(walk):
    printed, status = do_command(walk[0], "./roadlrs edit county.db examples/refused.csv")
    causes = [f"`{line.split(',')[2]}`" for line in printed.splitlines()]
    assert status == 1 and causes == [cause for _, cause, _ in table(PAGE.read_text(), "Record")]


def test_the_picture_of_the_walk_is_drawn(walk):
    assert (walk[0] / "a438.svg").read_text().startswith("<svg")
