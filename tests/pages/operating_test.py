"""docs/OPERATING.md: its commands run as they stand, in a folder that has the program and the inventory NAME.db."""

import pathlib
import subprocess

import pytest

from documents import blocks
from program import PATIENCE, PROGRAM, TOP, ends, run
from stores import digest, make_full

BLOCKS = [text for _, text in blocks(TOP / "docs" / "OPERATING.md")]


def shown(part):
    """The one block of the page that has this part."""
    (block,) = [text for text in BLOCKS if part in text]
    return block


@pytest.fixture
def typed(tmp_path):
    """Types commands: what they print, given this on the standard input."""
    (tmp_path / "roadlrs").symlink_to(pathlib.Path(PROGRAM).resolve())

    def type_in(commands, given=""):
        done = subprocess.run(["bash", "-ec", commands], cwd=tmp_path, input=given, capture_output=True, text=True, timeout=PATIENCE)
        assert (done.stderr, done.returncode) == ("", 0), done
        return done.stdout

    return type_in


def test_the_sum_of_a_log(typed, tmp_path):
    make_full(tmp_path / "NAME.db")
    sums = typed(shown("sha256sum")).splitlines(keepends=True)
    assert len(sums) == 13
    for number, line in enumerate(sums, 1):
        ends(run("log", str(tmp_path / "NAME.db"), str(number), "--sum"), line.encode(), 0)


def test_looking_into_a_copy(typed, tmp_path):
    make_full(tmp_path / "NAME.db")
    (tmp_path / "look").mkdir()
    before = digest(tmp_path / "NAME.db")
    command, _, statements = shown(".schema").partition("\n")
    assert command.count("/tmp/look/") == 2
    printed = typed(command.replace("/tmp/look/", "look/"), statements.replace("asset = 7", "asset = 10"))
    assert "CREATE TABLE span " in printed and "13|e6|split,A1,5000,A2\n" in printed and printed.endswith("A1|2500|5000|2\nA2|0|3000|2\n"), printed
    assert digest(tmp_path / "NAME.db") == before


def test_each_block_is_typed_here_or_by_the_test_of_explanations():
    assert len(BLOCKS) == 3 and shown("HEADER.csv")
