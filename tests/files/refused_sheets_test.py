"""A sheet that is done as a whole or not at all leaves no new file where nothing is done; what was there, or has an edit, stays."""

import contextlib
import shutil
import subprocess
import time

import pytest

from program import FIRST, FIRST_REPLIES, HEADER, PATIENCE, PROGRAM, Ended, ends, record, run, sheet_of
from serving import SURVEY_HEADER, free_port
from stores import is_whole, make, rows_of

REFUSED = sheet_of("a1,link,1,5", "a2,link,1,5")

# what is done as a whole or not at all, with what is given, and the status in which that ends
IN_VAIN = {
    "a record is refused": (["edit", "DB", "stdin", "--all"], REFUSED, 1),
    "each record is refused": (["edit", "DB", "stdin", "--all"], sheet_of("a1,link,0,5"), 1),
    "a sheet that is not there": (["edit", "DB", "nosuch.csv", "--all"], b"", 3),
    "another header": (["edit", "DB", "stdin", "--all"], SURVEY_HEADER, 3),
    "a sheet of edits for a survey": (["survey", "DB", "stdin", "--all"], FIRST, 3),
    "a first record that is none": (["edit", "DB", "stdin", "--all"], HEADER + b"of one field\n", 3),
    "--resume, and a key stands twice": (["edit", "DB", "stdin", "--all", "--resume"], sheet_of("a1,link,1,5", "a1,link,2,5"), 3),
    "with sums": (["edit", "DB", "stdin", "--sums", "--all"], REFUSED, 1),
    "a last line without an end": (["edit", "DB", "stdin", "--whole", "--all"], FIRST[:-1], 3),
}


def words_at(words, path):
    return [str(path) if word == "DB" else word for word in words]


@pytest.mark.parametrize("what", IN_VAIN)
def test_no_file_is_left(tmp_path, what):
    words, given, status = IN_VAIN[what]
    for _ in range(2):
        ended = run(*words_at(words, tmp_path / "new.db"), given=given, cwd=tmp_path)
        assert ended.status == status, ended
        assert list(tmp_path.iterdir()) == []
    ends(run("edit", str(tmp_path / "new.db"), "stdin", given=FIRST), FIRST_REPLIES, 0)


# the same, and how many edits are kept
KEPT = {
    "a header alone": (["edit", "DB", "stdin"], HEADER, 0, 0),
    "a header alone, as a whole": (["edit", "DB", "stdin", "--all"], HEADER, 0, 0),
    "one record is done": (["edit", "DB", "stdin"], REFUSED, 1, 1),
    "one record is done before the sheet cannot be read": (["edit", "DB", "stdin"], sheet_of("a1,link,1,5") + b"of one field\n", 3, 1),
    "each record is refused, one by one": (["edit", "DB", "stdin"], sheet_of("a1,link,0,5"), 1, 0),
    "a sheet that is not there": (["edit", "DB", "nosuch.csv"], b"", 3, 0),
    "another header": (["edit", "DB", "stdin"], SURVEY_HEADER, 3, 0),
    "a service without a connection": (["serve", "DB", "PORT", "0"], b"", 0, 0),
}


@pytest.mark.parametrize("what", KEPT)
def test_a_file_is_left_by_all_else(tmp_path, what):
    words, given, status, edits = KEPT[what]
    path = tmp_path / "new.db"
    words = [str(free_port()) if word == "PORT" else word for word in words_at(words, path)]
    ended = run(*words, given=given, cwd=tmp_path)
    assert ended.status == status, ended
    is_whole(path)
    assert len(rows_of(path)["edit"]) == edits


@pytest.mark.parametrize("what", IN_VAIN)
def test_a_file_that_was_there_stays(tmp_path, what):
    words, given, status = IN_VAIN[what]
    empty, made, full = (tmp_path / name for name in ("empty.db", "made.db", "full.db"))
    empty.touch()
    ends(run("edit", str(made), "stdin", given=HEADER), b"", 0)
    make(full)
    for path in (empty, made, full):
        run(*words_at(words, path), given=given, cwd=tmp_path)
        assert path.exists(), path.name
    assert rows_of(full)["edit"][:7] == [(n, f"s{n}", line) for n, (_, _, line) in enumerate(rows_of(full)["edit"][:7], 1)]
    assert rows_of(made)["edit"] == []


@contextlib.contextmanager
def making(path):
    """A run that makes an inventory, and has nothing done in it yet."""
    words = [PROGRAM, "edit", str(path), "stdin", "--all", "--wait", "300"]
    with subprocess.Popen(words, stdin=subprocess.PIPE, stdout=subprocess.PIPE, stderr=subprocess.PIPE) as child:
        child.stdin.write(HEADER + record("a1,link,0,5"))
        child.stdin.flush()
        until = time.monotonic() + PATIENCE
        while not (path.exists() and path.stat().st_size) and time.monotonic() < until:
            time.sleep(0.01)
        time.sleep(0.3)
        yield child


def end(child):
    stdout, stderr = child.communicate(timeout=PATIENCE)
    return Ended(subprocess.CompletedProcess([], child.returncode, stdout, stderr))


def test_a_file_that_another_put_there_meanwhile_stays(tmp_path):
    path, other = tmp_path / "new.db", tmp_path / "other.db"
    make(other)
    with making(path) as child:
        shutil.copy(other, tmp_path / "copy.db")
        (tmp_path / "copy.db").rename(path)
        assert end(child).status == 1
    assert path.read_bytes() == other.read_bytes()


def test_who_waits_for_a_file_that_is_taken_away_makes_its_own(tmp_path):
    path = tmp_path / "new.db"
    with making(path) as child:
        words = [PROGRAM, "edit", str(path), "stdin", "--wait", "300"]
        waiting = subprocess.Popen(words, stdin=subprocess.PIPE, stdout=subprocess.PIPE, stderr=subprocess.PIPE)
        waiting.stdin.write(FIRST)
        time.sleep(0.5)
        assert end(child).status == 1
        ends(end(waiting), FIRST_REPLIES, 0)
    is_whole(path)
    ends(run("edit", str(path), "stdin", given=FIRST), FIRST_REPLIES.replace(b"done", b"again"), 0)
