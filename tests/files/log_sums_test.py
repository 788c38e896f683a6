"""The sum of a log, as Python's hashlib computes it from the lines of `log`: what copies of an inventory are told apart by."""

import hashlib
import pathlib
import random
import shutil
import tempfile

import pytest

from program import ends, faults, refuses_word, run, sheet_of
from sent_sheets import random_record
from stores import change, edit, make_full


@pytest.fixture
def top():
    with tempfile.TemporaryDirectory() as folder:
        yield pathlib.Path(folder)


@pytest.fixture
def db(top):
    make_full(top / "roads.db")
    return top / "roads.db"


def sums_by(path):
    """The sum of no edits, of the first one, of the first two, and so on."""
    ended = run("log", str(path))
    assert (ended.stderr, ended.status) == (b"", 0), ended
    sums = ["0" * 64]
    for number, line in enumerate(ended.stdout.decode().splitlines(keepends=True)[1:], 1):
        sums.append(hashlib.sha256(f"{sums[-1]},{number},{line}".encode()).hexdigest())
    return sums


def sum_line(number, digits):
    return f"{number} {digits}\n".encode()


def summed(path, *words):
    ended = run("log", str(path), *words, "--sum")
    assert (ended.stderr, ended.status) == (b"", 0), ended
    return ended.stdout


# ---- what is printed


def test_the_sum_of_a_log_is_that_of_its_lines(db):
    sums = sums_by(db)
    assert len(sums) == 14
    assert summed(db) == sum_line(13, sums[13])
    for number in range(1, 14):
        assert summed(db, str(number)) == sum_line(number, sums[number])


def test_the_sum_of_a_known_log(top):
    edit(top / "roads.db", sheet_of("s1,link,1,5000", "s2,link,2,3000"))
    assert summed(top / "roads.db", "1") == sum_line(1, "9dc5379d30f383d8f76458b17b929101e9acbbbea7fd2f45d491664718a89e41")
    assert summed(top / "roads.db") == sum_line(2, "eb572b24cb3441d0db616a103b5fc748eeab7ace4579a8cd99906a5b488dad27")


def test_sums_of_inventories_of_chance(top):
    drawn = random.Random(23)
    for seed in range(25):
        path = top / f"{seed}.db"
        edit(path, sheet_of(*(random_record(drawn, n) for n in range(1, 60))))
        sums = sums_by(path)
        assert summed(path) == sum_line(len(sums) - 1, sums[-1]), seed


def test_the_sum_of_no_edits():
    ends(run("log", ":memory:", "--sum"), sum_line(0, "0" * 64), 0)


def test_a_sum_up_to_an_edit_that_is_not_there(db):
    ends(run("log", db, "14", "--sum"), b"", 1, b"roadlrs: NoEdit\n")
    ends(run("log", ":memory:", "1", "--sum"), b"", 1, b"roadlrs: NoEdit\n")


def test_words_that_ask_for_no_sum(db):
    refuses_word(run("log", db, "--sum", "--key", "e5"), "--sum and --key KEY are two questions")
    refuses_word(run("log", db, "2", "--sum", "--key", "e5"), "--sum and --key KEY are two questions")
    for word in ["0", "x", "10000001"]:
        refuses_word(run("log", db, word, "--sum"), "FROM is no number of an edit")


def test_a_sum_makes_no_inventory(top):
    faults(run("log", top / "new.db", "--sum"), "Open")
    assert list(top.iterdir()) == []


# ---- what tells copies apart


def test_a_copy_has_the_same_sum_and_an_older_one_a_sum_on_the_way(db, top):
    old = top / "old.db"
    shutil.copy(db, old)
    assert summed(old) == summed(db)
    ends(edit(db, sheet_of("f1,close,A2")), b"f1,done,14\n", 0)
    assert summed(old) != summed(db)
    assert summed(old) == summed(db, "13")


def test_a_copy_with_an_edit_of_its_own_has_another_sum(db, top):
    copy = top / "copy.db"
    shutil.copy(db, copy)
    edit(db, sheet_of("f1,close,A2"))
    edit(copy, sheet_of("f2,close,A2"))
    edit(db, sheet_of("g1,link,9,5"))
    edit(copy, sheet_of("g1,link,9,5"))
    assert summed(db, "13") == summed(copy, "13")
    for number in ["14", "15"]:
        assert summed(db, number) != summed(copy, number)


def test_the_log_done_again_has_the_same_sum(db, top):
    edit(top / "again.db", run("log", db).stdout)
    assert summed(top / "again.db") == summed(db)


@pytest.mark.parametrize("statement", ["UPDATE edit SET token = 's33' WHERE token = 's3'", "UPDATE edit SET line = 'link,3,2001' WHERE number = 3"])
def test_another_key_or_line_is_another_sum(db, statement):
    before = [summed(db, str(number)) for number in range(1, 14)]
    change(db, statement)
    after = [summed(db, str(number)) for number in range(1, 14)]
    assert after[:2] == before[:2] and all(a != b for a, b in zip(after[2:], before[2:]))
