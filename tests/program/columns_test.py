"""Some columns of a list, in the order in which they are named (`--columns`)."""

import csv
import io
import itertools
import pathlib
import tempfile

import pytest

from program import ends, refuses_word, run
from stores import make_full

HEADERS = {
    ("lengths",): "class,value,left,right,length,assets",
    ("list", "routes"): "route,length,from,to",
    ("list", "links"): "link,length",
    ("list", "classes"): "class,kind",
    ("list", "refs"): "ref,route,chainage,measure",
    ("list", "refs", "--exact"): "ref,route,chainage,measure",
    ("list", "marks"): "route,chainage,measure",
    ("list", "pieces"): "route,from,to,link,link_from,link_to,direction",
    ("rows",): "route,from,to,from_measure,to_measure,side,asset,class,value,offset,entry",
    ("rows", "--exact"): "route,from,to,from_measure,to_measure,side,asset,class,value,offset,entry",
    ("rows", "--on-links"): "asset,class,value,offset,link,from,to,side,route",
    ("overlay", "SPEED"): "route,from,to,from_measure,to_measure,side,SPEED",
    ("overlay", "SPEED", "--gaps"): "route,from,to,from_measure,to_measure,side,SPEED",
    ("gone",): "edit,key,verb,reason,asset,class,value,link,from,to,side",
    ("history", "10"): "edit,key,verb,event,link,from,to,side",
}

LISTS = list(HEADERS)


@pytest.fixture(scope="module")
def db():
    with tempfile.TemporaryDirectory() as folder:
        path = pathlib.Path(folder) / "roads.db"
        make_full(path)
        yield path


def listed(db, words, *more):
    ended = run(words[0], str(db), *words[1:], *more)
    assert (ended.stderr, ended.status) == (b"", 0), ended
    return ended.stdout.decode()


def picked(text, names):
    header, *rows = csv.reader(io.StringIO(text))
    places = [header.index(name) for name in names]
    return "".join(",".join(row[place] for place in places) + "\n" for row in [header, *rows])


@pytest.mark.parametrize("words", LISTS, ids=" ".join)
def test_each_column_and_each_order(db, words):
    names = HEADERS[words].split(",")
    plain = listed(db, words)
    assert plain.partition("\n")[0] == HEADERS[words]
    choices = [[name] for name in names] + [names, names[::-1], names[1:] + names[:1], *map(list, itertools.islice(itertools.permutations(names, 2), 9))]
    for choice in choices:
        assert listed(db, words, "--columns", ",".join(choice)) == picked(plain, choice), choice


def test_cells_of_some_columns_as_text(db):
    for words in [("rows",), ("lengths",)]:
        names = HEADERS[words].split(",")[1:4:2]
        expected = [",".join(f'"=""{cell}"""' if cell else "" for cell in line.split(",")) for line in picked(listed(db, words), names).split("\n")]
        assert listed(db, words, "--text", "--columns", ",".join(names)) == "\n".join(expected)


@pytest.mark.parametrize("place", [":memory:", "/dev/null/db"])
@pytest.mark.parametrize("words", LISTS, ids=" ".join)
def test_columns_that_a_list_has_not(words, place):
    first = HEADERS[words].split(",")[0]
    for names in ["", "none", first.upper() + "x", f"{first},", f",{first}", f"{first},none", f" {first}", f"{first};{first}"]:
        ended = run(words[0], place, *words[1:], f"--columns={names}")
        refuses_word(ended, "COLUMNS names no column of this list")
        columns = HEADERS[words] if words[0] != "overlay" else HEADERS[words].partition(",side")[0] + ",side and each CLASS"
        assert f"hint: its columns are {columns}\n".encode() in ended.stderr, ended
    refuses_word(run(words[0], place, *words[1:], f"--columns={first},{first}"), "COLUMNS names a column twice")


def test_an_inventory_without_entries_has_the_header_alone():
    for words in LISTS:
        if words[0] in ("lengths", "list", "rows", "gone"):
            name = HEADERS[words].split(",")[-1]
            ends(run(words[0], ":memory:", *words[1:], "--columns", name), name.encode() + b"\n", 0)


def test_a_refused_question_prints_nothing(db):
    for words in [["rows", str(db), "--route", "A9"], ["history", str(db), "999"]]:
        plain = run(*words)
        assert (plain.stdout, plain.status) == (b"", 1), plain
        ends(run(*words, "--columns", "side"), b"", 1, plain.stderr)
