"""How much of the routes has each combination of the values of exclusive classes (`lengths --by`), computed by hand, and compared with sets of millimetres."""

import csv
import io
import pathlib
import random
import tempfile

import pytest

from program import ends, faults, lines, refuses_word, run, sheet_of
from sent_sheets import random_record
from stores import edit, look

# A1 has 1000 mm, and B2 400 mm, against its link. On the left of A1 SPEED ends at 700, on its right at 600.
# On the right of A1 SURFACE begins at 200, and on B2 there is none.
RECORDS = (
    "n1,link,1,1000",
    "n2,link,2,400",
    "n3,class,SPEED,exclusive",
    "n4,class,SURFACE,exclusive",
    "n5,class,RAIL,stretch",
    "n6,class,SIGN,point",
    "n7,route,A1,1:0:1000:+,0:0 1000:1000",
    "n8,route,B2,2:0:400:-,0:0 400:400",
    "e1,enter,1,SPEED,A1,B,abs,0,600,80,0",
    "e2,enter,2,SPEED,A1,L,abs,600,700,60,0",
    "e3,enter,3,SURFACE,A1,L,abs,0,300,AC14,0",
    "e4,enter,4,SURFACE,A1,L,abs,300,1000,HRA,0",
    "e5,enter,5,SURFACE,A1,R,abs,200,1000,HRA,0",
    "e6,enter,6,SPEED,B2,R,abs,100,400,80,0",
    "e7,enter,7,RAIL,B2,B,abs,0,400,steel,0",
)


@pytest.fixture
def db():
    with tempfile.TemporaryDirectory() as folder:
        path = pathlib.Path(folder) / "roads.db"
        ends(edit(path, sheet_of(*RECORDS)), lines(*(f"{text[:2]},done,{n}" for n, text in enumerate(RECORDS, 1))), 0)
        yield path


def prints(db, words, *expected):
    ends(run("lengths", db, *words), lines(*expected), 0)


def test_two_classes(db):
    prints(
        db,
        ["--by", "SPEED,SURFACE"],
        "SPEED,SURFACE,left,right,length",
        ",,0.400,0.100,0.400",
        ",HRA,0.300,0.400,0.400",
        "60,HRA,0.100,0.000,0.100",
        "80,,0.000,0.500,0.500",
        "80,AC14,0.300,0.000,0.300",
        "80,HRA,0.300,0.400,0.400",
    )


def test_the_order_of_the_classes_is_that_of_the_columns_and_of_the_lines(db):
    prints(
        db,
        ["--by=SURFACE,SPEED"],
        "SURFACE,SPEED,left,right,length",
        ",,0.400,0.100,0.400",
        ",80,0.000,0.500,0.500",
        "AC14,80,0.300,0.000,0.300",
        "HRA,,0.300,0.400,0.400",
        "HRA,60,0.100,0.000,0.100",
        "HRA,80,0.300,0.400,0.400",
    )


def test_one_class(db):
    prints(db, ["--by", "SPEED"], "SPEED,left,right,length", ",0.700,0.500,0.800", "60,0.100,0.000,0.100", "80,0.600,0.900,0.900")


def test_a_class_that_is_named_twice_has_two_columns(db):
    expected = ["SPEED,SPEED,left,right,length", ",,0.700,0.500,0.800", "60,60,0.100,0.000,0.100", "80,80,0.600,0.900,0.900"]
    prints(db, ["--by", "SPEED,SPEED"], *expected)


def test_one_route(db):
    by = ["--by", "SPEED,SURFACE"]
    expected = [
        "SPEED,SURFACE,left,right,length",
        ",HRA,0.300,0.400,0.400",
        "60,HRA,0.100,0.000,0.100",
        "80,,0.000,0.200,0.200",
        "80,AC14,0.300,0.000,0.300",
        "80,HRA,0.300,0.400,0.400",
    ]
    prints(db, [*by, "--route", "A1"], *expected)
    prints(db, ["--route", "A1", *by], *expected)
    prints(db, ["--route", "B2", *by], "SPEED,SURFACE,left,right,length", ",,0.400,0.100,0.400", "80,,0.000,0.300,0.300")


def test_classes_without_values_have_one_line_without_them(db):
    edit(db, sheet_of("m1,class,WIDTH,exclusive"))
    prints(db, ["--by", "WIDTH"], "WIDTH,left,right,length", ",1.400,1.400,1.400")
    edit(db, sheet_of("m2,close,A1", "m3,close,B2"))
    prints(db, ["--by", "WIDTH,SPEED"], "WIDTH,SPEED,left,right,length")


def test_some_columns(db):
    by = ["--route", "B2", "--by", "SPEED,SURFACE", "--columns"]
    prints(db, [*by, "length,SURFACE,SPEED"], "length,SURFACE,SPEED", "0.400,,", "0.300,,80")
    prints(db, [*by, "left,right,length"], "left,right,length", "0.400,0.100,0.400", "0.000,0.300,0.300")
    prints(db, [*by, "SPEED,SURFACE,left,right,length"], "SPEED,SURFACE,left,right,length", ",,0.400,0.100,0.400", "80,,0.000,0.300,0.300")
    # a cell that is empty and alone
    prints(db, [*by, "SPEED"], "SPEED", "", "80")
    prints(db, [*by, "right,SPEED", "--text"], '"=""right""","=""SPEED"""', '"=""0.100""",', '"=""0.300""","=""80"""')


@pytest.mark.parametrize("names", ["", "class", "value", "assets", "SURFACE", "speed", "SPEED,", "left,,right", "left;right", " left"])
def test_columns_that_the_list_has_not(names):
    for place in [":memory:", "/dev/null/db"]:
        refuses_word(run("lengths", place, "--by", "SPEED", f"--columns={names}"), "COLUMNS names no column of this list")


def test_columns_that_are_named_twice_or_need_the_classes():
    refuses_word(run("lengths", ":memory:", "--by", "SPEED", "--columns", "left,SPEED,left"), "COLUMNS names a column twice")
    refuses_word(run("lengths", ":memory:", "--by", "SPEED,SPEED", "--columns", "SPEED,SPEED"), "COLUMNS names a column twice")
    refuses_word(run("lengths", ":memory:", "--columns", "SPEED"), "COLUMNS names no column of this list")


def test_what_is_refused(db):
    for words, cause in (
        (["--by", "SPEED", "--route", "A9"], "NoRoute"),
        (["--by", "NONE", "--route", "A9"], "NoRoute"),
        (["--by", "NONE"], "NoClass:0"),
        (["--by", "SPEED,NONE,RAIL"], "NoClass:1"),
        (["--by", "RAIL,NONE"], "NoClass:1"),
        (["--by", "RAIL"], "NotExclusive:0"),
        (["--by", "SPEED,SIGN"], "NotExclusive:1"),
        (["--by", "NONE", "--columns", "length"], "NoClass:0"),
        (["--by", "SPEED,RAIL", "--text"], "NotExclusive:1"),
    ):
        ends(run("lengths", db, *words), b"", 1, f"roadlrs: {cause}\n".encode())
    ends(run("lengths", ":memory:", "--by", "SPEED"), b"", 1, b"roadlrs: NoClass:0\n")


@pytest.mark.parametrize("names", ["", ",", "speed", "SPEED,", ",SPEED", "SPEED,,SURFACE", "SPEED,surface", "SPEED SURFACE", " SPEED", "SPEED, SURFACE", "SPEED;SURFACE", "LONGNAMES", "SPEED-1"])
def test_names_that_are_no_class_names(names):
    for place in [":memory:", "/dev/null/db"]:
        refuses_word(run("lengths", place, f"--by={names}"), "CLASS is no class name")
        refuses_word(run("lengths", place, "--route", "A1", f"--by={names}", "--columns", "none"), "CLASS is no class name")


def test_the_route_is_read_first_and_the_first_bad_class_is_shown():
    refuses_word(run("lengths", ":memory:", "--by", "speed", "--route", "a1"), "ROUTE is no route name")
    for names, shown in (("SPEED,speed,x", "speed"), ("SPEED,", ""), ("a,SPEED", "a")):
        ended = run("lengths", ":memory:", "--by", names)
        assert ended.stderr.startswith(f'hint: "{shown}" is no class name;'.encode()), ended


def test_it_makes_no_inventory():
    with tempfile.TemporaryDirectory() as folder:
        path = pathlib.Path(folder) / "none.db"
        faults(run("lengths", path, "--by", "SPEED"), "Open")
        assert not path.exists()


def test_nothing_else_is_told_otherwise_beside_it(db):
    def others():
        ended = [run("lengths", db), run("overlay", db, "SPEED"), run("rows", db)]
        return [(one.status, one.stdout, one.stderr) for one in ended]

    before = others()
    run("lengths", db, "--by", "SPEED,SURFACE")
    assert others() == before
    assert before[0][1].partition(b"\n")[0] == b"class,value,left,right,length,assets"


def told(path, *words):
    ended = run("lengths", path, *words)
    assert (ended.stderr, ended.status) == (b"", 0), ended
    return list(csv.reader(io.StringIO(ended.stdout.decode())))


def metres(millimetres):
    return f"{millimetres // 1000}.{millimetres % 1000:03}"


def wanted(path, *classes, route=None):
    """The values of each millimetre of a side, and of each combination the millimetres that have it."""
    held = ({}, {})
    lengths, spans = look(
        path,
        "SELECT route, SUM(b - a) FROM piece GROUP BY route",
        "SELECT s.route, s.lo, s.hi, s.side, a.class, a.value FROM span s JOIN asset a ON a.number = s.asset",
    )
    for hand, found in enumerate(held):
        for name, length in lengths:
            if route not in (None, name):
                continue
            values = [[""] * len(classes) for _ in range(length)]
            for of, low, high, side, kind, value in spans:
                if of == name and kind in classes and side in (hand, 2):
                    for mm in range(low, high):
                        values[mm][classes.index(kind)] = value
            for mm, here in enumerate(values):
                found.setdefault(tuple(here), set()).add((name, mm))
    left, right = held
    none = set()
    sides = [(left.get(key, none), right.get(key, none)) for key in sorted(set(left) | set(right))]
    counts = [[metres(len(some)) for some in (one, other, one | other)] for one, other in sides]
    return [[*classes, "left", "right", "length"], *([*key, *count] for key, count in zip(sorted(set(left) | set(right)), counts))]


def test_the_model_says_the_same(db):
    for classes in (["SPEED"], ["SPEED", "SURFACE"], ["SURFACE", "SPEED"]):
        for route in (None, "A1", "B2"):
            words = [] if route is None else ["--route", route]
            assert told(db, "--by", ",".join(classes), *words) == wanted(db, *classes, route=route), (classes, route)


def test_inventories_of_chance():
    drawn = random.Random(41)
    with tempfile.TemporaryDirectory() as folder:
        for seed in range(15):
            path = pathlib.Path(folder) / f"{seed}.db"
            rows = [random_record(drawn, n) for n in range(1, 90)]
            more = [f"y{n},class,{name},exclusive" for n, name in enumerate(("K1", "K2"))]
            more += [
                f"x{n},supersede,{100 + n},{drawn.choice(('K1', 'K2'))},{drawn.choice('ABC')},{drawn.choice('LRB')},int,{low}/12,{low + drawn.randint(1, 12 - low)}/12,{drawn.choice(['80', '90', 'a'])},0"
                for n in range(12)
                for low in [drawn.randint(0, 11)]
            ]
            edit(path, sheet_of(*rows, *more))
            for classes in (["K2", "K1"], ["K1"]):
                assert told(path, "--by", ",".join(classes)) == wanted(path, *classes), seed
            for (route,) in look(path, "SELECT DISTINCT route FROM piece")[0]:
                assert told(path, "--by", "K1,K2", "--route", route) == wanted(path, "K1", "K2", route=route), (seed, route)
