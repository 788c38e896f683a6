"""How long each value of each class is (`lengths`), compared with sets of millimetres."""

import csv
import io
import pathlib
import random
import tempfile

import pytest

from program import ends, faults, run, sheet_of
from sent_sheets import random_record
from stores import edit, look, make, make_full

HEADER = ["class", "value", "left", "right", "length", "assets"]


@pytest.fixture
def db():
    with tempfile.TemporaryDirectory() as folder:
        yield pathlib.Path(folder) / "roads.db"


def told(*words):
    ended = run("lengths", *words)
    assert (ended.stderr, ended.status) == (b"", 0), ended
    header, *rows = csv.reader(io.StringIO(ended.stdout.decode()))
    assert header == HEADER
    return rows


def metres(millimetres):
    return f"{millimetres // 1000}.{millimetres % 1000:03}"


def wanted(path, route=None):
    """Each millimetre of a route once, however many assets of the class and value hold it; and how many assets do."""
    left, right, holders = {}, {}, {}
    for asset, of, lo, hi, side, kind, value in look(path, "SELECT s.asset, s.route, s.lo, s.hi, s.side, a.class, a.value FROM span s JOIN asset a ON a.number = s.asset")[0]:
        if route is not None and of != route:
            continue
        held = {(of, mm) for mm in range(lo, hi)}
        holders.setdefault((kind, value), set()).add(asset)
        for chosen, sides in ((left, "LB"), (right, "RB")):
            if "LRB"[side] in sides:
                chosen.setdefault((kind, value), set()).update(held)
    keys = sorted(set(left) | set(right))
    none = set()
    return [
        [kind, value, *(metres(len(held)) for held in (left.get(key, none), right.get(key, none), left.get(key, none) | right.get(key, none))), str(len(holders[key]))]
        for key in keys
        for kind, value in [key]
    ]


def test_an_inventory(db):
    make_full(db)
    assert told(db) == wanted(db) and len(told(db)) == 3
    for route in ("A1", "A2"):
        assert told(db, "--route", route) == wanted(db, route), route


def test_stretches_of_one_value_that_overlap_count_once(db):
    make(
        db,
        "o1,enter,30,RAIL,A1,L,abs,0,1200,steel,0",
        "o2,enter,31,RAIL,A1,B,abs,600,2400,steel,0",
        "o3,enter,32,RAIL,A1,R,abs,2400,3000,steel,0",
        "o4,enter,33,RAIL,A1,R,abs,0,600,wood,0",
        "o5,enter,34,SIGN,A1,R,abs,900,,STOP,0",
        "o6,enter,35,SIGN,A1,B,abs,900,,STOP,0",
    )
    assert told(db) == [
        ["RAIL", "steel", "2.000", "2.000", "2.500", "3"],
        ["RAIL", "wood", "0.000", "0.500", "0.500", "1"],
        ["SIGN", "STOP", "0.001", "0.001", "0.001", "2"],
    ]
    assert told(db) == wanted(db)


def test_an_asset_counts_once_however_many_rows_it_has(db):
    make(db, "t1,enter,30,RAIL,A1,L,abs,0,6000,steel,0", "t2,retire,30,A1,abs,1000,2000", "t3,split,A1,5000,A2")
    assert [row[-1] for row in told(db)] == ["1"] and told(db) == wanted(db)
    assert [told(db, "--route", route) for route in ("A1", "A2")] == [wanted(db, "A1"), wanted(db, "A2")]


def test_what_is_retired_has_no_length(db):
    make(db, "t1,enter,30,RAIL,A1,L,abs,0,1200,steel,0", "t2,retire,30,A1,abs,0,1200")
    assert told(db) == []


def test_inventories_of_chance(db):
    drawn = random.Random(29)
    for seed in range(20):
        path = db.with_name(f"{seed}.db")
        rows = [random_record(drawn, n) for n in range(1, 90)]
        extra = [f"x{n},enter,{100 + n},RAIL,{drawn.choice('ABC')},{drawn.choice('LRB')},int,0/1,{drawn.randint(1, 9)}/9,{drawn.choice(['80', '90', 'a'])},0" for n in range(8)]
        edit(path, sheet_of(*rows, *extra))
        assert told(path) == wanted(path), seed
        for (route,) in look(path, "SELECT DISTINCT route FROM piece")[0]:
            assert told(path, "--route", route) == wanted(path, route), (seed, route)


def test_a_route_that_is_not_there(db):
    make_full(db)
    ends(run("lengths", db, "--route", "B9"), b"", 1, b"roadlrs: NoRoute\n")


def test_lengths_make_no_inventory(db):
    faults(run("lengths", db), "Open")
    assert not db.exists()
    ends(run("lengths", ":memory:"), (",".join(HEADER) + "\n").encode(), 0)
