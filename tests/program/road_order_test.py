"""Rows are told in the order of the road: by route, start, side, class and asset; each as often as the tables have it."""

import csv
import io
import pathlib
import random
import tempfile

from program import run, sheet_of
from sent_sheets import random_record
from stores import edit, look, make_full


def told(*words):
    ended = run("rows", *words)
    assert (ended.stderr, ended.status) == (b"", 0), ended
    _, *rows = csv.reader(io.StringIO(ended.stdout.decode()))
    return [(route, int(low), "LRB".index(side), kind, int(asset), int(high)) for route, low, high, _, _, side, asset, kind, *_ in rows]


def wanted(path):
    spans = "SELECT s.route, s.lo, s.side, a.class, s.asset, s.hi FROM span s JOIN asset a ON a.number = s.asset"
    return sorted(look(path, spans)[0])


def test_inventories_of_chance():
    drawn = random.Random(37)
    with tempfile.TemporaryDirectory() as folder:
        for seed in range(20):
            path = pathlib.Path(folder) / f"{seed}.db"
            edit(path, sheet_of(*(random_record(drawn, n) for n in range(1, 120))))
            assert told(path) == wanted(path), seed
            for (route,) in look(path, "SELECT DISTINCT route FROM piece")[0]:
                assert told(path, "--route", route) == [row for row in wanted(path) if row[0] == route], (seed, route)


def test_two_assets_at_one_start():
    with tempfile.TemporaryDirectory() as folder:
        path = pathlib.Path(folder) / "roads.db"
        make_full(path)
        sides = [f"x{n},enter,{60 - n},RAIL,A1,{side},abs,600,1200,wood,0" for n, side in enumerate("BRLBRL")]
        edit(path, sheet_of(*sides, "y1,enter,70,SIGN,A1,L,abs,600,,STOP,0"))
        at_600 = [(side, kind, asset) for _, low, side, kind, asset, _ in told(path, "--route", "A1") if low == 500]
        assert at_600 == [(0, "RAIL", 55), (0, "RAIL", 58), (0, "SIGN", 70), (1, "RAIL", 56), (1, "RAIL", 59), (2, "RAIL", 57), (2, "RAIL", 60)]
