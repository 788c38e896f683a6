"""Questions over an inventory in a file: answers byte for byte, and why questions are refused.

The first sheet's route A1 runs forwards over link 1 (5,000 mm) and then backwards over link 2 (3,000 mm); its measures go from 0 to 6,000 over
the first 5,000 mm, and from there to 9,000 over 3,000 mm.
"""

import contextlib
import pathlib
import tempfile

import pytest

from program import FIRST, FIRST_REPLIES, ends, lines, record, run, sheet_of
from stores import is_whole, look
from worked_replies import WORKED_ROWS

SPEED_LIMIT = "e1,enter,10,SPEED,A1,B,abs,3000,9000,80,0"


def edit(db, sheet, replies):
    path = pathlib.Path(db).with_suffix(".csv")
    path.write_bytes(sheet)
    ends(run("edit", db, str(path)), replies, 0)


@contextlib.contextmanager
def after_first(*texts):
    """The path of an inventory in which the first sheet and then these records are done."""
    with tempfile.TemporaryDirectory() as folder:
        db = f"{folder}/roads.db"
        keys = [text.split(",")[0] for text in texts]
        done = lines(*(f"{key},done,{n}" for n, key in enumerate(keys, 8)))
        edit(db, FIRST + b"".join(record(text) for text in texts), FIRST_REPLIES + done)
        yield db


def answers(db, question, *printed):
    """The question, as words with a space between them, is answered by these lines."""
    name, *words = question.split()
    ends(run(name, db, *words), lines(*printed), 0)


def refuses(db, question, cause):
    name, *words = question.split()
    ends(run(name, db, *words), b"", 1, f"roadlrs: {cause}\n".encode())


def columns(*texts):
    return " ".join(text.rjust(12) for text in texts)


# ---- strips

WIDTHS = ["w1,class,WIDTH,exclusive", "w2,enter,30,WIDTH,A1,B,int,0/1,1/4,7.5,0", "w3,enter,31,WIDTH,A1,R,int,1/4,1/2,6,0"]


def test_a_strip_of_two_classes():
    with after_first(SPEED_LIMIT, *WIDTHS) as db:
        answers(
            db,
            "strip A1 R SPEED WIDTH",
            "STRIP A1 R 8.000",
            "        FROM           TO        SPEED        WIDTH",
            "       0.000        2.000            -          7.5",
            "       2.000        2.500            -            6",
            "       2.500        4.000           80            6",
            "       4.000        8.000           80            -",
        )
        answers(
            db,
            "strip A1 L WIDTH SPEED",
            "STRIP A1 L 8.000",
            columns("FROM", "TO", "WIDTH", "SPEED"),
            columns("0.000", "2.000", "7.5", "-"),
            columns("2.000", "2.500", "-", "-"),
            columns("2.500", "8.000", "-", "80"),
        )


def test_a_class_that_is_asked_for_twice():
    with after_first(SPEED_LIMIT) as db:
        answers(
            db,
            "strip A1 L SPEED SPEED",
            "STRIP A1 L 8.000",
            columns("FROM", "TO", "SPEED", "SPEED"),
            columns("0.000", "2.500", "-", "-"),
            columns("2.500", "8.000", "80", "80"),
        )


def test_a_strip_of_a_route_without_assets():
    with after_first("a1,route,SHORT-ROUTE1,3:1998:1999:-,0:0 1:1") as db:
        answers(
            db,
            "strip SHORT-ROUTE1 R SPEED",
            "STRIP SHORT-ROUTE1 R 0.001",
            columns("FROM", "TO", "SPEED"),
            columns("0.000", "0.001", "-"),
        )


def test_a_value_on_one_side_only():
    with after_first("a1,enter,11,SPEED,A1,L,int,0/1,1/1,Only_left.50,0") as db:
        answers(db, "strip A1 L SPEED", "STRIP A1 L 8.000", columns("FROM", "TO", "SPEED"), columns("0.000", "8.000", "Only_left.50"))
        answers(db, "strip A1 R SPEED", "STRIP A1 R 8.000", columns("FROM", "TO", "SPEED"), columns("0.000", "8.000", "-"))


def test_equal_values_of_two_assets_are_one_segment():
    with after_first(SPEED_LIMIT, "e2,enter,11,SPEED,A1,B,abs,0,3000,80,0") as db:
        answers(db, "strip A1 L SPEED", "STRIP A1 L 8.000", columns("FROM", "TO", "SPEED"), columns("0.000", "8.000", "80"))


def test_strips_that_are_refused():
    with after_first(SPEED_LIMIT) as db:
        refuses(db, "strip A2 B NONE", "NoRoute")
        refuses(db, "strip A1 B RAIL NONE NONE", "NoClass:1")
        refuses(db, "strip A1 B SPEED SIGN RAIL", "NotExclusive:1")
        refuses(db, "strip A1 B SPEED SPEED", "SideB")
        refuses(db, "strip A1 R SIGN", "NotExclusive:0")


# ---- who holds a place


def test_at_a_point_and_beside_it():
    with after_first(SPEED_LIMIT, "p1,enter,20,SIGN,A1,R,abs,4800,,STOP,150", "p2,enter,15,RAIL,A1,L,abs,4800,6000,x,30") as db:
        answers(db, "at A1 abs 4800", "A1 4000 1 4000 +", "10 SPEED B 0 80 8", "15 RAIL L 30 x 10", "20 SIGN R 150 STOP 9")
        answers(db, "at A1 abs 4801", "A1 4000 1 4000 +", "10 SPEED B 0 80 8", "15 RAIL L 30 x 10", "20 SIGN R 150 STOP 9")
        answers(db, "at A1 abs 4799", "A1 3999 1 3999 +", "10 SPEED B 0 80 8")
        answers(db, "at A1 abs 0", "A1 0 1 0 +")
        answers(db, "at A1 int 2500/8000", "A1 2500 1 2500 +", "10 SPEED B 0 80 8")


def test_at_the_end_and_on_a_piece_that_runs_backwards():
    with after_first(SPEED_LIMIT, "p1,enter,20,SIGN,A1,L,abs,9000,,STOP,0") as db:
        for end in ["abs 9000", "int 1/1", "int 7999/8000"]:
            answers(db, f"at A1 {end}", "A1 7999 2 0 -", "10 SPEED B 0 80 8", "20 SIGN L 0 STOP 9")
        answers(db, "at A1 abs 6000", "A1 5000 2 2999 -", "10 SPEED B 0 80 8")
        answers(db, "at A1 abs 5999", "A1 4999 1 4999 +", "10 SPEED B 0 80 8")
        answers(db, "at A1 int 15999/16000", "A1 7999 2 0 -", "10 SPEED B 0 80 8", "20 SIGN L 0 STOP 9")


def test_at_is_refused():
    with after_first("r1,ref,KM5,A1,abs,6000") as db:
        answers(db, "at A1 rel KM5-1", "A1 4999 1 4999 +")
        answers(db, "at A1 rel KM5+3000", "A1 7999 2 0 -")
        refuses(db, "at B1 rel KM6+1", "NoRoute")
        refuses(db, "at A1 rel KM6+1", "NoRef")
        refuses(db, "at A1 rel KM5+3001", "OffRoute")
        refuses(db, "at A1 rel KM5-5001", "OffRoute")
        refuses(db, "at A1 abs 9001", "OffRoute")


# ---- other methods, and links


def test_translations():
    with after_first("r1,ref,KM5,A1,abs,6000", "r2,ref,KM2,A1,abs,3") as db:
        answers(db, "translate A1 abs 3000 abs", "3000")
        answers(db, "translate A1 abs 3000 int", "5/16")
        answers(db, "translate A1 abs 3000 rel:KM5", "KM5-2500")
        answers(db, "translate A1 abs 6000 rel:KM5", "KM5+0")
        answers(db, "translate A1 int 1/3 abs", "3200")
        answers(db, "translate A1 int 1/3 rel:KM2", "KM2+7994/3")
        answers(db, "translate A1 int 1/3 link", "1:8000/3")
        answers(db, "translate A1 int 0/5 int", "0/1")
        answers(db, "translate A1 int 5/5 int", "1/1")
        answers(db, "translate A1 rel KM2-2 abs", "0")
        answers(db, "translate A1 abs 1 abs", "1")
        answers(db, "translate A1 abs 1 link", "1:5/6")


def test_positions_on_links():
    with after_first() as db:
        answers(db, "translate A1 abs 0 link", "1:0")
        answers(db, "translate A1 int 4999/8000 link", "1:4999")
        answers(db, "translate A1 abs 6000 link", "2:3000")
        answers(db, "translate A1 abs 9000 link", "2:0")
        answers(db, "translate A1 int 15999/16000 link", "2:1/2")


def test_translations_that_are_refused():
    with after_first("r1,ref,KM5,A1,abs,6000") as db:
        refuses(db, "translate B1 abs 0 rel:KM6", "NoRoute")
        refuses(db, "translate A1 rel KM6+0 abs", "NoRef")
        refuses(db, "translate A1 abs 0 rel:KM6", "NoRef")
        refuses(db, "translate A1 abs 9001 rel:KM6", "OffRoute")
        refuses(db, "translate A1 abs 9001 link", "OffRoute")


# ---- totals, and where assets lie


def test_totals():
    with after_first() as db:
        answers(db, "totals", "RAIL 0 0 0 0", "SIGN 0 0 0 0", "SPEED 0 0 0 0")
    with after_first(SPEED_LIMIT, "p1,enter,20,SIGN,A1,L,abs,9000,,STOP,0", "p2,enter,21,RAIL,A1,R,int,0/1,1/4,x,0") as db:
        answers(db, "totals", "RAIL 2000 0 0 2000", "SIGN 1 0 0 1", "SPEED 11000 0 0 11000")
        again = FIRST_REPLIES.replace(b",done,", b",again,")
        edit(db, FIRST + record("q1,retire,10,A1,abs,3000,6000"), again + lines("q1,done,11"))
        answers(db, "totals", "RAIL 2000 0 0 2000", "SIGN 1 0 0 1", "SPEED 11000 5000 0 6000")
        edit(db, sheet_of("q2,close,A1"), lines("q2,done,12"))
        answers(db, "totals", "RAIL 2000 0 2000 0", "SIGN 1 0 1 0", "SPEED 11000 5000 6000 0")


SPLIT, JOIN = "e4,split,A1,5000,A2", "e5,join,A1,A2"
RECALIBRATED = "e6,recalibrate,A1,0:0 8000:8000"
SUPERSEDED = "j1,supersede,12,SPEED,A1,L,abs,3000,6000,50,0"

# after the first sheet: records that are done, then the totals of SPEED (entered, retired, abandoned, present) and the rows of asset 10
WORKED_TOTALS = {
    "entered": ([SPEED_LIMIT], "11000 0 0 11000", ["A1 2500 8000 B"]),
    "split": ([SPEED_LIMIT, SPLIT], "11000 0 0 11000", ["A1 2500 5000 B", "A2 0 3000 B"]),
    "joined_again": ([SPEED_LIMIT, SPLIT, JOIN], "11000 0 0 11000", ["A1 2500 8000 B"]),
    "recalibrated": ([SPEED_LIMIT, RECALIBRATED], "11000 0 0 11000", ["A1 2500 8000 B"]),
    "realigned": ([SPEED_LIMIT, RECALIBRATED, "e8,realign,A1,4000,6000,3:0:2000:+,0:0 8000:8000"], "11000 0 4000 7000", ["A1 2500 4000 B", "A1 6000 8000 B"]),
    "turned": ([SPEED_LIMIT, "j2,turn,A1"], "11000 0 0 11000", ["A1 0 5500 B"]),
    "a_part_is_retired": ([SPEED_LIMIT, "m1,retire,10,A1,abs,5000,6000"], "11000 1666 0 9334", ["A1 2500 4167 B", "A1 5000 8000 B"]),
    "retired": ([SPEED_LIMIT, "h2,retire,10,A1,abs,0,9000"], "11000 11000 0 0", []),
    "superseded_on_the_left": ([SPEED_LIMIT, SUPERSEDED], "13500 2500 0 11000", ["A1 2500 5000 R", "A1 5000 8000 B"]),
    "superseded_twice": ([SPEED_LIMIT, SUPERSEDED, "j3,supersede,13,SPEED,A1,L,abs,6000,9000,40,0"], "16500 5500 0 11000", ["A1 2500 8000 R"]),
    "superseded_whole": ([SPEED_LIMIT, "j4,supersede,12,SPEED,A1,B,abs,3000,9000,50,0"], "22000 11000 0 11000", []),
    "closed": ([SPEED_LIMIT, "c1,close,A1"], "11000 0 11000 0", []),
}


@pytest.mark.parametrize("name", WORKED_TOTALS)
def test_totals_after_a_worked_row(name):
    texts, totals, rows = WORKED_TOTALS[name]
    with after_first(*texts) as db:
        answers(db, "totals", "RAIL 0 0 0 0", "SIGN 0 0 0 0", f"SPEED {totals}")
        answers(db, "find 10", *rows)


SUMS = {
    "entered": "SELECT class, SUM((hi - lo) * (1 + (side = 2))) FROM entered JOIN asset ON number = asset GROUP BY class",
    "retired": "SELECT class, SUM((hi - lo) * (1 + (side = 2))) FROM gone JOIN asset ON number = asset WHERE cause = 0 GROUP BY class",
    "abandoned": "SELECT class, SUM((hi - lo) * (1 + (side = 2))) FROM gone JOIN asset ON number = asset WHERE cause = 1 GROUP BY class",
    "present": "SELECT class, SUM((hi - lo) * (1 + (side = 2))) FROM span JOIN asset ON number = asset GROUP BY class",
}


@pytest.mark.parametrize("name", WORKED_ROWS)
def test_totals_are_the_sums_of_the_tables(name):
    """After each worked row, beside what sqlite3 sums up of the ledgers and of the rows of routes; and sqlite3 finds nothing wrong with the file."""
    with tempfile.TemporaryDirectory() as folder:
        db = pathlib.Path(folder) / "roads.db"
        replied = lines(*(reply for _, reply in WORKED_ROWS[name]))
        ended = run("edit", str(db), "stdin", given=FIRST + b"".join(record(text) for text, _ in WORKED_ROWS[name]))
        ends(ended, FIRST_REPLIES + replied, 1 if b",refused," in replied else 0)
        ended = run("totals", str(db))
        is_whole(db)
        classes, *sums = look(db, "SELECT name FROM class ORDER BY name", *SUMS.values())
        expected = [" ".join([of, *(str(dict(each).get(of, 0)) for each in sums)]) for (of,) in classes]
        ends(ended, lines(*expected), 0)


def test_where_an_asset_lies():
    with after_first(SPEED_LIMIT, "p1,enter,20,SIGN,A1,L,abs,9000,,STOP,0") as db:
        answers(db, "find 10", "A1 2500 8000 B")
        answers(db, "find 20", "A1 7999 8000 L")
        answers(db, "find 0010", "A1 2500 8000 B")
        refuses(db, "find 11", "NoAsset")
        refuses(db, "find 1000000000000", "NoAsset")
        edit(db, sheet_of("q1,split,A1,5000,A0"), lines("q1,done,10"))
        answers(db, "find 10", "A0 0 3000 B", "A1 2500 5000 B")
        answers(db, "find 20", "A0 2999 3000 L")
        edit(db, sheet_of("q2,turn,A0"), lines("q2,done,11"))
        answers(db, "find 20", "A0 0 1 R")
        edit(db, sheet_of("q3,retire,10,A1,int,3000/5000,4000/5000"), lines("q3,done,12"))
        answers(db, "find 10", "A0 0 3000 B", "A1 2500 3000 B", "A1 4000 5000 B")


# after the first sheet: records that are done, and then the rows of assets
LIES = {
    "on_three_routes_by_their_names": (
        [SPEED_LIMIT, "a1,recalibrate,A1,0:0 3000:3000 5000:5000 8000:8000", "a2,split,A1,5000,A0", "a3,split,A1,3000,B1"],
        {10: ["A0 0 3000 B", "A1 2500 3000 B", "B1 0 2000 B"]},
    ),
    "on_a_renumbered_route": ([SPEED_LIMIT, "a1,renumber,A1,B1"], {10: ["B1 2500 8000 B"]}),
    "on_two_routes_one_of_which_is_turned": ([SPEED_LIMIT, SPLIT, "a1,turn,A1"], {10: ["A1 0 2500 B", "A2 0 3000 B"]}),
    "on_a_route_that_was_renumbered_and_joined": ([SPEED_LIMIT, SPLIT, "a1,renumber,A1,B1", "a2,join,B1,A2"], {10: ["B1 2500 8000 B"]}),
    "at_a_point_behind_the_edge_of_a_split": (["p1,enter,20,SIGN,A1,R,abs,6000,,STOP,0", SPLIT], {20: ["A2 0 1 R"]}),
    "at_a_point_before_the_edge_of_a_split": (["p1,enter,20,SIGN,A1,R,int,4999/8000,,STOP,0", SPLIT], {20: ["A1 4999 5000 R"]}),
    "by_neighbouring_edits_on_the_same_ground": (
        [SPEED_LIMIT, "e2,enter,9,RAIL,A1,L,abs,3000,9000,x,0", "e3,enter,12,RAIL,A1,L,abs,3000,6000,y,0"],
        {10: ["A1 2500 8000 B"], 9: ["A1 2500 8000 L"], 12: ["A1 2500 5000 L"]},
    ),
    "where_a_part_is_retired_and_the_route_turned": ([SPEED_LIMIT, "m1,retire,10,A1,abs,5000,6000", "a1,turn,A1"], {10: ["A1 0 3000 B", "A1 3833 5500 B"]}),
    "where_another_route_has_ground_that_it_left": (
        [SPEED_LIMIT, RECALIBRATED, "e8,realign,A1,4000,6000,3:0:2000:+,0:0 8000:8000", "g2,route,B1,1:4000:5000:-,0:0 1000:1000", "g5,enter,13,SPEED,B1,B,abs,0,1000,60,0"],
        {10: ["A1 2500 4000 B", "A1 6000 8000 B"], 13: ["B1 0 1000 B"]},
    ),
    "where_all_of_its_ground_has_another_route": (
        [SPEED_LIMIT, "c1,close,A1", "g1,route,B1,2:0:3000:+ 1:0:5000:-,0:0 8000:8000", "g2,enter,11,SPEED,B1,L,abs,0,8000,60,0"],
        {10: [], 11: ["B1 0 8000 L"]},
    ),
}


@pytest.mark.parametrize("name", LIES)
def test_where_an_asset_lies_today(name):
    """On the routes that run today over the ground where it was entered, and on none of these where it holds nothing."""
    texts, rows_of = LIES[name]
    with after_first(*texts) as db:
        for asset, rows in rows_of.items():
            answers(db, f"find {asset}", *rows)


def test_an_asset_that_holds_nothing_any_more():
    with after_first(SPEED_LIMIT, "e2,retire,10,A1,abs,0,9000") as db:
        answers(db, "find 10")
        answers(db, "at A1 abs 9000", "A1 7999 2 0 -")
        refuses(db, "find 1", "NoAsset")


def test_questions_change_nothing():
    with after_first(SPEED_LIMIT) as db:
        path = pathlib.Path(db)
        before = path.read_bytes()
        questions = ["at A1 abs 3000", "translate A1 abs 3000 link", "strip A1 R SPEED", "totals", "find 10"]
        refused = ["at A2 abs 3000", "translate A1 abs 9001 link", "strip A1 B SPEED", "find 11"]
        first = [run(*question.split()[:1], db, *question.split()[1:]) for question in questions + refused]
        again = [run(*question.split()[:1], db, *question.split()[1:]) for question in questions + refused]
        assert [str(ended) for ended in first] == [str(ended) for ended in again]
        assert path.read_bytes() == before
        edit(db, sheet_of("q1,renumber,A1,B1"), lines("q1,done,9"))
