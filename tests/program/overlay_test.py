"""The values of exclusive classes side by side (`overlay`), compared with what each millimetre of the tables has; also over HTTP and in sheets of questions."""

import csv
import fractions
import io
import itertools
import json
import pathlib
import random
import tempfile

import pytest

from program import ends, faults, lines, refuses_word, run, sheet_of
from sent_sheets import random_record
from serving import by_http_client, serving
from stores import edit, look, make, make_full

HEADER = ["route", "from", "to", "from_measure", "to_measure", "side"]
MORE = ("x1,class,SURFACE,exclusive", "x2,enter,40,SURFACE,A1,L,abs,0,4000,AC14,0", "x3,enter,41,SURFACE,A1,R,abs,0,2000,HRA,0")


@pytest.fixture
def db():
    with tempfile.TemporaryDirectory() as folder:
        yield pathlib.Path(folder) / "roads.db"


def told(*words):
    ended = run("overlay", *words)
    assert (ended.stderr, ended.status) == (b"", 0), ended
    return list(csv.reader(io.StringIO(ended.stdout.decode())))


def decimal(measure):
    """With three places, a half going up."""
    thousandths = (2000 * measure.numerator + measure.denominator) // (2 * measure.denominator)
    return f"{thousandths // 1000}.{thousandths % 1000:03}"


def measure_at(marks, chainage):
    for (low, first), (high, last) in itertools.pairwise(marks):
        if chainage <= high:
            return first + fractions.Fraction((chainage - low) * (last - first), high - low)


def wanted(path, *classes, route=None, side="LR", low=0, high=None, gaps=False):
    """Runs of millimetres that have the same values, each counted by itself."""
    found = [HEADER + list(classes)]
    spans = look(path, "SELECT s.route, s.lo, s.hi, s.side, a.class, a.value FROM span s JOIN asset a ON a.number = s.asset")[0]
    for name, length in look(path, "SELECT route, SUM(b - a) FROM piece GROUP BY route ORDER BY route")[0]:
        if route not in (None, name):
            continue
        marks = look(path, f"SELECT chainage, measure FROM mark WHERE route = '{name}' ORDER BY n")[0]
        for hand in side:
            held = [[""] * len(classes) for _ in range(length)]
            for of, lo, hi, on, kind, value in spans:
                if of == name and kind in classes and hand in ("L", "R", "LR")[on]:
                    for mm in range(lo, hi):
                        held[mm][classes.index(kind)] = value
            start = 0
            for values, run_of in itertools.groupby(held):
                end = start + len(list(run_of))
                if end > low and (high is None or start < high) and (not gaps or "" in values):
                    ends = [decimal(measure_at(marks, at)) for at in (start, end)]
                    found.append([name, str(start), str(end), *ends, hand, *values])
                start = end
    return found


def test_what_is_printed(db):
    make_full(db)
    edit(db, sheet_of(*MORE))
    ended = run("overlay", db, "SPEED", "SURFACE", "--route", "A1")
    expected = (
        "route,from,to,from_measure,to_measure,side,SPEED,SURFACE",
        "A1,0,2500,0.000,3000.000,L,,AC14",
        "A1,2500,3333,3000.000,3999.600,L,80,AC14",
        "A1,3333,5000,3999.600,6000.000,L,80,",
        "A1,0,1667,0.000,2000.400,R,,HRA",
        "A1,1667,2500,2000.400,3000.000,R,,",
        "A1,2500,5000,3000.000,6000.000,R,80,",
    )
    ends(ended, lines(*expected), 0)
    assert told(db, "SPEED", "SURFACE", "--route", "A1") == wanted(db, "SPEED", "SURFACE", route="A1")


@pytest.mark.parametrize("order", [("SPEED",), ("SURFACE", "SPEED"), ("SPEED", "SURFACE")])
def test_routes_sides_stretches_and_gaps(db, order):
    make_full(db)
    edit(db, sheet_of(*MORE))
    assert told(db, *order) == wanted(db, *order)
    for side in "LR":
        assert told(db, *order, "--side", side) == wanted(db, *order, side=side)
        assert told(db, *order, "--side", side, "--route", "A2", "--gaps") == wanted(db, *order, side=side, route="A2", gaps=True)
    assert told(db, *order, "--gaps") == wanted(db, *order, gaps=True)
    for low, high in ((0, 1), (2500, 2501), (2499, 2500), (1700, 4000)):
        assert told(db, *order, "--from", str(low), "--to", str(high)) == wanted(db, *order, low=low, high=high), (low, high)
    # a measure of 3000 is chainage 2500, and 2000 is 1666 and two thirds, which snaps to 1667
    assert told(db, *order, "--route", "A1", "--from", "abs:2000", "--to", "abs:3000") == wanted(db, *order, route="A1", low=1667, high=2500)


def test_inventories_of_chance(db):
    drawn = random.Random(31)
    for seed in range(15):
        path = db.with_name(f"{seed}.db")
        rows = [random_record(drawn, n) for n in range(1, 90)]
        more = [f"y{n},class,{name},exclusive" for n, name in enumerate(("K1", "K2"))]
        more += [
            f"x{n},supersede,{100 + n},{drawn.choice(('K1', 'K2'))},{drawn.choice('ABC')},{drawn.choice('LRB')},int,{low}/12,{low + drawn.randint(1, 12 - low)}/12,{drawn.choice(['80', '90', 'a'])},0"
            for n in range(12)
            for low in [drawn.randint(0, 11)]
        ]
        edit(path, sheet_of(*rows, *more))
        assert told(path, "K2", "K1") == wanted(path, "K2", "K1"), seed
        assert told(path, "K1", "K2", "--gaps") == wanted(path, "K1", "K2", gaps=True), seed


def test_what_is_refused(db):
    make_full(db)
    for words, cause in (
        (["NONE"], "NoClass:0"),
        (["SPEED", "RAIL"], "NotExclusive:1"),
        (["RAIL", "NONE"], "NoClass:1"),
        (["SPEED", "--route", "B9"], "NoRoute"),
        (["NONE", "--route", "B9"], "NoRoute"),
        (["SPEED", "--from", "abs:1"], "NoRoute"),
        (["SPEED", "--route", "A1", "--from", "abs:99999", "--to", "rel:KM9+1"], "OffRoute:from"),
        (["SPEED", "--route", "A1", "--to", "rel:KM9+1"], "NoRef:to"),
    ):
        ends(run("overlay", db, *words), b"", 1, f"roadlrs: {cause}\n".encode())
    refuses_word(run("overlay", db, "speed"), "CLASS is no class name")
    refuses_word(run("overlay", db, "SPEED", "--side", "B"), "SIDE is neither L nor R")
    faults(run("overlay", db.with_name("none.db"), "SPEED"), "Open")
    assert not db.with_name("none.db").exists()


# what is asked for over HTTP, and the words for it on the command line
ASKED = {
    "class=SPEED&class=SURFACE": ("SPEED", "SURFACE"),
    "class=SURFACE&class=SPEED&route=A1&side=R": ("SURFACE", "SPEED", "--route", "A1", "--side", "R"),
    "class=SPEED&class=SURFACE&gaps=1": ("SPEED", "SURFACE", "--gaps"),
    "class=SPEED&route=A1&from=abs:2000&to=2500": ("SPEED", "--route", "A1", "--from", "abs:2000", "--to", "2500"),
}


def as_item(header, row):
    """A line as JSON has it, but for the measures as fractions."""
    place = dict(zip(header, row))
    return {
        "from": int(place["from"]),
        "from_measure_decimal": place["from_measure"],
        "route": place["route"],
        "side": place["side"],
        "to": int(place["to"]),
        "to_measure_decimal": place["to_measure"],
        "values": [value or None for value in row[len(HEADER) :]],
    }


def test_over_http(db):
    make_full(db)
    edit(db, sheet_of(*MORE))
    # while it is served no other program has the file
    printed = {query: run("overlay", db, *words).stdout for query, words in ASKED.items()}
    with serving(2 * len(ASKED) + 3, db) as server:

        def fetched(target, status=200):
            head, body = by_http_client(server.port, f"GET /v1/{target}", None).split(b"\r\n\r\n", 1)
            assert head.startswith(f"HTTP/1.1 {status} ".encode()), (target, head, body)
            return body

        for query, listed in printed.items():
            assert fetched(f"overlay.csv?{query}") == listed, query
            header, *rows = csv.reader(io.StringIO(listed.decode()))
            items = json.loads(fetched(f"overlay?{query}"))["overlay"]
            exact = [(item.pop("from_measure"), item.pop("to_measure")) for item in items]
            assert items == [as_item(header, row) for row in rows], query
            assert [[decimal(fractions.Fraction(end)) for end in ends] for ends in exact] == [row[3:5] for row in rows], query
        assert fetched("overlay?class=NONE", 422) == b'{"error":"NoClass:0"}'
        assert fetched("overlay?route=A1", 400) == b'{"error":"Malformed:class"}'
        assert fetched("overlay?class=SPEED&gap=1", 400) == b'{"error":"Unknown:gap"}'


def test_in_a_sheet_of_questions(db):
    """Each list that a sheet asks for has the lines that the command prints, behind its key and a word."""
    make_full(db)
    edit(db, sheet_of(*MORE))
    asked = {
        "rows,,,,": ("rows", "row", ["rows"]),
        "rows,A1,abs:2000,2500,SURFACE": ("rows", "row", ["rows", "--route", "A1", "--from", "abs:2000", "--to", "2500", "--class", "SURFACE"]),
        "rows,A2,,,": ("rows", "row", ["rows", "--route", "A2"]),
        "overlay,,,SPEED SURFACE,": ("overlay", "segment", ["overlay", "SPEED", "SURFACE"]),
        "overlay,A1,R,SURFACE,gaps": ("overlay", "segment", ["overlay", "SURFACE", "--route", "A1", "--side", "R", "--gaps"]),
        "lengths,,,,": ("lengths", "length", ["lengths"]),
        "lengths,A2,,,": ("lengths", "length", ["lengths", "--route", "A2"]),
        "history,11,,,": ("history", "event", ["history", "11"]),
    }
    refused = {
        "rows,B9,,,": "NoRoute",
        "rows,A1,abs:99999,,": "OffRoute:from",
        "rows,,,,NONE": "NoClass",
        "overlay,,,NONE,": "NoClass:0",
        "overlay,,B,SPEED,": "Malformed:b",
        "overlay,,,SPEED,gap": "Malformed:d",
        "overlay,,,,": "Malformed:c",
        "lengths,A1,x,,": "Malformed:b",
        "history,99,,,": "NoAsset",
        "history,,,,": "Malformed:a",
        "gone,,,,": "Malformed:question",
    }
    sheet, replies = ["key,question,a,b,c,d"], []
    for n, (question, (list_word, word, words)) in enumerate(asked.items()):
        sheet.append(f"q{n},{question}")
        _, *found = run(words[0], db, *words[1:]).stdout.decode().splitlines()
        replies += [f"q{n},{list_word},{len(found)}", *(f"q{n},{word},{line}" for line in found)]
    for n, (question, cause) in enumerate(refused.items()):
        sheet.append(f"r{n},{question}")
        replies.append(f"r{n},refused,{cause}")
    ends(run("ask", db, "stdin", given=lines(*sheet)), lines(*replies), 1)
