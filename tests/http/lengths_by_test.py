"""How long each combination of the values of exclusive classes is (`/v1/lengths?by=CLASS`), as JSON and as CSV, compared with what each millimetre of the tables has."""

import json
import random

import pytest

from program import FIRST, FIRST_REPLIES, sheet_of
from sent_sheets import random_record
from serving import CSV, error, reply, request, serving, started
from stores import edit, look, make, make_full

MORE = ("x1,class,SURFACE,exclusive", "x2,enter,40,SURFACE,A1,L,abs,0,4000,AC14,0", "x3,enter,41,SURFACE,A1,R,abs,0,2000,HRA,0")

# what is asked for, and all bytes of the answer as JSON and as CSV
ANSWERS = {
    "by=SPEED&by=SURFACE": (
        b'{"combinations":['
        b'{"left":0,"length":833,"right":833,"values":[null,null]},'
        b'{"left":2500,"length":2500,"right":0,"values":[null,"AC14"]},'
        b'{"left":0,"length":1667,"right":1667,"values":[null,"HRA"]},'
        b'{"left":4667,"length":5500,"right":5500,"values":["80",null]},'
        b'{"left":833,"length":833,"right":0,"values":["80","AC14"]}]}',
        b"SPEED,SURFACE,left,right,length\n"
        b",,0.000,0.833,0.833\n"
        b",AC14,2.500,0.000,2.500\n"
        b",HRA,0.000,1.667,1.667\n"
        b"80,,4.667,5.500,5.500\n"
        b"80,AC14,0.833,0.000,0.833\n",
    ),
    "route=A1&by=SURFACE": (
        b'{"combinations":['
        b'{"left":1667,"length":3333,"right":3333,"values":[null]},'
        b'{"left":3333,"length":3333,"right":0,"values":["AC14"]},'
        b'{"left":0,"length":1667,"right":1667,"values":["HRA"]}]}',
        b"SURFACE,left,right,length\n,1.667,3.333,3.333\nAC14,3.333,0.000,3.333\nHRA,0.000,1.667,1.667\n",
    ),
    "by=SPEED&route=A2": (
        b'{"combinations":[{"left":3000,"length":3000,"right":3000,"values":["80"]}]}',
        b"SPEED,left,right,length\n80,3.000,3.000,3.000\n",
    ),
    "by=SPEED&by=SPEED&route=A1": (
        b'{"combinations":[{"left":2500,"length":2500,"right":2500,"values":[null,null]},{"left":2500,"length":2500,"right":2500,"values":["80","80"]}]}',
        b"SPEED,SPEED,left,right,length\n,,2.500,2.500,2.500\n80,80,2.500,2.500,2.500\n",
    ),
}

REFUSED = {
    "by=NONE": (422, "NoClass:0"),
    "by=SPEED&by=RAIL": (422, "NotExclusive:1"),
    "by=RAIL&by=NONE": (422, "NoClass:1"),
    "by=NONE&route=B9": (404, "NoRoute"),
    "by=": (400, "Malformed:by"),
    "by=SPEED&by=speed": (400, "Malformed:by"),
    "by=SPEED+SURFACE": (400, "Malformed:by"),
    "route=B9&by=x": (400, "Malformed:by"),
    "by=x&route=x": (400, "Malformed:route"),
    "by=SPEED&class=SURFACE": (400, "Unknown:class"),
    "by=x&By=SPEED": (400, "Unknown:By"),
}


def metres(millimetres):
    return f"{millimetres // 1000}.{millimetres % 1000:03}"


def wanted(path, *classes, route=None):
    """Of each combination that some millimetre has on some side, by its values: how many have it on the left, on the right, and on either side."""
    held = {"L": {}, "R": {}}
    for of, lo, hi, side, kind, value in look(path, "SELECT s.route, s.lo, s.hi, s.side, a.class, a.value FROM span s JOIN asset a ON a.number = s.asset")[0]:
        for hand in ("L", "R", "LR")[side]:
            held[hand].update({(of, mm, kind): value for mm in range(lo, hi)})
    found = {}
    for name, length in look(path, "SELECT route, SUM(b - a) FROM piece GROUP BY route")[0]:
        for mm in range(length if route in (None, name) else 0):
            left, right = (tuple(held[hand].get((name, mm, kind), "") for kind in classes) for hand in "LR")
            for values in {left, right}:
                counts = found.setdefault(values, [0, 0, 0])
                found[values] = [count + has for count, has in zip(counts, (left == values, right == values, True))]
    return sorted(found.items())


def as_json(combinations):
    items = [{"left": left, "length": length, "right": right, "values": [value or None for value in values]} for values, (left, right, length) in combinations]
    return json.dumps({"combinations": items}, separators=(",", ":")).encode()


def as_csv(classes, combinations):
    rows = [[*classes, "left", "right", "length"], *([*values, *map(metres, counts)] for values, counts in combinations)]
    return "".join(",".join(row) + "\n" for row in rows).encode()


def gets(server, query, expected):
    """The same reply as JSON and as CSV, or one of each."""
    as_one, as_lines = expected if isinstance(expected, tuple) else (expected, expected)
    server.answers(request(f"GET /v1/lengths?{query}"), as_one)
    server.answers(request(f"GET /v1/lengths.csv?{query}"), as_lines)


@pytest.fixture(scope="module")
def path(tmp_path_factory):
    path = tmp_path_factory.mktemp("lengths") / "roads.db"
    make_full(path)
    edit(path, sheet_of(*MORE))
    return path


@pytest.fixture(scope="module")
def server(path):
    with started(db=path) as server:
        yield server


@pytest.mark.parametrize("query", ANSWERS)
def test_what_is_answered(path, server, query):
    whole, lines = ANSWERS[query]
    gets(server, query, (reply(200, whole), reply(200, lines, CSV)))
    pairs = [pair.split("=") for pair in query.split("&")]
    classes, route = [text for name, text in pairs if name == "by"], dict(pairs).get("route")
    combinations = wanted(path, *classes, route=route)
    assert (as_json(combinations), as_csv(classes, combinations)) == (whole, lines)


@pytest.mark.parametrize("query", REFUSED)
def test_what_is_refused(server, query):
    gets(server, query, error(*REFUSED[query]))


def test_without_classes_the_lengths_are_those_of_each_value(server):
    lengths = b'{"assets":1,"class":"SPEED","left":2500,"length":2500,"right":2500,"value":"80"}', b'{"assets":1,"class":"SURFACE","left":3333,"length":3333,"right":0,"value":"AC14"}'
    for query in ["route=A1", "route=A1&route=A2"]:
        server.answers(
            request(f"GET /v1/lengths?{query}"),
            reply(200, b'{"lengths":[{"assets":1,"class":"RAIL","left":4166,"length":4166,"right":0,"value":"steel"},%s,%s,{"assets":1,"class":"SURFACE","left":0,"length":1667,"right":1667,"value":"HRA"}]}' % lengths),
        )


def test_another_path_knows_no_such_parameter(server):
    for name in ["rows", "overlay", "marks", "gone"]:
        server.answers(request(f"GET /v1/{name}?by=SPEED"), error(400, "Unknown:by"))


def test_where_there_is_no_route_there_is_no_combination():
    with serving(5) as server:
        server.does("edits", sheet_of("k1,class,K,exclusive"), b"k1,done,1\n")
        gets(server, "by=K", (reply(200, b'{"combinations":[]}'), reply(200, b"K,left,right,length\n", CSV)))
        gets(server, "by=L", error(422, "NoClass:0"))


def test_where_nothing_is_entered_no_class_has_a_value():
    with serving(3) as server:
        server.does("edits", FIRST, FIRST_REPLIES)
        gets(server, "by=SPEED", (reply(200, b'{"combinations":[{"left":8000,"length":8000,"right":8000,"values":[null]}]}'), reply(200, b"SPEED,left,right,length\n,8.000,8.000,8.000\n", CSV)))


def test_inventories_of_chance(tmp_path):
    drawn = random.Random(41)
    for seed in range(6):
        path = tmp_path / f"{seed}.db"
        rows = [random_record(drawn, n) for n in range(1, 90)]
        more = [f"y{n},class,{name},exclusive" for n, name in enumerate(("K1", "K2"))]
        more += [
            f"x{n},supersede,{100 + n},{drawn.choice(('K1', 'K2'))},{drawn.choice('ABC')},{drawn.choice('LRB')},int,{low}/12,{low + drawn.randint(1, 12 - low)}/12,{drawn.choice(['80', '90', 'a'])},0"
            for n in range(12)
            for low in [drawn.randint(0, 11)]
        ]
        edit(path, sheet_of(*rows, *more))
        asked = {classes: wanted(path, *classes) for classes in [("K1",), ("K2", "K1"), ("K1", "K2")]}
        with serving(2 * len(asked), path) as server:
            for classes, combinations in asked.items():
                query = "&".join(f"by={name}" for name in classes)
                gets(server, query, (reply(200, as_json(combinations)), reply(200, as_csv(classes, combinations), CSV)))
