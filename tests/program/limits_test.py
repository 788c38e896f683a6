"""Inventories at their limits and their neighbours, one millimetre too far or one piece too many; and rows that come in any order."""

import json
import random

import pytest

from program import HEADER, ends, faults, lines, replies, run, sheet_of
from serving import answer, request, started
from stores import change, edit, folder, refuses, rows_of

BILLION = 1_000_000_000
PIECES = 1_000

# a link on which each piece of a route can lie by itself
LINK = ("l7,link,7,10000", "l7,done,1")


def text_of(pieces):
    return " ".join(f"{link}:{start}:{end}:{'-' if back else '+'}" for link, start, end, back in pieces)


def marks_to(length):
    return f"0:0 {length}:{length}"


def single(first, count):
    """So many pieces of one millimetre each, apart from each other."""
    return [(7, place, place + 1, 0) for place in range(first, first + 2 * count, 2)]


def route(key, name, pieces):
    return f"{key},route,{name},{text_of(pieces)},{marks_to(sum(end - start for _, start, end, _ in pieces))}"


# ---- a thousand pieces

# pieces of two millimetres, each second one against the link; and a mark inside each piece but the first and the last
COURSE = [(7, 3 * n, 3 * n + 2, n % 2) for n in range(PIECES)]
MARKS = [(0, 7), *((n, 5 * n) for n in range(3, 2 * PIECES - 2, 2)), (2 * PIECES, 10 * PIECES)]
LONG = [
    LINK[0],
    "c1,class,SPEED,exclusive",
    f"r1,route,A,{text_of(COURSE)},{' '.join(f'{chainage}:{measure}' for chainage, measure in MARKS)}",
    "e1,enter,1,SPEED,A,L,int,0/1,1/1,80,0",
    "e2,enter,2,SPEED,A,R,int,1/4,1/2,60,0",
]

# in the middle of the five hundredth piece
CUT = 999


def turned(pieces):
    return [(link, start, end, 1 - back) for link, start, end, back in reversed(pieces)]


def has(path, pieces, marks, spans):
    """The routes have these pieces and marks, and these rows lie on them; and all that the inventory keeps is sound."""
    found = rows_of(path)
    assert found["piece"] == [(name, n, *piece) for name, rows in pieces.items() for n, piece in enumerate(rows)]
    assert found["mark"] == [(name, n, *mark) for name, rows in marks.items() for n, mark in enumerate(rows)]
    assert found["span"] == spans
    ends(run("audit", path), b"sound, and as its log says\n", 0)


def does(path, number, text):
    ends(edit(path, sheet_of(text)), lines(f"{text.split(',')[0]},done,{number}"), 0)


def test_a_thousand_pieces_are_cut_joined_and_turned():
    """The piece that was cut is one again when its route is joined, and a route that was turned twice is as it was."""
    whole = {"A": COURSE}, {"A": MARKS}, [(1, "A", 0, 2000, 0), (2, "A", 500, 1000, 1)]
    link, start, end, back = COURSE[499]
    assert back and len(MARKS) == PIECES
    cut = (
        {"A": [*COURSE[:499], (link, end - 1, end, back)], "B": [(link, start, end - 1, back), *COURSE[500:]]},
        {"A": [mark for mark in MARKS if mark[0] <= CUT], "B": [(at - CUT, measure) for at, measure in MARKS if at >= CUT]},
        [(1, "A", 0, 999, 0), (1, "B", 0, 1001, 0), (2, "A", 500, 999, 1), (2, "B", 0, 1, 1)],
    )
    mirrored = [(2 * PIECES - at, 7 + 10 * PIECES - measure) for at, measure in reversed(MARKS)]
    around = {"A": turned(COURSE)}, {"A": mirrored}, [(1, "A", 0, 2000, 1), (2, "A", 1000, 1500, 0)]
    with folder() as path:
        ends(edit(path, sheet_of(*LONG)), lines(*(f"{text[:2]},done,{n}" for n, text in enumerate(LONG, 1))), 0)
        has(path, *whole)
        steps = [(f"v1,split,A,{CUT},B", cut), ("v2,join,A,B", whole), ("v3,turn,A", around), ("v4,turn,A", whole)]
        for number, (text, state) in enumerate(steps, 6):
            does(path, number, text)
            has(path, *state)


def test_a_thousand_pieces_and_one_more():
    """Each neighbour of a route of a thousand pieces: a realignment that leaves as many, and one that leaves one more."""

    def realign(key, start, end, pieces):
        length = 2 * PIECES - (end - start) + sum(to - at for _, at, to, _ in pieces)
        return f"{key},realign,A,{start},{end},{text_of(pieces)},{marks_to(length)}"

    two, other = [(7, 5000, 5001, 0), (7, 5002, 5003, 0)], [(7, 6000, 6002, 0)]
    replies(
        LINK,
        (route("r1", "A", COURSE), "r1,done,2"),
        (realign("a1", 999, 1001, two), "a1,refused,TooLong"),
        (realign("a2", 999, 1000, other), "a2,refused,TooLong"),
        (realign("a3", 998, 1000, two), "a3,refused,TooLong"),
        (realign("a4", 0, 0, other), "a4,refused,TooLong"),
        (realign("a5", 998, 1000, other), "a5,done,3"),
        (realign("a6", 998, 1000, two), "a6,refused,TooLong"),
        # pieces that go on are one
        (realign("a7", 998, 1000, [(7, 5000, 5001, 0), (7, 5001, 5003, 0)]), "a7,done,4"),
    )


def test_joins_of_pieces_up_to_a_thousand():
    last = 2 * 600 - 1
    replies(
        LINK,
        (route("r1", "A", single(0, 600)), "r1,done,2"),
        (route("r2", "B", single(2000, 401)), "r2,done,3"),
        (route("r3", "C", [(7, last, last + 1, 0), *single(4000, 400)]), "r3,done,4"),
        ("j1,join,A,B", "j1,refused,TooLong"),
        # it goes on where the other ends
        ("j2,join,A,C", "j2,done,5"),
        (route("r4", "D", [(7, 9000, 9001, 0)]), "r4,done,6"),
        ("j3,join,A,D", "j3,refused,TooLong"),
        ("j4,join,B,D", "j4,done,7"),
    )


SHARED = [[(0, 1)], [(0, 999)], [(499, 500)], [(998, 999)], [(5, 700), (20, 300)], [(0, 2), (1, 3)]]


@pytest.mark.parametrize("shared", SHARED, ids=str)
def test_the_first_of_a_thousand_pieces_that_shares_ground(shared):
    """Each later piece is put on the last millimetre of an earlier one; the first of them is named."""
    pieces, taken = list(COURSE), min(later for _, later in shared)
    for earlier, later in shared:
        _, _, end, back = COURSE[earlier]
        pieces[later] = (7, end - 1, end, back)
    replies(LINK, (route("r1", "A", pieces), f"r1,refused,Taken:{taken}"), (route("r2", "A", COURSE), "r2,done,2"))


def test_joins_up_to_the_longest_route():
    """Two halves of 10,000 km, with a millimetre more and without it."""

    def links(first, behind):
        return [(n, 0, BILLION, 0) for n in range(first, behind)]

    replies(
        *((f"l{n},link,{n},{BILLION}", f"l{n},done,{n}") for n in range(1, 12)),
        (route("r1", "A", links(1, 6)), "r1,done,12"),
        (route("r2", "B", links(6, 11)), "r2,done,13"),
        (route("r3", "C", [(11, 0, 1, 0)]), "r3,done,14"),
        ("j1,join,B,C", "j1,done,15"),
        ("j2,join,A,B", "j2,refused,TooLong"),
        (f"j3,split,B,{5 * BILLION},C", "j3,done,16"),
        ("j4,join,A,B", "j4,done,17"),
        ("j5,join,A,C", "j5,refused,TooLong"),
        (f"a1,realign,A,0,1,11:5:7:+,{marks_to(10 * BILLION)}", "a1,refused,TooLong"),
        (f"a2,realign,A,0,1,11:5:6:+,{marks_to(10 * BILLION)}", "a2,done,18"),
    )


# ---- a file at full size

# Asset 1 lay on the left of all of the longest route, and is gone from it. Asset 2 lies on both its sides, which is as many places as an asset
# may have. Asset 3 lies on the left of a route of a thousand pieces, which is the right of its link.
FULL = [
    *(f"l{n},link,{n},{BILLION}" for n in range(1, 13)),
    "c1,class,RAIL,exclusive",
    "c2,class,SIGN,stretch",
    f"r1,route,A,{text_of((n, 0, BILLION, 0) for n in range(1, 11))},{marks_to(10 * BILLION)}",
    f"r2,route,B,{text_of((11, 2 * n, 2 * n + 1, 1) for n in range(PIECES))},{' '.join(f'{n}:{n}' for n in range(PIECES + 1) if n != 999)}",
    "p1,ref,KM0,A,abs,0",
    "p2,ref,KM1,B,abs,0",
    "e1,enter,1,SIGN,A,L,int,0/1,1/1,x,0",
    "e2,enter,2,RAIL,A,B,int,0/1,1/1,x,0",
    "e3,enter,3,RAIL,B,L,int,0/1,1/1,x,0",
    "e4,retire,1,A,int,0/1,1/1",
]
END = 10 * BILLION
LEFT, RIGHT = 0, 1


def route_over(link, start):
    """Adds a route of one millimetre."""
    return [f"INSERT INTO piece VALUES ('C', 0, {link}, {start}, {start + 1}, 0)", "INSERT INTO mark VALUES ('C', 0, 0, 0), ('C', 1, 1, 1)"]


def end_mark(name, at):
    """Moves the last mark of a route a millimetre on."""
    return f"UPDATE mark SET chainage = {at + 1} WHERE route = '{name}' AND chainage = {at}"


def row(asset, name, start, end, side):
    return f"INSERT INTO span VALUES ({asset}, '{name}', {start}, {end}, {side})"


def entry(asset, link, start, end, side):
    """Adds a part to what edit 22 entered."""
    return f"INSERT INTO entered VALUES (22, {asset}, {link}, {start}, {end}, {side})"


# what is changed in the file, and the first table that is then unsound, or none
NEIGHBOURS = {
    "a route on the last millimetre of the longest": ("piece", route_over(10, BILLION - 1)),
    "a route beside the pieces": (None, route_over(11, BILLION - 1)),
    "a route on one of the pieces": ("piece", route_over(11, 2 * PIECES - 2)),
    "a millimetre longer": ("piece", ["INSERT INTO piece VALUES ('A', 10, 12, 0, 1, 0)", end_mark("A", END)]),
    "one piece more": ("piece", [f"INSERT INTO piece VALUES ('B', {PIECES}, 11, 5000, 5001, 0)", end_mark("B", PIECES)]),
    "one mark more": ("mark", ["UPDATE mark SET n = 1000 WHERE n = 999", "INSERT INTO mark VALUES ('B', 999, 999, 999)"]),
    "a referent in the last millimetre": (None, [f"UPDATE ref SET place = {END - 1} WHERE route = 'A'"]),
    "a referent behind it": ("ref", [f"UPDATE ref SET place = {END} WHERE route = 'A'"]),
    "past the end of the course": ("span", ["UPDATE span SET hi = 1001 WHERE asset = 3"]),
    "two holders of the last millimetre": ("span", [row(3, "A", END - 1, END, RIGHT)]),
    "two holders, where they may be": ("gone", [row(3, "A", END - 1, END, RIGHT), "UPDATE class SET kind = 1 WHERE name = 'RAIL'"]),
    "one place more than an asset may have": ("entered", [entry(2, 11, 0, 1, LEFT)]),
    "a place of another asset, which does not hold it": ("gone", [entry(3, 11, 0, 1, LEFT)]),
    "the last millimetre twice": ("entered", [entry(1, 10, BILLION - 1, BILLION, LEFT)]),
    "one past it": ("entered", [entry(1, 10, BILLION, BILLION + 1, LEFT)]),
    "held but for the last millimetre": ("gone", [f"UPDATE span SET hi = {END - 1} WHERE asset = 2"]),
    "held but for the first": ("gone", ["UPDATE span SET lo = 1 WHERE asset = 2"]),
    "held but for the last of the pieces": ("gone", ["UPDATE span SET hi = 999 WHERE asset = 3"]),
    "held on the other side": ("gone", [f"UPDATE span SET side = {RIGHT} WHERE asset = 3"]),
    "neither held nor gone": ("gone", ["DELETE FROM gone WHERE link = 10"]),
    "one millimetre neither held nor gone": ("gone", [f"UPDATE gone SET hi = {BILLION - 1} WHERE link = 10"]),
    "held and never entered": ("gone", [f"DELETE FROM entered WHERE lo = {2 * PIECES - 2}"]),
    "an edit is not there": ("edit", ["DELETE FROM edit WHERE number = 22"]),
    "another edit is named": ("origin", ["UPDATE origin SET edit = 20 WHERE asset = 3"]),
}


@pytest.fixture(scope="module")
def full():
    with folder() as path:
        ends(edit(path, sheet_of(*FULL)), lines(*(f"{text.split(',')[0]},done,{n}" for n, text in enumerate(FULL, 1))), 0)
        yield path


def opens(path):
    ends(run("check", path, "stdin", given=HEADER), b"", 0, b"0 records: 0 would be done, 0 again, 0 refused\n")
    ends(run("totals", path), lines("RAIL 20000001000 0 0 20000001000", "SIGN 10000000000 10000000000 0 0"), 0)


def test_a_file_at_full_size(full):
    opens(full)
    ends(run("audit", full), b"sound, and as its log says\n", 0)


@pytest.mark.parametrize("table, statements", NEIGHBOURS.values(), ids=NEIGHBOURS)
def test_a_neighbour_of_the_file_at_full_size(full, table, statements):
    with folder() as path:
        path.write_bytes(full.read_bytes())
        change(path, *statements)
        if table is None:
            opens(path)
        else:
            refuses(path, f"Unsound:{table}")
            faults(run("totals", path), f"Unsound:{table}")


# ---- rows in any order

# so many rows that their chunks of 128 split more than once
MANY = 400


class Sheet:
    """Records with their replies, by what there is so far."""

    def __init__(self):
        self.rows, self.edits = [], 0

    def add(self, text, cause=None):
        self.edits += cause is None
        self.rows.append((f"k{len(self.rows)},{text}", f"k{len(self.rows)},{f'refused,{cause}' if cause else f'done,{self.edits}'}"))

    def sent_to(self, server):
        """They get their replies."""
        server.does("edits", sheet_of(*(text for text, _ in self.rows)), lines(*(reply for _, reply in self.rows)))


def names(drawn):
    """Many names in no order, of which some begin alike in their first eight bytes."""
    found = [f"{front}{n}" for front in ["A", "Z", "MOTORWAY", "7"] for n in range(MANY // 4)]
    drawn.shuffle(found)
    return found


def come_and_go(drawn, sheet, rows, enter, leave):
    """All rows are put in, half of them are taken out, and half of these are put in again: those that stayed, that came again, and that are gone."""
    for each in rows:
        sheet.add(enter(each))
    out = drawn.sample(rows, MANY // 2)
    again, gone = out[: MANY // 4], out[MANY // 4 :]
    for each in out:
        sheet.add(leave(each))
    for each in again:
        sheet.add(enter(each))
    return [each for each in rows if each not in out], again, gone


def listed(server, name):
    return json.loads(answer(server.port, request(f"GET /v1/{name}")).partition(b"\r\n\r\n")[2])[name]


def test_links_and_classes_that_come_in_any_order_are_listed_in_theirs():
    drawn, sheet = random.Random(1), Sheet()
    numbers = drawn.sample(range(1, 1_000_000), MANY)
    called = [name[-8:] for name in names(drawn)]
    for number, name in zip(numbers, called):
        sheet.add(f"link,{number},5")
        sheet.add(f"class,{name},point")
    for number, name in zip(sorted(numbers), sorted(called)):
        sheet.add(f"link,{number},5", "LinkKnown")
        sheet.add(f"class,{name},point", "ClassKnown")
    with started() as server:
        sheet.sent_to(server)
        assert [row["link"] for row in listed(server, "links")] == sorted(numbers)
        assert [row["class"] for row in listed(server, "classes")] == sorted(called)


def test_routes_that_come_and_go_in_any_order_are_listed_in_theirs():
    """Each lies on a millimetre of its own, which is free again once it is closed."""
    drawn, sheet = random.Random(2), Sheet()
    called = names(drawn)
    ground = {name: f"1:{at}:{at + 1}:+" for at, name in enumerate(called)}
    sheet.add("link,1,1000")
    stayed, again, gone = come_and_go(drawn, sheet, called, lambda name: f"route,{name},{ground[name]},0:0 1:1", lambda name: f"close,{name}")
    for name in sorted(called):
        if name in gone:
            sheet.add(f"close,{name}", "NoRoute")
        else:
            sheet.add(f"route,{name},1:500:501:+,0:0 1:1", "RouteKnown")
            sheet.add(f"route,NEW,{ground[name]},0:0 1:1", "Taken:0")
    with started() as server:
        sheet.sent_to(server)
        assert [row["name"] for row in listed(server, "routes")] == sorted(stayed + again)


def test_referents_that_come_and_go_in_any_order_are_listed_in_theirs():
    drawn, sheet = random.Random(3), Sheet()
    called = names(drawn)
    sheet.add("link,1,1000")
    sheet.add("route,A,1:0:1000:+,0:0 1000:1000")
    stayed, again, gone = come_and_go(drawn, sheet, called, lambda name: f"ref,{name},A,abs,{called.index(name)}", lambda name: f"unref,{name}")
    for name in sorted(called):
        if name in gone:
            sheet.add(f"unref,{name}", "NoRef")
        else:
            sheet.add(f"ref,{name},A,abs,0", "RefKnown")
    with started() as server:
        sheet.sent_to(server)
        found = [(row["ref"], row["chainage"]) for row in listed(server, "refs")]
        assert found == [(name, called.index(name)) for name in sorted(stayed + again)]


def test_assets_that_come_and_go_in_any_order_are_listed_in_theirs():
    """Each holds a millimetre of its own; what is retired comes again there under the next number."""
    drawn, sheet = random.Random(4), Sheet()
    numbers = [2 * number for number in drawn.sample(range(1, 1_000_000), MANY)]
    place, entered = {number: at for at, number in enumerate(numbers)}, set()
    for text in ("link,1,1000", "class,SPEED,exclusive", "route,A,1:0:1000:+,0:0 1000:1000"):
        sheet.add(text)

    def enter(number):
        name = number + 1 if number in entered else number
        entered.add(number)
        return f"enter,{name},SPEED,A,L,abs,{place[number]},{place[number] + 1},v,0"

    stayed, again, gone = come_and_go(drawn, sheet, numbers, enter, lambda number: f"retire,{number},A,abs,0,1000")
    held = {**{number: place[number] for number in stayed}, **{number + 1: place[number] for number in again}}
    for number in sorted(numbers):
        sheet.add(f"enter,{number},SPEED,A,L,abs,900,901,v,0", "AssetKnown")
    for number, at in held.items():
        sheet.add(f"enter,1,SPEED,A,L,abs,{at},{at + 1},v,0", f"Overlap:{number}")
    for number in again + gone:
        sheet.add(f"retire,{number},A,abs,0,1000", "Empty")
    with started() as server:
        sheet.sent_to(server)
        assert [(row["asset"], row["from"]) for row in listed(server, "rows")] == sorted(held.items(), key=lambda it: it[1])
