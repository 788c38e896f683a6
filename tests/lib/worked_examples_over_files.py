"""Worked examples over an inventory in a file, each line by line, with all that the inventory holds after each line.

A line is a record with its reply and what it changes of the state, or a question with what it is answered. The state is stated in the texts
of sheets, under plain numbers and names: `course={"A1": "1:0:5000:+ 2:0:3000:-"}`, `rows={10: "A1 2500 8000 B"}`; what is None is there no
more. In ledgers a part is `LINK:FROM:TO:SIDE`, seen along the link, and on B it is two rows. What a line does not state is as before.
"""

import json

from program import HEADER, ends, faults, lines, refuses_word, run
from serving import error, reply, request, serving, sheet_reply
from stores import edit, folder, is_whole, more_sheet, rows_of

NOTHING = "0 0 0 0"
KINDS = {"point": 0, "stretch": 1, "exclusive": 2}
SIDES = {"L": 0, "R": 1, "B": 2}
DIRECTIONS = {"+": 0, "-": 1}
CAUSES = {"retired": 0, "abandoned": 1}
PARTS = ["link", "kind", "asset", "course", "marks", "ref", "rows", "entered", "gone", "totals"]


# ---- the rows that a state has in the tables


def numbers(text, separator=":"):
    return [int(number) for number in text.split(separator)]


def piece_rows(courses):
    for route, course in courses.items():
        for n, piece in enumerate(course.split()):
            text, _, direction = piece.rpartition(":")
            yield (route, n, *numbers(text), DIRECTIONS[direction])


def mark_rows(marks):
    return ((route, n, *numbers(mark)) for route, texts in marks.items() for n, mark in enumerate(texts.split()))


def ref_rows(refs):
    return ((name, text.split()[0], int(text.split()[1])) for name, text in refs.items())


def asset_rows(assets):
    for number, text in assets.items():
        of, value, lateral = text.split()
        yield number, of, value, int(lateral)


def span_rows(rows):
    for asset, texts in rows.items():
        for text in texts.split(", "):
            route, low, high, side = text.split()
            yield asset, route, int(low), int(high), SIDES[side]


def part_rows(text):
    """The rows of an asset's parts in a ledger."""
    for part in text.split():
        place, _, side = part.rpartition(":")
        yield from ((*numbers(place), SIDES[of]) for of in ("LR" if side == "B" else side))


def entered_rows(entered):
    for number, text in entered.items():
        asset, _, parts = text.partition(" ")
        yield from ((number, int(asset), *row) for row in part_rows(parts))


def gone_rows(gone):
    for number, texts in gone.items():
        for text in texts.split(", "):
            cause, asset, parts = text.split(" ", 2)
            yield from ((number, CAUSES[cause], int(asset), *row) for row in part_rows(parts))


# ---- an example


class Example:
    """The state that is stated, beside the file that has it."""

    def __init__(self, path):
        self.path = path
        self.state = {part: {} for part in PARTS}
        self.log, self.origins, self.routes = [], [], set()

    def tables(self):
        """The rows of each table."""
        state = self.state
        found = {
            "version": [(2,)],
            "link": state["link"].items(),
            "class": ((name, KINDS[kind]) for name, kind in state["kind"].items()),
            "asset": asset_rows(state["asset"]),
            "piece": piece_rows(state["course"]),
            "mark": mark_rows(state["marks"]),
            "ref": ref_rows(state["ref"]),
            "span": span_rows(state["rows"]),
            "entered": entered_rows(state["entered"]),
            "gone": gone_rows(state["gone"]),
            "edit": self.log,
            "origin": self.origins,
        }
        return {table: sorted(rows) for table, rows in found.items()}

    def change(self, record, replied, changes):
        """What a record that was done adds to the log is itself, and an asset is that of the record which entered it."""
        key, _, line = record.partition(",")
        if replied.startswith(f"{key},done,"):
            number = int(replied.split(",")[2])
            self.log.append((number, key, line))
            self.origins += [(asset, number) for asset in changes.get("asset", {})]
        for part, changed in changes.items():
            assert part in PARTS, part
            self.state[part] = {name: text for name, text in {**self.state[part], **changed}.items() if text is not None}
        self.routes |= set(self.state["course"])

    def does(self, record, replied, **changes):
        """The record gets this reply, and the inventory differs by these changes alone."""
        ends(edit(self.path, more_sheet(record)), lines(replied), 1 if ",refused," in replied else 0)
        self.change(record, replied, changes)
        self.is_as_stated(record)

    def is_as_stated(self, record):
        found, wanted = rows_of(self.path), self.tables()
        assert set(found) == set(wanted)
        for table, rows in wanted.items():
            assert found[table] == rows, (record, table)
        ends(run("totals", str(self.path)), lines(*(f"{name} {text}" for name, text in sorted(self.state["totals"].items()))), 0)

    def question(self, text):
        verb, *words = text.split()
        return run(verb, str(self.path), *words)

    def says(self, question, *answer):
        """The question is answered by these lines."""
        ends(self.question(question), lines(*answer), 0)

    def refuses(self, question, cause):
        ends(self.question(question), b"", 1, f"roadlrs: {cause}\n".encode())

    def misreads(self, question, said):
        """A word of the question cannot be read; the last line says which."""
        refuses_word(self.question(question), said)

    def faults(self, sheet, name):
        """The sheet ends in this fault, and nothing of it is done."""
        faults(edit(self.path, sheet), name)
        self.is_as_stated(sheet)

    def gets(self, target, answer, status=200):
        """A server of this file answers so, in JSON."""
        with serving(1, self.path) as server:
            server.answers(request(f"GET {target}"), reply(status, answer.encode()))

    def posts(self, target, sheet, record, replied, **changes):
        """A server of this file does the sheet, whose only record is this one as an edit sheet would have it."""
        with serving(1, self.path) as server:
            server.answers(request(f"POST {target}", sheet), sheet_reply(lines(replied)))
        self.change(record, replied, changes)
        self.is_as_stated(record)

    def sends(self, sent, answered):
        """What a client that then ends is answered; nothing is done."""
        with serving(1, self.path) as server:
            server.answers(sent, answered, ends=True)
        self.is_as_stated(sent)

    def route(self, name):
        """What a server answers of a route."""
        if name not in self.state["course"]:
            return error(404, "NoRoute")
        course, marks = self.state["course"][name].split(), [numbers(mark) for mark in self.state["marks"][name].split()]
        refs = [{"at": place, "name": ref} for ref, of, place in sorted(ref_rows(self.state["ref"])) if of == name]
        said = {"length": marks[-1][0], "marks": marks, "name": name, "pieces": course, "refs": refs}
        return reply(200, json.dumps(said, separators=(",", ":")).encode())

    def is_served(self):
        """Each route that there is or was, and the totals, as a server of this file has them."""
        names = ["entered", "retired", "abandoned", "present"]
        found = [{"class": name, **dict(zip(names, numbers(text, " ")))} for name, text in sorted(self.state["totals"].items())]
        with serving(len(self.routes) + 1, self.path) as server:
            for name in sorted(self.routes):
                server.answers(request(f"GET /v1/route/{name}"), self.route(name))
            totals = json.dumps({"totals": found}, separators=(",", ":"), sort_keys=True)
            server.answers(request("GET /v1/totals"), reply(200, totals.encode()))


# ---- lines


def line(word):
    """A line of an example under this word, as Example does it."""
    return lambda *given, **stated: (word, given, stated)


does, says, refuses, misreads, faulty, gets, posts, sends = map(line, "does says refuses misreads faults gets posts sends".split())

# the first sheet: three links, three classes, and the route A1 forwards over link 1 and backwards over link 2
FIRST_LINES = [
    does("s1,link,1,5000", "s1,done,1", link={1: 5000}),
    does("s2,link,2,3000", "s2,done,2", link={2: 3000}),
    does("s3,link,3,2000", "s3,done,3", link={3: 2000}),
    does("s4,class,SPEED,exclusive", "s4,done,4", kind={"SPEED": "exclusive"}, totals={"SPEED": NOTHING}),
    does("s5,class,RAIL,stretch", "s5,done,5", kind={"RAIL": "stretch"}, totals={"RAIL": NOTHING}),
    does("s6,class,SIGN,point", "s6,done,6", kind={"SIGN": "point"}, totals={"SIGN": NOTHING}),
    does(
        "s7,route,A1,1:0:5000:+ 2:0:3000:-,0:0 5000:6000 8000:9000",
        "s7,done,7",
        course={"A1": "1:0:5000:+ 2:0:3000:-"},
        marks={"A1": "0:0 5000:6000 8000:9000"},
    ),
]


def example(*given):
    """These lines, after those of the first sheet, which is done at once."""
    with folder() as path:
        it = Example(path)
        for _, (record, replied), changes in FIRST_LINES:
            it.change(record, replied, changes)
        ends(edit(path, more_sheet(*(record for _, (record, _), _ in FIRST_LINES))), lines(*(replied for _, (_, replied), _ in FIRST_LINES)), 0)
        it.is_as_stated("the first sheet")
        follows(it, given)


def example_from_nothing(*given):
    """These lines over a new file."""
    with folder() as path:
        it = Example(path)
        for sheet in [b"", HEADER]:
            ends(edit(path, sheet), b"", 0)
            it.is_as_stated("a sheet without records")
        follows(it, given)


def follows(it, given):
    for word, words, stated in given:
        getattr(it, word)(*words, **stated)
    is_whole(it.path)
    it.is_served()


# ---- examples that stand in several others


SPEED_LIMIT = does(
    "e1,enter,10,SPEED,A1,B,abs,3000,9000,80,0",
    "e1,done,8",
    asset={10: "SPEED 80 0"},
    rows={10: "A1 2500 8000 B"},
    entered={8: "10 1:2500:5000:B 2:0:3000:B"},
    totals={"SPEED": "11000 0 0 11000"},
)
RECALIBRATED = does("e6,recalibrate,A1,0:0 8000:8000", "e6,done,9", marks={"A1": "0:0 8000:8000"})
REALIGNED = does(
    "e8,realign,A1,4000,6000,3:0:2000:+,0:0 8000:8000",
    "e8,done,10",
    course={"A1": "1:0:4000:+ 3:0:2000:+ 2:0:2000:-"},
    rows={10: "A1 2500 4000 B, A1 6000 8000 B"},
    gone={10: "abandoned 10 1:4000:5000:B 2:2000:3000:B"},
    totals={"SPEED": "11000 0 4000 7000"},
)
