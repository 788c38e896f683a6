#!/usr/bin/env python3
"""Keeps the tables of schema.sql up to date with inventories, from their logs over HTTP.

    follow.py [--once] [--every SECONDS] [--quick] DATABASE NAME=URL...

DATABASE is what `psql -d` takes, as `host=/run/postgresql dbname=roads`. A URL is that of one program, as `http://127.0.0.1:8080`, or of a
proxy, with a path or without, that has this one program behind it. It looks each SECONDS (5) for new edits; with --once it ends when
PostgreSQL has those that were there. It may be killed at any moment. A start asks for whole logs, to compare their sums; with --quick it
compares the last edit alone.

Standard error says `follow: NAME: fault FAULT: ...`. Behind `Inventory` (it gives no good answer) and `Database` (psql failed) it tries
again. `Other` is a log with other edits than those that PostgreSQL has, and `Shorter` one with fewer: such an inventory is followed no
more, and nothing of it is changed. The status is 3 if there was a fault with --once, or if no inventory is left, and else 0.
"""

import argparse
import contextlib
import hashlib
import http.client
import io
import itertools
import json
import re
import subprocess
import sys
import threading
import time
import urllib.error
import urllib.request

HEADER = "key,verb,a,b,c,d,e,f,g,h,i\n"
# The sum of no edits.
NOTHING = "0" * 64
# Seconds that an answer or a transaction may take.
PATIENCE = 600

# For each verb the fields, counted from the verb, that name routes whose rows may be others after it; those that name routes whose length,
# pieces and marks may be; and whether referents may be. After a verb that is not here all is asked anew.
VERBS = {
    "link": ((), (), False),
    "class": ((), (), False),
    "ref": ((), (), True),
    "unref": ((), (), True),
    "enter": ((3,), (), False),
    "supersede": ((3,), (), False),
    "retire": ((2,), (), False),
    "route": ((1,), (1,), False),
    "split": ((1, 3), (1, 3), True),
    "renumber": ((1, 2), (1, 2), True),
    "join": ((1, 2), (1, 2), True),
    "recalibrate": ((1,), (1,), True),
    "turn": ((1,), (1,), True),
    "realign": ((1,), (1,), True),
    "close": ((1,), (1,), True),
}

COLUMNS = {
    "followed": "inventory, edits, sum, record",
    "links": "inventory, link, length",
    "classes": "inventory, class, kind",
    "routes": "inventory, route, length",
    "pieces": "inventory, route, start, link, from_mm, to_mm, direction",
    "marks": "inventory, route, chainage, measure",
    "referents": "inventory, referent, route, chainage, measure",
    "rows": "inventory, route, from_mm, to_mm, side, class, asset, value, offset_mm, entry, from_measure, to_measure",
}
ROW = "from to side class asset value offset entry from_measure to_measure".split()


class Fault(Exception):
    """A name, and what was found."""

    def __init__(self, name, found):
        super().__init__(f"fault {name}: {found}")
        self.ends = name in ("Other", "Shorter")


# ---- the inventory, over HTTP

OPENER = urllib.request.build_opener(urllib.request.ProxyHandler({}))


def opened(url, path):
    """A reply whose status is 200, or None where the program says that there is no such route."""
    try:
        return OPENER.open(url + path, timeout=PATIENCE)
    except urllib.error.HTTPError as error:
        if error.code == 404 and error.read() == b'{"error":"NoRoute"}':
            return None
        raise Fault("Inventory", f"{path}: status {error.code}") from error


def asked(url, path):
    """What a question is answered."""
    reply = opened(url, path)
    return reply and json.loads(reply.read())


def log_of(url, first):
    """The records of the log from this edit on. The whole reply is taken first, since a slow client's is cut off."""
    lines = io.BytesIO(opened(url, f"/v1/log?from={first}").read())
    if next(lines, b"").decode() != HEADER:
        raise Fault("Inventory", "it has no log")
    return (line.decode().rstrip("\n") for line in lines)


class Place:
    """How far a log was read: the number of an edit, the sum up to it, and its record."""

    def __init__(self, edits=0, total=NOTHING, record=""):
        self.edits, self.total, self.record = edits, total, record

    def behind(self, record):
        edits = self.edits + 1
        return Place(edits, hashlib.sha256(f"{self.total},{edits},{record}\n".encode()).hexdigest(), record)


def news(url, place, whole=False):
    """The records behind a place, once its last record was compared, and, where the whole log is asked for, its sum."""
    count = place.edits if whole else min(place.edits, 1)
    records, read = log_of(url, 1 if whole else max(place.edits, 1)), Place()
    for record in itertools.islice(records, count):
        read = read.behind(record)
    if read.edits < count:
        raise Fault("Shorter", f"the log ends before edit {place.edits}")
    if read.record != place.record or (whole and read.total != place.total):
        raise Fault("Other", f"up to edit {place.edits}, now {read.record}, before {place.record}")
    return list(records)


class Touched:
    """Of what there may be other answers after these edits."""

    def __init__(self, records):
        self.rows, self.routes, self.links, self.classes = set(), set(), {}, {}
        self.referents = self.everything = False
        for record in records:
            _, verb, *fields = record.split(",")
            of_rows, of_routes, of_referents = VERBS.get(verb, ((), (), False))
            self.everything |= verb not in VERBS
            self.rows.update(fields[n - 1] for n in of_rows)
            self.routes.update(fields[n - 1] for n in of_routes)
            self.referents |= of_referents
            if verb == "link":
                self.links[int(fields[0])] = int(fields[1])
            elif verb == "class":
                self.classes[fields[0]] = fields[1]


class Answers:
    """What was answered about an inventory, as lines of COPY: of each route that edits touched, empty where the route is not there."""

    def __init__(self, name, url):
        self.name, self.url, self.everything = name, url, False
        self.rows, self.routes, self.links, self.classes, self.referents = {}, {}, {}, {}, None

    def line(self, *fields):
        return "\t".join([self.name, *(str(field).translate(ESCAPES) for field in fields)]) + "\n"

    def ask(self, touched):
        """Asks, or asks again, about all that is touched."""
        self.links.update(touched.links)
        self.classes.update(touched.classes)
        rows, routes, referents = touched.rows, touched.routes, touched.referents
        if touched.everything:
            names = self.ask_lists()
            rows, routes, referents = rows | names, routes | names, True
        if referents:
            listed = asked(self.url, "/v1/refs")["refs"]
            self.referents = "".join(self.line(it["ref"], it["route"], it["chainage"], it["measure"]) for it in listed)
        for name in sorted(routes):
            self.ask_route(name)
        for name in sorted(rows):
            answer = asked(self.url, f"/v1/rows?route={name}") or {"rows": []}
            self.rows[name] = "".join(self.line(name, *(row[member] for member in ROW)) for row in answer["rows"])

    def have(self, touched):
        """Whether something that was answered is touched."""
        return bool(
            touched.everything
            or (self.everything and (touched.links or touched.classes))
            or (self.referents is not None and touched.referents)
            or not touched.rows.isdisjoint(self.rows)
            or not touched.routes.isdisjoint(self.routes)
        )

    def ask_lists(self):
        """Asks for what is not of a route; hands back the names of the routes that there are or were."""
        self.everything = True
        self.links = {it["link"]: it["length"] for it in asked(self.url, "/v1/links")["links"]}
        self.classes = {it["class"]: it["kind"] for it in asked(self.url, "/v1/classes")["classes"]}
        return {it["name"] for it in asked(self.url, "/v1/routes")["routes"]} | set(self.rows)

    def ask_route(self, name):
        """Asks for a route's length, pieces and marks: a text for each of the three tables."""
        answer, start, pieces = asked(self.url, f"/v1/route/{name}"), 0, []
        if answer is None:
            self.routes[name] = ("", "", "")
            return
        for piece in answer["pieces"]:
            link, low, high, direction = piece.split(":")
            pieces.append(self.line(name, start, link, low, high, direction))
            start += int(high) - int(low)
        marks = "".join(self.line(name, *mark) for mark in answer["marks"])
        self.routes[name] = (self.line(name, answer["length"]), "".join(pieces), marks)

    def lines(self):
        """The lines of each table."""
        routes, pieces, marks = zip(*self.routes.values()) if self.routes else ((), (), ())
        links = [self.line(*link) for link in self.links.items()]
        classes = [self.line(*kind) for kind in self.classes.items()]
        tables = {"links": links, "classes": classes, "routes": routes, "pieces": pieces, "marks": marks}
        return {**tables, "referents": [self.referents or ""], "rows": self.rows.values()}


# ---- PostgreSQL, by psql

ESCAPES = str.maketrans({"\\": "\\\\", "\t": "\\t", "\n": "\\n", "\r": "\\r"})


def psql(database, *words, given=()):
    """What psql prints, once it has done all that is given to it."""
    command = ["psql", "-X", "-w", "-q", "-A", "-t", "-F", "\t", "-v", "ON_ERROR_STOP=1", "-d", database, *words]
    streams = {"stdin": subprocess.PIPE, "stdout": subprocess.PIPE, "stderr": subprocess.PIPE}
    with subprocess.Popen(command, text=True, **streams) as child:
        timer = threading.Timer(PATIENCE, child.kill)
        timer.start()
        try:
            # where psql has ended, its status says so
            with contextlib.suppress(BrokenPipeError):
                for text in given:
                    child.stdin.write(text)
            printed, said = child.communicate()
        finally:
            timer.cancel()
    if child.returncode:
        raise Fault("Database", (said.strip().splitlines() or [f"psql ended with {child.returncode}"])[0])
    return printed


def copy(table, columns, lines):
    yield f"COPY {table} ({columns}) FROM STDIN;\n"
    yield from lines
    yield "\\.\n"


def replaced(table, lines, condition):
    """These lines come in the place of those that meet the condition; what is in both stays untouched."""
    columns = COLUMNS[table]
    yield f"CREATE TEMPORARY TABLE new_{table} (LIKE roadlrs.{table}) ON COMMIT DROP;\n"
    yield from copy(f"new_{table}", columns, lines)
    same = f"({columns}) = (old.{columns.replace(', ', ', old.')})"
    yield f"DELETE FROM roadlrs.{table} AS old {condition} AND NOT EXISTS (SELECT FROM new_{table} WHERE {same});\n"
    yield f"INSERT INTO roadlrs.{table} ({columns}) SELECT {columns} FROM new_{table} ON CONFLICT DO NOTHING;\n"


def among(routes):
    """A condition. Names of routes have capital letters, digits and hyphens alone."""
    if not all(re.fullmatch("[A-Z0-9-]{1,12}", name) for name in routes):
        raise Fault("Inventory", "the name of a route is none")
    return f"route = ANY ('{{{','.join(routes)}}}')"


class Inventory:
    """An inventory that is followed."""

    def __init__(self, name, url, database, quick):
        self.name, self.url, self.database, self.quick = name, url, database, quick
        self.forget()

    def forget(self):
        """The next round asks PostgreSQL how far it is, and compares the whole log: the inventory may have been put back."""
        self.place, self.compared = None, self.quick

    def follow(self):
        """Brings PostgreSQL up to the last edit; says how many edits that were."""
        if self.place is None:
            self.place = self.found()
        place, answers = self.place, Answers(self.name, self.url)
        fresh = news(self.url, place, whole=not self.compared)
        self.compared, touched = True, Touched(fresh)
        touched.everything |= place.edits == 0
        # what was answered is of the state at `place` once no edit behind that has touched it
        while fresh and (place is self.place or answers.have(touched)):
            for record in fresh:
                place = place.behind(record)
            answers.ask(touched)
            fresh = news(self.url, place)
            touched = Touched(fresh)
        edits = place.edits - self.place.edits
        if edits:
            if psql(self.database, given=self.transaction(place, answers)) != "committed\n":
                raise Fault("Database", "psql was not given the whole transaction")
            self.place = place
        return edits

    def found(self):
        """How far PostgreSQL has it."""
        printed = psql(self.database, "-c", f"SELECT edits, sum, record FROM roadlrs.followed WHERE inventory = '{self.name}'")
        if not printed:
            return Place()
        edits, total, record = printed.rstrip("\n").split("\t")
        return Place(int(edits), total, record)

    def transaction(self, place, answers):
        """What psql is given. Without its end, as where this program is killed, nothing of it is kept."""
        mine = f"WHERE inventory = '{self.name}'"
        yield "BEGIN;\n"
        # another program that follows this inventory waits here, and then cannot put its line beside ours
        yield f"DELETE FROM roadlrs.followed {mine} AND edits = {self.place.edits} AND sum = '{self.place.total}';\n"
        yield from copy("roadlrs.followed", COLUMNS["followed"], [answers.line(place.edits, place.total, place.record)])
        lines = answers.lines()
        if answers.everything:
            for table in lines:
                yield f"DELETE FROM roadlrs.{table} {mine};\n"
                yield from copy(f"roadlrs.{table}", COLUMNS[table], lines[table])
        else:
            for table in ("links", "classes"):
                yield from copy(f"roadlrs.{table}", COLUMNS[table], lines[table])
            for table in ("routes", "pieces", "marks") if answers.routes else ():
                yield from replaced(table, lines[table], f"{mine} AND {among(answers.routes)}")
            if answers.referents is not None:
                yield from replaced("referents", lines["referents"], mine)
            if answers.rows:
                yield from replaced("rows", lines["rows"], f"{mine} AND {among(answers.rows)}")
        yield "COMMIT;\n\\echo committed\n"


# ---- one round after the other


def round_of(inventories):
    """Follows each inventory; hands back those that are followed on, and whether there was a fault."""
    left, failed = [], False
    for it in inventories:
        fault = None
        try:
            edits = it.follow()
            if edits:
                print(f"{it.name}: {edits} edits, up to {it.place.edits}", flush=True)
        except Fault as error:
            fault = error
        except FileNotFoundError as error:
            fault = Fault("Database", error)
        except (OSError, http.client.HTTPException, ValueError, LookupError, TypeError) as error:
            fault = Fault("Inventory", f"{type(error).__name__}: {error}")
        if fault:
            failed = True
            print(f"follow: {it.name}: {fault}", file=sys.stderr, flush=True)
            it.forget()
        if not fault or not fault.ends:
            left.append(it)
    return left, failed


def named(text):
    """An inventory's name and URL."""
    found = re.fullmatch(r"([A-Za-z0-9_-]{1,40})=(https?://.*[^/])/?", text)
    if found is None:
        raise argparse.ArgumentTypeError(f"{text} is not NAME=URL")
    return found.groups()


def main():
    parser = argparse.ArgumentParser(usage=__doc__.split("\n\n")[1].strip())
    parser.add_argument("--once", action="store_true")
    parser.add_argument("--every", type=float, default=5)
    parser.add_argument("--quick", action="store_true")
    parser.add_argument("database")
    parser.add_argument("inventories", type=named, nargs="+")
    given = parser.parse_args()
    if len({name for name, _ in given.inventories}) < len(given.inventories):
        parser.error("two inventories have one name")
    inventories = [Inventory(*each, given.database, given.quick) for each in given.inventories]
    while True:
        inventories, failed = round_of(inventories)
        if given.once or not inventories:
            return 3 if failed else 0
        time.sleep(given.every)


if __name__ == "__main__":
    sys.exit(main())
