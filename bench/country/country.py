"""At the size of a country: loading, route edits and the questions of a day, beside PostgreSQL and PostGIS.

    python3 bench/country/country.py [--assets N] [--seed S] [--without-postgres] [--edits N]
    python3 bench/country/country.py write FOLDER [--assets N] [--seed S]
    python3 bench/country/country.py measure FOLDER [--without-postgres] [--edits N]

`write` makes a country as edit sheets, the same bytes for the same arguments: at 1,000,000 assets of 12 classes 60,000 links, 5,000
routes of 2 to 200 pieces with referents, and 200,000 route edits; with fewer assets less of all. An asset that a `supersede` enters
is one of the 1,000,000 that an inventory may have, so at full size the sheet of assets has so many less. The sheets: links.csv (with
the classes), routes.csv (with the referents), assets.csv (by route), assets-mixed.csv (the same records in no order), edits.csv, and
questions.txt, of which a line has a kind, an HTTP path and a command line, between tabs. In peers/ stand the same data as tables for
PostgreSQL, whose millimetres are reckoned here and not by the program. A small model of the routes says which edits will be accepted.

`measure` (bench/country/peers.py) does all of it with the program that ROADLRS names, and with PostgreSQL and PostGIS, which are installed by
apt-get where they are missing; with --edits the first N route edits alone. Without a command both are done, in a temporary folder.
"""

import argparse
import bisect
import collections
import math
import pathlib
import random
import sys
import tempfile

# what all benchmarks share
sys.path.append(str(pathlib.Path(__file__).resolve().parents[1]))

from peers import measure
from written_sheets import Sheets, row

MOST_ASSETS = 1_000_000
STEPS = 10_000
EVERY_REFERENT = 8_000_000
POINT, STRETCH, EXCLUSIVE = range(3)
KINDS = ("point", "stretch", "exclusive")
SIDES = "LRB"
CLASSES = {
    "SIGN": (POINT, 26, "RRRL", ("STOP", "GIVEWAY", "TS10.1", "TS30", "TS50", "NAME"), (800, 3_500)),
    "LIGHT": (POINT, 14, "RRL", ("LED-40", "LED-60", "HPS-70"), (500, 4_000)),
    "GULLY": (POINT, 14, "LR", ("450x450", "300x450", "ROUND"), (0, 300)),
    "CROSSING": (POINT, 3, "B", ("ZEBRA", "SIGNAL", "ISLAND"), (0, 0)),
    "BARRIER": (STRETCH, 10, "LRRB", ("W-beam", "CONCRETE", "CABLE", "N2-W4"), (400, 2_000)),
    "FOOTWAY": (STRETCH, 6, "LR", ("ASPHALT", "FLAGS", "GRAVEL"), (1_000, 4_000)),
    "DRAIN": (STRETCH, 7, "LR", ("OPEN", "FILTER", "PIPE225"), (0, 1_500)),
    "HEDGE": (STRETCH, 5, "LR", ("BEECH", "MIXED"), (2_000, 6_000)),
    "SPEED": (EXCLUSIVE, 5, "BBBBLR", ("30", "50", "70", "80", "100"), (0, 0)),
    "SURFACE": (EXCLUSIVE, 6, "BBBBBBLR", ("AC14", "SMA11", "HRA", "CONCRETE", "AC20-2019"), (0, 0)),
    "LANES": (EXCLUSIVE, 3, "B", ("1", "2", "3"), (0, 0)),
    "WINTER": (EXCLUSIVE, 1, "B", ("P1", "P2", "NONE"), (0, 0)),
}
NAMES = list(CLASSES)
EXCLUSIVES = [name for name in NAMES if CLASSES[name][0] == EXCLUSIVE]
SHARES = {"split": 12, "join": 10.5, "renumber": 12, "recalibrate": 14, "realign": 11, "turn": 8, "close": 1.5, "retire": 9, "supersede": 9, "ref": 7, "unref": 6}
DAY = {"at": 10_000, "translate": 4_000, "find": 4_000, "segments": 1_000, "strip": 1_000, "totals": 50}


def of_size(most, assets, least):
    return max(least, round(most * assets / MOST_ASSETS))


class Piece:
    """A part of a link that a route runs over."""

    __slots__ = ("link", "a", "b", "forward", "route")

    def __init__(self, link, a, b, forward, route):
        self.link, self.a, self.b, self.forward, self.route = link, a, b, forward, route

    def __str__(self):
        return f"{self.link}:{self.a}:{self.b}:{'+' if self.forward else '-'}"

    def ground(self, low, high):
        """The millimetres of the link of a stretch of this piece."""
        return (self.a + low, self.a + high) if self.forward else (self.b - high, self.b - low)


class Route:
    """A route: its pieces in order, and its marks as pairs of chainage and measure."""

    def __init__(self, name, pieces, marks):
        self.name, self.pieces, self.marks = name, pieces, marks
        self.take()

    def take(self):
        for piece in self.pieces:
            piece.route = self

    @property
    def length(self):
        return self.marks[-1][0]

    def marks_text(self):
        return " ".join(f"{chainage}:{measure}" for chainage, measure in self.marks)

    def starts(self):
        """Each piece, with the chainage at which it begins."""
        start = 0
        for piece in self.pieces:
            yield piece, start
            start += piece.b - piece.a

    def parts(self, low, high):
        """What of the ground lies between two chainages: pieces, with millimetres of their links."""
        for piece, start in self.starts():
            if start < high and start + piece.b - piece.a > low:
                yield piece, *piece.ground(max(low - start, 0), min(high - start, piece.b - piece.a))

    def chainage_of(self, piece, mm):
        start = next(start for it, start in self.starts() if it is piece)
        return start + (mm - piece.a if piece.forward else piece.b - 1 - mm)

    def measure_near(self, chainage):
        """The last whole measure that is not behind a chainage."""
        k = bisect.bisect_right(self.marks, chainage, hi=len(self.marks) - 1, key=lambda it: it[0])
        (c, m), (d, n) = self.marks[k - 1 : k + 1]
        return m + (chainage - c) * (n - m) // (d - c)

    def stated(self, method, chainage, anchor=None):
        """A position near a chainage by a method: its text, and its exact chainage as a fraction."""
        if method == "abs":
            measure = self.measure_near(chainage)
            k = bisect.bisect_right(self.marks, measure, hi=len(self.marks) - 1, key=lambda it: it[1])
            (c, m), (d, n) = self.marks[k - 1 : k + 1]
            return str(measure), c * (n - m) + (measure - m) * (d - c), n - m
        if method == "rel":
            name, at = anchor
            return f"{name}{'+' if chainage >= at else '-'}{abs(chainage - at)}", chainage, 1
        steps = chainage * STEPS // self.length
        return f"{steps}/{STEPS}", steps * self.length, STEPS

    def point(self, *given):
        """A position, and the millimetre that it is in."""
        text, over, under = self.stated(*given)
        return text, min(over // under, self.length - 1)

    def end(self, *given):
        """A position, and the nearest whole millimetre."""
        text, over, under = self.stated(*given)
        return text, (2 * over + under) // (2 * under)


def calibrated(chance, chainages, first):
    """Marks at these chainages, with measures in metres that are not quite those of the ground."""
    scale, marks = chance.uniform(0.985, 1.015) / 1_000, []
    for chainage in chainages:
        measure = first + round(chainage * scale)
        marks.append((chainage, max(measure, marks[-1][1] + 1) if marks else measure))
    return marks


class Network:
    """Links, the routes over them, the referents, and the ground that no route has."""

    def __init__(self, chance, assets):
        self.chance = chance
        self.links = {n: int(min(12_000_000, max(60_000, chance.lognormvariate(14.4, 0.8)))) for n in range(1, of_size(60_000, assets, 60) + 1)}
        self.routes, self.free, self.on_link, self.left = [], [], collections.defaultdict(list), collections.defaultdict(list)
        self.names, self.unused, self.numbered = set(), [], 0
        self.referents, self.referents_on, self.referent_names = {}, collections.defaultdict(list), []
        self.lay_routes(of_size(5_000, assets, 12))

    def lay_routes(self, count):
        """Routes of 2 to 200 pieces, few of them long, over the links and halves of links, of which some are left free."""
        grounds = []
        for link, length in self.links.items():
            cut = self.chance.randrange(length // 4, length * 3 // 4) if self.chance.random() < 0.3 else length
            grounds += [(link, a, b) for a, b in ((0, cut), (cut, length)) if a < b]
        weights = [self.chance.lognormvariate(0, 1.2) for _ in range(count)]
        more = (len(grounds) * 0.94 - 2 * count) / sum(weights)
        sizes = [min(200, 2 + int(more * weight)) for weight in weights]
        at = 0
        for size in sizes:
            at += 1 if self.chance.random() < 0.5 and at + 1 + sum(sizes[len(self.routes) :]) < len(grounds) * 0.99 else 0
            pieces = [Piece(*ground, self.chance.random() < 0.7, None) for ground in grounds[at : at + size]]
            at += size
            ends = [0]
            for piece in pieces:
                ends.append(ends[-1] + piece.b - piece.a)
                self.on_link[piece.link].append(piece)
            self.routes.append(Route(self.new_name(), pieces, calibrated(self.chance, ends, self.chance.choice((0, 0, 0, 12_000)))))
        used = {(piece.link, piece.a) for route in self.routes for piece in route.pieces}
        self.free = [ground for ground in grounds if ground[:2] not in used]

    def new_name(self):
        if self.unused and self.chance.random() < 0.3:
            name = self.unused.pop()
        else:
            self.numbered += 1
            name = f"{self.chance.choice('AABBBCM')}{self.numbered}"
        self.names.add(name)
        return name

    def forget_name(self, name):
        self.names.remove(name)
        self.unused.append(name)

    def add_referent(self, route, chainage):
        name = f"KM{len(self.referent_names) + 1}"
        (piece, mm, _), = route.parts(chainage, chainage + 1)
        self.referents[name] = piece.link, mm
        self.referents_on[piece.link].append(name)
        self.referent_names.append(name)
        return name

    def drop_referent(self, name):
        link, _ = self.referents.pop(name)
        self.referents_on[link].remove(name)

    def piece_at(self, link, mm):
        return next((piece for piece in self.on_link[link] if piece.a <= mm < piece.b), None)

    def anchors(self, route):
        """The referents of a route, with the chainages of their millimetres."""
        for piece, start in route.starts():
            for name in self.referents_on.get(piece.link, ()):
                mm = self.referents[name][1]
                if piece.a <= mm < piece.b:
                    yield name, start + (mm - piece.a if piece.forward else piece.b - 1 - mm)

    def a_method(self, route):
        """One of the methods that can be used on a route, and a referent for it."""
        method = self.chance.choices(("abs", "rel", "int"), (55, 35, 10))[0]
        found = list(self.anchors(route)) if method == "rel" else []
        return (method, self.chance.choice(found)) if found else ("int" if method == "int" else "abs", None)


def divided(network, route, name, count):
    """So many stretches of an exclusive class, one after another, with gaps where a step was left out."""
    method, anchor = network.a_method(route)
    cuts = [0, *sorted(network.chance.sample(range(1, route.length), count - 1)), route.length]
    ends = [route.end(method, cut, anchor) for cut in cuts]
    for (begin, low), (end, high) in zip(ends, ends[1:]):
        if low < high:
            yield name, network.chance.choice(CLASSES[name][2]), method, begin, end, low, high


def scattered(network, route, name):
    """A stretch of a class that may lie over others, or None where it would be empty."""
    method, anchor = network.a_method(route)
    low = network.chance.randrange(route.length - 20_000)
    high = min(route.length, low + int(network.chance.lognormvariate(12, 1)) + 2_000)
    (begin, low), (end, high) = route.end(method, low, anchor), route.end(method, high, anchor)
    return (name, network.chance.choice(CLASSES[name][2]), method, begin, end, low, high) if low < high else None


def pointed(network, route, name):
    method, anchor = network.a_method(route)
    text, mm = route.point(method, network.chance.randrange(route.length), anchor)
    return name, network.chance.choice(CLASSES[name][2]), method, text, "", mm, mm + 1


def inventory(network, route, count):
    """So many assets of a route, by where they begin."""
    wanted = collections.Counter(network.chance.choices(NAMES, [it[1] for it in CLASSES.values()], k=count))
    found = []
    for name, many in sorted(wanted.items()):
        if CLASSES[name][0] == EXCLUSIVE:
            found += divided(network, route, name, many)
        elif CLASSES[name][0] == STRETCH:
            found += [it for it in (scattered(network, route, name) for _ in range(many)) if it]
    rest = [name for name, many in sorted(wanted.items()) if CLASSES[name][0] == POINT for _ in range(many)]
    rest += ["SIGN"] * (count - len(found) - len(rest))
    found += [pointed(network, route, name) for name in rest]
    return sorted(found, key=lambda it: it[5])


class Edits:
    """Route edits that the model says will be accepted, each done in the model at once."""

    def __init__(self, network, retired, next_asset):
        self.network, self.chance, self.retired, self.next_asset = network, network.chance, retired, next_asset

    def a_route(self, among=1, size=lambda route: -len(route.pieces)):
        return min((self.chance.choice(self.network.routes) for _ in range(among)), key=size)

    def cut(self, route, chainage):
        """Which piece begins at a chainage, once the one over it is in two."""
        for n, (piece, start) in enumerate(route.starts()):
            if start >= chainage:
                return n
            if chainage < start + piece.b - piece.a:
                front, rear = (piece.ground(0, chainage - start), piece.ground(chainage - start, piece.b - piece.a))
                piece.a, piece.b = front
                route.pieces.insert(n + 1, Piece(piece.link, *rear, piece.forward, route))
                self.network.on_link[piece.link].append(route.pieces[n + 1])
                return n + 1
        return len(route.pieces)

    def leave(self, pieces):
        """Takes pieces off their route: their ground is free, and what stood on it is gone."""
        for piece in pieces:
            self.network.on_link[piece.link].remove(piece)
            self.network.left[piece.link].append((piece.a, piece.b))
            for name in list(self.network.referents_on[piece.link]):
                if piece.a <= self.network.referents[name][1] < piece.b:
                    self.network.drop_referent(name)
            if piece.b - piece.a > 10_000:
                self.network.free.append((piece.link, piece.a, piece.b))

    def split(self):
        route = self.a_route(2)
        if len(route.marks) < 3:
            return None
        at, measure = self.chance.choice(route.marks[1:-1])
        n = self.cut(route, at)
        rear = Route(self.network.new_name(), route.pieces[n:], [(c - at, m) for c, m in route.marks if c >= at])
        route.pieces, route.marks = route.pieces[:n], [it for it in route.marks if it[0] <= at]
        self.network.routes.append(rear)
        return route.name, at, rear.name

    def join(self):
        first, second = self.a_route(2, lambda it: len(it.pieces)), self.a_route(2, lambda it: len(it.pieces))
        if first is second or len(first.pieces) + len(second.pieces) > 400 or len(first.marks) + len(second.marks) > 600:
            return None
        shift = first.marks[-1][1] - second.marks[0][1]
        first.marks += [(c + first.length, m + shift) for c, m in second.marks[1:]]
        first.pieces += second.pieces
        first.take()
        self.network.routes.remove(second)
        self.network.forget_name(second.name)
        return first.name, second.name

    def renumber(self):
        route, name = self.a_route(), self.network.new_name()
        old, route.name = route.name, name
        self.network.forget_name(old)
        return old, name

    def recalibrate(self):
        route = self.a_route()
        inner = sorted({c for c, _ in route.marks[1:-1]} | {self.chance.randrange(1, route.length) for _ in range(2)})
        kept = [c for c in inner if self.chance.random() < 0.9][:500]
        route.marks = calibrated(self.chance, [0, *kept, route.length], self.chance.choice((0, 0, 5_000)))
        return route.name, route.marks_text()

    def new_ground(self):
        """Free ground for a bypass, of some kilometres at most, in one or two pieces."""
        pieces = []
        for _ in range(self.chance.choice((1, 1, 1, 2))):
            n = self.chance.randrange(len(self.network.free))
            link, a, b = self.network.free[n]
            end = min(b, a + self.chance.randrange(5_000, 3_000_000))
            self.network.free[n] = link, end, b
            if b - end < 10_000:
                self.network.free[n] = self.network.free[-1]
                self.network.free.pop()
            pieces.append(Piece(link, a, end, self.chance.random() < 0.5, None))
            self.network.on_link[link].append(pieces[-1])
        return pieces

    def realign(self):
        route = self.a_route()
        if len(self.network.free) < 3 or len(route.pieces) > 500 or route.length < 40_000:
            return None
        low = self.chance.randrange(route.length - 10_000)
        high = min(route.length, low + min(route.length // 3, int(self.chance.lognormvariate(12.5, 1)) + 1_000))
        n, m, pieces = self.cut(route, low), self.cut(route, high), self.new_ground()
        self.leave(route.pieces[n:m])
        route.pieces[n:m] = pieces
        route.take()
        more = sum(piece.b - piece.a for piece in pieces) - (high - low)
        front, rear = [it for it in route.marks if it[0] <= low], [it for it in route.marks if it[0] >= high]
        shift = max(round(more / 1_000), front[-1][1] + 1 - rear[0][1])
        route.marks = front + [(c + more, m + shift) for c, m in rear]
        return route.name, low, high, " ".join(map(str, pieces)), route.marks_text()

    def turn(self):
        route = self.a_route()
        route.pieces.reverse()
        for piece in route.pieces:
            piece.forward = not piece.forward
        length, both = route.length, route.marks[0][1] + route.marks[-1][1]
        route.marks = [(length - c, both - m) for c, m in reversed(route.marks)]
        return (route.name,)

    def close(self):
        if len(self.network.routes) < 6:
            return None
        route = self.a_route(8, lambda it: it.length)
        self.leave(route.pieces)
        self.network.routes.remove(route)
        self.network.forget_name(route.name)
        return (route.name,)

    def retire(self):
        """A whole asset where it still lies on its route, or the hundred metres of it behind that place."""
        if not self.retired:
            return None
        asset, kind, grounds = self.retired.pop()
        still = [(link, mm) for link, mm in grounds if not any(a <= mm < b for a, b in self.network.left[link])]
        if not still:
            return None
        piece = self.network.piece_at(*still[0])
        route, chainage = piece.route, piece.route.chainage_of(piece, still[0][1])
        if kind == POINT:
            anchor = next(self.network.anchors(route), None)
            return (asset, route.name, "rel", route.stated("rel", chainage, anchor)[0]) if anchor else None
        if self.chance.random() < 0.6:
            return asset, route.name, "int", "0/1", "1/1"
        measure = route.measure_near(chainage)
        return asset, route.name, "abs", measure, min(measure + 100, route.marks[-1][1])

    def supersede(self):
        route, name = self.a_route(), self.chance.choice(EXCLUSIVES)
        found = scattered(self.network, route, name) if route.length > 30_000 else None
        if not found:
            return None
        self.next_asset += 1
        return self.next_asset, name, route.name, *found[1:5], self.chance.choice(CLASSES[name][3]), 0

    def ref(self):
        route = self.a_route()
        method, anchor = self.network.a_method(route)
        text, mm = route.point(method, self.chance.randrange(route.length), anchor)
        return self.network.add_referent(route, mm), route.name, method, text

    def unref(self):
        name = self.chance.choice(self.network.referent_names)
        if name not in self.network.referents:
            return None
        self.network.drop_referent(name)
        return (name,)

    def one(self, verb):
        """The fields of an edit of this verb: some routes cannot be split, and some assets are gone, so that it is tried again."""
        for _ in range(100):
            if fields := getattr(self, verb)():
                return verb, fields
        return "renumber", self.renumber()


def verbs_of(chance, count):
    """So many verbs in their shares, in no order."""
    whole = sum(SHARES.values())
    verbs = [verb for verb, share in SHARES.items() for _ in range(math.ceil(count * share / whole))]
    chance.shuffle(verbs)
    return verbs[:count]


def write_network(sheets, network):
    for n, name in enumerate(NAMES):
        sheets.record("links.csv", f"CLASS-{n}", "class", name, KINDS[CLASSES[name][0]])
        sheets.peer("class", name, CLASSES[name][0])
    for link, length in network.links.items():
        sheets.record("links.csv", f"LINK-{link}", "link", link, length)
        sheets.peer("link", link, length)
    for n, route in enumerate(network.routes):
        sheets.record("routes.csv", f"ROUTE-{n}", "route", route.name, " ".join(map(str, route.pieces)), route.marks_text())
        for k, (piece, start) in enumerate(route.starts()):
            sheets.peer("piece", route.name, k, piece.link, piece.a, piece.b, 0 if piece.forward else 1, start)
        for k, mark in enumerate(route.marks):
            sheets.peer("mark", route.name, k, *mark)
        for k in range(1 + route.length // EVERY_REFERENT):
            text, mm = route.point("abs", min(route.length - 1, k * EVERY_REFERENT + network.chance.randrange(30_000)))
            name = network.add_referent(route, mm)
            sheets.record("routes.csv", f"REF-{name}", "ref", name, route.name, "abs", text)
            sheets.peer("ref", name, route.name, mm)
        write_line(sheets, network.chance, route)


def write_line(sheets, chance, route):
    """The route on a map, for PostGIS: points a kilometre apart at most, and at each mark, with the measure of each."""
    x, y, heading, points, last = chance.uniform(0, 800_000), chance.uniform(0, 800_000), chance.uniform(0, 6.28), [], 0
    for (c, m), (d, n) in zip(route.marks, route.marks[1:]):
        steps = 1 + (d - c) // 1_000_000
        for at in ([c] if not points else []) + [c + (d - c) * k // steps for k in range(1, steps + 1)]:
            heading += chance.gauss(0, 0.2)
            x, y, last = x + math.cos(heading) * (at - last) / 1_000, y + math.sin(heading) * (at - last) / 1_000, at
            points.append(f"{x!r} {y!r} {m + (at - c) * (n - m) / (d - c)!r}")
    sheets.peer("road", route.name, route.length, f"LINESTRING M ({','.join(points)})")


def write_asset(sheets, chance, route, number, asset):
    """An asset as a record, and as rows of the tables that the program keeps."""
    name, side, method, begin, end, low, high = asset
    value, offset = chance.choice(CLASSES[name][3]), chance.randint(*CLASSES[name][4])
    line = sheets.record("assets.csv", f"INV-{number}", "enter", number, name, route.name, side, method, begin, end, value, offset)
    side = SIDES.index(side)
    sheets.peer("asset", number, name, value, offset)
    sheets.peer("origin", number, sheets.edits)
    sheets.peer("span", number, route.name, low, high, side)
    for piece, a, b in route.parts(low, high):
        for one in (0, 1) if side == 2 else (side,):
            sheets.peer("entered", sheets.edits, number, piece.link, a, b, one if piece.forward else 1 - one)
    return line


def write_assets(sheets, network, count, retired):
    """All assets, by route, and again in no order; and of those that edits may retire, in no order, where they begin, have their middle and end."""
    whole, before, number, lines, found = sum(route.length for route in network.routes), 0, 1_000_000, [], []
    done = 0
    for route in network.routes:
        before += route.length
        wanted = count * before // whole - done
        done += wanted
        for asset in inventory(network, route, wanted):
            number += network.chance.randint(1, 5)
            lines.append(write_asset(sheets, network.chance, route, number, asset))
            if network.chance.random() * count < retired:
                low, high = asset[5:]
                places = [next(route.parts(mm, mm + 1)) for mm in (low, (low + high) // 2, high - 1)]
                found.append((number, CLASSES[asset[0]][0], [(piece.link, a) for piece, a, _ in places]))
    network.chance.shuffle(lines)
    sheets.file("assets-mixed.csv").writelines(lines)
    network.chance.shuffle(found)
    return found, number, sorted(int(line.split(",")[2]) for line in lines[:DAY["find"]])


def a_question(network, kind, numbers):
    """The parameters of a question, as names and values."""
    if kind == "totals":
        return []
    if kind == "find":
        return [("asset", network.chance.choice(numbers))]
    route = network.chance.choice(network.routes)
    if kind in ("segments", "strip"):
        return [("route", route.name), ("side", network.chance.choice("LR")), *(("class", name) for name in (["SPEED"] if kind == "segments" else EXCLUSIVES))]
    method, anchor = network.a_method(route)
    method, anchor = (method, anchor) if method == "rel" else ("abs", None)
    text, _ = route.point(method, network.chance.randrange(route.length), anchor)
    return [("route", route.name), ("method", method), ("pos", text), *([("to", "link")] if kind == "translate" else [])]


def write_questions(sheets, network, assets, numbers):
    for kind, most in DAY.items():
        for _ in range(min(most, of_size(most, assets, 200))):
            asked = a_question(network, kind, numbers)
            path, word = ("segments", "strip") if kind in ("segments", "strip") else (kind, kind)
            query = "&".join(f"{name}={str(value).replace('+', '%2B')}" for name, value in asked)
            words = " ".join([word, "DB", *(str(value) for _, value in asked)])
            sheets.file("questions.txt").write(f"{kind}\t/v1/{path}{'?' if query else ''}{query}\t{words}\n")


def write(folder, assets, seed):
    """Writes a country of so many assets into a folder."""
    chance = random.Random(seed)
    network, sheets = Network(chance, assets), Sheets(folder)
    verbs = verbs_of(chance, of_size(200_000, assets, 100))
    write_network(sheets, network)
    entered = min(assets, MOST_ASSETS - verbs.count("supersede"))
    retired, last, numbers = write_assets(sheets, network, entered, 4 * verbs.count("retire"))
    write_questions(sheets, network, assets, numbers)
    edits = Edits(network, retired, last + 1_000)
    for n, verb in enumerate(verbs):
        verb, fields = edits.one(verb)
        sheets.file("edits.csv").write(row(f"EDIT-{n}", verb, *fields))
    sheets.close()
    print(f"{folder}: {len(network.links):,} links, {entered:,} assets, {len(verbs):,} edits, {len(network.routes):,} routes after them", flush=True)


def main():
    reader = argparse.ArgumentParser(description=__doc__.splitlines()[0])
    reader.add_argument("command", nargs="?", choices=("write", "measure"))
    reader.add_argument("folder", nargs="?", type=pathlib.Path)
    reader.add_argument("--assets", type=int, default=MOST_ASSETS)
    reader.add_argument("--seed", type=int, default=1)
    reader.add_argument("--without-postgres", action="store_true")
    reader.add_argument("--edits", type=int)
    given = reader.parse_args()
    if given.command and not given.folder:
        reader.error("a command needs a folder")
    with tempfile.TemporaryDirectory(prefix="country-") as room:
        pathlib.Path(room).chmod(0o755)
        folder = given.folder or pathlib.Path(room)
        if given.command != "measure":
            write(folder, given.assets, given.seed)
        if given.command != "write":
            measure(folder, given.without_postgres, given.edits)


if __name__ == "__main__":
    main()
