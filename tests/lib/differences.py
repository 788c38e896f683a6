"""What two inventories differ in, worked out millimetre by millimetre from the tables of their files: what the program says is compared with it."""

import itertools

from stores import look

KINDS = ("point", "stretch", "exclusive")


def ground(pieces):
    """Of each millimetre of a route: its link, the millimetre of the link, and whether the route runs with the link."""
    found = []
    for link, low, high, backwards in pieces:
        mms = range(low, high)
        found += [(link, mm, not backwards) for mm in (reversed(mms) if backwards else mms)]
    return found


def longest_pieces(course):
    """The fewest pieces that have this ground, as texts."""
    pieces = []
    for link, mm, forward in course:
        last = pieces[-1] if pieces else None
        if last and last[0] == link and last[3] == forward and mm == (last[2] if forward else last[1] - 1):
            last[2 if forward else 1] += 1 if forward else -1
        else:
            pieces.append([link, mm, mm + 1, forward])
    return " ".join(f"{link}:{low}:{high}:{'+' if forward else '-'}" for link, low, high, forward in pieces)


class Told:
    """What an inventory says, each thing under its key: of links, classes, routes, referents and assets the text; and the places that assets hold."""

    def __init__(self, path):
        links, classes, assets, pieces, marks, refs, spans = (
            look(path, sql)[0]
            for sql in (
                "SELECT number, length FROM link",
                "SELECT name, kind FROM class",
                "SELECT number, class, value, lateral FROM asset",
                "SELECT route, link, a, b, dir FROM piece ORDER BY route, n",
                "SELECT route, chainage, measure FROM mark ORDER BY route, n",
                "SELECT name, route, place FROM ref",
                "SELECT asset, route, lo, hi, side FROM span",
            )
        )
        courses = {name: ground([row[1:] for row in rows]) for name, rows in itertools.groupby(pieces, lambda row: row[0])}
        lines = {name: " ".join(f"{chainage}:{measure}" for _, chainage, measure in rows) for name, rows in itertools.groupby(marks, lambda row: row[0])}
        self.assets = {number: f"{number},{kind},{value},{lateral}" for number, kind, value, lateral in assets}
        self.said = [
            {number: f"link,{number},{length}" for number, length in links},
            {name: f"class,{name},{KINDS[kind]}" for name, kind in classes},
            {name: f"route,{name},{longest_pieces(course)},{lines[name]}" for name, course in courses.items()},
            {name: "ref,{},{},{}".format(name, *courses[route][place][:2]) for name, route, place in refs},
            {number: f"asset,{text}" for number, text in self.assets.items()},
        ]
        self.held = {
            (asset, link, mm, hand if forward else "RL"["LR".index(hand)])
            for asset, route, low, high, side in spans
            for link, mm, forward in courses[route][low:high]
            for hand in ("L", "R", "LR")[side]
        }

    def lines_alone(self, other):
        """What this inventory holds and the other does not: the key of each line, and its text."""
        alone = {}
        for asset, link, mm, hand in self.held - other.held:
            alone.setdefault((asset, link, mm), set()).add(hand)
        found = []
        for (asset, link, mm), hands in sorted(alone.items()):
            side = "B" if len(hands) == 2 else min(hands)
            last = found[-1] if found else None
            if last and last[:2] == [asset, link] and last[3] == mm and last[4] == side:
                last[3] = mm + 1
            else:
                found.append([asset, link, mm, mm + 1, side])
        return {(asset, link, low): f"holds,{self.assets[asset]},{link},{low},{high},{side}" for asset, link, low, high, side in found}


def difference(before, after):
    """The lines of the difference of two files, as bytes."""
    one, other = Told(before), Told(after)
    lines = []
    for was, now in [*zip(one.said, other.said), (one.lines_alone(other), other.lines_alone(one))]:
        lines += sorted(
            [(key, 0, f"-,{text}") for key, text in was.items() if now.get(key) != text]
            + [(key, 1, f"+,{text}") for key, text in now.items() if was.get(key) != text]
        )
    return "".join(f"{text}\n" for _, _, text in lines).encode()
