"""The first unsound table of a store's rows, as it is defined in Content.antt of lrs_store_tables and
Sound.antt of lrs_machine. Each row, each two rows and each millimetre are looked at, and nothing is
sorted or searched.

A store is a list of rows for each table, and a row has a value for each column. That each key is
there once is sqlite's to say, and is not asked again. Nor is what only large inventories can fail:
too many rows, pieces or marks, too many places of an asset, and a route that is too long.
"""

import itertools
import re

CLASS = re.compile(rb"[A-Z0-9]{1,8}")
REFERENT = re.compile(rb"[A-Z0-9]{1,12}")
ROUTE = re.compile(rb"[A-Z0-9][A-Z0-9-]{0,11}")
VALUE = re.compile(rb"(?!-$)[A-Za-z0-9._-]{1,12}")
KEY = re.compile(rb"(?!-$)[A-Za-z0-9.:_-]{1,40}")


def are_versions(store):
    return len(store["version"]) == 1 and store["version"][0]["v"] in (1, 2)


def is_link(row):
    return 1 <= row["number"] <= 999_999 and 1 <= row["length"] <= 1_000_000_000


def are_links(store):
    return all(is_link(row) for row in store["link"])


def are_classes(store):
    return all(CLASS.fullmatch(row["name"]) and row["kind"] in (0, 1, 2) for row in store["class"])


def is_of_a_class(store, asset):
    return any(row["name"] == asset["class"] for row in store["class"])


def is_asset(store, row):
    in_limits = 1 <= row["number"] <= 1_000_000_000_000 and 0 <= row["lateral"] <= 100_000
    return in_limits and VALUE.fullmatch(row["value"]) and is_of_a_class(store, row)


def are_assets(store):
    return all(is_asset(store, row) for row in store["asset"])


# ---- routes


def is_on_a_link(store, row, start, end):
    """Whether the row's link has what is between these columns, which is a millimetre or more."""
    links = [link for link in store["link"] if link["number"] == row["link"]]
    return 0 <= row[start] < row[end] and any(row[end] <= link["length"] for link in links)


def is_piece(store, row):
    on_a_link = is_on_a_link(store, row, "a", "b")
    return on_a_link and row["dir"] in (0, 1) and ROUTE.fullmatch(row["route"])


def routes_of(store):
    return {row["route"] for row in store["piece"]}


def rows_on(store, table, route):
    """The rows of a route that have the numbers 0, 1 and so on, in this order."""
    rows = [row for row in store[table] if row["route"] == route]
    return [row for n in range(len(rows)) for row in rows if row["n"] == n]


def are_numbered(store, table):
    """Whether each row is of a route, and those of each route have the numbers from 0 on."""
    on_routes = [rows_on(store, table, route) for route in routes_of(store)]
    return sum(len(rows) for rows in on_routes) == len(store[table])


def ground_of(piece):
    """Each millimetre in turn: the link, the millimetre, and whether the piece runs forwards."""
    millimetres = range(piece["a"], piece["b"])
    forwards = piece["dir"] == 0
    in_turn = millimetres if forwards else reversed(millimetres)
    return [(piece["link"], mm, forwards) for mm in in_turn]


def course_of(store, route):
    pieces = rows_on(store, "piece", route)
    return [ground for piece in pieces for ground in ground_of(piece)]


def goes_on(ground, other):
    """Whether the other millimetre is the next one on the link, in the same direction."""
    link, mm, forwards = ground
    return other == (link, mm + 1 if forwards else mm - 1, forwards)


def are_as_few_as_can_be(store, route):
    """Whether the course of the route's pieces can't be written in fewer."""
    neighbours = itertools.pairwise(course_of(store, route))
    seams = sum(not goes_on(ground, other) for ground, other in neighbours)
    return len(rows_on(store, "piece", route)) == seams + 1


def are_once(items):
    return len(items) == len(set(items))


def are_pieces(store):
    if not all(is_piece(store, row) for row in store["piece"]) or not are_numbered(store, "piece"):
        return False
    routes = routes_of(store)
    ground = [(link, mm) for route in routes for link, mm, _ in course_of(store, route)]
    return are_once(ground) and all(are_as_few_as_can_be(store, route) for route in routes)


def rise(rows, column):
    return all(row[column] < other[column] for row, other in itertools.pairwise(rows))


def have_marks(store, route):
    """Whether the route has marks at both its ends, and the marks rise along it."""
    marks = rows_on(store, "mark", route)
    length = len(course_of(store, route))
    if len(marks) < 2 or marks[0]["chainage"] != 0 or marks[-1]["chainage"] != length:
        return False
    in_limits = all(0 <= mark["measure"] <= 100_000_000_000 for mark in marks)
    return in_limits and rise(marks, "chainage") and rise(marks, "measure")


def are_marks(store):
    are_on_routes = are_numbered(store, "mark")
    return are_on_routes and all(have_marks(store, route) for route in routes_of(store))


def is_referent(store, row):
    is_on_a_route = 0 <= row["place"] < len(course_of(store, row["route"]))
    return is_on_a_route and REFERENT.fullmatch(row["name"])


def are_referents(store):
    return all(is_referent(store, row) for row in store["ref"])


# ---- what lies on routes


def is_of_an_asset(store, row):
    return any(asset["number"] == row["asset"] for asset in store["asset"])


def is_span(store, row):
    is_on_a_route = 0 <= row["lo"] < row["hi"] <= len(course_of(store, row["route"]))
    return is_on_a_route and row["side"] in (0, 1, 2) and is_of_an_asset(store, row)


def are_apart(row, other):
    """Whether two rows of one asset on one route do not meet, or touch on different sides."""
    if (row["asset"], row["route"]) != (other["asset"], other["route"]):
        return True
    if row["hi"] == other["lo"] or other["hi"] == row["lo"]:
        return row["side"] != other["side"]
    return row["hi"] < other["lo"] or other["hi"] < row["lo"]


def places_at(ground, side):
    """The places beside a millimetre: of a route that runs back, the left is the link's right."""
    link, mm, forwards = ground
    sides = (0, 1) if side == 2 else (side,)
    return [(link, mm, each if forwards else 1 - each) for each in sides]


def places_of_span(store, row):
    ground = course_of(store, row["route"])[row["lo"] : row["hi"]]
    return [place for each in ground for place in places_at(each, row["side"])]


def held_in(store):
    """Each asset with each place that it holds."""
    rows = store["span"]
    return {(row["asset"], *place) for row in rows for place in places_of_span(store, row)}


def keeps_exclusive(store, name):
    """Whether no two assets of the class hold one place."""
    assets = [asset["number"] for asset in store["asset"] if asset["class"] == name]
    return are_once([tuple(place) for asset, *place in held_in(store) if asset in assets])


def are_spans(store):
    if not all(is_span(store, row) for row in store["span"]):
        return False
    if not all(are_apart(row, other) for row, other in itertools.combinations(store["span"], 2)):
        return False
    return all(keeps_exclusive(store, row["name"]) for row in store["class"] if row["kind"] == 2)


# ---- ledgers, and edits


def is_part(store, row):
    on_a_link = is_on_a_link(store, row, "lo", "hi")
    in_limits = row["side"] in (0, 1) and row["edit"] >= 0
    return on_a_link and in_limits and is_of_an_asset(store, row)


def pairs_of(row):
    """The row's asset with each of its places."""
    return [(row["asset"], row["link"], mm, row["side"]) for mm in range(row["lo"], row["hi"])]


def all_pairs(rows):
    """Each asset with each place that the rows have, as often as they have it."""
    return [pair for row in rows for pair in pairs_of(row)]


def are_parts(store, rows):
    return all(is_part(store, row) for row in rows) and are_once(all_pairs(rows))


def are_entered(store):
    return are_parts(store, store["entered"])


def are_gone(store):
    """Nothing is gone that was not entered, and what was entered is held or gone."""
    have_causes = all(row["cause"] in (0, 1) for row in store["gone"])
    if not have_causes or not are_parts(store, store["gone"]):
        return False
    entered, gone = set(all_pairs(store["entered"])), set(all_pairs(store["gone"]))
    return gone <= entered and held_in(store) == entered - gone


def is_text(line):
    try:
        return line.decode() is not None
    except UnicodeDecodeError:
        return False


def are_edits(store):
    """They have the numbers from 1 on, and those that the ledgers name are among them."""
    numbers = [row["number"] for row in store["edit"]]
    are_counted = all(n in numbers for n in range(1, len(numbers) + 1))
    are_named = all(row["edit"] in numbers for row in [*store["entered"], *store["gone"]])
    are_texts = all(KEY.fullmatch(row["token"]) and is_text(row["line"]) for row in store["edit"])
    return are_counted and are_named and are_texts


def edits_entering(store, asset):
    return {row["edit"] for row in store["entered"] if row["asset"] == asset}


def are_origins(store):
    """One edit entered each asset, and is told for each; a store of version 1 tells none."""
    entering = {row["number"]: edits_entering(store, row["number"]) for row in store["asset"]}
    if store["version"][0]["v"] == 1:
        return not store["origin"] and all(len(edits) == 1 for edits in entering.values())
    return entering == {row["asset"]: {row["edit"]} for row in store["origin"]}


# in the order in which an unsound table is named
TESTS = {
    "version": are_versions,
    "link": are_links,
    "class": are_classes,
    "asset": are_assets,
    "piece": are_pieces,
    "mark": are_marks,
    "ref": are_referents,
    "span": are_spans,
    "entered": are_entered,
    "gone": are_gone,
    "edit": are_edits,
    "origin": are_origins,
}


def first_unsound(store):
    """The first table that fails its test, each read with the ones before it, or none."""
    return next((table for table, test in TESTS.items() if not test(store)), None)
