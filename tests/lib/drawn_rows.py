"""Small inventories that are drawn, as rows for soundness.py: sound ones, and ones with a fault."""

import contextlib
import sqlite3

import soundness
from program import HEADER, ends
from stores import TABLES, TEXTS, edit, folder

CLASSES = [b"A", b"B"]
ROUTES = [b"R0", b"R1", b"R2"]

# How many edits there are.
EDITS = 5

# What became of a place that an asset holds.
HELD = "held"


def add(store, table, *values):
    """Adds a row with a value for each column of the table."""
    store[table].append(dict(zip(TABLES[table][0].split(), values, strict=True)))


def add_links(drawn, store):
    number = 0
    for _ in range(drawn.randint(2, 3)):
        number += drawn.randint(1, 2)
        add(store, "link", number, drawn.randint(1, 7))


def add_classes(drawn, store):
    for name in CLASSES:
        add(store, "class", name, drawn.choice([0, 1, 2, 2]))


def add_assets(drawn, store):
    number = 0
    for _ in range(drawn.randint(2, 4)):
        number += drawn.randint(1, 2)
        add(store, "asset", number, drawn.choice(CLASSES), b"x", drawn.choice([0, 100_000]))


# ---- routes


def cuts_of(drawn, link):
    """The link, cut into pieces that are run over forwards or backwards."""
    start = 0
    while start < link["length"]:
        end = min(start + drawn.randint(1, 5), link["length"])
        yield link["number"], start, end, drawn.randrange(2)
        start = end


def add_piece(store, route, cut):
    """Adds the cut to the route, unless its course could then be written in fewer pieces."""
    add(store, "piece", route, len(soundness.rows_on(store, "piece", route)), *cut)
    if not soundness.are_as_few_as_can_be(store, route):
        store["piece"].pop()


def add_pieces(drawn, store):
    """Adds the pieces of up to three routes; of some cuts there is no route."""
    cuts = [cut for link in store["link"] for cut in cuts_of(drawn, link)]
    drawn.shuffle(cuts)
    for cut in cuts:
        route = drawn.choice([*ROUTES, None])
        if route is not None:
            add_piece(store, route, cut)


def add_marks(drawn, store, route, length):
    inner = drawn.sample(range(1, length), drawn.randrange(min(3, length)))
    measure = drawn.randrange(2)
    for n, chainage in enumerate([0, *sorted(inner), length]):
        add(store, "mark", route, n, chainage, measure)
        measure += drawn.randint(1, 3)


def add_referents(drawn, store, route, length):
    for _ in range(drawn.randrange(3)):
        add(store, "ref", b"K%d" % len(store["ref"]), route, drawn.randrange(length))


def add_span(store, *values):
    """Adds the span, unless it would meet another of its asset, or of its exclusive class."""
    add(store, "span", *values)
    if not soundness.are_spans(store):
        store["span"].pop()


def add_spans(drawn, store, route, length):
    for asset in store["asset"]:
        for _ in range(drawn.randrange(4)):
            lo = drawn.randrange(length)
            hi = min(lo + drawn.randint(1, 6), length)
            add_span(store, asset["number"], route, lo, hi, drawn.choice([0, 1, 2, 2]))


def add_routes(drawn, store):
    """Adds routes, and the spans on them."""
    add_pieces(drawn, store)
    for route in ROUTES:
        length = len(soundness.course_of(store, route))
        if length > 0:
            add_marks(drawn, store, route, length)
            add_referents(drawn, store, route, length)
            add_spans(drawn, store, route, length)


# ---- ledgers


def fates_on(drawn, is_held):
    """What became of each place of a line, of which some are held: the edit and the cause by which
    it is gone, or none where it was never entered."""
    fate = None
    for held in is_held:
        if drawn.randrange(3) == 0:
            fate = drawn.choice([None, (drawn.randint(1, EDITS), drawn.randrange(2))])
        yield HELD if held else fate


def runs_of(drawn, fates):
    """The stretches of one fate, some of them in two: a ledger may have more rows than it needs."""
    start = 0
    for end in range(1, len(fates) + 1):
        if end == len(fates) or fates[end] != fates[start] or drawn.randrange(8) == 0:
            yield fates[start], start, end
            start = end


def enter(drawn, store, edit, fates, asset, link, side):
    """Enters by this edit what is held or gone, and what is gone as gone."""
    for was_entered, lo, hi in runs_of(drawn, [fate is not None for fate in fates]):
        if was_entered:
            add(store, "entered", edit, asset, link, lo, hi, side)
    for fate, lo, hi in runs_of(drawn, fates):
        if fate not in (HELD, None):
            add(store, "gone", *fate, asset, link, lo, hi, side)


def add_parts(drawn, store, asset, edit, held):
    """Adds the parts of an asset, which this edit entered."""
    for link in store["link"]:
        for side in (0, 1):
            line = [(asset, link["number"], mm, side) for mm in range(link["length"])]
            fates = list(fates_on(drawn, [place in held for place in line]))
            enter(drawn, store, edit, fates, asset, link["number"], side)


def add_ledgers(drawn, store):
    held = soundness.held_in(store)
    for asset in store["asset"]:
        add_parts(drawn, store, asset["number"], drawn.randint(1, EDITS), held)


def add_origins(store):
    """Adds the edit that entered each asset; an asset that was never entered goes."""
    entered = [row["asset"] for row in store["entered"]]
    store["asset"] = [asset for asset in store["asset"] if asset["number"] in entered]
    for asset in store["asset"]:
        add(store, "origin", asset["number"], *soundness.edits_entering(store, asset["number"]))


def sound_store(drawn):
    """Links of a few millimetres, routes over parts of them, assets on the routes, and ledgers of
    what these hold and of more that is gone."""
    store = {table: [] for table in TABLES}
    add(store, "version", 2)
    add_links(drawn, store)
    add_classes(drawn, store)
    add_assets(drawn, store)
    add_routes(drawn, store)
    add_ledgers(drawn, store)
    for number in range(1, EDITS + 1):
        add(store, "edit", number, b"k%d" % number, b"link,1,5")
    add_origins(store)
    return store


# ---- one fault

# The greatest number of a column, where it has a limit of its own.
GREATEST = {
    ("link", "number"): 999_999,
    ("link", "length"): 1_000_000_000,
    ("asset", "number"): 1_000_000_000_000,
    ("asset", "lateral"): 100_000,
    ("mark", "measure"): 100_000_000_000,
}

# Texts about the limits of names, values and keys, and one that is no text.
LIMIT_TEXTS = [
    *(b"", b"-", b"-A", b"A-", b"A B", b"a.b_c", b"a:b", b"A\0", "Ä".encode(), b"\xff"),
    *(b"A" * length for length in (8, 9, 12, 13, 40, 41)),
]

# The columns of a row's start and end.
ENDS = {"piece": ("a", "b"), "span": ("lo", "hi"), "entered": ("lo", "hi"), "gone": ("lo", "hi")}


def about_limits(table, column, number):
    """Numbers about the limits of the column, or of what a program keeps in 32 or 64 bits."""
    greatest = GREATEST.get((table, column))
    return [-1, number + 2**32, 2**63 - 1] if greatest is None else [-1, 0, greatest, greatest + 1]


def other_value(drawn, table, rows, row, column):
    """A value that some row has, or one beside this one, or one about a limit."""
    elsewhere = [other[column] for other in rows]
    if column in TEXTS:
        return drawn.choice(drawn.choice([elsewhere, LIMIT_TEXTS]))
    beside = [row[column] - 1, row[column] + 1]
    return drawn.choice(drawn.choice([elsewhere, beside, about_limits(table, column, row[column])]))


def like(drawn, table, rows, row, columns):
    """The row with another value in one of these columns."""
    column = drawn.choice(columns)
    return {**row, column: other_value(drawn, table, rows, row, column)}


def with_in_its_place(rows, row, others):
    return [each for other in rows for each in (others if other is row else [other])]


def one_changed(drawn, table, rows, row):
    return with_in_its_place(rows, row, [like(drawn, table, rows, row, list(row))])


def one_more(drawn, table, rows, row):
    """One more row with another key."""
    return [*rows, like(drawn, table, rows, row, TABLES[table][1].split())]


def one_gone(_drawn, _table, rows, row):
    return with_in_its_place(rows, row, [])


def numbered_anew(pieces):
    """The pieces of each route with the numbers from 0 on."""
    by_route = [[piece for piece in pieces if piece["route"] == route] for route in ROUTES]
    return [{**piece, "n": n} for on_route in by_route for n, piece in enumerate(on_route)]


def one_in_two(drawn, table, rows, row):
    """One row cut in two, where it is long enough: a ledger may have it so, and a route may not."""
    start, end = ENDS.get(table, (None, None))
    if start is None or row[end] - row[start] < 2:
        return rows
    middle = drawn.randrange(row[start] + 1, row[end])
    halves = [{**row, end: middle}, {**row, start: middle}]
    if table != "piece":
        return with_in_its_place(rows, row, halves)
    return numbered_anew(with_in_its_place(rows, row, halves if row["dir"] == 0 else halves[::-1]))


FAULTS = [one_changed, one_changed, one_changed, one_more, one_gone, one_in_two]


def are_once(rows, columns):
    return soundness.are_once([tuple(row[column] for column in columns.split()) for row in rows])


def can_be_stored(table, rows):
    """Whether each key is there once: sqlite takes no other rows."""
    _, key, _, unique = TABLES[table]
    return are_once(rows, key) and (not unique or are_once(rows, unique))


def damaged(drawn, store):
    """The store with one fault, which need not make it unsound."""
    table = drawn.choice([table for table in TABLES if store[table]])
    before = store[table]
    rows = drawn.choice(FAULTS)(drawn, table, before, drawn.choice(before))
    if rows == before or not can_be_stored(table, rows):
        return damaged(drawn, store)
    return {**store, table: rows}


# ---- files of them


def empty_store():
    """The bytes of a store that the program made, with no row but that of the version."""
    with folder() as path:
        ends(edit(path, HEADER), b"", 0)
        return path.read_bytes()


def insertion(table):
    """A text is given as its bytes, which need not be a text."""
    columns = TABLES[table][0].split()
    values = ["CAST(? AS TEXT)" if column in TEXTS else "?" for column in columns]
    return f"INSERT INTO {table} VALUES ({', '.join(values)})"


def write(path, empty, drawn, store):
    """Writes the rows into the tables of the empty store, in an order that is drawn."""
    path.write_bytes(empty)
    with contextlib.closing(sqlite3.connect(path, isolation_level=None)) as db:
        db.execute("PRAGMA synchronous = OFF")
        db.execute("BEGIN")
        db.execute("DELETE FROM version")
        for table, rows in store.items():
            in_some_order = drawn.sample(rows, len(rows))
            db.executemany(insertion(table), [tuple(row.values()) for row in in_some_order])
        db.execute("COMMIT")
