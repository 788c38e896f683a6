"""`route`: the commands that make a route, as an edit sheet. Done where its links are and it is not, they make the same route."""

import concurrent.futures
import os
import random

from drawn_rows import ROUTES, empty_store, sound_store, write
from program import HEADER, TOP, ends, lines, refuses_word, run, sheet_of
from soundness import course_of, rows_on
from stores import edit, folder, look, make

STORES = 200

# How many of them are looked at at a time.
SIDE_BY_SIDE = min(os.cpu_count() or 2, 4)

# What is known of a route: the tables in which it has rows, and the columns of these.
OF_ROUTES = {"piece": "route, n, link, a, b, dir", "mark": "route, n, chainage, measure", "ref": "name, route, place"}


def words(rows, *columns):
    return " ".join(":".join(str(row[column]) for column in columns) for row in rows)


def sheet_of_route(store, route):
    """The sheet of a route by the rows of its tables."""
    pieces = words([{**row, "dir": "+-"[row["dir"]]} for row in rows_on(store, "piece", route)], "link", "a", "b", "dir")
    marks = words(rows_on(store, "mark", route), "chainage", "measure")
    refs = sorted((row["name"].decode(), row["place"]) for row in store["ref"] if row["route"] == route)
    name, length = route.decode(), len(course_of(store, route))
    if not refs:
        return sheet_of(f"route-{name},route,{name},{pieces},{marks}")
    laid = f"route-{name},route,{name},{pieces},0:0 {length}:{length}"
    return sheet_of(laid, *(f"ref-{ref},ref,{ref},{name},abs,{at}" for ref, at in refs), f"recalibrate-{name},recalibrate,{name},{marks}")


def rows_of_routes(path):
    """What a file has in each of their tables."""
    return [sorted(rows) for rows in look(path, *(f"SELECT {columns} FROM {table}" for table, columns in OF_ROUTES.items()))]


def links_of(store):
    return sheet_of(*(f"link-{row['number']},link,{row['number']},{row['length']}" for row in store["link"]))


def made_again(path, sheets):
    """Does these sheets, one behind the other, on a new file; each record is done."""
    sheet = HEADER + b"".join(text.removeprefix(HEADER) for text in sheets)
    keys = [line.split(",")[0] for line in sheet.decode().splitlines()[1:]]
    ends(edit(path, sheet), lines(*(f"{key},done,{n}" for n, key in enumerate(keys, 1))), 0)


def is_told_and_made(empty, number):
    """Of the inventory of this number, each route is told as its rows say, and made again; how many routes had how many referents."""
    drawn = random.Random(number)
    store = sound_store(drawn)
    routes = [route for route in ROUTES if course_of(store, route)]
    with folder() as path, folder() as other:
        write(path, empty, drawn, store)
        told = [run("route", str(path), route.decode()) for route in routes]
        for route, ended in zip(routes, told, strict=True):
            ends(ended, sheet_of_route(store, route), 0)
        made_again(other, [links_of(store), *(ended.stdout for ended in told)])
        assert rows_of_routes(other) == rows_of_routes(path), number
    return [len([row for row in store["ref"] if row["route"] == route]) for route in routes]


def test_routes_of_random_inventories_are_told_and_made_again():
    empty = empty_store()
    with concurrent.futures.ThreadPoolExecutor(SIDE_BY_SIDE) as pool:
        counts = [count for found in pool.map(lambda number: is_told_and_made(empty, number), range(STORES)) for count in found]
    assert min(counts) == 0 and max(counts) >= 2 and len(counts) > STORES


def test_the_routes_of_the_county_are_made_again():
    sheets = [(TOP / "examples" / f"{name}.csv").read_bytes() for name in ["network", "classes"]]
    with folder() as path, folder() as other:
        for sheet in sheets:
            assert edit(path, sheet).status == 0
        listed = run("list", str(path), "routes").stdout.decode().splitlines()[1:]
        told = [run("route", str(path), line.split(",")[0]).stdout for line in listed]
        rows = run("list", str(path), "links").stdout.decode().splitlines()[1:]
        links = sheet_of(*(f"link-{row.split(',')[0]},link,{row.split(',')[0]},{row.split(',')[1]}" for row in rows))
        made_again(other, [links, *told])
        assert len(told) > 3 and rows_of_routes(other) == rows_of_routes(path)
        assert [run("route", str(other), line.split(",")[0]).stdout for line in listed] == told


def test_a_route_without_referents_is_one_record():
    with folder() as path:
        make(path)
        ends(run("route", str(path), "A1"), sheet_of("route-A1,route,A1,1:0:5000:+ 2:0:3000:-,0:0 5000:6000 8000:9000"), 0)


# a route on which no whole measure, and no proportion of a small denominator, stands in the millimetre of a referent
FINE = sheet_of(
    "k1,link,1,900000000",
    "k2,route,B-1,1:0:900000000:-,0:12 900000000:13",
    "k3,ref,START,B-1,int,0/1",
    "k4,ref,KM2,B-1,rel,START+123456789",
    "k5,unref,START",
    "k6,ref,KM10,B-1,rel,KM2-123456788",
)
TOLD = sheet_of(
    "route-B-1,route,B-1,1:0:900000000:-,0:0 900000000:900000000",
    "ref-KM10,ref,KM10,B-1,abs,1",
    "ref-KM2,ref,KM2,B-1,abs,123456789",
    "recalibrate-B-1,recalibrate,B-1,0:12 900000000:13",
)


def test_referents_come_by_their_names_in_their_millimetres():
    with folder() as path:
        assert edit(path, FINE).status == 0
        ends(run("route", str(path), "B-1"), TOLD, 0)
        # where the route and its referents are, only the marks are done, and are the same
        refused = ["route-B-1,refused,RouteKnown", "ref-KM10,refused,RefKnown", "ref-KM2,refused,RefKnown"]
        ends(edit(path, TOLD), lines(*refused, "recalibrate-B-1,done,7"), 1)
        ends(run("route", str(path), "B-1"), TOLD, 0)


def test_a_route_that_is_not_there_and_a_word_that_is_no_route():
    with folder() as path:
        make(path)
        ends(run("route", str(path), "A2"), b"", 1, b"roadlrs: NoRoute\n")
        refuses_word(run("route", str(path), "a1"), "ROUTE is no route name")
