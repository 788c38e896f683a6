"""What is at a chainage of a route or at a millimetre of a link (`where`), compared with what `at` and `translate` say."""

import pathlib
import random
import tempfile

import pytest

from program import ends, faults, run, sheet_of
from sent_sheets import random_record
from stores import edit, look, make, make_full

# a route that runs against its second link, with marks that bend and two referents
BENT = (
    "b1,link,7,4000",
    "b2,link,8,1500",
    "b3,route,C1,7:1000:3000:+ 8:200:1500:-,0:100 700:800 3300:900",
    "b4,ref,P1,C1,abs,800",
    "b5,ref,P2,C1,int,9/10",
    "b6,enter,20,SPEED,C1,B,int,0/1,1/1,50,0",
    "b7,enter,21,RAIL,C1,L,abs,200,850,wood,40",
    "b8,enter,22,SIGN,C1,R,rel,P2+0,,STOP,5",
)


@pytest.fixture
def db():
    with tempfile.TemporaryDirectory() as folder:
        path = pathlib.Path(folder) / "roads.db"
        make(path, *BENT)
        yield path


def said(*words):
    ended = run(*words)
    assert (ended.stderr, ended.status) == (b"", 0), ended
    return ended.stdout.decode()


def lengths_of(path):
    return dict(look(path, "SELECT route, SUM(b - a) FROM piece GROUP BY route")[0])


def refs_of(path, route):
    return [name for name, of in look(path, "SELECT name, route FROM ref ORDER BY name")[0] if of == route]


def wanted(path, route, chainage, length):
    """What the older questions say of the same place: its proportion is exact."""
    place = (str(path), route, "int", f"{chainage}/{length}")
    targets = [("abs", "abs"), ("int", "int"), *(("rel", f"rel:{name}") for name in refs_of(path, route))]
    return said("at", *place) + "".join(f"{method} {said('translate', *place, target)}" for method, target in targets)


@pytest.mark.parametrize("chainage", [0, 1, 699, 700, 701, 1999, 2000, 2001, 2970, 3299, 3300])
def test_a_chainage(db, chainage):
    assert said("where", db, "C1", str(chainage)) == wanted(db, "C1", chainage, 3300)


def test_what_is_printed(db):
    assert said("where", db, "C1", "2970") == (
        "C1 2970 8 529 -\n20 SPEED B 0 50 13\n22 SIGN R 5 STOP 15\nabs 11535/13\nint 9/10\nrel P1+2270\nrel P2+0\n"
    )


@pytest.mark.parametrize("link, first, behind", [("7", 1000, 3000), ("8", 200, 1500)])
def test_each_millimetre_of_a_link_is_where_at_says(db, link, first, behind):
    for mm in [first, first + 1, (first + behind) // 2, behind - 1]:
        told = said("where", db, "link", link, str(mm))
        route, chainage, on, at, _ = told.splitlines()[0].split()
        assert (route, on, at) == ("C1", link, str(mm))
        assert told == said("where", db, route, chainage)


def test_the_end_of_a_link(db):
    """At the end of a link the last millimetre is meant."""
    assert said("where", db, "link", "8", "1500") == said("where", db, "link", "8", "1499")


NO_PLACE = "PLACE is no place: millimetres, or abs:, rel: or int: before a position"


@pytest.mark.parametrize("method, position", [("abs", "100"), ("abs", "800"), ("abs", "801"), ("rel", "P1+5"), ("rel", "P2-7"), ("int", "1/3"), ("int", "0/1"), ("int", "1/1")])
def test_a_position_is_in_its_millimetre(db, method, position):
    """`where` at a position says what it says at the chainage of the millimetre in which `at` has the position."""
    chainage = said("at", db, "C1", method, position).split()[1]
    assert said("where", db, "C1", f"{method}:{position}") == said("where", db, "C1", chainage)


@pytest.mark.parametrize("place, name", [("abs:99", "OffRoute"), ("abs:901", "OffRoute"), ("rel:P1+9999", "OffRoute"), ("rel:P9+0", "NoRef")])
def test_positions_off_the_route(db, place, name):
    ends(run("where", db, "C1", place), b"", 1, f"roadlrs: {name}\n".encode())


@pytest.mark.parametrize(
    "words, name",
    [
        (["C9", "5"], "NoRoute"),
        (["C1", "3301"], "OffRoute"),
        (["C1", "10000000000"], "OffRoute"),
        (["link", "99", "0"], "NoLink"),
        (["link", "7", "999"], "OffRoute"),
        (["link", "7", "3000"], "OffRoute"),
        (["link", "7", "4001"], "OffRoute"),
    ],
)
def test_where_nothing_is(db, words, name):
    ends(run("where", db, *words), b"", 1, f"roadlrs: {name}\n".encode())


@pytest.mark.parametrize(
    "words, said",
    [
        (["c1", "5"], "ROUTE is no route name"),
        (["link", "5"], "ROUTE is no route name"),
        (["C1", "5.0"], NO_PLACE),
        (["C1", "10000000001"], NO_PLACE),
        (["C1", "abs:x"], NO_PLACE),
        (["C1", "rel:P1"], NO_PLACE),
        (["C1", "int:4/3"], NO_PLACE),
        (["C1", "ABS:100"], NO_PLACE),
        (["C1", "km:100"], NO_PLACE),
        (["C1", "5", "5"], "MM stands only behind the word link and LINK"),
        (["link", "0", "5"], "LINK is no link number"),
        (["link", "7", "-"], "MM is no millimetre of a link"),
    ],
)
def test_words_that_name_no_place(db, words, said):
    ended = run("where", db, *words)
    assert (ended.stdout, ended.status) == (b"", 2) and f"error: {said}\n".encode() in ended.stderr, ended


def test_places_of_inventories_of_chance(db):
    drawn = random.Random(23)
    for seed in range(12):
        path = db.with_name(f"{seed}.db")
        edit(path, sheet_of(*(random_record(drawn, n) for n in range(1, 60)), *(f"r{n},ref,Q{n},{route},int,1/{n + 1}" for n, route in enumerate("ABC"))))
        for route, length in lengths_of(path).items():
            for chainage in (0, drawn.randrange(length), length):
                assert said("where", path, route, str(chainage)) == wanted(path, route, chainage, length), (seed, route, chainage)


def test_a_place_makes_no_inventory():
    with tempfile.TemporaryDirectory() as folder:
        faults(run("where", f"{folder}/new.db", "A1", "5"), "Open")
        assert list(pathlib.Path(folder).iterdir()) == []


def test_a_place_in_memory():
    ends(run("where", ":memory:", "A1", "5"), b"", 1, b"roadlrs: NoRoute\n")


def test_places_across_a_split(db):
    """Where a route was divided at a millimetre, the second part has it."""
    full = db.with_name("full.db")
    make_full(full)
    assert said("where", full, "A1", "5000").splitlines()[0].startswith("A1 4999 1 4999 +")
    assert said("where", full, "A2", "0").splitlines()[0].startswith("A2 0 2 2999 -")
