"""Sheets that are written for somebody, over HTTP (`POST /v1/draft/KIND`): those that `draft` writes, and nothing is done."""

import json
import shutil
import urllib.parse

import pytest

from drawn_inventories import BEGUN, Drawn
from program import HEADER, run, sheet_of
from serving import CSV, answer, error, reply, request, started
from stores import edit, rows_of, settle

ROAD = sheet_of(
    "b1,link,1,10000",
    "b2,link,2,3000",
    "b3,class,SIGN,point",
    "b4,class,RAIL,stretch",
    "b5,route,A1,1:0:10000:+,0:0 4000:4000 10000:10000",
    "b6,enter,1,SIGN,A1,L,abs,3500,,STOP,1500",
    "b7,enter,2,RAIL,A1,R,abs,2500,3500,steel,0",
    "b8,split,A1,4000,A2",
)

# of each kind, in the words of the command line and as a form
GIVEN = [
    ("split", ["A1", "abs:2000", "A3"], [("route", "A1"), ("place", "abs:2000"), ("new", "A3")]),
    ("bypass", ["A1", "1000", "3000", "2:0:3000:+", "A1OLD"], [("route", "A1"), ("from", "1000"), ("to", "3000"), ("pieces", "2:0:3000:+"), ("old", "A1OLD")]),
    ("merge", ["A1", "A2"], [("route", "A1"), ("route", "A2")]),
    ("retire", ["1"], [("asset", "1")]),
    ("replace", ["1", "11", "GIVEWAY"], [("asset", "1"), ("number", "11"), ("value", "GIVEWAY")]),
    ("move", ["1", "12", "A1", "abs:500"], [("asset", "1"), ("number", "12"), ("route", "A1"), ("place", "abs:500")]),
    ("move", ["2", "13", "A1", "500", "1500"], [("asset", "2"), ("number", "13"), ("route", "A1"), ("from", "500"), ("to", "1500")]),
    ("undo", [], []),
    ("undo", ["--number", "50"], [("number", "50")]),
    ("retire", ["1", "--key", "KM-2026:"], [("asset", "1"), ("key", "KM-2026:")]),
]

# what cannot be done
IMPOSSIBLE = [
    ("split", ["A9", "2000", "A3"], [("route", "A9"), ("place", "2000"), ("new", "A3")]),
    ("split", ["A1", "2000", "A2"], [("route", "A1"), ("place", "2000"), ("new", "A2")]),
    ("merge", ["A1", "A9"], [("route", "A1"), ("route", "A9")]),
    ("retire", ["99"], [("asset", "99")]),
    ("replace", ["1", "2", "GIVEWAY"], [("asset", "1"), ("number", "2"), ("value", "GIVEWAY")]),
]

# what says no draft
UNREADABLE = [
    ("split", ["A1"], [("route", "A1")]),
    ("split", ["A1", "2000", "a3"], [("route", "A1"), ("place", "2000"), ("new", "a3")]),
    ("split", ["A1", "A2", "2000", "A3"], [("route", "A1"), ("place", "2000"), ("route", "A2"), ("new", "A3")]),
    ("bypass", ["A1", "1000", "3000", "2:0", "A1OLD"], [("route", "A1"), ("from", "1000"), ("to", "3000"), ("pieces", "2:0"), ("old", "A1OLD")]),
    ("merge", ["A1"], [("route", "A1")]),
    ("retire", [], []),
    ("retire", [""], [("asset", "")]),
    ("retire", ["x"], [("asset", "x")]),
    ("retire", ["1", "2"], [("asset", "1"), ("asset", "2")]),
    ("retire", ["1", "--key", "no space"], [("asset", "1"), ("key", "no space")]),
    ("replace", ["1", "11"], [("asset", "1"), ("number", "11")]),
    ("move", ["1", "12", "A1"], [("asset", "1"), ("number", "12"), ("route", "A1")]),
    ("undo", ["--number", "x"], [("number", "x")]),
]


@pytest.fixture
def path(tmp_path):
    path = tmp_path / "roads.db"
    assert edit(path, ROAD).status == 0
    settle(path)
    return path


def copy_of(path, name="copy.db"):
    copy = path.with_name(name)
    shutil.copy(path, copy)
    return copy


def asked(kind, form):
    return request(f"POST /v1/draft/{kind}", urllib.parse.urlencode(form).encode(), "Content-Type: application/x-www-form-urlencoded")


def explained(status, cause, why):
    said = {"error": cause, "why": why}
    return reply(status, json.dumps(said, separators=(",", ":"), ensure_ascii=False).encode())


def due(db, kind, words):
    """The reply that says the same as the command line does."""
    ended = run("draft", kind, str(db), *words)
    if ended.status == 0:
        assert ended.stdout.startswith(HEADER), ended
        return reply(200, ended.stdout, CSV)
    why = ended.stderr.decode().partition("\n")[0]
    status, cause = {1: (409, "NotDrafted"), 2: (400, "BadDraft")}[ended.status]
    return explained(status, cause, why)


@pytest.mark.parametrize("status, drafts", [(200, GIVEN), (409, IMPOSSIBLE), (400, UNREADABLE)], ids=["given", "impossible", "unreadable"])
def test_a_draft_is_that_of_the_command_line(path, status, drafts):
    copy, before = copy_of(path), rows_of(path)
    with started(db=path) as server:
        for kind, words, form in drafts:
            expected = due(copy, kind, words)
            assert expected.startswith(b"HTTP/1.1 %d " % status), (kind, words, expected)
            server.answers(asked(kind, form), expected)
            # names say which word is which; of one name the values keep their order
            server.answers(asked(kind, sorted(form, key=lambda pair: pair[0], reverse=True)), expected)
    assert rows_of(path) == before


@pytest.mark.parametrize("number", range(len(GIVEN)))
def test_a_drafted_sheet_is_done(path, number):
    kind, _, form = GIVEN[number]
    with started(db=path) as server:
        sheet = answer(server.port, asked(kind, form)).partition(b"\r\n\r\n")[2]
        keys = [line.partition(b",")[0] for line in sheet.splitlines()[1:]]
        done = b"".join(b"%s,done,%d\n" % (key, edit) for edit, key in enumerate(keys, 9))
        assert keys and keys[0].endswith(b"9-1"), sheet
        server.does("edits", sheet, done)


def test_an_edit_is_undone_by_its_number(path):
    # as far as the command line does it
    copy = copy_of(path)
    with started(db=path) as server:
        for since in ("8", "7", "x", "999"):
            server.answers(asked("undo", [("since", since)]), due(copy, "undo", [since]))


def test_what_took_an_asset_away_is_undone_with_a_new_one(path):
    edit(path, sheet_of("x1,retire,1,A1,abs,3500,"))
    settle(path)
    copy = copy_of(path)
    with started(db=path) as server:
        server.answers(asked("undo", []), due(copy, "undo", []))
        expected = due(copy, "undo", ["--number", "500"])
        server.answers(asked("undo", [("number", "500")]), expected)
        assert expected.startswith(b"HTTP/1.1 200 ") and b",500," in expected, expected


def test_parameters_that_are_not_known(path):
    with started(db=path) as server:
        for kind, _, form in GIVEN:
            known = {name for name, _ in form} | {"key", *(["since", "number"] if kind == "undo" else []), *(["place", "from", "to"] if kind == "move" else [])}
            for name in {"x", "", "Route", "route", "asset", "number", "since", "place", "resume"} - known:
                # it is told before any other fault
                for others in (form, [("asset", "x")] if "asset" in known else []):
                    server.answers(asked(kind, [*others, (name, "1")]), error(400, f"Unknown:{name}"))


def test_bodies_that_are_no_forms(path):
    with started(db=path) as server:
        server.answers(request("POST /v1/draft/undo", b""), due(copy_of(path), "undo", []))
        server.answers(request("POST /v1/draft/undo", b"&&"), due(copy_of(path), "undo", []))
        server.answers(request("POST /v1/draft/split", b""), explained(400, "BadDraft", "split wants ROUTE PLACE NEW"))
        server.answers(request("POST /v1/draft/split", b"route=%ff&place=1&new=\xff"), explained(400, "BadDraft", "ROUTE is no route name"))
        server.answers(request("POST /v1/draft/retire", b"asset=%31"), due(copy_of(path), "retire", ["1"]))
        server.answers(request("POST /v1/draft/retire", ROAD), error(400, "Unknown:" + ROAD.decode().replace("\n", "\\n").replace("+", " ")))


def test_other_methods_and_paths(path):
    with started(db=path) as server:
        for kind in ("split", "bypass", "merge", "retire", "replace", "move", "undo"):
            server.answers(request(f"GET /v1/draft/{kind}"), reply(405, allow="POST"))
            server.answers(request(f"POST /v1/draft/{kind}"), reply(411))
        for other in ("", "/", "/paint", "/split/", "/Split"):
            server.answers(request(f"POST /v1/draft{other}", b""), reply(404))


def test_drawn_drafts(tmp_path):
    given = 0
    for seed in range(10):
        drawn = Drawn(2000 + seed)
        pick = drawn.random
        path = tmp_path / f"{seed}.db"
        edit(path, BEGUN)
        edit(path, drawn.sheet(30))
        settle(path)
        copy = copy_of(path, f"{seed}-copy.db")
        with started(db=path) as server:
            for _ in range(6):
                asset, route, place = str(pick.randint(1, 12)), pick.choice("ABC"), str(pick.randint(1, 20))
                kind, words, form = pick.choice([
                    ("retire", [asset], [("asset", asset)]),
                    ("replace", [asset, "77", "99"], [("asset", asset), ("number", "77"), ("value", "99")]),
                    ("split", [route, place, "N"], [("route", route), ("place", place), ("new", "N")]),
                    ("undo", [], []),
                ])
                expected = due(copy, kind, words)
                server.answers(asked(kind, form), expected)
                given += expected.startswith(b"HTTP/1.1 200 ")
    assert given > 5
