"""Sheets that are written for somebody (`draft`): each is done on a copy of the inventory, and differs from it as it was meant to."""

import pathlib
import shutil
import tempfile

import pytest

from differences import Told, difference
from drawn_inventories import BEGUN, Drawn
from program import HEADER, run, sheet_of
from stores import edit, rows_of, settle


@pytest.fixture
def top():
    with tempfile.TemporaryDirectory() as folder:
        yield pathlib.Path(folder)


def drafted(db, *words):
    """The sheet of a draft; the inventory is as it was."""
    before = rows_of(db)
    what, *others = words
    ended = run("draft", what, str(db), *others)
    assert rows_of(db) == before
    return ended


def done(db, sheet, name="after.db"):
    """The inventory after a drafted sheet, whose records are all done."""
    settle(db)
    after = db.with_name(name)
    shutil.copy(db, after)
    ended = edit(after, sheet)
    assert ended.status == 0 and all(b",done," in line for line in ended.stdout.splitlines()), (sheet, ended)
    return after


def lines_of(db, after):
    return difference(db, after).decode().splitlines()


def draws(db, *words):
    """A draft is given, and the lines in which the inventory differs after it."""
    ended = drafted(db, *words)
    assert ended.status == 0 and ended.stdout.startswith(HEADER), (words, ended)
    return lines_of(db, done(db, ended.stdout))


def differs_undone(was, db, *words):
    """Edits of an inventory are undone by a draft: the lines in which it differs then from what it was before them."""
    ended = drafted(db, "undo", *words)
    assert ended.status == 0, (words, ended)
    return lines_of(was, done(db, ended.stdout, "undone.db"))


def is_not_drafted(ended):
    *said, last = ended.stderr.decode().splitlines()
    assert (ended.stdout, ended.status, last) == (b"", 1, "roadlrs: no sheet is drafted") and said, ended


ROAD = sheet_of(
    "b1,link,1,10000",
    "b2,link,2,3000",
    "b3,class,SPEED,exclusive",
    "b4,class,SIGN,point",
    "b5,class,RAIL,stretch",
    "b6,route,A1,1:0:10000:+,0:0 10000:10000",
    "b7,ref,KM2,A1,abs,2000",
    "b8,ref,KM7,A1,abs,7000",
    "b9,enter,1,SPEED,A1,B,abs,1000,8000,80,0",
    "b10,enter,2,SIGN,A1,L,abs,3500,,STOP,1500",
    "b11,enter,3,RAIL,A1,R,abs,2500,6500,steel,0",
    "b12,enter,4,SIGN,A1,R,abs,9000,,GIVEWAY,0",
)


@pytest.fixture
def road(top):
    db = top / "roads.db"
    assert edit(db, ROAD).status == 0
    settle(db)
    return db


def test_a_split_where_there_is_no_mark(road):
    told = draws(road, "split", "A1", "4000", "A2")
    assert {line.split(",")[1] for line in told} == {"route"} and len(told) == 3, told
    assert "+,route,A2,1:4000:10000:+,0:4000 6000:10000" in told, told
    told = draws(road, "split", "A1", "rel:KM2+500", "A2")
    assert "+,route,A2,1:2500:10000:+,0:2500 7500:10000" in told, told
    # where there is a mark, there is the split alone
    edit(road, sheet_of("m1,recalibrate,A1,0:0 4000:4000 10000:10000"))
    settle(road)
    ended = drafted(road, "split", "A1", "abs:4000", "A2")
    assert ended.stdout.splitlines()[1:] == [b"DRAFT-14-1,split,A1,4000,A2,,,,,,"], ended


def test_a_bypass_loses_nothing(road):
    told = draws(road, "bypass", "A1", "3000", "7000", "2:0:3000:+", "A1OLD")
    assert {line.split(",")[1] for line in told} == {"route"}, told
    assert {line.split(",")[2] for line in told} == {"A1", "A1OLD"}, told
    route = next(line for line in told if line.startswith("+,route,A1,"))
    assert route.split(",")[3] == "1:0:3000:+ 2:0:3000:+ 1:7000:10000:+", told
    # the posts behind it keep their measures
    assert "6000:7000" in route.split(",")[4] and route.endswith("9000:10000"), told
    # the old road counts from 0
    assert "+,route,A1OLD,1:3000:7000:+,0:0 4000:4000" in told, told


def test_a_bypass_at_the_ends_of_a_route(road):
    for first, last in (("0", "7000"), ("3000", "10000")):
        ended = drafted(road, "bypass", "A1", first, last, "2:0:3000:+", "A1OLD")
        if ended.status == 0:
            told = lines_of(road, done(road, ended.stdout, f"{first}.db"))
            assert {line.split(",")[1] for line in told} == {"route"}, told
        else:
            is_not_drafted(ended)


def test_an_asset_is_retired_wherever_it_lies(road):
    for asset in "1234":
        told = draws(road, "retire", asset)
        assert told and all(line.startswith(f"-,holds,{asset},") for line in told), told
    # also over two routes, one of them turned, and with marks that state no measure there
    edit(road, sheet_of("m1,recalibrate,A1,0:0 4000:4000 10000:10000", "m2,split,A1,4000,A2", "m3,turn,A2", "m4,recalibrate,A1,0:0 4000:1", "m5,recalibrate,A2,0:0 6000:1", "m6,unref,KM2"))
    settle(road)
    for asset in "1234":
        told = draws(road, "retire", asset)
        assert told and all(line.startswith(f"-,holds,{asset},") for line in told), told


def test_an_asset_is_replaced_where_it_lies(road):
    for asset, value in (("1", "50"), ("2", "GIVEWAY"), ("3", "wood")):
        told = draws(road, "replace", asset, f"10{asset}", value)
        was = {line.split(",", 6)[-1] for line in told if line.startswith(f"-,holds,{asset},")}
        now = {line.split(",", 6)[-1] for line in told if line.startswith(f"+,holds,10{asset},")}
        assert was == now and was, told
        assert len(told) == len(was) + len(now) + 1 and f",10{asset}," in told[0] and value in told[0], told
    is_not_drafted(drafted(road, "replace", "1", "2", "50"))
    is_not_drafted(drafted(road, "replace", "99", "100", "50"))


def test_an_asset_is_moved(road):
    told = draws(road, "move", "2", "12", "A1", "abs:5000")
    assert told == ["+,asset,12,SIGN,STOP,1500", "-,holds,2,SIGN,STOP,1500,1,3500,3501,L", "+,holds,12,SIGN,STOP,1500,1,5000,5001,L"], told
    told = draws(road, "move", "3", "13", "A1", "7000", "rel:KM7+500")
    assert "+,holds,13,RAIL,steel,0,1,7000,7500,R" in told, told


def test_routes_are_merged(road):
    edit(road, sheet_of("m1,recalibrate,A1,0:0 4000:4000 7000:7000 10000:10000", "m2,split,A1,4000,A2", "m3,split,A2,3000,A3"))
    settle(road)
    told = draws(road, "merge", "A1", "A2", "A3")
    assert {line.split(",")[1] for line in told} == {"route"}, told
    assert "+,route,A1,1:0:10000:+,0:0 4000:4000 7000:7000 10000:10000" in told, told
    is_not_drafted(drafted(road, "merge", "A1", "A9"))


UNDONE = [
    ("split,A1,4000,A2", ["recalibrate,A1,0:0 4000:4000 10000:10000"]),
    ("turn,A1", []),
    ("renumber,A1,A9", []),
    ("recalibrate,A1,0:0 5000:1 10000:2", []),
    ("ref,KM3,A1,abs,3000", []),
    ("unref,KM2", []),
    ("enter,20,SIGN,A1,L,abs,4000,,STOP,0", []),
    ("join,A1,A2", ["recalibrate,A1,0:0 4000:4000 10000:10000", "split,A1,4000,A2"]),
    ("join,A1,A2", ["recalibrate,A1,0:0 4000:4000 10000:10000", "split,A1,4000,A2", "turn,A2"]),
]


@pytest.mark.parametrize("number", range(len(UNDONE)))
def test_the_last_edit_is_undone(road, number):
    last, before = UNDONE[number]
    if before:
        assert edit(road, sheet_of(*(f"m{n},{text}" for n, text in enumerate(before)))).status == 0
    settle(road)
    was = road.with_name("was.db")
    shutil.copy(road, was)
    assert edit(road, sheet_of(f"x1,{last}")).status == 0
    ended = drafted(road, "undo")
    assert ended.status == 0, ended
    after = done(road, ended.stdout)
    told = lines_of(was, after)
    # an asset that was entered stays known, and holds nothing
    assert told == (["+,asset,20,SIGN,STOP,0"] if last.startswith("enter") else []), told


def test_what_took_assets_away_is_undone_with_new_ones(road):
    for last in ("retire,3,A1,abs,3000,5000", "retire,2,A1,abs,3500,", "supersede,21,SPEED,A1,B,abs,2000,3000,30,0"):
        db = road.with_name(last.partition(",")[0] + last.split(",")[1] + ".db")
        shutil.copy(road, db)
        assert edit(db, sheet_of(f"x1,{last}")).status == 0
        is_not_drafted(drafted(db, "undo"))
        ended = drafted(db, "undo", "--number", "500")
        if ended.status == 0:
            settle(db)
            after = done(db, ended.stdout, "undone.db")
            assert all(line.split(",")[1] in ("asset", "holds") for line in lines_of(road, after))
            assert any(",500," in line for line in lines_of(road, after)), ended
        else:
            is_not_drafted(ended)


def changed(road, *texts, name="changed.db"):
    """A copy of the inventory in which these records are done."""
    db = road.with_name(name)
    shutil.copy(road, db)
    ended = edit(db, sheet_of(*(f"x{n},{text}" for n, text in enumerate(texts))))
    assert ended.status == 0 and ended.stdout.count(b",done,") == len(texts), ended
    settle(db)
    return db


@pytest.mark.parametrize("first, last", [("3000", "7000"), ("2500", "9000")])
def test_a_bypass_is_undone_as_a_whole(road, first, last):
    bypassed = done(road, drafted(road, "bypass", "A1", first, last, "2:0:3000:+", "A1OLD").stdout, "bypassed.db")
    assert lines_of(road, bypassed) and len(rows_of(bypassed)["edit"]) > 15
    assert differs_undone(road, bypassed, "13") == []


def test_the_last_edit_by_its_number(road):
    db = changed(road, "turn,A1", "recalibrate,A1,0:0 4000:1 10000:2", "split,A1,4000,A2")
    assert drafted(db, "undo", "15").stdout == drafted(db, "undo").stdout
    assert drafted(db, "undo", "14").stdout != drafted(db, "undo").stdout


CHAINS = [
    ["recalibrate,A1,0:0 4000:4000 10000:10000", "split,A1,4000,A2", "turn,A2", "renumber,A2,A9", "recalibrate,A9,0:0 6000:1"],
    ["recalibrate,A1,0:5 4000:4000 7000:7001 10000:9000", "split,A1,4000,A2", "split,A2,3000,A3", "turn,A2", "join,A1,A2", "join,A1,A3"],
    ["recalibrate,A1,0:0 4000:4000 10000:10000", "split,A1,4000,A2", "renumber,A1,A3", "renumber,A2,A1", "join,A1,A3", "turn,A1"],
    ["route,B1,2:0:3000:+,0:0 3000:3000", "join,B1,A1", "renumber,B1,A1", "ref,KM1,A1,abs,1000", "unref,KM7", "unref,KM1"],
]


@pytest.mark.parametrize("number", range(len(CHAINS)))
def test_edits_of_routes_are_undone_together(road, number):
    chain = CHAINS[number]
    db = changed(road, *chain)
    for passed in range(len(chain)):
        was = changed(road, *chain[:passed], name="before.db")
        assert differs_undone(was, db, str(13 + passed)) == [], (chain, passed)


def test_assets_that_come_and_go_are_undone_together(road):
    entered = ["enter,20,SIGN,A1,L,abs,4000,,STOP,0", "enter,21,RAIL,A1,R,abs,7000,9000,wood,0", "enter,22,SPEED,A1,B,abs,500,900,30,0"]
    db = changed(road, *entered, "retire,20,A1,abs,4000,", "retire,21,A1,abs,7000,8000", "supersede,23,SPEED,A1,B,abs,600,800,40,0", "turn,A1")
    # what was entered holds nothing then, and stays known; nothing is entered anew
    told = differs_undone(road, db, "13")
    assert told == ["+,asset,20,SIGN,STOP,0", "+,asset,21,RAIL,wood,0", "+,asset,22,SPEED,30,0", "+,asset,23,SPEED,40,0"], told


def test_what_several_edits_took_away_is_undone_with_new_assets(road):
    superseded = [f"supersede,{number},SPEED,A1,B,abs,{low},{high},30,0" for number, low, high in ((22, 2000, 3000), (23, 2500, 3500), (24, 5000, 5500))]
    db = changed(road, *superseded, "retire,2,A1,abs,3500,", "turn,A1")
    # assets were taken away, and there are no numbers for new ones
    is_not_drafted(drafted(db, "undo", "13"))
    told = differs_undone(road, db, "13", "--number", "500")
    entered = [line.split(",")[2] for line in told if line.startswith("+,asset,")]
    # what one asset lost side by side is one new asset's, and each has a number of its own
    assert entered == ["22", "23", "24", "500", "501", "502"], told
    was = sorted(line.split(",", 3)[3] for line in told if line.startswith("-,holds,"))
    now = sorted(line.split(",", 3)[3] for line in told if line.startswith("+,holds,"))
    assert was == now and len(told) == len(entered) + len(was) + len(now), told
    assert {held[0] for held in Told(road.with_name("undone.db")).held} == {1, 3, 4, 500, 501, 502}, told


ROUTE_VERBS = ("split", "join", "renumber", "recalibrate", "turn")


def drawn_chain(db, drawn, most):
    """Does drawn edits of routes, up to so many of them."""
    count = len(rows_of(db)["edit"])
    for _ in range(60):
        text = drawn.text()
        if text.split(",")[0] in ROUTE_VERBS:
            drawn.count += 1
            edit(db, sheet_of(f"c{drawn.count},{text}"))
            if len(rows_of(db)["edit"]) >= count + most:
                break
    settle(db)


def test_drawn_edits_are_undone_together(top):
    given = 0
    for seed in range(20):
        drawn = Drawn(seed)
        was, db = top / f"was{seed}.db", top / f"{seed}.db"
        edit(was, BEGUN)
        edit(was, drawn.sheet(25))
        settle(was)
        shutil.copy(was, db)
        drawn_chain(db, drawn, 6)
        first = len(rows_of(was)["edit"]) + 1
        if len(rows_of(db)["edit"]) < first:
            continue
        given += 1
        assert differs_undone(was, db, str(first)) == [], seed
    assert given > 10


def test_edits_that_are_not_there(road):
    is_not_drafted(drafted(road, "undo", "13"))
    is_not_drafted(drafted(road, "undo", "10000000"))
    # links and classes among the edits stay
    is_not_drafted(drafted(road, "undo", "1"))


def test_what_cannot_be_undone(road):
    for number, last in enumerate(("link,9,5", "class,LAMP,point")):
        assert edit(road, sheet_of(f"x{number},{last}")).status == 0
        is_not_drafted(drafted(road, "undo"))
    empty = road.with_name("empty.db")
    assert edit(empty, HEADER).status == 0
    is_not_drafted(drafted(empty, "undo"))


def test_keys_of_drafts(road):
    first = drafted(road, "retire", "1").stdout.splitlines()[1].split(b",")[0]
    assert first == b"DRAFT-13-1", first
    first = drafted(road, "retire", "1", "--key", "KM-2026:").stdout.splitlines()[1].split(b",")[0]
    assert first == b"KM-2026:13-1", first
    ended = drafted(road, "retire", "1", "--key", "no space")
    assert ended.stdout == b"" and ended.status in (1, 2), ended


def test_words_of_drafts(road):
    for words in (["paint", "A1"], ["split", "A1"], ["split", "A1", "4000"], ["retire", "x"], ["retire", "1", "2"], ["split", "A1", "4000", "a2"], ["undo", "0"], ["undo", "x"], ["undo", "10000001"], ["undo", "1", "2"], ["merge", "A1"]):
        ended = drafted(road, *words)
        assert ended.stdout == b"" and ended.status == 2 and ended.stderr.endswith(b"error: the words say no draft\n"), (words, ended)
    for words in (["split", "A9", "4000", "A2"], ["split", "A1", "4000", "A1"], ["split", "A1", "0", "A2"], ["split", "A1", "99999", "A2"], ["retire", "99"]):
        is_not_drafted(drafted(road, *words))


def test_drawn_drafts(top):
    given = 0
    for seed in range(25):
        drawn = Drawn(seed)
        pick = drawn.random
        db = top / f"{seed}.db"
        edit(db, BEGUN)
        edit(db, drawn.sheet(30))
        settle(db)
        for count in range(6):
            asset, route = str(pick.randint(1, 12)), pick.choice("ABC")
            words = pick.choice([
                ["retire", asset],
                ["replace", asset, "77", "99"],
                ["split", route, str(pick.randint(1, 20)), "N"],
                ["merge", *pick.sample("ABC", 2)],
                ["undo"],
            ])
            ended = drafted(db, *words)
            if ended.status != 0:
                is_not_drafted(ended)
                continue
            given += 1
            after = done(db, ended.stdout, "drawn.db")
            told = lines_of(db, after)
            if words[0] == "retire":
                assert all(line.startswith(f"-,holds,{asset},") for line in told), (words, told)
                assert not any(held[0] == int(asset) for held in Told(after).held)
            elif words[0] == "replace":
                assert {held[1:] for held in Told(after).held if held[0] == 77} == {held[1:] for held in Told(db).held if held[0] == int(asset)}
            elif words[0] != "undo":
                assert {line.split(",")[1] for line in told} <= {"route"}, (words, told)
    assert given > 20
