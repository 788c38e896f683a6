"""What is asked of lists over HTTP: places by a method, measures in two ways, rows on links, pieces, what is gone by edits and class, and histories. The
expected replies are worked out by hand: link 7 lies under A from 5 to 20 forwards and from 30 to 40 backwards, link 3 from 0 to 4 between them."""

import json

import pytest

from program import lines, sheet_of
from serving import answer, error, reply, request, started

SHEET = sheet_of(
    "s1,link,3,9",
    "s2,link,7,50",
    "s3,class,SIGN,stretch",
    "s4,class,POST,point",
    "s5,route,A,7:5:20:+ 3:0:4:+ 7:30:40:-,0:10 15:40 29:50",
    "s6,route,B,3:4:9:+,0:0 5:5",
    "s7,route,C,7:40:45:+,0:0 5:5",
    "s8,ref,KM1,A,abs,40",
    "e1,enter,4,SIGN,A,L,int,10/29,1/1,x,150",
    "e2,enter,5,POST,C,R,abs,2,,p,0",
    "e3,retire,4,A,abs,40,50",
    "e4,close,C",
    "e5,enter,6,SIGN,A,R,abs,10,50,y,0",
)
REPLIES = lines(*(f"s{n},done,{n}" for n in range(1, 9)), *(f"e{n},done,{n + 8}" for n in range(1, 6)))
ROW = {"asset": 4, "class": "SIGN", "entry": 9, "offset": 150, "route": "A", "side": "L", "value": "x"}


@pytest.fixture(scope="module")
def server():
    with started() as server:
        server.does("edits", SHEET, REPLIES)
        yield server


def gets(server, target, shown):
    server.answers(request(f"GET {target}"), reply(200, json.dumps(shown, separators=(",", ":"), sort_keys=True).encode()))


def gets_csv(server, target, *expected):
    server.answers(request(f"GET {target}"), reply(200, lines(*expected), "text/csv"))


# the asset lies from chainage 10 on, and behind measure 40, at chainage 15, it is retired
MEASURED = ROW | {"from": 10, "from_measure": "30", "from_measure_decimal": "30.000", "to": 15, "to_measure": "40", "to_measure_decimal": "40.000"}


def test_a_row_has_its_measures_in_both_ways(server):
    gets(server, "/v1/rows?asset=4", {"rows": [MEASURED]})
    gets(server, "/v1/rows?asset=4&exact=1", {"rows": [MEASURED]})


def test_as_csv_measures_are_decimals_or_as_they_are(server):
    header = "route,from,to,from_measure,to_measure,side,asset,class,value,offset,entry"
    gets_csv(server, "/v1/rows.csv?asset=4", header, "A,10,15,30.000,40.000,L,4,SIGN,x,150,9")
    gets_csv(server, "/v1/rows.csv?asset=4&exact=1", header, "A,10,15,30,40,L,4,SIGN,x,150,9")


@pytest.mark.parametrize("ends", ["from=10&to=15", "from=14", "to=11", "from=abs:38&to=rel:KM1%2B0", "from=int:0/1&to=int:1/1", "from=rel:KM1-1", "to=rel:KM1-4", "to=abs:31"])
def test_a_stretch_that_has_a_millimetre_of_the_row(server, ends):
    gets(server, f"/v1/rows?asset=4&route=A&{ends}", {"rows": [MEASURED]})


@pytest.mark.parametrize("ends", ["from=15", "to=10", "from=abs:40", "to=abs:30", "from=rel:KM1%2B0", "to=int:10/29", "from=12&to=12"])
def test_a_stretch_that_has_none(server, ends):
    gets(server, f"/v1/rows?asset=4&route=A&{ends}", {"rows": []})


def test_an_end_goes_to_the_nearest_millimetre(server):
    # a millimetre has two measures there: 31 is in the middle of one, 10 mm and a half from the start; 301/870 of 29 mm are 10 mm and a thirtieth
    gets(server, "/v1/rows?asset=4&route=A&to=abs:31", {"rows": [MEASURED]})
    gets(server, "/v1/rows?asset=4&route=A&to=int:301/870", {"rows": []})


def test_rows_on_links_are_seen_along_them(server):
    row = {"asset": 6, "class": "SIGN", "offset": 0, "route": "A", "value": "y"}
    pieces = [(7, 5, 20, "R"), (3, 0, 4, "R"), (7, 30, 40, "L")]
    gets(server, "/v1/rows?on_links=1&asset=6", {"rows": [row | {"link": link, "from": low, "to": high, "side": side} for link, low, high, side in pieces]})
    told = [f"6,SIGN,y,0,{link},{low},{high},{side},A" for link, low, high, side in pieces]
    gets_csv(server, "/v1/rows.csv?on_links=1&asset=6", "asset,class,value,offset,link,from,to,side,route", *told)
    gets_csv(server, "/v1/rows.csv?on_links=1&asset=4", "asset,class,value,offset,link,from,to,side,route", "4,SIGN,x,150,7,15,20,L,A")


def test_the_pieces_of_routes(server):
    pieces = [("A", 0, 15, 7, 5, 20, "+"), ("A", 15, 19, 3, 0, 4, "+"), ("A", 19, 29, 7, 30, 40, "-"), ("B", 0, 5, 3, 4, 9, "+")]
    names = ["route", "from", "to", "link", "link_from", "link_to", "direction"]
    gets(server, "/v1/pieces", {"pieces": [dict(zip(names, piece)) for piece in pieces]})
    gets(server, "/v1/pieces?route=B", {"pieces": [dict(zip(names, pieces[3]))]})
    gets_csv(server, "/v1/pieces.csv?route=A", ",".join(names), *(",".join(map(str, piece)) for piece in pieces[:3]))


def test_referents_and_marks_of_a_route(server):
    gets(server, "/v1/refs?route=A", {"refs": [{"chainage": 15, "measure": "40", "measure_decimal": "40.000", "ref": "KM1", "route": "A"}]})
    gets_csv(server, "/v1/refs.csv", "ref,route,chainage,measure", "KM1,A,15,40.000")
    gets_csv(server, "/v1/refs.csv?exact=1&route=A", "ref,route,chainage,measure", "KM1,A,15,40")
    gets(server, "/v1/refs?route=B", {"refs": []})
    gets(server, "/v1/marks?route=B", {"marks": [{"chainage": 0, "measure": 0, "route": "B"}, {"chainage": 5, "measure": 5, "route": "B"}]})


def part(edit, key, verb, reason, asset, name, value, link, low, high, side):
    return {"edit": edit, "key": key, "verb": verb, "reason": reason, "asset": asset, "class": name, "value": value, "link": link, "from": low, "to": high, "side": side}


# the retired end of the asset lies over link 3 from 0 to 4, and over link 7 backwards, where its left side is the right one of the link
RETIRED = [part(11, "e3", "retire", "retired", 4, "SIGN", "x", 3, 0, 4, "L"), part(11, "e3", "retire", "retired", 4, "SIGN", "x", 7, 30, 40, "R")]
ABANDONED = [part(12, "e4", "close", "abandoned", 5, "POST", "p", 7, 42, 43, "R")]


@pytest.mark.parametrize(
    "query, shown",
    [
        ("", RETIRED + ABANDONED),
        ("edit=11", RETIRED),
        ("since=11&until=11", RETIRED),
        ("since=12", ABANDONED),
        ("until=10", []),
        ("since=11&until=12&class=POST", ABANDONED),
        ("class=SIGN", RETIRED),
        ("edit=11&since=12", []),
        ("since=10000000", []),
    ],
)
def test_what_is_gone(server, query, shown):
    gets(server, f"/v1/gone?{query}", {"gone": shown})


def test_the_history_of_an_asset(server):
    names = ["edit", "key", "verb", "event", "link", "from", "to", "side"]
    four = [(9, "e1", "enter", "entered", 3, 0, 4, "L"), (9, "e1", "enter", "entered", 7, 15, 20, "L"), (9, "e1", "enter", "entered", 7, 30, 40, "R")]
    four += [(11, "e3", "retire", "retired", 3, 0, 4, "L"), (11, "e3", "retire", "retired", 7, 30, 40, "R")]
    gets(server, "/v1/history?asset=4", {"history": [dict(zip(names, event)) for event in four]})
    gets_csv(server, "/v1/history.csv?asset=4", ",".join(names), *(",".join(map(str, event)) for event in four))
    five = [(10, "e2", "enter", "entered", 7, 42, 43, "R"), (12, "e4", "close", "abandoned", 7, 42, 43, "R")]
    gets(server, "/v1/history?asset=5", {"history": [dict(zip(names, event)) for event in five]})


# ---- places

PLACES = ["12", "abs:34", "int:12/29", "rel:KM1-3"]


def test_a_place_is_the_same_by_each_method(server):
    found = {answer(server.port, request(f"GET /v1/where?route=A&chainage={place}")) for place in PLACES}
    assert len(found) == 1 and b'"at":12,' in found.pop()


def test_a_diagram_is_the_same_between_each_two_places(server):
    drawn = {answer(server.port, request(f"GET /v1/diagram?route=A&from={place}&to=rel:KM1%2B10")) for place in PLACES}
    assert len(drawn) == 1 and drawn.pop().startswith(b"HTTP/1.1 200 OK\r\nContent-Type: image/svg+xml")


REFUSED = {
    "/v1/diagram?route=A&from=abs:9": (422, "OffRoute:from"),
    "/v1/diagram?route=A&to=rel:KM9-1": (422, "NoRef:to"),
    "/v1/diagram?route=A&from=abs:51&to=abs:52": (422, "OffRoute:from"),
    "/v1/diagram?route=A&from=10&to=10": (422, "OffRoute"),
    "/v1/diagram?route=A&from=rel:KM1+1": (400, "Malformed:from"),
    "/v1/diagram?route=A&to=abs:x": (400, "Malformed:to"),
    "/v1/diagram?route=Z&from=abs:9": (404, "NoRoute"),
    "/v1/rows?from=abs:9": (404, "NoRoute"),
    "/v1/rows?route=A&from=rel:KM9-1&to=abs:9": (422, "NoRef:from"),
    "/v1/rows?route=A&to=abs:9": (422, "OffRoute:to"),
    "/v1/rows?exact=1&on_links=1": (400, "Malformed:on_links"),
    "/v1/where?route=A&chainage=abs:9": (422, "OffRoute"),
}


@pytest.mark.parametrize("target", REFUSED)
def test_what_is_refused(server, target):
    server.answers(request(f"GET {target}"), error(*REFUSED[target]))
