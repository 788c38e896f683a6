"""The page in a browser: the network, a route and its stretches, places, classes, rows, and what is found."""

import re
import time

import pytest

from program import ends, run, sheet_of
from proxies import asked, posted
from serving import HOST
from stores import edit
from web_page import DOWN, ENTER, RIGHT, TABULATOR, browser, page, service

# ---- one: the network


def test_the_network_is_shown_and_filtered(page):
    browser = page.browser
    page.opens()
    browser.shows("#routes-said", "152 of 152 routes. The longest has 6000.000 m.")
    browser.shows("#health", "166 edits. The program answers.")
    # each route by its name, of which only those in sight are made
    assert [row[0] for row in page.rows("#routes")][:4] == ["A1", "LONG", "R0", "R1"]
    assert len(page.rows("#routes")) < 60 and browser.runs("return document.querySelector('#routes table').getAttribute('aria-rowcount')") == "153"
    # one scale, and the posts: referents, and marks where there is none
    wide = browser.runs("return [...document.querySelectorAll('#routes .track svg')].slice(0, 2).map(s => s.getBoundingClientRect().width)")
    assert wide[0] < 10 < 500 < wide[1]
    assert [row[2].split() for row in page.rows("#routes")][:2] == [["KM2"], ["0", "6000000"]]
    # totals: both sides of a stretch, and points are counted
    browser.shows("#totals", "SPEED")
    assert [row[:3] for row in page.rows("#totals")] == [["RAIL", "stretch", "5.000 m"], ["SIGN", "point", "2"], ["SPEED", "exclusive", "11.002 m"]]
    browser.shows("#edits", "e5")
    assert page.rows("#edits")[0] == ["166", "e5", "enter", "14 SIGN LONG L abs 4333333 YIELD 0"]
    page.pictured("network")
    browser.types("#filter", "r14")
    browser.shows("#routes-said", "11 of 152 routes.")
    assert len(page.rows("#routes")) == 11
    # Enter opens the first route that is left
    browser.types("#filter", "LONG" + ENTER)
    page.draws("LONG", 0, 6_000_000)
    assert browser.complaints() == []


def test_the_network_is_used_by_keys_alone(page):
    browser = page.browser
    page.opens()
    browser.runs("document.querySelector('#filter').focus()")
    browser.presses(TABULATOR)
    assert browser.runs("return document.activeElement.textContent") == "A1"
    browser.presses(*[DOWN] * 40)
    assert browser.runs("const b = document.querySelector('#routes').getBoundingClientRect(), r = document.activeElement.getBoundingClientRect(); return r.top >= b.top && r.bottom <= b.bottom")
    name = browser.runs("return document.activeElement.textContent")
    browser.presses(ENTER)
    page.draws(name, 0, 1)
    assert browser.runs("return document.activeElement.id") == "route-title"
    browser.runs("history.back()")
    browser.waits_for("the network", lambda browser: browser.runs("return document.activeElement.id") == "network-title")


def test_what_has_not_changed_is_asked_once(page):
    browser = page.browser
    page.opens()
    browser.shows("#edits", "e5")
    for _ in range(2):
        browser.runs("location.hash = 'A1'")
        browser.shows("#rows-said", "3 of 3 rows")
        browser.runs("location.hash = ''")
        browser.waits_for("the network", lambda browser: browser.runs("return document.querySelector('#route').hidden"))
    time.sleep(0.3)
    names = [name for name in page.requests() if not name.endswith("/health") and "/v1/diagram" not in name]
    assert len(names) == len(set(names)), names
    # an edit from elsewhere is seen
    assert posted(page.port, "edits", sheet_of("z1,link,9,5"))[0] == 200
    browser.clicks("#refresh")
    browser.shows("#edits", "z1")
    browser.shows("#health", "167 edits.")


# ---- two: the diagram of a route


def test_a_route_is_shown_and_moved_through(page):
    browser = page.browser
    page.opens()
    browser.clicks("#routes a")
    page.draws("A1", 0, 8000)
    assert page.fragment() == "#A1"
    browser.clicks("#in")
    page.draws("A1", 2000, 6000)
    assert page.fragment() == "#A1/abs:2400..abs:7000"
    browser.clicks("#on")
    page.draws("A1", 4000, 8000)
    browser.clicks("#on")
    page.draws("A1", 4000, 8000)
    browser.clicks("#back")
    page.draws("A1", 2000, 6000)
    browser.clicks("#out")
    page.draws("A1", 0, 8000)
    page.chooses("#by", "chainage")
    page.types_stretch("1.5", "2.125")
    page.draws("A1", 1500, 2125)
    page.pictured("a_stretch")
    target = browser.runs("return document.querySelector('#plain').href")
    assert target == f"http://{HOST}:{page.port}/v1/diagram?route=A1&from=1500&to=2125"
    assert asked(page.port, "GET", "/v1/diagram?route=A1&from=1500&to=2125")[1].startswith(b"<svg ")
    # by keys, in the diagram
    browser.runs("document.querySelector('#diagram').focus()")
    browser.presses("-")
    page.draws("A1", 1188, 2438)
    browser.presses(RIGHT)
    page.draws("A1", 1813, 3063)
    browser.presses(ENTER)
    browser.shows("#at-said", "chainage 2.438 m")
    browser.clicks("#whole")
    page.draws("A1", 0, 8000)
    assert browser.complaints() == []


def wheel(page, chainage, by, steps=1):
    left, top = (round(place) for place in page.point_of(chainage))
    turn = {"type": "scroll", "x": left, "y": top, "deltaX": 0, "deltaY": by, "duration": 0}
    page.browser.send("POST", "/actions", {"actions": [{"type": "wheel", "id": "wheel", "actions": [turn] * steps}]})


def test_the_wheel_zooms_where_it_points_and_is_one_step_back(page):
    browser = page.browser
    page.opens_route("LONG")
    wheel(page, 1_500_000, -400, steps=3)
    browser.waits_for("less", lambda browser: page.drawn()[2] - page.drawn()[1] < 2_000_000 and browser.text("#route-said").startswith("Measures"))
    _, start, end = page.drawn()
    # the place under the wheel stays, to a pixel
    assert abs((1_500_000 - start) / (end - start) - 0.25) < 0.01
    wheel(page, 1_500_000, 5_000, steps=3)
    page.draws("LONG", 0, 6_000_000)
    browser.runs("history.back()")
    browser.waits_for("the route", lambda browser: page.fragment() == "#LONG")


def test_the_diagram_is_dragged(page):
    browser = page.browser
    page.goes_to("#LONG/chainage:2000.000..3000.000")
    page.draws("LONG", 2_000_000, 3_000_000)
    (here, y), (there, _) = page.point_of(2_500_000), page.point_of(2_700_000)
    move = lambda x: {"type": "pointerMove", "duration": 0, "x": round(x), "y": round(y), "origin": "viewport"}
    actions = [move(here), {"type": "pointerDown", "button": 0}, move((here + there) / 2), move(there), {"type": "pointerUp", "button": 0}]
    browser.send("POST", "/actions", {"actions": [{"type": "pointer", "id": "mouse", "actions": actions}]})
    browser.waits_for("a move", lambda browser: abs(page.drawn()[1] - 1_800_000) < 2_000)
    assert page.drawn()[2] - page.drawn()[1] == 1_000_000 and browser.text("#hits") == ""


PINCH = """
const box = document.querySelector('#diagram'), b = document.querySelector('#diagram svg').getBoundingClientRect();
const finger = (id, share) => new Touch({ identifier: id, target: box, clientX: b.left + b.width * (1000 + share * 10000) / 12000, clientY: b.top + 50 });
const fire = (name, ...shares) => box.dispatchEvent(new TouchEvent(name, { bubbles: true, cancelable: true, touches: shares.map((s, id) => finger(id, s)) }));
fire('touchstart', 0.4, 0.6), fire('touchmove', 0.3, 0.7), fire('touchmove', 0.2, 0.8), fire('touchend');
"""


def test_two_fingers_zoom(page):
    page.opens_route("LONG")
    page.browser.runs(PINCH)
    page.browser.waits_for("a zoom", lambda browser: abs(page.drawn()[1] - 2_000_000) < 5_000 and abs(page.drawn()[2] - 4_000_000) < 5_000)


def test_what_lies_under_the_pointer_is_shown(page):
    browser = page.browser
    page.opens_route("A1")
    x, y = page.point_of(3000)
    browser.send("POST", "/actions", {"actions": [{"type": "pointer", "id": "mouse", "actions": [{"type": "pointerMove", "x": round(x), "y": round(y), "origin": "viewport"}]}]})
    browser.shows("#under", "RAIL L STEEL (asset 11) · SPEED L 80 (asset 10) · SPEED R 80 (asset 10)")
    assert re.match(r"measure 3(59\d|60\d)\.?\d*, (2\.99|3\.00)\d m · ", browser.text("#under"))


def test_points_in_one_place_show_how_many_they_are(page):
    assert posted(page.port, "edits", sheet_of("p1,enter,40,SIGN,A1,R,int,4999/8000,,A,0", "p2,enter,41,SIGN,A1,R,int,4999/8000,,B,0"))[0] == 200
    page.opens_route("A1")
    counts = page.browser.runs("return [...document.querySelectorAll('[data-count]')].map(e => e.textContent)")
    assert counts == ["3×"]


def test_one_value_has_one_shade(page):
    browser = page.browser
    more = ["v1,class,LANES,exclusive", *(f"w{n},enter,{50 + n},LANES,A1,B,abs,{n * 1000},{n * 1000 + 1000},{value},0" for n, value in enumerate("2343"))]
    assert posted(page.port, "edits", sheet_of(*more))[0] == 200
    page.opens_route("A1")
    browser.shows("#classes", "LANES")
    shades = browser.runs(
        "return [...document.querySelectorAll('g[data-class=LANES] .shade-0, g[data-class=LANES] .shade-1, g[data-class=LANES] .shade-2')]"
        ".map(p => [p.textContent.split(': ')[1], getComputedStyle(p).stroke])"
    )
    assert len(shades) == 8 and len({shade for _, shade in shades}) == 3 and len({tuple(pair) for pair in shades}) == 3, shades
    legend = dict(browser.runs("return [...document.querySelectorAll('#classes .swatch')].map(s => [s.parentNode.textContent.split(':')[0], getComputedStyle(s).backgroundColor])"))
    assert all(legend[value] == shade for value, shade in shades)
    # neighbours of different values are parted, on each side; those of one value are not
    cuts = "return [...document.querySelectorAll('[data-cut]')].map(e => [e.closest('[data-class]').dataset.class, e.getAttribute('d')])"
    assert browser.runs(cuts) == [["LANES", "M2041 -65v130M3083 -65v130M4125 -65v130"]] * 2
    assert posted(page.port, "edits", sheet_of("w9,supersede,60,LANES,A1,B,abs,2000,3000,3,0"))[0] == 200
    browser.clicks("#refresh")
    browser.waits_for("one value", lambda browser: browser.runs(cuts) == [["LANES", "M2041 -65v130"]] * 2)
    # also elsewhere on the route
    browser.clicks("#in")
    page.draws("A1", 2000, 6000)
    again = browser.runs("return [...document.querySelectorAll('g[data-class=LANES] .b path')].map(p => [p.textContent.split(': ')[1], getComputedStyle(p).stroke])")
    assert all(pair in shades for pair in again)


# ---- three: a stretch, by measure first


def test_a_stretch_is_asked_by_measure(page):
    browser = page.browser
    page.opens_route("A1")
    assert page.fields("by", "from", "to") == ["abs", "0", "9000"]
    page.types_stretch("3000", "6000")
    page.draws("A1", 2500, 5000)
    browser.shows("#route-said", "Measures 3000 to 6000: from 2.500 m to 5.000 m of 8.000 m.")
    assert page.fragment() == "#A1/abs:3000..abs:6000" and page.fields("by", "from", "to") == ["abs", "3000", "6000"]
    page.pictured("by_measure")
    # an end that is left empty is that of the route
    page.types_stretch("", "3000")
    page.draws("A1", 0, 2500)
    assert page.fragment() == "#A1/..abs:3000"
    # the other methods say the same stretch
    for method, start, end in [("rel", "KM2-2", "KM2+2498"), ("int", "0/1", "5/16"), ("chainage", "0.000", "2.500"), ("abs", "0", "3000")]:
        page.chooses("#by", method)
        assert page.fields("from", "to") == [start, end], method
    page.chooses("#by", "rel")
    page.types_stretch("KM2+98", "KM2+1998")
    page.draws("A1", 100, 2000)
    assert page.fragment() == "#A1/rel:KM2+98..rel:KM2+1998"
    page.chooses("#by", "int")
    page.types_stretch("1/4", "1/2")
    page.draws("A1", 2000, 4000)
    # each is a step for Back and for Forward
    by_referent, by_measure = ("#A1/rel:KM2+98..rel:KM2+1998", 100, 2000, "rel"), ("#A1/..abs:3000", 0, 2500, "abs")
    for step, (fragment, start, end, method) in [("back", by_referent), ("back", by_measure), ("forward", by_referent)]:
        browser.runs(f"history.{step}()")
        page.draws("A1", start, end)
        assert page.fragment() == fragment and page.fields("by") == [method]
    assert browser.complaints() == []


def test_an_end_that_is_no_whole_measure_is_kept(page):
    browser = page.browser
    page.goes_to("#A1/chainage:1.001..7.000")
    page.draws("A1", 1001, 7000)
    assert page.fields("from", "to") == ["1201.200", "8000"]
    browser.types("#to", "6000" + ENTER)
    page.draws("A1", 1001, 5000)
    assert page.fragment() == "#A1/chainage:1.001..abs:6000"
    # a measure with decimals is at the nearest millimetre
    page.types_stretch("1201.8", "6000.5")
    page.draws("A1", 1002, 5001)
    assert page.fragment() == "#A1/abs:1201.8..abs:6000.5" and page.fields("from", "to") == ["1201.8", "6000.5"]


REFUSED = [
    ("abs", "1", "9001", "to", "To lies off the route, whose measures are 0 to 9000."),
    ("abs", "9001", "9002", "from", "From lies off the route, whose measures are 0 to 9000."),
    ("abs", "1", "9000.001", "to", "To lies off the route, whose measures are 0 to 9000."),
    ("abs", "x", "9000", "from", "From cannot be read. Write a measure, as 3000."),
    ("abs", "2000", "1000", "to", "From must lie before To."),
    ("rel", "KM2+5", "KM9+7", "to", "To is said from a referent that is not on the route. It has KM2."),
    ("rel", "KM2+5", "KM2+8000", "to", "To lies off the route, which is 8.000 m long."),
    ("int", "1/3", "3/2", "to", "To cannot be read. Write a proportion from 0/1 to 1/1, as 1/3."),
    ("chainage", "x", "1", "from", "From cannot be read. Write metres with at most three decimals, as 12.5."),
    ("chainage", "7", "100", "to", "To lies off the route, which is 8.000 m long."),
]


# The field with the focus, the one that is said to be wrong, and where it is said why.
BLAMED = """
const wrong = [...document.querySelectorAll('[aria-invalid=true]')];
return [document.activeElement.id, wrong[0]?.id, wrong.map(e => e.getAttribute('aria-describedby'))];
"""


def test_an_end_that_is_refused_is_told(page):
    browser = page.browser
    page.opens_route("A1")
    for method, start, end, wrong, told in REFUSED:
        page.chooses("#by", method)
        page.types_stretch(start, end)
        browser.shows("#ends-said", f"Error: {told}")
        assert page.drawn() == ("A1", 0, 8000) and page.fields("from", "to") == [start, end] and page.fragment() == "#A1"
        # at the field that is wrong, where whoever typed goes on
        assert browser.runs(BLAMED) == [wrong, wrong, ["ends-said"]], told
    page.pictured("a_refused_end")
    page.chooses("#by", "abs")
    page.types_stretch("3000", "6000")
    page.draws("A1", 2500, 5000)
    assert browser.text("#ends-said") == "" and browser.runs(BLAMED)[2] == []


# ---- four: addresses


def test_an_address_shows_its_route_stretch_and_place(page):
    browser = page.browser
    page.goes_to("#A1/abs:1200..3600/rel:KM2+998")
    page.draws("A1", 1000, 3000)
    browser.shows("#at-said", "A1: measure 1200, chainage 1.000 m.")
    assert page.fields("by", "from", "to", "method", "pos") == ["abs", "1200", "3600", "rel", "KM2+998"]
    browser.runs("location.hash = 'R7'")
    page.draws("R7", 0, 1)
    assert page.rows("#hits") == []
    browser.runs("history.back()")
    page.draws("A1", 1000, 3000)
    browser.shows("#at-said", "chainage 1.000 m.")
    browser.runs("location.hash = 'A1/int:1/4..1/2/int:1/3'")
    page.draws("A1", 2000, 4000)
    browser.shows("#at-said", "A1: measure ≈ 3199.200, chainage 2.666 m.")
    browser.runs("location.hash = 'B1'")
    browser.shows("#route-said", "Error: NoRoute: there is no route of this name")
    page.pictured("no_route")
    browser.runs("location.hash = 'A1/abs:9..9001'")
    browser.shows("#route-said", "The whole route is shown. Measures 0 to 9000")
    assert browser.text("#ends-said") == "Error: To lies off the route, whose measures are 0 to 9000." and page.fields("from", "to") == ["9", "9001"]
    # two methods
    browser.runs("location.hash = 'A1/rel:KM2+998..abs:3600'")
    page.draws("A1", 1000, 3000)
    assert page.fields("by", "from", "to") == ["rel", "KM2+998", "KM2+2998"] and browser.text("#ends-said") == ""
    # an address of a page before this one
    browser.runs("location.hash = 'route=A1&from=1000&to=3000'")
    page.draws("A1", 1000, 3000)
    browser.runs("location.hash = '<b>'")
    browser.shows("#address-said", "Error: The address names no route.")


def said(method, pos):
    return {"method": method, "pos": pos}


ADDRESSES = [
    ("A38", {"route": "A38"}),
    ("A38/abs:13000", {"route": "A38", "place": said("abs", "13000")}),
    ("A38/abs:13000..abs:14000", {"route": "A38", "stretch": {"from": said("abs", "13000"), "to": said("abs", "14000")}}),
    ("A38/abs:13000..rel:KM14-1/asset:7", {"route": "A38", "stretch": {"from": said("abs", "13000"), "to": said("rel", "KM14-1")}, "asset": "7"}),
    ("A-1/int:1/3..int:1/2/rel:KM2-5", {"route": "A-1", "stretch": {"from": said("int", "1/3"), "to": said("int", "1/2")}, "place": said("rel", "KM2-5")}),
    ("A1/chainage:1.000..chainage:2.000/asset:7", {"route": "A1", "stretch": {"from": said("chainage", "1.000"), "to": said("chainage", "2.000")}, "asset": "7"}),
    ("A1/..abs:5", {"route": "A1", "stretch": {"to": said("abs", "5")}}),
    ("A1/rel:KM2+5../abs:7", {"route": "A1", "stretch": {"from": said("rel", "KM2+5")}, "place": said("abs", "7")}),
]


# Addresses that the page wrote before.
OLDER = [
    ("A38/abs:13000..14000", "A38/abs:13000..abs:14000"),
    ("A38/rel:KM2-5..KM2+5/int:1/3", "A38/rel:KM2-5..rel:KM2+5/int:1/3"),
    ("A38/abs:..14000", "A38/..abs:14000"),
    ("A38/abs:13000..", "A38/abs:13000.."),
    ("route=A38&from=1000&to=5000", "A38/chainage:1.000..chainage:5.000"),
    ("route=A38&to=5000", "A38/..chainage:5.000"),
]


def test_addresses_are_read_as_they_are_written(page):
    browser = page.browser
    page.opens()
    for text, address in ADDRESSES:
        assert browser.runs("return JSON.parse(JSON.stringify(readAddress(arguments[0])))", text) == address
        assert browser.runs("return writeAddress(arguments[0])", address) == text
    for older, text in OLDER:
        assert browser.runs("return writeAddress(readAddress(arguments[0]))", older) == text
    assert browser.runs("return [readAddress(''), readAddress('a b').route ?? null, readAddress('%').route ?? null]") == [None, None, None]


def test_numbers_are_exact(page):
    browser = page.browser
    page.opens()
    marks = [[0, 0], [5000, 6000], [8000, 9000]]
    for chainage, text in [(0, "0"), (2500, "3000"), (1, "1.200"), (5000, "6000"), (7999, "8999"), (8000, "9000")]:
        assert browser.runs("return decimal(measureAt(arguments[0], arguments[1]))", marks, chainage) == text
    for measure, at, nearest in [("0.0", 0, 0), ("1.2", 1, 1), ("1.8", 1, 2), ("5999.9", 4999, 5000), ("6000.5", 5000, 5001), ("9000.", 8000, 8000), ("9000.1", None, None)]:
        assert browser.runs("return [false, true].map(isEnd => chainageOf(arguments[0], arguments[1], isEnd))", marks, measure) == [at, nearest], measure
    assert browser.runs("return chainageOf([[0, 5], [10, 6]], '4.9', false)") is None
    for text, mm in [("12", 12000), ("12.5", 12500), ("0.001", 1), ("x", None), ("1.2345", None), ("-1", None)]:
        assert browser.runs("return millimetres(arguments[0])", text) == mm
    assert browser.runs("return [metres(9999999999), proportionOf(2500, 8000), short('7/3'), short('3000')]") == ["9999999.999", "5/16", "≈ 2.333", "3000"]


# ---- five: what lies at a place


def test_a_click_asks_for_the_millimetre_under_it(page):
    browser = page.browser
    page.goes_to("#A1/chainage:2.490..2.510")
    page.draws("A1", 2490, 2510)
    page.clicks_at(2500.5)
    browser.shows("#at-said", "chainage 2.500 m. Link 1, mm 2500; the route runs along the link.")
    assert page.rows("#hits") == [["10", "SPEED", "80", "both", "0", "162", "1", "2500"], ["11", "RAIL", "STEEL", "left", "300", "163", "1", "2500"]]
    assert page.fragment() == "#A1/chainage:2.490..chainage:2.510/chainage:2.500" and page.fields("method", "pos") == ["abs", "3000"]
    assert browser.runs("return document.querySelectorAll('[data-mark=asked]').length") == 1
    page.pictured("a_click")
    page.clicks_at(2499.5)
    browser.shows("#at-said", "chainage 2.499 m.")
    assert [row[0] for row in page.rows("#hits")] == ["11"]
    # the same place in other words; those that can be asked lead to it
    assert browser.text("#ways li").splitlines() == [
        "measure: 14994/5 (≈ 2998.800)",
        "from a referent: KM2+2497",
        "chainage, in metres: 2.499",
        "proportion: 2499/8000",
        "on link 1: 2499 mm",
    ]
    assert browser.runs("return [...document.querySelectorAll('#ways a')].map(a => a.hash)") == ["#A1/rel:KM2+2497", "#A1/chainage:2.499", "#A1/int:2499/8000"]


def test_a_click_on_a_point_asks_for_its_millimetre(page):
    browser = page.browser
    page.opens_route("LONG")
    path = "return document.querySelector('g[data-kind=point] g path').getBoundingClientRect().toJSON()"
    box = browser.runs("document.querySelector('#diagram').scrollIntoView();" + path)
    browser.clicks_at(box["x"] + box["width"] / 2, box["y"] + box["height"] / 2)
    browser.shows("#at-said", "chainage 4333.333 m")
    assert [row[:3] for row in page.rows("#hits")] == [["14", "SIGN", "YIELD"]]


TYPED = [
    ("abs", "3000", "chainage 2.500 m. Link 1, mm 2500"),
    ("rel", "KM2+500", "chainage 0.502 m. Link 1, mm 502"),
    ("int", "1/1", "chainage 7.999 m. Link 2, mm 0; the route runs against the link"),
    ("chainage", "8", "chainage 7.999 m. Link 2, mm 0"),
    ("abs", "3000.9", "chainage 2.500 m. Link 1, mm 2500"),
    ("abs", "9001", "Error: The position lies off the route, whose measures are 0 to 9000."),
    ("rel", "KM9+1", "Error: The position is said from a referent that is not on the route. It has KM2."),
    ("int", "2/1", "Error: The position cannot be read. Write a proportion from 0/1 to 1/1, as 1/3."),
    ("int", "1/1000001", "Error: The position cannot be read. Write a proportion"),
    ("chainage", "8.001", "Error: The position lies off the route, which is 8.000 m long."),
    ("abs", "", "Error: Type a position."),
]


def test_a_typed_position(page):
    browser = page.browser
    page.opens_route("A1")
    for method, pos, told in TYPED:
        page.chooses("#method", method)
        browser.types("#pos", pos + ENTER)
        browser.shows("#at-said", told)
        assert browser.runs("return document.getElementById('pos').getAttribute('aria-invalid')") == str(told.startswith("Error")).lower()
    page.chooses("#method", "int")
    browser.types("#pos", "1/2")
    browser.clicks("#asking button")
    browser.shows("#at-said", "chainage 4.000 m")
    page.pictured("a_position")
    assert [row[0] for row in page.rows("#hits")] == ["10", "11"]


# ---- six: classes on and off

SHOWN_CLASSES = "return [...document.querySelectorAll('g[data-class]')].filter(g => getComputedStyle(g).display !== 'none').map(g => g.dataset.class)"


def test_classes_are_hidden_and_shown(page):
    browser = page.browser
    shown = lambda: set(browser.runs(SHOWN_CLASSES))
    page.opens_route("A1")
    browser.shows("#classes", "SPEED")
    assert browser.text("#classes label").split() == ["RAIL", "SIGN", "SPEED"]
    assert browser.text("#classes li").splitlines() == ["STEEL: 5.000 m", "STOP: 1 place", "80: 5.500 m"]
    assert shown() == {"RAIL", "SIGN", "SPEED"}
    browser.shows("#rows-said", "3 of 3 rows")
    before = len(page.requests())
    browser.clicks("#classes input[value=RAIL]")
    assert shown() == {"SIGN", "SPEED"}
    assert browser.text("#rows-said").startswith("2 of 3 rows")
    browser.clicks("#none")
    assert shown() == set()
    page.pictured("no_class")
    browser.clicks("#all")
    assert shown() == {"RAIL", "SIGN", "SPEED"}
    browser.clicks("#classes input[value=SIGN]")
    browser.clicks("#classes input[value=RAIL]")
    assert before == len(page.requests())
    assert browser.runs("return document.querySelector('#plain').search") == "?route=A1&class=SPEED"
    # a new diagram keeps them
    browser.clicks("#in")
    page.draws("A1", 2000, 6000)
    assert shown() == {"SPEED"}
    page.pictured("one_class")
    assert browser.complaints() == []


# ---- seven: rows

CSV_OF_ROWS = """
const link = document.querySelector('#csv'), made = URL.createObjectURL;
let saved;
URL.createObjectURL = blob => ((saved = blob), made(blob));
link.addEventListener('click', event => event.preventDefault(), { once: true });
link.click();
URL.createObjectURL = made;
return saved.text().then(text => [link.download, text]);
"""


def test_the_rows_are_sorted_filtered_and_saved(page):
    browser = page.browser
    page.opens_route("A1")
    browser.shows("#rows-said", "3 of 3 rows of this stretch.")
    firsts = lambda: [row[:5] for row in page.rows("#rows")]
    rail, speed, sign = ["RAIL", "STEEL", "left", "0", "6000"], ["SPEED", "80", "both", "3000", "9000"], ["SIGN", "STOP", "right", "≈ 5998.800", "6000"]
    assert firsts() == [rail, speed, sign]
    browser.clicks("#rows button[value=to]")
    assert firsts() == [rail, sign, speed]
    browser.clicks("#rows button[value=to]")
    assert firsts() == [speed, rail, sign]
    assert browser.runs("return [...document.querySelectorAll('#rows th')].map(h => h.getAttribute('aria-sort')).filter(s => s && s !== 'none')") == ["descending"]
    browser.types("#row-filter", "s to")
    browser.shows("#rows-said", "1 of 3 rows")
    assert firsts() == [sign]
    browser.types("#row-filter", "s")
    page.pictured("rows")
    name, text = browser.runs(CSV_OF_ROWS)
    assert name == "A1.csv"
    page.server.stop()
    saved = text.splitlines()
    told = run("rows", str(page.folder.parent / "roads.db"), "--route", "A1").stdout.decode().splitlines()
    assert saved[0] == told[0]
    assert sorted(saved[1:]) == sorted(told[1:]) and text.endswith("\n")


def test_the_rows_are_those_of_the_stretch(page):
    browser = page.browser
    page.goes_to("#A1/chainage:0.000..2.500")
    browser.shows("#rows-said", "1 of 1 row of this stretch.")
    browser.clicks("#whole")
    browser.shows("#rows-said", "3 of 3 rows of this stretch.")
    # the number of an asset marks it, and whoever pressed it is still there
    browser.runs("document.querySelector('#rows a').focus()")
    browser.presses(ENTER)
    browser.waits_for("a mark", lambda browser: browser.runs("return document.querySelectorAll('[data-mark=\"asset 11\"] rect').length") == 1)
    browser.shows("#rows-said", "3 of 3 rows")
    assert browser.runs("return [document.activeElement.textContent, document.activeElement.getAttribute('aria-current')]") == ["11", "true"]


# ---- eight: what is found


def test_an_asset_is_found_and_shown(page):
    browser = page.browser
    page.opens()
    assert page.finds("asset", "10") == "Asset 10 holds one stretch."
    assert browser.text("#results") == "A1: measures 3000 to 9000 (2.500 to 8.000 m), both: SPEED 80, asset 10"
    browser.clicks("#results a")
    page.draws("A1", 0, 8000)
    browser.waits_for("mark", lambda browser: browser.runs("return document.querySelectorAll('[data-mark=\"asset 10\"] rect').length") == 1)
    page.pictured("an_asset")
    left, wide = browser.runs("const r = document.querySelector('[data-mark] rect'); return [Number(r.getAttribute('x')), Number(r.getAttribute('width'))]")
    assert (left + 20, wide - 40) == (4125, 6875)
    page.finds("asset", "13")
    browser.shows("#results", "LONG: measures 1000000 to 1000001 (1000.000 to 1000.001 m), both")
    browser.clicks("#results a")
    page.draws("LONG", 995_000, 1_005_001)
    assert page.fragment() == "#LONG/chainage:995.000..chainage:1005.001/asset:13"
    for number, told in [("99", "Error: NoAsset"), ("x", "Error: Malformed:asset"), ("0", "Error: Malformed:asset")]:
        assert page.finds("asset", number).startswith(told)
        assert browser.text("#results") == ""


FOUND = [
    ("value", "80", "1 row has the value 80.", "A1: measures 3000 to 9000 (2.500 to 8.000 m), both: SPEED 80, asset 10"),
    ("value", "none", "No row has the value none.", ""),
    ("class", "sign", "SIGN has 2 rows.", "A1: measures ≈ 5998.800 to 6000 (4.999 to 5.000 m), right: SIGN STOP, asset 12"),
    ("class", "NONE", "Error: NoClass: there is no class of this name.", ""),
    ("key", "e3", "Key e3 is edit 164.", "Edit 164: enter 12 SIGN A1 R int 4999/8000 STOP 1500"),
    ("key", "e9", "No edit has the key e9.", ""),
    ("ref", "km", "1 referent of this name or part of a name.", "KM2 on A1, at 0.002 m"),
    ("route", "lo", "1 route of this name or part of a name.", "LONG 6000.000 m"),
]


@pytest.mark.parametrize(("kind", "text", "told", "first"), FOUND)
def test_more_is_found(page, kind, text, told, first):
    page.opens()
    assert page.finds(kind, text) == told
    assert page.browser.text("#results").partition("\n")[0] == first


def test_a_referent_leads_to_its_place(page):
    page.opens()
    page.finds("ref", "KM2")
    page.browser.clicks("#results a")
    page.browser.shows("#at-said", "A1: measure ≈ 2.400, chainage 0.002 m.")
