"""The page in a browser: what an edit did, and the history of an asset."""

import re

import pytest

from program import TOP, ends, sheet_of
from proxies import posted
from stores import edit
from web_page import browser, page, service

LATER = sheet_of(
    "x1,retire,10,A1,abs,3000,4000",
    "x2,supersede,20,SPEED,A1,R,abs,4000,9000,60,0",
    "x3,realign,A1,0,1000,,0:0 7000:7000",
    "x4,retire,14,LONG,abs,4333333",
)


@pytest.fixture
def later(page):
    """The page with edits 167 to 170, which take something away."""
    status, body = posted(page.port, "edits", LATER)
    assert status == 200 and body.endswith(b"x4,done,170\n"), body
    return page


def record(page, css="#record"):
    """What is told of a record: its names and what stands behind them."""
    return {name.lower(): text for name, text in page.rows(css)}


def test_a_click_shows_what_an_edit_did(later):
    browser = later.browser
    later.opens()
    browser.shows("#edits", "x4")
    browser.clicks('#edits a[href="#edit/168"]')
    browser.shows("#taken-said", "2 parts.")
    browser.shows("#record", "x2")
    assert browser.text("#edit-title") == "Edit 168" and later.fragment() == "#edit/168"
    assert browser.runs("return document.activeElement.id") == "edit-title"
    assert record(later) == {
        "key": "x2", "verb": "supersede: enters an asset, and retires what lay there of its class", "asset": "20", "class": "SPEED", "route": "A1",
        "side": "right", "method": "measure", "from": "4000", "to": "9000", "value": "60", "offset": "0 mm",
    }  # fmt: skip
    parts = [["retired", "10", "SPEED", "80", "1", "3333", "5000", "right"], ["retired", "10", "SPEED", "80", "2", "0", "3000", "left"]]
    assert later.rows("#taken") == parts
    later.pictured("an_edit")
    # the next one, and back
    browser.clicks('#beside a[href="#edit/169"]')
    browser.shows("#record", "replaces a stretch of a route")
    assert record(later) == {"key": "x3", "verb": "realign: replaces a stretch of a route", "route": "A1", "from": "0.000 m", "to": "1.000 m", "marks": "0:0 7000:7000"}
    browser.shows("#taken", "abandoned")
    assert later.rows("#taken") == [["abandoned", "11", "RAIL", "STEEL", "1", "0", "1000", "left"]]
    browser.runs("history.back()")
    browser.shows("#record", "x2")
    browser.runs("history.back()")
    browser.waits_for("the network", lambda browser: browser.runs("return document.activeElement.id") == "network-title")
    assert browser.complaints() == []


def test_an_address_shows_an_edit_or_an_asset(later):
    browser = later.browser
    later.goes_to("#edit/1")
    browser.shows("#record", "makes a link")
    assert record(later) == {"key": "s1", "verb": "link: makes a link", "link": "1", "length": "5.000 m"}
    browser.shows("#taken-said", "It took nothing away.")
    assert browser.runs("return [...document.querySelectorAll('#beside a')].map(a => a.hash)") == ["#edit/2"]
    later.goes_to("#edit/171")
    for css in ["#edit-said", "#taken-said"]:
        browser.shows(css, "Error: NoEdit: there is no edit of this number.")
    later.goes_to("#asset/99")
    for css in ["#asset-said", "#entered-said", "#past-said"]:
        browser.shows(css, "Error: NoAsset: there is no asset of this number.")
    for text, address in [("edit/79", {"edit": "79"}), ("asset/1154", {"asset": "1154"})]:
        assert browser.runs("return readAddress(arguments[0])", text) == address and browser.runs("return writeAddress(arguments[0])", address) == text
    browser.runs("location.hash = 'edit/x'")
    browser.shows("#address-said", "Error: The address names no route.")


def sides_of(parts):
    """How many millimetres the parts have of each side of each link."""
    sums = {}
    for *_, link, start, end, side in parts:
        for one in ["left", "right"] if side == "both" else [side]:
            sums[link, one] = sums.get((link, one), 0) + int(end) - int(start)
    return sums


def test_an_asset_has_its_history(later):
    browser = later.browser
    later.opens()
    later.finds("asset", "10")
    browser.clicks('#results a[href="#asset/10"]')
    browser.shows("#past-said", "entered, 4 taken away since.")
    browser.shows("#asset-said", "SPEED 80. It holds one stretch today.")
    assert later.rows("#lies") == [["A1", "left", "2333", "7000", "2.333", "7.000", "0"]]
    assert {"edit": "162", "key": "e1", "from": "3000"}.items() <= record(later, "#entered").items()
    parts = later.rows("#past")
    first = [part for part in parts if part[0] == "entered"]
    # what was entered, and then what was taken away of it, in the order of edits
    assert parts[: len(first)] == first and all(part[1:4] == ["162", "e1", "enter"] for part in first)
    assert sides_of(first) == {("1", "left"): 2500, ("1", "right"): 2500, ("2", "left"): 3000, ("2", "right"): 3000}
    assert parts[len(first) :] == [
        ["retired", "167", "x1", "retire", "1", "2500", "3333", "left"],
        ["retired", "167", "x1", "retire", "1", "2500", "3333", "right"],
        ["retired", "168", "x2", "supersede", "1", "3333", "5000", "right"],
        ["retired", "168", "x2", "supersede", "2", "0", "3000", "left"],
    ]
    later.pictured("an_asset")
    # where it lies, back, and on to the edit that took a part away
    browser.clicks("#lies a")
    later.draws("A1", 0, 7000)
    browser.runs("history.back()")
    browser.shows("#past", "168")
    browser.clicks('#past a[href="#edit/168"]')
    browser.shows("#record", "supersede")
    assert browser.complaints() == []


def test_the_rows_of_a_route_lead_to_histories(later):
    browser = later.browser
    later.opens_route("A1")
    browser.shows("#rows-said", "4 of 4 rows")
    browser.clicks('#rows a[href="#asset/20"]')
    browser.shows("#asset-said", "SPEED 60.")
    browser.shows("#entered", "168")
    assert record(later, "#entered")["edit"] == "168"
    browser.shows("#past-said", "entered, 0 taken away since.")
    browser.runs("history.back()")
    browser.waits_for("the rows", lambda browser: not browser.runs("return document.getElementById('listed').hidden"))
    browser.clicks('#rows a[href="#edit/163"]')
    browser.shows("#record", "STEEL")
    later.goes_to("#A1/chainage:3.000")
    browser.shows("#hits", "STEEL")
    browser.clicks('#hits a[href="#edit/168"]')
    browser.shows("#record", "supersede")


def test_an_asset_that_lies_nowhere_has_its_history(later):
    browser = later.browser
    later.opens()
    assert later.finds("asset", "14") == "Asset 14 is known, and lies on no route now."
    browser.clicks("#results a")
    browser.shows("#asset-said", "It lies on no route today.")
    browser.shows("#entered", "YIELD")
    assert {"edit": "166", "key": "e5", "verb": "enter: enters an asset"}.items() <= record(later, "#entered").items()
    browser.shows("#past-said", "1 part entered, 1 taken away since.")
    part = ["5", "4333333", "4333334", "left"]
    assert later.rows("#past") == [["entered", "166", "e5", "enter", *part], ["retired", "170", "x4", "retire", *part]]


def test_a_history_is_asked_once_and_alone(later):
    browser = later.browser
    later.goes_to("#asset/10")
    browser.shows("#past-said", ", 4 taken")
    for asset, told in [("11", ", 1 taken"), ("20", ", 0 taken"), ("10", ", 4 taken")]:
        browser.runs("location.hash = arguments[0]", f"asset/{asset}")
        browser.shows("#past-said", told)
    names = [name for name in later.requests() if not name.endswith("/health")]
    assert len([name for name in names if "/v1/history" in name]) == 3 and len(names) == len(set(names)), names
    assert not any("/v1/gone" in name for name in names)


def test_of_a_long_log_one_record_is_read(browser, tmp_path):
    ends(edit(tmp_path / "roads.db", sheet_of(*(f"k{n},link,{n},{n}" for n in range(1, 50_001))), stdout=None), b"", 0)
    with service(browser, tmp_path) as page:
        page.goes_to("#edit/7")
        browser.shows("#record", "k7")
        kept = "return [...kept].filter(([name]) => name.includes('v1/log')).map(([, entry]) => entry.length)"
        browser.waits_for("its length", lambda browser: browser.runs(kept)[0] > 0)
        assert browser.runs(kept) == [len("key,verb,a,b,c,d,e,f,g,h,i\nk7,link,7,7,,,,,,,\n")]
        page.finds("key", "k49999")
        assert browser.text("#results").startswith("Edit 49999: link 49999 49999")
        browser.clicks("#results a")
        browser.shows("#record", "k49999")


def test_the_fields_of_each_verb_have_the_names_of_the_document(page):
    page.opens()
    sections = re.findall(r"^### `(\w+)`\n(.*?)(?=^##)", (TOP / "docs" / "SHEETS.md").read_text(), re.M | re.S)
    named = {verb: re.findall(r"^\| ([\w ]+) \| [a-i], [C-K] \|", text, re.M) for verb, text in sections}
    assert len(named) == 15
    assert page.browser.runs("return Object.fromEntries(Object.entries(VERBS).map(([verb, [, ...fields]]) => [verb, fields]))") == named
