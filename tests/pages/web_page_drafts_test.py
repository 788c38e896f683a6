"""The page in a browser: sheets that it writes for somebody, which are tried, and sent by hand."""

import re

import pytest

from program import sheet_of
from proxies import posted
from web_page import browser, page

FIELD = '#drafting [name="{}"]'
LINKS = sheet_of("k1,link,8,2000", "k2,recalibrate,A1,0:0 2500:3000 5000:6000 8000:9000", "k3,split,A1,2500,A2")


def writes(page, what, fields):
    """Says what is wanted, and lets the sheet be written."""
    browser = page.browser
    browser.runs("document.getElementById('drafts').open = true")
    page.chooses("#draft", what)
    for name, text in fields.items():
        browser.types(FIELD.format(name), text)
    browser.clicks("#drafting button")
    browser.waits_for("an answer", lambda browser: browser.text("#draft-said") not in ["", "The sheet is being written."])


def posts(page):
    """The paths, without the host, of what was asked that may be no question."""
    return [name.partition("/v1/")[2] for name in page.requests() if re.search(r"/v1/(edits|surveys|draft)", name)]


WRITTEN = [
    ("split", {"route": "LONG", "place": "abs:3000000", "new": "NORTH"}, "It changes route LONG, NORTH."),
    ("split", {"route": " A1 ", "place": "rel:KM2+498", "new": "A1N"}, "It changes route A1, A1N."),
    ("bypass", {"route": "A1", "from": "500", "to": "2000", "pieces": "8:0:1000:+ 8:1500:2000:+", "old": "A1OLD"}, "It changes route A1, A1OLD."),
    ("merge", {"route": "A1  A2"}, "It changes route A1, A2."),
    ("retire", {"asset": "13"}, "It takes 0.002 m of sides from 1 asset."),
    ("replace", {"asset": "14", "number": "114", "value": "STOP"}, "It takes 0.001 m of sides from 1 asset; gives 0.001 m of sides to 1 asset; enters asset 114."),
    ("move", {"asset": "14", "number": "114", "route": "LONG", "from": "abs:5000000"}, "It takes 0.001 m of sides from 1 asset; gives 0.001 m of sides to 1 asset; enters asset 114."),
    ("move", {"asset": "13", "number": "113", "route": "LONG", "from": "1000", "to": "1003"}, "It takes 0.002 m of sides from 1 asset; gives 0.006 m of sides to 1 asset; enters asset 113."),
    ("undo", {}, "It changes route A1, A2."),
    ("undo", {"since": "169"}, "It changes route A1, A2."),
]


@pytest.mark.parametrize(("what", "fields", "told"), WRITTEN)
def test_a_sheet_is_written_tried_and_sent(page, what, fields, told):
    browser = page.browser
    edits = 166
    if what in ["bypass", "merge", "undo"]:
        status, body = posted(page.port, "edits", LINKS)
        assert status == 200 and body.endswith(b"k3,done,169\n"), body
        edits = 169
    page.opens()
    writes(page, what, {**fields, "key": "KM-"})
    browser.shows("#draft-said", "The sheet is written, and shown below. Nothing is done before you send it.")
    browser.shows("#looked .changes", told)
    records = re.match(rf"{what}\.csv: an edit sheet of (\d+) record", browser.text("#looked p"))[1]
    assert browser.text("#looked .trial") == f"It would be: {records} done, 0 again, 0 refused."
    sheet = browser.runs("return document.querySelector('#looked pre').textContent").splitlines()
    assert len(sheet) == int(records) + 1 and sheet[1].startswith(f"KM-{edits + 1}-1,"), sheet
    assert browser.runs("return [document.querySelector('#drafted').download, document.activeElement.id]") == [f"{what}.csv", "send"]
    # nothing is done so far; all of it is done, or nothing
    assert posts(page) == [f"draft/{what}", "edits/check"] and browser.text("#health").startswith(f"{edits} edits.")
    browser.clicks("#send")
    browser.shows("#sheet-said", f"{what}.csv was sent to its end, in one part. Nothing of it was refused.")
    browser.shows("#health", f"{edits + int(records)} edits.")
    assert posts(page)[-1] == "edits?all=1" and browser.complaints() == []


def test_a_sheet_that_is_not_wanted_is_not_sent(page):
    browser = page.browser
    page.opens()
    writes(page, "retire", {"asset": "10"})
    browser.shows("#looked", "retire.csv")
    page.pictured("a_draft")
    browser.clicks("#forget")
    browser.shows("#sheet-said", "Nothing was sent.")
    assert posts(page) == ["draft/retire", "edits/check"]
    # and the next one is tried alone
    writes(page, "retire", {"asset": "13"})
    browser.shows("#looked .changes", "It takes 0.002 m of sides from 1 asset.")
    assert len(re.findall("retire.csv", browser.text("#looked"))) == 1


# What is wanted, the field that is wrong, if one is, and how what is told begins.
NOT_WRITTEN = [
    ("split", {"route": "A1", "place": "3km", "new": "A1N"}, ["place"], '"Place" is no place: '),
    ("move", {"asset": "12", "number": "112", "route": "A1", "from": "3km"}, ["from"], '"Place, or where it begins" is no place: '),
    ("move", {"asset": "11", "number": "112", "route": "A1", "from": "0", "to": "3km"}, ["to"], '"Where it ends, if it is no point" is no place: '),
    ("replace", {"asset": "twelve", "number": "112", "value": "STOP"}, ["asset"], '"Number of the asset" is no asset number.'),
    ("bypass", {"route": "A1", "from": "0", "to": "500", "pieces": "8:0:1000:+", "old": "a1"}, ["old"], '"Name for the old road" is no route name.'),
    ("bypass", {"route": "A1", "from": "0", "to": "500", "pieces": "8:0", "old": "A2"}, ["pieces"], '"New ground, as 2:0:2500000:+" is no list of pieces: LINK:FROM:TO:+ or '),
    ("bypass", {"route": "A1", "from": "0", "to": "500", "pieces": "5:9:1:+", "old": "A2"}, [], "A piece "),
    ("bypass", {"route": "A1", "from": "500", "to": "0", "pieces": "8:0:1000:+", "old": "A2"}, ["from", "to"], '"It leaves the old road at" is not before "It comes back at" on the route.'),
    ("retire", {"asset": "11", "key": "a b"}, ["key"], "A key has at most 40 characters of A-Z, a-z, 0-9 and . : _ -, with the numbers behind what "),
    ("undo", {"number": "x"}, ["number"], '"Number for assets that come back, if there are any" is no asset number.'),
    ("split", {"route": "A9", "place": "3000", "new": "A1N"}, [], "There is no route"),
    ("retire", {"asset": "99"}, [], "There is no such asset"),
    ("merge", {"route": "A1"}, [], "Merge wants "),
]


def test_why_no_sheet_is_written_is_told_beside_the_fields(page):
    browser = page.browser
    page.opens()
    for what, fields, blamed, told in NOT_WRITTEN:
        writes(page, what, fields)
        said = browser.text("#draft-said")
        assert said.startswith(f"Error: {told}") and said.endswith("."), said
        wrong = browser.runs("return [...document.querySelectorAll('#drafting [aria-invalid=true]')].map(e => [e.name, e.getAttribute('aria-describedby')])")
        assert wrong == [[name, "draft-said"] for name in blamed], (what, fields, said)
        assert browser.runs("return document.querySelector('#drafted').hidden && document.querySelector('#preview').hidden")
    assert posts(page) == [f"draft/{what}" for what, *_ in NOT_WRITTEN]
    assert browser.runs("return document.querySelector('#draft-said').role") == "status"
    page.pictured("no_draft")
    # what was wrong is forgotten with the next try
    writes(page, "retire", {"asset": "13", "key": "KM-"})
    browser.shows("#draft-said", "The sheet is written")
    assert browser.runs("return document.querySelectorAll('#drafting [aria-invalid=true]').length") == 0


def test_each_field_that_must_be_said_is_wanted_before_anything_is_asked(page):
    """As the browser tells it by itself."""
    browser = page.browser
    page.opens()
    browser.runs("document.getElementById('drafts').open = true")
    wanted = {"split": 3, "bypass": 5, "merge": 1, "retire": 1, "replace": 3, "move": 4, "undo": 0}
    assert browser.runs("return [...document.querySelectorAll('#draft option')].map(e => e.value)") == list(wanted)
    for what, count in wanted.items():
        page.chooses("#draft", what)
        assert browser.runs("return document.querySelectorAll('#drafting input:invalid').length") == count, what
    page.chooses("#draft", "split")
    browser.clicks("#drafting button")
    assert posts(page) == [] and browser.text("#draft-said") == ""


def test_a_program_that_has_ended_writes_no_sheet(page):
    browser = page.browser
    page.opens()
    page.server.stop()
    writes(page, "retire", {"asset": "10"})
    browser.shows("#draft-said", "Error: The program does not run. (Status 502.)")
    assert browser.runs("return document.querySelector('#preview').hidden")


# An answer of the program, and what is told.
ANSWERS = [
    (409, '{"error":"NotDrafted","why":"<b>this</b> is not possible"}', "Error: <b>this</b> is not possible."),
    (409, '{"error":"NotDrafted","why":"assets were taken away: give --number N, for new assets"}', 'Error: Assets were taken away: give "Number for assets that come back, if there are any", for new assets.'),
    (400, '{"error":"BadDraft","why":"EDIT is no edit number"}', 'Error: "First edit to undo, if not the last alone" is no edit number.'),
    (400, '{"error":"Unknown:since"}', "Error: Unknown:since."),
    (409, '{"error":"NoRoute"}', "Error: NoRoute: there is no route of this name."),
    (409, "", "Error: It cannot be done. (Status 409.)"),
    (404, "", "Error: There is nothing at this path: perhaps the program is older than this page. (Status 404.)"),
    (503, "", "Error: The program has too little memory, or could not write to its disk."),
    (200, "none", ""),
]


def test_each_answer_has_its_sentence(page):
    browser = page.browser
    page.opens()
    for status, text, told in ANSWERS:
        browser.runs("window.fetch = async () => new Response(arguments[1], { status: arguments[0] })", status, text)
        writes(page, "undo", {})
        if told:
            assert browser.text("#draft-said").startswith(told), told
        else:
            browser.shows("#draft-said", "Error: undo.csv is no edit sheet and no survey")
