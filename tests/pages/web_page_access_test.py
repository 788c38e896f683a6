"""The page for whoever cannot see, point or bear motion, by WCAG 2.2 AA: contrasts, names, keys, the focus, targets, a narrow window."""

import contextlib

import pytest

from contrasts import FAINT, RING, SMALL
from program import sheet_of
from proxies import posted
from web_page import DOWN, ENTER, RIGHT, TABULATOR, browser, page

SPACE, SHIFT, HOME, END = " ", "\ue008", "\ue011", "\ue010"
LATER = sheet_of(
    "v1,class,LANES,exclusive", *(f"w{n},enter,{50 + n},LANES,A1,B,abs,{n * 1000},{n * 1000 + 1000},{n},0" for n in range(8)), "x1,retire,10,A1,abs,3000,4000"
)
MIXED = sheet_of("s1,link,1,5000", "q1,class,WIDTH,exclusive", "q2,enter,10,WIDTH,A1,B,abs,0,9000,7,0")


@pytest.fixture
def full(page):
    """The page with more to show."""
    status, body = posted(page.port, "edits", LATER)
    assert status == 200 and body.endswith(b"x1,done,176\n"), body
    return page


@contextlib.contextmanager
def emulated(page, *given, **media):
    """A window of a width and a height, where one is given, and what whoever looks likes."""
    features = [{"name": name.replace("_", "-"), "value": value} for name, value in media.items()]
    try:
        page.emulates("setEmulatedMedia", features=features)
        if given:
            page.emulates("setDeviceMetricsOverride", width=given[0], height=given[1], deviceScaleFactor=1, mobile=False)
        yield
    finally:
        page.emulates("setEmulatedMedia", features=[])
        page.emulates("clearDeviceMetricsOverride")


def views(page):
    """Each view of the page in turn, by its name, with all that it can show."""
    browser = page.browser
    page.opens()
    browser.shows("#edits", "x1")
    page.finds("class", "SIGN")
    yield "network"
    browser.runs("document.getElementById('drafts').open = true")
    for field, text in [("route", "A1"), ("place", "abs:3000"), ("new", "A1N")]:
        browser.types(f"#fields [name={field}]", text)
    browser.clicks("#drafting button")
    browser.shows("#looked", "split.csv")
    yield "draft"
    page.chooses("#draft", "retire")
    browser.types("#fields [name=asset]", "99" + ENTER)
    browser.shows("#draft-said", "Error: ")
    yield "no draft"
    page.goes_to("#A1/chainage:1.000..8.000/abs:4500/asset:10")
    browser.shows("#hits", "SPEED")
    browser.shows("#rows-said", "rows of this stretch")
    browser.waits_for("a mark", lambda browser: browser.runs("return document.querySelectorAll('[data-mark] rect').length > 1"))
    page.looks_at(page.file("roads.csv", MIXED))
    yield "route"
    browser.clicks("#all-or-none")
    browser.clicks("#send")
    browser.shows("#sheet-said", "Error: Nothing was done.")
    browser.shows("#advice", "q2")
    yield "nothing done"
    page.looks_at(page.file("roads.csv", MIXED))
    browser.clicks("#all-or-none")
    browser.clicks("#send")
    browser.shows("#sheet-said", "to its end")
    browser.types("#pos", "99999" + ENTER)
    browser.shows("#at-said", "Error: The position lies off")
    yield "replies"
    page.goes_to("#edit/176")
    browser.shows("#taken", "retired")
    browser.shows("#record", "x1")
    yield "edit"
    page.goes_to("#asset/10")
    browser.shows("#past", "retired")
    browser.shows("#entered", "e1")
    yield "asset"


@pytest.mark.parametrize("scheme", ["light", "dark"])
def test_what_is_written_and_drawn_stands_out(full, scheme):
    with emulated(full, prefers_color_scheme=scheme):
        for view in views(full):
            assert full.browser.runs(FAINT) == [], view
            full.pictured(f"{scheme}_{view}")


@pytest.mark.parametrize("scheme", ["light", "dark"])
def test_the_focus_is_seen(full, scheme):
    browser = full.browser
    with emulated(full, prefers_color_scheme=scheme):
        for view in views(full):
            browser.runs("document.activeElement.blur()")
            for _ in range(50):
                browser.presses(TABULATOR)
                style, width, ratio, told = browser.runs(RING)
                assert told.startswith("<body") or (style != "none" and width >= 2 and ratio >= 3), (view, style, width, ratio, told)


def test_what_can_be_pressed_is_large_or_stands_apart(full):
    for view in views(full):
        assert full.browser.runs(SMALL) == [], view


def test_a_telephone_shows_each_view_without_scrolling_sideways(full):
    with emulated(full, 360, 740):
        for view in views(full):
            assert full.browser.runs("return innerWidth === 360 && document.documentElement.scrollWidth <= 360"), view
            assert full.browser.runs(SMALL) == [], view
            full.pictured(f"telephone_{view}")


MOVING = """
return [...document.querySelectorAll('*')].filter(e => { const s = getComputedStyle(e);
  return s.animationName !== 'none' || parseFloat(s.transitionDuration) > 0 || s.scrollBehavior !== 'auto'; }).map(e => e.outerHTML.slice(0, 100))
"""


def test_nothing_moves_by_itself(full):
    with emulated(full, prefers_reduced_motion="reduce"):
        for view in views(full):
            assert full.browser.runs(MOVING) == [] and full.browser.runs("return document.getAnimations().length") == 0, view



NAMED = {"button", "link", "textbox", "searchbox", "combobox", "checkbox", "region", "group", "heading", "search", "DisclosureTriangle"}


def test_each_control_has_a_name(full):
    """As the browser tells it to a reader of the screen; also what opens and closes, which is a group."""
    groups = set()
    for view in views(full):
        nodes = full.commands("Accessibility.getFullAXTree")["nodes"]
        told = [(node["role"]["value"], node.get("name", {}).get("value", "").strip()) for node in nodes if not node["ignored"]]
        assert len([role for role, _ in told if role in NAMED]) > 10
        assert [role for role, name in told if role in NAMED and not name] == [], view
        groups |= {name for role, name in told if role == "group"}
    assert groups >= {"Write a sheet for me", "Send a sheet", "What changes, in 3 lines"}, groups


# ---- by keys alone


class Keys:
    """Somebody who has a keyboard and nothing else."""

    def __init__(self, page):
        self.page, self.browser = page, page.browser

    def at(self, css):
        return self.browser.runs("return document.activeElement.matches(arguments[0])", css)

    def reaches(self, css, most=60):
        """Goes on by the tabulator."""
        for _ in range(most):
            self.browser.presses(TABULATOR)
            if self.at(css):
                return
        raise AssertionError((css, self.browser.runs("return document.activeElement.outerHTML.slice(0, 200)")))

    def presses(self, css, *keys):
        self.reaches(css)
        self.browser.presses(*(keys or [ENTER]))

    def types(self, text):
        self.browser.presses(*text)

    def is_somewhere(self):
        """The focus was not lost."""
        assert not self.at("body")


def test_each_function_is_reached_by_keys(full):
    browser, keys = full.browser, Keys(full)
    full.opens()
    browser.shows("#edits", "x1")
    # past what stands at each top
    keys.presses("#skip")
    assert keys.at("#main")
    # a route, by a part of its name and by rows
    keys.reaches("#filter")
    keys.types("1")
    browser.shows("#routes-said", "70 of 152 routes")
    keys.reaches("#routes a")
    browser.presses(DOWN, DOWN, ENTER)
    browser.shows("#route-said", "Measures")
    assert keys.at("#route-title")
    keys.presses('#route .note a[href="#"]')
    browser.waits_for("the network", lambda browser: keys.at("#network-title"))
    # a table is one stop, however long it is
    keys.reaches("#routes a")
    keys.reaches("#totals", most=1)
    # find, and what is found
    keys.reaches("#kind")
    browser.presses(*[DOWN] * 5)
    keys.reaches("#wanted", most=1)
    keys.types("A1" + ENTER)
    browser.shows("#find-said", "1 route")
    keys.presses("#results a")
    full.draws("A1", 0, 8000)
    keys.presses("#close")
    assert keys.at("#wanted")
    browser.shows("#rows-said", "rows")
    # the stretch, by fields and buttons, and by keys in the diagram
    keys.reaches("#by")
    browser.presses(END)
    keys.reaches("#from", most=1)
    browser.presses(*"\ue003" * 12, *"1.5")
    keys.reaches("#to", most=1)
    browser.runs("document.activeElement.select()")
    keys.types("2.5" + ENTER)
    full.draws("A1", 1500, 2500)
    for name, start, end in [("out", 1000, 3000), ("in", 1500, 2500), ("back", 1000, 2000), ("on", 1500, 2500), ("whole", 0, 8000)]:
        keys.presses(f"#{name}")
        full.draws("A1", start, end)
        assert keys.at(f"#{name}")
    keys.reaches("#plain")
    keys.reaches("#diagram")
    browser.presses("+")
    full.draws("A1", 2000, 6000)
    browser.presses(RIGHT)
    full.draws("A1", 4000, 8000)
    browser.presses(HOME)
    full.draws("A1", 0, 8000)
    # what lies in the middle
    browser.presses(ENTER)
    browser.shows("#at-said", "chainage 4.000 m")
    assert keys.at("#diagram")
    # classes
    keys.presses("#none")
    browser.shows("#rows-said", "0 of")
    keys.presses("#classes input", SPACE)
    browser.waits_for("a class", lambda browser: not browser.text("#rows-said").startswith("0 of"))
    browser.runs("document.activeElement.blur()")
    keys.presses("#all")
    # a position, and its other ways
    keys.reaches("#method")
    browser.presses(HOME)
    keys.reaches("#pos")
    browser.runs("document.activeElement.select()")
    keys.types("3000" + ENTER)
    browser.shows("#at-said", "chainage 2.500 m")
    keys.presses("#ways a")
    browser.shows("#at-said", "A1: measure 3000, chainage 2.500")
    keys.is_somewhere()
    # rows: filtered, sorted, one after the other, saved
    keys.reaches("#row-filter")
    keys.types("lanes")
    browser.shows("#rows-said", "8 of 11 rows")
    keys.reaches("#csv", most=1)
    keys.presses("#rows button[value=value]")
    assert browser.runs("return document.querySelector('#rows [aria-sort=ascending] button').value") == "value"
    keys.reaches('#rows a[href^="#A1"]')
    browser.presses(DOWN, DOWN, ENTER)
    browser.waits_for("a mark", lambda browser: browser.runs("return document.querySelector('[data-mark^=asset]')?.dataset.mark") == "asset 52")
    browser.waits_for("the row", lambda browser: keys.at("#rows a"))
    # an asset's history, the edit, and the edits beside it
    keys.reaches('#rows a[href^="#edit"]', most=1)
    keys.presses('#rows a[href="#asset/52"]')
    browser.shows("#entered", "w2")
    assert keys.at("#asset-title")
    keys.presses('#entered a[href="#edit/170"]')
    browser.shows("#record", "w2")
    assert keys.at("#edit-title")
    keys.presses('#beside a[href="#edit/169"]')
    browser.shows("#record", "w1")
    # a sheet: opened, looked at, not sent, sent
    keys.presses("#sheets summary")
    keys.reaches("#file", most=1)
    full.looks_at(full.file("roads.csv", MIXED))
    assert keys.at("#send")
    keys.presses("#forget")
    browser.shows("#sheet-said", "Nothing was sent.")
    keys.is_somewhere()
    full.looks_at(full.file("roads.csv", MIXED))
    browser.presses(ENTER)
    browser.shows("#sheet-said", "to its end")
    keys.is_somewhere()
    keys.reaches("#save")
    keys.presses("#refresh")
    assert keys.at("#refresh")
    # a sheet that is written: what is wanted, its fields, and the look at it
    keys.presses("#drafts summary")
    keys.reaches("#draft", most=1)
    browser.presses(*[DOWN] * 3)
    keys.reaches("#fields [name=asset]", most=1)
    keys.types("51" + ENTER)
    browser.shows("#looked", "retire.csv: an edit sheet of 1 record")
    browser.waits_for("the look", lambda browser: keys.at("#send"))
    keys.presses("#forget")
    browser.shows("#sheet-said", "Nothing was sent.")
    keys.is_somewhere()
    assert browser.complaints() == []


def test_a_focus_that_would_be_lost_goes_on_beside(full):
    browser, keys = full.browser, Keys(full)
    full.opens_route("A1")
    full.server.stop()
    keys.presses("#in")
    browser.shows("#route-said", "Error: The program does not run.")
    assert keys.at("#route-title")
