"""The web page over a service: chromium, over nginx with the lines of docs/SERVICE.md, over the program, used as a person uses it.

Route A1 has 8,000 mm. Asset 10 (SPEED) lies on both sides from chainage 2,500 to the end, asset 11 (RAIL) on the left up to 5,000, and asset
12 (SIGN) is a point on the right, in the last millimetre but one of the first link. Route LONG has 6 km, and R0 to R149 one millimetre each.
"""

import contextlib

import pytest

from browser import browsing
from program import FIRST, ends, run, sheet_of
from proxies import posted, web_server
from serving import HOST, SURVEY_HEADER, started

MORE = sheet_of(
    "m1,ref,KM2,A1,abs,3",
    "m2,link,4,150",
    "m3,link,5,6000000",
    "m4,route,LONG,5:0:6000000:+,0:0 6000000:6000000",
    *(f"n{n},route,R{n},4:{n}:{n + 1}:+,0:0 1:1" for n in range(150)),
)
SURVEY = SURVEY_HEADER + (
    b"e1,10,SPEED,A1,B,abs,3000,9000,80,0\n"
    b"e2,11,RAIL,A1,L,abs,0,6000,STEEL,300\n"
    b"e3,12,SIGN,A1,R,int,4999/8000,,STOP,1500\n"
    b"e4,13,SPEED,LONG,B,abs,1000000,1000001,50,0\n"
    b"e5,14,SIGN,LONG,L,abs,4333333,,YIELD,0\n"
)
TABULATOR, ENTER, RIGHT, DOWN = "\ue004", "\ue007", "\ue014", "\ue015"


class Page:
    """The page of a service in a browser, with the folder for pictures of it and files to send."""

    def __init__(self, browser, server, port, folder):
        self.browser, self.server, self.port, self.folder = browser, server, port, folder

    def goes_to(self, fragment=""):
        """Goes to an address, also where the page is open already."""
        self.browser.goes_to("about:blank")
        self.browser.complaints()
        self.browser.goes_to(f"http://{HOST}:{self.port}/{fragment}")

    def opens(self):
        """Opens the network."""
        self.goes_to()
        self.browser.shows("#routes-said", " route")

    def opens_route(self, name):
        self.goes_to(f"#{name}")
        self.browser.shows("#route-said", "from 0.000 m to ")

    def file(self, name, content):
        path = self.folder / name
        path.write_bytes(content)
        return str(path)

    def pictured(self, name):
        self.browser.pictured(self.folder / f"{name}.png")

    def drawn(self):
        """The stretch that is drawn, in millimetres, or nothing while there is none."""
        data = self.browser.runs("const d = document.querySelector('#diagram svg')?.dataset; return d ? [d.route, d.from, d.to] : null")
        return data and (data[0], int(data[1]), int(data[2]))

    def draws(self, route, start, end):
        """Waits for this stretch."""
        self.browser.waits_for((route, start, end), lambda browser: self.drawn() == (route, start, end) and browser.text("#route-said"))

    def fragment(self):
        return self.browser.runs("return location.hash")

    def fields(self, *names):
        return self.browser.runs("return arguments[0].map(id => document.getElementById(id).value)", names)

    def chooses(self, select, value):
        """Chooses from a list, as by hand."""
        self.browser.runs("const s = document.querySelector(arguments[0]); s.value = arguments[1]; s.dispatchEvent(new Event('change'))", select, value)

    def types_stretch(self, start, end):
        self.browser.types("#from", start)
        self.browser.types("#to", end + ENTER)

    def finds(self, kind, text):
        """Finds by one of the kinds of the list, and answers what is told."""
        self.chooses("#kind", kind)
        self.browser.types("#wanted", text + ENTER)
        self.browser.waits_for("an answer", lambda browser: browser.text("#find-said") not in ["", "It is being sought."])
        return self.browser.text("#find-said")

    def box(self):
        """The left, the top and the width of the diagram in the window, which has its middle in sight."""
        return self.browser.runs(
            "const s = document.querySelector('#diagram svg'); s.scrollIntoView({block: 'center'});"
            "const b = s.getBoundingClientRect(); return [b.left, b.top, b.width, b.bottom]"
        )

    def point_of(self, chainage):
        """Where a chainage is in the window, near the lower end of the diagram, where nothing is drawn."""
        left, _, width, bottom = self.box()
        _, start, end = self.drawn()
        return left + width * (1000 + (chainage - start) * 10000 / (end - start)) / 12000, bottom - 3

    def clicks_at(self, chainage):
        self.browser.clicks_at(*self.point_of(chainage))

    def rows(self, css):
        """The cells of each row of a table."""
        return self.browser.runs("return [...document.querySelectorAll(arguments[0])].map(r => [...r.cells].map(c => c.innerText))", f"{css} tbody tr:not([aria-hidden])")

    def requests(self):
        return self.browser.runs("return performance.getEntriesByType('resource').map(e => e.name)")

    def looks_at(self, *paths):
        """Chooses files, and waits until they are shown."""
        self.browser.runs("document.getElementById('sheets').open = true")
        self.browser.types("#file", "\n".join(paths))
        self.browser.waits_for("a look", lambda browser: browser.text("#looked") or browser.text("#sheet-said"))

    def sends(self, *paths):
        self.looks_at(*paths)
        self.browser.clicks("#send")

    def commands(self, command, **settings):
        return self.browser.send("POST", "/goog/cdp/execute", {"cmd": command, "params": settings})

    def emulates(self, command, **settings):
        self.commands(f"Emulation.{command}", **settings)

    def work(self):
        """The seconds that a processor has worked for what is shown, from the first call on, whatever runs beside it."""
        self.commands("Performance.enable", timeDomain="threadTicks")
        return next(entry["value"] for entry in self.commands("Performance.getMetrics")["metrics"] if entry["name"] == "TaskDuration")

    def is_as_it_should_be(self):
        """No script has failed, and nothing was loaded from elsewhere."""
        top, names = f"http://{HOST}:{self.port}", self.requests()
        assert all(name.startswith(f"{top}/v1/") or name == f"{top}/health" for name in names), names


@contextlib.contextmanager
def service(browser, folder, **settings):
    """The page over an inventory in a file."""
    pictures = folder / "pictures"
    pictures.mkdir()
    ends(run("page", str(folder)), b"", 0)
    with started(db=folder / "roads.db", **settings) as server, web_server(folder, server.port) as port:
        yield Page(browser, server, port, pictures)


@pytest.fixture(scope="module")
def browser(tmp_path_factory):
    """A browser for the tests of a file."""
    with browsing(tmp_path_factory.mktemp("browser")) as opened:
        opened.resizes(1280, 1000)
        yield opened


@pytest.fixture
def page(browser, tmp_path):
    """A page with the routes and assets of above, for each test that wants one."""
    with service(browser, tmp_path) as opened:
        browser.goes_to("about:blank")
        fill(opened)
        yield opened
        opened.is_as_it_should_be()


def fill(page):
    """Enters the routes and assets of above, through nginx."""
    for path, sheet in [("edits", FIRST), ("edits", MORE), ("surveys", SURVEY)]:
        status, body = posted(page.port, path, sheet)
        assert status == 200 and b",fault," not in body, body
