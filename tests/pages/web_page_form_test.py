"""The page as such: one file, whose parts are put together; narrow, printed; and nginx before it."""

import base64
import re
import shutil
import subprocess
import sys

import pytest

from browser import PATIENCE
from program import HEADER, TOP, record, sheet_of
from proxies import asked, posted
from web_page import ENTER, TABULATOR, browser, page

# ---- what is shown


def test_the_page_is_one_file_and_fits_a_telephone(page):
    browser = page.browser
    text = (page.folder.parent / "index.html").read_text()
    assert text == (TOP / "page" / "index.html").read_text()
    assert not re.search(r"""\b(?:src|href)=["'](?!data:,"|#)|url\(|@import|innerHTML|insertAdjacent|document\.write""", text)
    try:
        page.emulates("setDeviceMetricsOverride", width=360, height=740, deviceScaleFactor=1, mobile=False)
        fits = "return innerWidth === 360 && document.documentElement.scrollWidth <= 360"
        page.opens()
        browser.shows("#edits", "e5")
        assert browser.runs(fits)
        page.pictured("narrow_network")
        page.opens_route("A1")
        browser.types("#pos", "3000" + ENTER)
        browser.shows("#hits", "SPEED")
        assert page.finds("asset", "10") == "Asset 10 holds one stretch."
        assert browser.runs(fits)
        page.pictured("narrow")
    finally:
        page.emulates("clearDeviceMetricsOverride")


PARTS = """[...svg.querySelectorAll('*')].filter(e => !e.dataset.count && !e.dataset.cut).map(e => e.localName + [...e.attributes]
  .filter(a => !/^shade-/.test(a.value) && a.name !== 'data-side').map(a => ' ' + a.name + '=' + a.value) + (e.children.length ? '' : e.textContent.trim()))"""


def test_the_diagrams_of_the_program_are_shown_whole(page):
    browser = page.browser
    page.opens_route("A1")
    shown = browser.runs(f"const svg = document.querySelector('#diagram svg'); return {PARTS}")
    status, text = asked(page.port, "GET", "/v1/diagram?route=A1")
    made = browser.runs(f"const svg = new DOMParser().parseFromString(arguments[0], 'image/svg+xml').documentElement; return {PARTS}", text.decode())
    assert status == 200 and len(made) > 20 and shown == made


TOP_OF_PICTURE = "<svg xmlns='http://www.w3.org/2000/svg' viewBox='0 0 12000 900' data-from='0' data-to='8000'>"
HOSTILE = [
    "<html></html>",
    "",
    "none",
    TOP_OF_PICTURE,
    TOP_OF_PICTURE[:-1] + " onload='window.hit = 1'></svg>",
    *(
        f"{TOP_OF_PICTURE}{part}</svg>"
        for part in [
            "<script>window.hit = 2</script>",
            "<foreignObject><body xmlns='http://www.w3.org/1999/xhtml'><img src='none' onerror='window.hit = 3'/></body></foreignObject>",
            "<a href='javascript:window.hit = 4'><text>a</text></a>",
            "<use href='#a'/>",
            "<image href='/none'/>",
            "<iframe src='/none'/>",
            "<animate attributeName='href' values='javascript:window.hit = 5'/>",
            "<set attributeName='onclick' to='window.hit = 6'/>",
            "<meta xmlns='http://www.w3.org/1999/xhtml' http-equiv='refresh' content='0; url=/none'/>",
            "<style>@import '/none';</style>",
            "<style>path { fill: url(none) }</style>",
            "<path d='M0 0h9' style='fill: url(/none)'/>",
            "<path d='M0 0h9' onclick='window.hit = 7'/>",
            "<path d='M0 0h9' mask='url(/none#a)'/>",
            "<path d=M0/>",
            "<text>&lt;</text>",
            "<text></g>",
            "<!-- a -->",
        ]
    ),
]


def test_a_diagram_from_elsewhere_with_more_than_shapes_and_texts_is_not_shown(page):
    browser = page.browser
    page.opens_route("A1")
    for text in HOSTILE:
        assert browser.runs("try { putDiagram(arguments[0]); return '' } catch (error) { return error.message }", text) == "The diagram cannot be read.", text
    assert browser.runs("return window.hit === undefined && location.pathname === '/' && document.querySelector('#diagram svg').dataset.route === 'A1'")
    browser.runs("putDiagram(arguments[0])", f"{TOP_OF_PICTURE}<g class='t'><path d='M1000 0h9000'><title>1: b</title></path></g></svg>\n")
    shown = browser.runs("return [...document.querySelectorAll('#diagram svg, #diagram svg *')].map(e => [e.localName, e.getAttributeNames().sort().join(' ')])")
    assert shown == [["svg", "data-from data-to viewBox"], ["g", "class"], ["path", "d"], ["title", ""]]


UNNAMED = """
return [...document.querySelectorAll("input, select, button, a, [role=region], [role=group]")].filter(e =>
  !(e.labels && e.labels.length) && !e.getAttribute("aria-label") && !e.getAttribute("aria-labelledby") && !e.textContent.trim()).map(e => e.outerHTML)
"""
REACHED = {"kind", "wanted", "refresh", "by", "from", "to", "in", "out", "back", "on", "whole", "diagram", "plain", "all", "none", "method", "pos", "row-filter", "csv"}


def test_each_field_has_a_label_and_is_reached_by_keys(page):
    browser = page.browser
    page.opens_route("A1")
    browser.shows("#rows-said", "3 of 3 rows")
    assert browser.runs(UNNAMED) == []
    assert browser.runs("return [document.documentElement.lang, document.querySelectorAll('main').length, document.querySelectorAll('h1').length]") == ["en", 1, 1]
    reached = set()
    for _ in range(80):
        browser.presses(TABULATOR)
        reached.add(browser.runs("return document.activeElement.id"))
        assert browser.runs("const e = document.activeElement; return e === document.body || getComputedStyle(e).outlineStyle !== 'none'")
    assert reached >= REACHED, REACHED - reached
    # all that can be pressed is large enough
    small = "return [...document.querySelectorAll('button, input, select, summary')].filter(e => e.offsetHeight && e.offsetHeight < 24).map(e => e.outerHTML)"
    assert browser.runs(small) == []


# What is wider than a printed sheet, or has a part that only scrolling would show.
CUT = """
const isCut = e => e.getBoundingClientRect().right > innerWidth + 1
  || (getComputedStyle(e).overflowY !== 'visible' && (e.scrollHeight > e.clientHeight + 1 || e.scrollWidth > e.clientWidth + 1));
return [...document.querySelectorAll('body *:not(svg *)')].filter(e => e.getClientRects().length && isCut(e)).map(e => e.outerHTML.slice(0, 100));
"""
PRESSED = "return [...document.querySelectorAll('button, input, select, summary')].filter(e => e.getClientRects().length && !e.closest('th')).map(e => e.outerHTML)"
# The pixels between the margins of a sheet of A4, across and upright.
ACROSS, UPRIGHT = 1031, 702


@pytest.mark.parametrize(("fragment", "css", "text", "wide"), [
    ("#A1/abs:0..9000/abs:4500", "#hits", "SPEED", ACROSS), ("#LONG", "#rows", "YIELD", ACROSS), ("", "#edits", "e5", UPRIGHT),
    ("#edit/162", "#record", "e1", UPRIGHT), ("#asset/10", "#entered", "e1", UPRIGHT),
])  # fmt: skip
def test_nothing_is_cut_off_on_paper(page, fragment, css, text, wide):
    """And nothing that is pressed is printed."""
    browser = page.browser
    page.goes_to(fragment)
    browser.shows(css, text)
    try:
        page.emulates("setDeviceMetricsOverride", width=wide, height=1000, deviceScaleFactor=1, mobile=False)
        page.emulates("setEmulatedMedia", media="print", features=[{"name": "prefers-color-scheme", "value": "dark"}])
        browser.runs("onbeforeprint()")
        assert browser.runs(CUT) == [] and browser.runs(PRESSED) == [] and text in browser.text(css)
        assert browser.runs("return getComputedStyle(document.body).backgroundColor") == "rgb(255, 255, 255)"
        page.pictured("on_paper")
        browser.runs("onafterprint()")
    finally:
        page.emulates("setEmulatedMedia", media="", features=[])
        page.emulates("clearDeviceMetricsOverride")


def test_a_route_is_printed_across_from_the_first_page_on(page):
    browser = page.browser
    page.opens_route("A1")
    browser.shows("#rows-said", "3 of 3 rows")
    paper = base64.b64decode(page.commands("Page.printToPDF", preferCSSPageSize=True, paperWidth=8.27, paperHeight=11.69)["data"])
    boxes = [[round(float(number)) for number in box.split()] for box in re.findall(rb"/MediaBox \[([^\]]*)\]", paper)]
    assert paper.startswith(b"%PDF") and len(boxes) == 1 and boxes[0][2] > boxes[0][3], boxes


def test_of_a_very_long_table_the_paper_says_how_much_is_left(page):
    page.opens()
    page.browser.runs("bars.show(Array.from({ length: 2500 }, (_, n) => ({ name: `R${n}`, length: n + 1 }))); onbeforeprint()")
    assert page.browser.text("#routes tbody:last-child") == "500 more, which are not printed"
    page.browser.runs("onafterprint()")
    assert page.browser.text("#routes tbody:last-child").strip() == "" and len(page.rows("#routes")) < 60


# ---- how it is put together

MODULES = "crates/lrs_cli_tasks/src/page_file"


def embed(folder, *words):
    return subprocess.run([sys.executable, "-B", "tools/embed.py", *words], cwd=folder, capture_output=True, text=True, timeout=PATIENCE)


def embedded(folder):
    """The texts of the two modules that have the page, one behind the other."""
    texts = [(folder / MODULES / name).read_text() for name in ("front.rt", "back.rt")]
    return "".join(re.fullmatch(r'.*r##"(.*)"##.*', text, re.S)[1] for text in texts)


def test_the_modules_the_page_and_the_text_of_the_program_are_one():
    done = embed(TOP, "--check")
    assert (done.returncode, done.stderr) == (0, "")
    assert embedded(TOP) == (TOP / "page" / "index.html").read_text()


FRAME = '<p title="#">\\ {} \u00e9\n<link rel="stylesheet" href="a.css">\n<link rel="stylesheet" href="b.css">\n<script type="module" src="main.js"></script>\n'
SOURCES = {
    "index.html": FRAME,
    "a.css": "/* a comment */\np { margin: 0; }\n",
    "b.css": "a,\nb { color: red; }\n",
    "main.js": '// A comment.\nimport { one, two } from "./one.js";\n\nif (one) {\n  two(one);\n}\n',
    "one.js": 'export const one = "1";\nexport function two(x) {\n  return `${x}`;\n}\n',
}
TOGETHER = (
    '<p title="#">\\ {} \u00e9\n<style>\np{margin:0;}\na,b{color:red;}\n</style>\n'
    '<script>\n"use strict";\nconst one = "1";function two(x) {return `${x}`;}\nif (one) {two(one);}\n</script>\n'
)
MISTAKES = [
    ("main.js", 'import { none } from "./one.js";\nnone();\n', "main.js imports none, which one.js does not export"),
    ("main.js", 'import { one } from "./one.js";\n', "main.js imports one and does not use it"),
    ("main.js", 'import one from "./one.js";\n', "main.js has an import or export of another form"),
    ("main.js", 'import { one } from "./one.js";\nlet three, two = one;\n', "main.js and one.js both declare two"),
    ("main.js", "two();\n", "nothing imports one.js"),
    ("main.js", 'import { one } from "./one.js";\none();\n', "nothing imports two"),
    ("main.js", "f(); // a comment\n", "main.js has a comment behind code, or a text over several lines: f(); // a comment"),
    ("main.js", "f(`\n`);\n", "main.js has a comment behind code, or a text over several lines: f(`"),
    ("one.js", SOURCES["one.js"] + 'one("</script>");\n', "a module has an end of a tag"),
    ("one.js", 'import { three } from "./main.js";\nexport const one = three, two = one;\n', "main.js imports itself, by one.js"),
    ("index.html", FRAME + '"##\n', "line 11 of the page has the end of a raw text"),
    ("index.html", FRAME + "\t\n", "a tabulator"),
    ("index.html", FRAME + "a \n", "a blank at the end of a line"),
]


def test_the_parts_are_put_together_or_refused(tmp_path):
    source, modules = tmp_path / "page" / "src", tmp_path / MODULES
    for folder in [source, tmp_path / "tools", modules]:
        folder.mkdir(parents=True)
    shutil.copy(TOP / "tools" / "embed.py", tmp_path / "tools")
    for name, text in SOURCES.items():
        (source / name).write_text(text)
    assert embed(tmp_path, "--check").returncode == 1
    assert embed(tmp_path).returncode == 0 and embed(tmp_path, "--check").returncode == 0
    assert (tmp_path / "page" / "index.html").read_text() == TOGETHER
    assert embedded(tmp_path) == TOGETHER
    for name, text, told in MISTAKES:
        (source / name).write_text(text)
        ended = embed(tmp_path)
        assert ended.returncode == 1 and told in ended.stderr, (told, ended)
        (source / name).write_text(SOURCES[name])
    for path in [tmp_path / "page" / "index.html", modules / "front.rt", modules / "back.rt"]:
        path.write_text(path.read_text().replace("e", "E", 1))
        assert embed(tmp_path, "--check").returncode == 1
        assert embed(tmp_path).returncode == 0


def test_only_the_script_of_the_page_may_run(page):
    page.opens()
    page.browser.runs("const s = document.createElement('script'); s.textContent = 'window.hit = 1'; document.body.append(s)")
    assert page.browser.runs("return window.hit === undefined")
    assert any("Content Security Policy" in text for text in page.browser.complaints())


# ---- nginx


def test_nginx_passes_on_what_the_document_says(page):
    assert asked(page.port, "GET", "/")[0] == 200
    for path in ["/index.html", "/roads.db", "/nginx.conf", "/v2/totals", "/v1"]:
        assert asked(page.port, "GET", path)[0] in [301, 404], path
    assert posted(page.port, "edits", sheet_of("z1,link,9,5"), kind="text/plain")[0] == 415
    assert posted(page.port, "edits", b"")[0] == 200
    assert posted(page.port, "edits", HEADER + b"\n" * 1_048_576)[0] == 413
    last = record("z2,link,10,5")
    assert posted(page.port, "edits", HEADER + b"\n" * (1_048_576 - len(HEADER) - len(last)) + last) == (200, b"z2,done,167\n")
    assert asked(page.port, "GET", "/v1/at?route=A1&method=rel&pos=KM2%2B500")[0] == 200
