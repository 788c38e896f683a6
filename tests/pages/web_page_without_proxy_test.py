"""The page that `roadlrs serve --page` shows by itself, in a browser: it is used as ever; a page from elsewhere sends no sheet, and shows none of it."""

import contextlib

import pytest

from elsewhere import elsewhere, foreign_page
from program import FIRST, FIRST_REPLIES, sheet_of
from serving import HOST, Server, answer, request, sheet_reply
from web_page import Page, browser

EVIL = sheet_of("x1,link,4247,5")

# A page says what it has done once that has come to an end.
SAID = "const said = text => document.body.append(text);"
FORM_IN_A_FRAME = """<iframe name='frame'></iframe><form action='%(url)s' method='post' enctype='text/plain' target='frame'><textarea name='%(sheet)s'></textarea></form>
<script>document.querySelector('iframe').onload = () => said('ended'); document.forms[0].submit()</script>"""
FETCH = "<script>fetch('%(url)s', {method: 'POST', %(how)s, body: `%(sheet)s`}).then(() => said('ended'), () => said('ended'))</script>"
BEACON = "<script>navigator.sendBeacon('%(url)s', `%(sheet)s`); fetch('%(url)s', {mode: 'no-cors'}).then(() => said('ended'), () => said('ended'))</script>"

WAYS = {
    "a form": (FORM_IN_A_FRAME, ""),
    "a fetch that wants no answer": (FETCH, "mode: 'no-cors', headers: {'Content-Type': 'text/plain'}"),
    "a fetch of CSV": (FETCH, "headers: {'Content-Type': 'text/csv'}"),
    "a fetch of a text": (FETCH, "headers: {'Content-Type': 'text/plain'}"),
    "a beacon": (BEACON, ""),
}


@contextlib.contextmanager
def telling(*options):
    """A service with these options, and what it has told of its requests once it is stopped."""
    server, requests = Server(1_000_000, options=["--log", *options]), []
    try:
        yield server, requests
    finally:
        requests += [line.split()[1:4] for line in server.stop()[1].splitlines()]


def log_of(server):
    return answer(server.port, request("GET /v1/log"))


def sends(browser, server, way):
    """A page of another origin sends a sheet in this way."""
    text, how = WAYS[way]
    text = text % {"url": f"http://{HOST}:{server.port}/v1/edits", "how": how, "sheet": EVIL.decode()}
    with elsewhere(f"<body><script>{SAID}</script>{text}".encode()) as other:
        browser.goes_to(f"http://{HOST}:{other}/")
        browser.shows("body", "ended")


@pytest.mark.parametrize("way", WAYS)
def test_a_page_from_elsewhere_sends_no_sheet(browser, way):
    with telling("--page") as (server, requests):
        sends(browser, server, way)
        assert b"4247" not in log_of(server)
    posts = [one for one in requests if one[0] == b"POST"]
    assert all(one == [b"POST", b"/v1/edits", b"403"] for one in posts), requests
    # a browser asks before a fetch of CSV, and may send a beacon late
    assert posts or way in ["a fetch of CSV", "a beacon"], requests


def test_without_the_option_a_page_from_elsewhere_does(browser):
    """So the tests above say something."""
    with telling() as (server, requests):
        sends(browser, server, "a fetch that wants no answer")
        assert b"4247" in log_of(server)


def test_a_form_of_a_whole_window_does_nothing(browser):
    with telling("--page") as (server, requests), elsewhere(foreign_page(server.port)) as other:
        browser.goes_to(f"http://{HOST}:{other}/")
        browser.waits_for("a reply", lambda browser: f":{server.port}/" in browser.send("GET", "/url"))
        assert b"4247" not in log_of(server)
    assert [one for one in requests if one[0] == b"POST"] == [[b"POST", b"/v1/edits", b"403"]], requests


def test_the_page_stands_in_no_frame(browser):
    with telling("--page") as (server, requests):
        frame = f"<iframe src='http://{HOST}:{server.port}/'></iframe><script>{SAID} document.querySelector('iframe').onload = () => said('ended')</script>"
        with elsewhere(frame.encode()) as other:
            browser.complaints()
            browser.goes_to(f"http://{HOST}:{other}/")
            browser.shows("body", "ended")
            assert any("frame" in one for one in browser.complaints())
    # the page in it has asked for nothing
    assert [one for one in requests if one[1] != b"/favicon.ico"] == [[b"GET", b"/", b"200"]], requests


def test_the_page_is_used_as_ever(browser, tmp_path):
    with telling("--page") as (server, requests):
        server.answers(request("POST /v1/edits", FIRST), sheet_reply(FIRST_REPLIES))
        page = Page(browser, server, server.port, tmp_path)
        page.opens_route("A1")
        page.sends(page.file("more.csv", sheet_of("m1,ref,KM2,A1,abs,3", "m2,class,WIDTH,exclusive")))
        browser.shows("#sheet-said", "more.csv was sent to its end, in one part.")
        assert page.rows("#lines") == [["m1", "done", "edit 8"], ["m2", "done", "edit 9"]]
        browser.shows("#classes", "WIDTH")
        assert b"m1,ref,KM2,A1,abs,3" in log_of(server)
        page.is_as_it_should_be()
        browser.goes_to("about:blank")
    assert requests.count([b"POST", b"/v1/edits", b"200"]) == 2, requests
