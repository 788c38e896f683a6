"""`roadlrs serve --page`: the web page at `/`, and no sheet of a page from elsewhere; without it nothing of either."""

import html
import re

import pytest

from program import FIRST, FIRST_REPLIES, TOP, ends, on_terminal, run
from serving import ASK, HOST, SURVEY, by_curl, free_port, reply, request, sheet_reply, started

PAGE = (TOP / "page" / "index.html").read_bytes()
# a policy, but for its scripts, that the page has of itself too
OWN_POLICY = "default-src 'none'; style-src 'unsafe-inline'; script-src 'unsafe-inline'; img-src data:; connect-src 'self'; form-action 'none'; base-uri 'none'"
FIELDS = [
    "Content-Type: text/html; charset=utf-8",
    f"Content-Security-Policy: {OWN_POLICY}; frame-ancestors 'none'",
    "X-Content-Type-Options: nosniff",
    "X-Frame-Options: DENY",
]
SHOWN = "\r\n".join(["HTTP/1.1 200 OK", *FIELDS, f"Content-Length: {len(PAGE)}", "Connection: close", "", ""]).encode() + PAGE

# what browsers and other clients say of where a POST to 127.0.0.1:8080 comes from
OWN = {
    "curl": [],
    "its address": ["Host: 127.0.0.1:8080"],
    "its name": ["Host: localhost:8080"],
    "port 80": ["Host: localhost", "Origin: http://localhost"],
    "the page": ["Host: 127.0.0.1:8080", "Origin: http://127.0.0.1:8080", "Sec-Fetch-Site: same-origin"],
    "the page by name": ["Host: localhost:8080", "Origin: http://localhost:8080", "Sec-Fetch-Site: same-origin"],
    "an older browser": ["Host: 127.0.0.1:8080", "Origin: http://127.0.0.1:8080"],
    "a tunnel": ["host: localhost:9000", "ORIGIN: http://localhost:9000", "sec-fetch-site: same-origin"],
    "by hand": ["Host: 127.0.0.1:8080", "Sec-Fetch-Site: none"],
}
FOREIGN = {
    "another site": ["Host: 127.0.0.1:8080", "Sec-Fetch-Site: cross-site"],
    "another port": ["Host: 127.0.0.1:8080", "Sec-Fetch-Site: same-site"],
    "an unknown word": ["Host: 127.0.0.1:8080", "Sec-Fetch-Site: Same-Origin"],
    "no word": ["Host: 127.0.0.1:8080", "Sec-Fetch-Site: "],
    "two words": ["Host: 127.0.0.1:8080", "Sec-Fetch-Site: same-origin", "Sec-Fetch-Site: cross-site"],
    "the origin of another site": ["Host: 127.0.0.1:8080", "Origin: http://roads.example.org"],
    "the origin of another port": ["Host: 127.0.0.1:8080", "Origin: http://127.0.0.1:8081"],
    "a longer origin": ["Host: 127.0.0.1:8080", "Origin: http://127.0.0.1:80800"],
    "a shorter origin": ["Host: 127.0.0.1:8080", "Origin: http://127.0.0.1"],
    "the other name": ["Host: 127.0.0.1:8080", "Origin: http://localhost:8080"],
    "another scheme": ["Host: 127.0.0.1:8080", "Origin: https://127.0.0.1:8080"],
    "a file or a sandbox": ["Host: 127.0.0.1:8080", "Origin: null"],
    "two origins": ["Host: 127.0.0.1:8080", "Origin: http://127.0.0.1:8080", "Origin: http://roads.example.org"],
    "an origin without a host": ["Origin: http://127.0.0.1:8080"],
    "a name that leads here": ["Host: roads.example.org:8080", "Origin: http://roads.example.org:8080", "Sec-Fetch-Site: same-origin"],
    "a name that leads here, alone": ["Host: roads.example.org:8080"],
    "a name that begins as its name": ["Host: localhost.example.org", "Origin: http://localhost.example.org"],
    "a name that begins as its address": ["Host: 127.0.0.1.example.org", "Origin: http://127.0.0.1.example.org"],
    "two hosts": ["Host: 127.0.0.1:8080", "Host: localhost:8080"],
    "no host": ["Host: "],
}


@pytest.fixture(scope="module")
def shown():
    with started(options=["--page"]) as server:
        yield server


@pytest.fixture(scope="module")
def bare():
    with started() as server:
        yield server


def has_edits(server, count):
    server.answers(request("GET /health"), reply(200, b'{"edits":%d}' % count))


def posts(*fields):
    return request("POST /v1/edits", FIRST, *fields)


# ---- the page


@pytest.mark.parametrize("target", ["/", "/?", "/?x=1"])
def test_the_page_stands_at_the_root(shown, target):
    shown.answers(request(f"GET {target}"), SHOWN)
    shown.answers(request(f"GET {target}", None, *FOREIGN["a name that leads here"]), SHOWN)


def test_curl_gets_the_page(shown):
    assert by_curl(shown.port, "GET /", None) == SHOWN


def test_the_page_is_what_page_writes(tmp_path):
    ends(run("page", str(tmp_path)), b"", 0)
    assert (tmp_path / "index.html").read_bytes() == PAGE


def test_the_policy_is_that_of_the_page_but_for_its_script():
    own = html.unescape(re.search(rb'http-equiv="Content-Security-Policy" content="([^"]*)"', PAGE)[1].decode())
    assert re.sub(r"'sha256-[^']*'", "'unsafe-inline'", own) == OWN_POLICY


def test_the_root_has_no_other_method(shown):
    for asked, body in [("POST /", b"x"), ("HEAD /", None), ("PUT /", b"")]:
        shown.answers(request(asked, body), reply(405, allow="GET"))


@pytest.mark.parametrize("target", ["/index.html", "//", "/%2F", "/v1", "/v1/", ""])
def test_the_page_stands_nowhere_else(shown, target):
    shown.answers(request(f"GET {target or '*'}"), reply(404))


def test_a_page_that_is_longer_than_a_reply_may_be_is_not_shown():
    for most, expected in [(len(PAGE), SHOWN), (len(PAGE) - 1, reply(503))]:
        with started(options=["--page", "--most-reply", str(most)]) as server:
            server.answers(request("GET /"), expected)
            has_edits(server, 0)


def test_without_the_option_there_is_no_page(bare):
    for asked, body in [("GET /", None), ("GET /?x=1", None), ("POST /", b"x"), ("HEAD /", None)]:
        bare.answers(request(asked, body), reply(404))


# ---- who asks


@pytest.mark.parametrize("who", OWN)
def test_a_sheet_of_this_machine_is_done(who):
    with started(options=["--page"]) as server:
        server.answers(posts(*OWN[who]), sheet_reply(FIRST_REPLIES))
        has_edits(server, 7)


@pytest.mark.parametrize("who", FOREIGN)
def test_a_sheet_of_another_site_does_nothing(shown, who):
    for path, body in [("edits", FIRST), ("surveys", SURVEY), ("questions", b""), ("edits?resume=1", FIRST), ("edits", b""), ("none", b"")]:
        shown.answers(request(f"POST /v1/{path}", body, *FOREIGN[who]), reply(403))
    shown.answers(request("POST /", b"x", *FOREIGN[who]), reply(403))
    has_edits(shown, 0)


def test_it_is_refused_before_its_body_is_looked_at(shown):
    """Whatever stands there: a length that is none, or too long a body."""
    for fields in [["Content-Length: x"], ["Content-Length: 9999999"], ["Transfer-Encoding: chunked"], []]:
        shown.answers(request("POST /v1/edits", None, "Origin: null", *fields), reply(403))
    has_edits(shown, 0)


@pytest.mark.parametrize("who", FOREIGN)
def test_what_only_asks_is_answered_as_ever(shown, who):
    """A browser does not give a page of another site the answer."""
    shown.answers(request("GET /v1/totals", None, *FOREIGN[who]), reply(200, b'{"totals":[]}'))


@pytest.mark.parametrize("who", FOREIGN)
def test_without_the_option_none_of_these_fields_counts(who):
    with started() as server:
        server.answers(posts(*FOREIGN[who]), sheet_reply(FIRST_REPLIES))


# ---- where it is said


def test_it_says_on_a_terminal_where_the_page_is():
    port = free_port()
    words, listens = [":memory:", str(port), "0"], b"listening %d\n" % port
    ended, terminal = on_terminal(["stderr"], "serve", "--page", *words)
    assert (ended.stdout, ended.status, terminal) == (listens, 0, b"the page is at http://%s:%d/\r\n" % (HOST.encode(), port))
    ended, terminal = on_terminal(["stderr"], "serve", *words)
    assert (ended.stdout, ended.status, terminal) == (listens, 0, b"")
    ends(run("serve", "--page", *words), listens, 0)


def test_its_connections_count_and_are_told():
    with started(most=3, options=["--page", "--log"]) as server:
        for asked, expected in [(request("GET /"), SHOWN), (posts("Origin: null"), reply(403)), (ASK, reply(200, b'{"totals":[]}'))]:
            server.answers(asked, expected)
        written, told, status = server.end()
    assert (written, status) == (b"", 0)
    assert [line.split()[1:4] for line in told.splitlines()[:3]] == [[b"GET", b"/", b"200"], [b"POST", b"/v1/edits", b"403"], [b"GET", b"/v1/totals", b"200"]]
    assert told.endswith(b"served 3 in full, 0 cut off\n")
