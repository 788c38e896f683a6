"""Who may edit, behind the proxies of docs/SERVICE.md with a login: nobody by a form of a page from elsewhere, also where the browser is logged in."""

import base64
import contextlib
import hashlib

import pytest

from browser import browsing
from elsewhere import elsewhere, foreign_page
from program import FIRST, FIRST_REPLIES
from proxies import asked, balancer, posted, web_server
from serving import HOST, started


@pytest.fixture(scope="module")
def browser(tmp_path_factory):
    with browsing(tmp_path_factory.mktemp("browser")) as opened:
        yield opened


@contextlib.contextmanager
def limited_service(folder, proxy):
    """A proxy over the program, with the lines of the document by which anna alone may edit."""
    digest = base64.b64encode(hashlib.sha1(b"secret").digest()).decode()
    (folder / "roads.users").write_text(f"anna:{{SHA}}{digest}\n")
    (folder / "index.html").write_text("<p>\n")
    with started() as server, proxy(folder, server.port, limited=True) as port:
        yield port


both_proxies = pytest.mark.parametrize("proxy", [web_server, balancer], ids=["nginx", "HAProxy"])


@both_proxies
def test_only_those_who_are_known_may_edit(tmp_path, proxy):
    with limited_service(tmp_path, proxy) as port:
        assert posted(port, "edits", FIRST)[0] == 401
        assert posted(port, "edits", FIRST, user="anna:guessed")[0] == 401
        assert asked(port, "GET", "/v1/totals") == (200, b'{"totals":[]}')
        assert posted(port, "edits", FIRST, user="anna:secret") == (200, FIRST_REPLIES)


@both_proxies
def test_the_login_leaves_the_guard_of_the_type(tmp_path, proxy):
    with limited_service(tmp_path, proxy) as port:
        for user in [None, "anna:guessed", "anna:secret"]:
            for kind in ["text/plain", "application/x-www-form-urlencoded", "multipart/form-data"]:
                assert posted(port, "edits", FIRST, kind=kind, user=user)[0] == 415, (user, kind)
        assert asked(port, "GET", "/v1/totals") == (200, b'{"totals":[]}')


@contextlib.contextmanager
def logged_in(browser, user):
    """The browser sends this name and password with each request, as after a person has typed them."""
    told = {"Authorization": "Basic " + base64.b64encode(user.encode()).decode()}
    for command, given in [("Network.enable", {}), ("Network.setExtraHTTPHeaders", {"headers": told})]:
        browser.send("POST", "/goog/cdp/execute", {"cmd": command, "params": given})
    try:
        yield
    finally:
        browser.send("POST", "/goog/cdp/execute", {"cmd": "Network.setExtraHTTPHeaders", "params": {"headers": {}}})


SENT = "return fetch('/v1/edits', {method: 'POST', headers: {'Content-Type': 'text/csv'}, body: arguments[0]}).then(r => r.status)"


@both_proxies
def test_a_form_of_a_foreign_page_does_nothing_for_one_who_is_logged_in(browser, tmp_path, proxy):
    with limited_service(tmp_path, proxy) as port, elsewhere(foreign_page(port)) as other, logged_in(browser, "anna:secret"):
        browser.goes_to(f"http://{HOST}:{port}/health")
        assert browser.runs(SENT, FIRST.decode()) == 200
        browser.goes_to(f"http://{HOST}:{other}/")
        browser.shows("body", "415")
        status, log = asked(port, "GET", "/v1/log")
        assert status == 200 and b"4247" not in log and b"s1,link" in log
        browser.goes_to("about:blank")
