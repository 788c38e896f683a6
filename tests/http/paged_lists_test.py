"""Lists over HTTP as JSON, page by page: `limit` entries behind the entry `after`, by its key."""

import json
import urllib.parse

import pytest

from program import sheet_of
from serving import answer, error, reply, request, started
from stores import MORE, edit, make

# each list, with the members that make the key of an entry
KEYS = {
    "/v1/routes": ("name",),
    "/v1/links": ("link",),
    "/v1/classes": ("class",),
    "/v1/refs": ("route", "ref"),
    "/v1/marks": ("route", "chainage"),
    "/v1/pieces": ("route", "from"),
    "/v1/rows": ("route", "from", "side", "class", "asset"),
    "/v1/rows?route=A1&exact=1": ("route", "from", "side", "class", "asset"),
    "/v1/overlay?class=SPEED": ("route", "side", "from"),
}


@pytest.fixture(scope="module")
def port(tmp_path_factory):
    path = tmp_path_factory.mktemp("pages") / "roads.db"
    # in another order along the route than by name
    make(path, *MORE, "r1,ref,KM1,A1,int,3/4", "r2,ref,KM3,A1,int,1/4", "r3,ref,KM0,A2,int,1/2")
    with started(db=path) as server:
        yield server.port


def name_of(target):
    return target.partition("?")[0].rpartition("/")[2]


def with_page(target, **page):
    """The target with these parameters behind its own."""
    return target + ("&" if "?" in target else "?") + urllib.parse.urlencode(page)


def got(port, target):
    head, _, body = answer(port, request(f"GET {target}")).partition(b"\r\n\r\n")
    assert b" 200 " in head, (target, head, body)
    (name, entries), = json.loads(body).items()
    assert name == name_of(target)
    return entries


def key_of(target, entry):
    return ",".join(str(entry[name]) for name in KEYS[target])


def pages_of(port, target, limit):
    """The pages of so many entries, one behind the other, up to the first that is empty."""
    page = got(port, with_page(target, limit=limit))
    while page:
        yield page
        page = got(port, with_page(target, limit=limit, after=key_of(target, page[-1])))


@pytest.mark.parametrize("limit", [1, 2, 3, 1000, 2**64 - 1])
@pytest.mark.parametrize("target", KEYS)
def test_pages_together_are_the_list(port, target, limit):
    whole = got(port, target)
    assert len(whole) > 1
    pages = list(pages_of(port, target, limit))
    assert [entry for page in pages for entry in page] == whole
    assert all(len(page) == limit for page in pages[:-1]) and len(pages[-1]) <= limit


@pytest.mark.parametrize("target", KEYS)
def test_a_page_begins_behind_each_entry(port, target):
    whole = got(port, target)
    for at, entry in enumerate(whole, 1):
        assert got(port, with_page(target, after=key_of(target, entry))) == whole[at:]


def test_numbers_are_compared_by_their_values(port):
    links = [entry["link"] for entry in got(port, "/v1/links")]
    for after in ["0", "9", "10", "00000000000000000000001", str(2**64 - 1)]:
        assert [entry["link"] for entry in got(port, f"/v1/links?after={after}")] == [link for link in links if link > int(after)]


def test_no_entry_need_have_the_key(port):
    whole = got(port, "/v1/rows")
    for after in ["0,0,L,0,0", "ZZZZ,0,L,A,0", "A1,0,B,ZZZZ,1000000", "A1,18446744073709551615,B,Z,1"]:
        route, start, side, class_name, asset = after.split(",")
        key = (route, int(start), "LRB".index(side), class_name, int(asset))
        behind = [row for row in whole if (row["route"], row["from"], "LRB".index(row["side"]), row["class"], row["asset"]) > key]
        assert got(port, f"/v1/rows?after={after}") == behind


def test_an_entry_that_comes_before_the_last_one_seen_shifts_nothing(tmp_path):
    path = tmp_path / "roads.db"
    texts = ["m1,link,4,1000000", "m2,class,V,stretch", "m3,route,L1,4:0:1000000:+,0:0 1000000:1000000"]
    edit(path, sheet_of(*texts, *(f"v{n},enter,{n},V,L1,B,abs,{10 * n},{10 * n + 5},x,0" for n in range(1, 11))))
    with started(db=path) as server:
        whole = got(server.port, "/v1/rows")
        seen = got(server.port, "/v1/rows?limit=5")
        sent = sheet_of("w1,enter,50,V,L1,B,abs,0,3,x,0", "w2,enter,51,V,L1,B,abs,1000,1003,x,0", "w3,retire,2,L1,abs,20,25")
        assert b" 200 " in answer(server.port, request("POST /v1/edits", sent))
        rest = got(server.port, f"/v1/rows?after={key_of('/v1/rows', seen[-1])}")
        assert [row["asset"] for row in seen + rest] == [*range(1, 11), 51]
        assert (seen + rest)[:-1] == whole


MALFORMED = {
    "/v1/rows?limit=": "limit",
    "/v1/rows?limit=0": "limit",
    "/v1/rows?limit=-1": "limit",
    "/v1/rows?limit=x": "limit",
    "/v1/rows?limit=18446744073709551616": "limit",
    "/v1/rows?limit=x&after=x&route=x": "limit",
    "/v1/rows?after=x&route=x": "after",
    "/v1/rows?after=": "after",
    "/v1/rows?after=A1": "after",
    "/v1/rows?after=A1,0,L,SPEED": "after",
    "/v1/rows?after=A1,0,L,SPEED,1,": "after",
    "/v1/rows?after=A1,0,L,SPEED,1,2": "after",
    "/v1/rows?after=A1,x,L,SPEED,1": "after",
    "/v1/rows?after=A1,,L,SPEED,1": "after",
    "/v1/rows?after=A1,0,X,SPEED,1": "after",
    "/v1/rows?after=a1,0,L,SPEED,1": "after",
    "/v1/rows?after=A1,0,L,speed,1": "after",
    "/v1/rows?after=A1,18446744073709551616,L,SPEED,1": "after",
    "/v1/links?after=x": "after",
    "/v1/links?after=1,": "after",
    "/v1/routes?after=": "after",
    "/v1/refs?after=A1,km2": "after",
    "/v1/overlay?after=A1,L,0": "class",
    "/v1/overlay?class=SPEED&after=A1,0,L": "after",
}


@pytest.mark.parametrize("target", MALFORMED)
def test_what_is_no_page_is_named(port, target):
    assert answer(port, request(f"GET {target}")) == error(400, f"Malformed:{MALFORMED[target]}")


@pytest.mark.parametrize("name", ["limit", "after"])
def test_what_is_not_told_in_pages_does_not_know_them(port, name):
    for target in [*(f"/v1/{path}.csv" for path in ["routes", "links", "classes", "refs", "marks", "pieces", "rows", "gone", "lengths"]), "/v1/gone", "/v1/lengths", "/v1/log", "/v1/rows?on_links=1"]:
        assert answer(port, request(f"GET {with_page(target, **{name: 1})}")) == error(400, f"Unknown:{name}")


@pytest.mark.parametrize("target", ["/v1/at?route=A1&method=abs&pos=3000", "/v1/totals", "/health"])
def test_paths_that_pass_over_parameters_pass_over_these(port, target):
    assert answer(port, request(f"GET {with_page(target, limit=0, after='x')}")) == answer(port, request(f"GET {target}"))


def test_all_bytes_of_a_page(port):
    body = b'{"classes":[{"class":"SIGN","kind":"point"}]}'
    assert answer(port, request("GET /v1/classes?after=RAIL&limit=1")) == reply(200, body)
