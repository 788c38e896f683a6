"""Lists, reports and places over HTTP, as JSON and as CSV: the same as what the program prints of the same file; and the health of the service."""

import csv
import io
import json
import random

import pytest

from program import FIRST, FIRST_REPLIES, run, sheet_of, with_files_up_to
from sent_sheets import random_record
from serving import AT_3000, by_curl, by_http_client, by_socket, answer, error, reply, request, serving, started
from stores import MORE, edit, is_whole, make, rows_of

# the fields that are numbers as JSON, of whichever list; all others are texts, but for the measure of a mark, which is whole
NUMBERS = {"assets", "length", "left", "right", "link", "link_from", "link_to", "chainage", "asset", "from", "to", "offset", "entry", "edit"}
# the fields that are told exact and as decimals as JSON, and in one of these ways as CSV
MEASURES = {"refs": ["measure"], "rows": ["from_measure", "to_measure"]}

# what is asked for over HTTP, and the words for it on the command line
ASKED = {
    "/v1/routes": ("list", "routes"),
    "/v1/links": ("list", "links"),
    "/v1/classes": ("list", "classes"),
    "/v1/refs": ("list", "refs"),
    "/v1/refs?exact=1": ("list", "refs", "--exact"),
    "/v1/refs?route=A1": ("list", "refs", "--route", "A1"),
    "/v1/refs?exact=1&route=A2": ("list", "refs", "--route", "A2", "--exact"),
    "/v1/marks": ("list", "marks"),
    "/v1/marks?route=A2": ("list", "marks", "--route", "A2"),
    "/v1/pieces": ("list", "pieces"),
    "/v1/pieces?route=A2": ("list", "pieces", "--route", "A2"),
    "/v1/rows": ("rows",),
    "/v1/rows?exact=1": ("rows", "--exact"),
    "/v1/rows?on_links=1": ("rows", "--on-links"),
    "/v1/rows?on_links=1&route=A2&class=SIGN": ("rows", "--route", "A2", "--class", "SIGN", "--on-links"),
    "/v1/rows?route=A1&from=abs:1001&to=int:1/2": ("rows", "--route", "A1", "--from", "abs:1001", "--to", "int:1/2"),
    "/v1/rows?route=A1&from=rel:KM2%2B1&to=rel:KM2%2B834&exact=1": ("rows", "--route", "A1", "--from", "rel:KM2+1", "--to", "rel:KM2+834", "--exact"),
    "/v1/rows?route=A1": ("rows", "--route", "A1"),
    "/v1/rows?route=A2&from=500&to=1000": ("rows", "--route", "A2", "--from", "500", "--to", "1000"),
    "/v1/rows?class=RAIL": ("rows", "--class", "RAIL"),
    "/v1/rows?asset=10": ("rows", "--asset", "10"),
    "/v1/rows?from=1000": ("rows", "--from", "1000"),
    "/v1/rows?to=1000": ("rows", "--to", "1000"),
    "/v1/rows?to=0": ("rows", "--to", "0"),
    "/v1/rows?class=RAIL&asset=12": ("rows", "--class", "RAIL", "--asset", "12"),
    "/v1/rows?asset=10&class=SPEED&to=8000&from=0&route=A1": ("rows", "--route", "A1", "--from", "0", "--to", "8000", "--class", "SPEED", "--asset", "10"),
    "/v1/lengths": ("lengths",),
    "/v1/lengths?route=A2": ("lengths", "--route", "A2"),
    "/v1/gone": ("gone",),
    "/v1/gone?edit=12": ("gone", "--edit", "12"),
    "/v1/gone?edit=11": ("gone", "--edit", "11"),
    "/v1/gone?since=12&until=12&class=RAIL": ("gone", "--since", "12", "--until", "12", "--class", "RAIL"),
    "/v1/gone?since=13": ("gone", "--since", "13"),
    "/v1/gone?until=11": ("gone", "--until", "11"),
    "/v1/gone?class=SPEED": ("gone", "--class", "SPEED"),
    "/v1/history?asset=10": ("history", "10"),
    "/v1/history?asset=11": ("history", "11"),
}


def name_of(target):
    """The name of the list."""
    return target.partition("?")[0].rpartition("/")[2]


def as_csv(target):
    """The path of the same list as CSV."""
    path, mark, query = target.partition("?")
    return path + ".csv" + mark + query


def number(text):
    """Metres are printed with three decimals, and are millimetres over HTTP."""
    return int(text.replace(".", ""))


def printed(path, words):
    return run(words[0], str(path), *words[1:])


def entries(path, words):
    """The entries of what a run prints, each field by its name."""
    ended = printed(path, words)
    assert (ended.stderr, ended.status) == (b"", 0), ended
    return list(csv.DictReader(io.StringIO(ended.stdout.decode())))


def with_measures(path, words, name):
    """The entries of a list, with measures exact and, under a name of their own, as decimals."""
    if name not in MEASURES or "--on-links" in words:
        return entries(path, words)
    plain = tuple(word for word in words if word != "--exact")
    exact, decimal = entries(path, (*plain, "--exact")), entries(path, plain)
    assert len(exact) == len(decimal)
    return [row | {field + "_decimal": shown[field] for field in MEASURES[name]} for row, shown in zip(exact, decimal)]


def as_json(target, path, words):
    """The reply with what the program prints: compact, the members of each entry in the order of their names."""
    name = name_of(target)
    rows = with_measures(path, words, name)
    numbers = NUMBERS | {"measure"} if name == "marks" else NUMBERS
    if name == "routes":
        rows = [{"length": row["length"], "name": row["route"]} for row in rows]
    shown = [{field: number(text) if field in numbers else text for field, text in row.items()} for row in rows]
    return reply(200, json.dumps({name: shown}, separators=(",", ":"), sort_keys=True).encode())


def gets(server, target, expected):
    server.answers(request(f"GET {target}"), expected)


@pytest.fixture(scope="module")
def desk(tmp_path_factory):
    """A server of a file, and the replies that are due by what the program prints of it."""
    path = tmp_path_factory.mktemp("lists") / "roads.db"
    make(path, *MORE)
    due = {target: as_json(target, path, words) for target, words in ASKED.items()}
    due |= {as_csv(target): reply(200, printed(path, words).stdout, "text/csv") for target, words in ASKED.items()}
    kept = rows_of(path)
    with started(db=path) as server:
        yield server, due
    assert rows_of(path) == kept
    is_whole(path)


@pytest.mark.parametrize("target", ASKED)
def test_it_is_what_the_program_prints(desk, target):
    server, due = desk
    gets(server, target, due[target])


@pytest.mark.parametrize("target", ASKED)
def test_as_csv_it_is_byte_for_byte_what_the_program_prints(desk, target):
    server, due = desk
    gets(server, as_csv(target), due[as_csv(target)])


LISTS = [target for target in ASKED if "?" not in target]


@pytest.mark.parametrize("target", LISTS)
def test_none_of_them_is_empty(desk, target):
    assert b":[]" not in desk[1][target] and desk[1][target].count(b'"') > 4
    assert desk[1][as_csv(target)].partition(b"\r\n\r\n")[2].count(b"\n") > 1


def test_all_bytes_of_a_reply(desk):
    body = b'{"classes":[{"class":"RAIL","kind":"stretch"},{"class":"SIGN","kind":"point"},{"class":"SPEED","kind":"exclusive"}]}'
    head = b"HTTP/1.1 200 OK\r\nContent-Type: application/json\r\nContent-Length: %d\r\nConnection: close\r\n\r\n" % len(body)
    desk[0].answers(request("GET /v1/classes"), head + body)


@pytest.mark.parametrize("client", [by_socket, by_curl, by_http_client])
def test_over_each_client(desk, client):
    server, due = desk
    for target in ["/v1/links", "/v1/rows?route=A1", "/v1/rows.csv?route=A1"]:
        assert client(server.port, f"GET {target}", None) == due[target]


def test_the_marks_of_each_route(desk):
    shown = json.loads(desk[1]["/v1/marks"].partition(b"\r\n\r\n")[2])["marks"]
    assert {mark["route"] for mark in shown} >= {"A1", "A2"}
    for name in {mark["route"] for mark in shown}:
        route = answer(desk[0].port, request(f"GET /v1/route/{name}")).partition(b"\r\n\r\n")[2]
        assert [[mark["chainage"], mark["measure"]] for mark in shown if mark["route"] == name] == json.loads(route)["marks"]


def test_measures_may_be_fractions(desk):
    shown = json.loads(desk[1]["/v1/rows"].partition(b"\r\n\r\n")[2])["rows"]
    assert any("/" in row["from_measure"] + row["to_measure"] for row in shown), shown
    assert all(isinstance(row["from_measure"], str) and isinstance(row["from"], int) for row in shown)
    assert not any("/" in row["from_measure_decimal"] + row["to_measure_decimal"] for row in shown)


def test_an_empty_inventory():
    with serving(2 * len(LISTS) + 1) as server:
        for target in LISTS:
            gets(server, target, reply(200, b'{"%s":[]}' % name_of(target).encode()))
            gets(server, as_csv(target), reply(200, printed(":memory:", ASKED[target]).stdout, "text/csv"))
        gets(server, "/health", reply(200, b'{"edits":0}'))


def test_inventories_of_chance(tmp_path):
    drawn = random.Random(17)
    for seed in range(8):
        path = tmp_path / f"{seed}.db"
        edit(path, sheet_of(*(random_record(drawn, n) for n in range(1, 80))))
        ended = {target: printed(path, ASKED[target]) for target in LISTS}
        due = {target: as_json(target, path, ASKED[target]) for target in LISTS} | {as_csv(target): reply(200, ended[target].stdout, "text/csv") for target in LISTS}
        with serving(len(due), path) as server:
            for target, expected in due.items():
                gets(server, target, expected)


def test_many_rows(tmp_path):
    """As many as a body of megabytes has: each is written for itself."""
    count = 5_000
    path = tmp_path / "roads.db"
    texts = ["m1,link,4,1000000", "m2,class,V,stretch", "m3,route,L1,4:0:1000000:+,0:0 1000000:333333"]
    edit(path, sheet_of(*texts, *(f"v{n},enter,{n},V,L1,B,abs,{n},{n + 1},x,0" for n in range(1, count + 1))))
    target = "/v1/rows?route=L1"
    ended = printed(path, ("rows", "--route", "L1"))
    expected = as_json(target, path, ("rows", "--route", "L1"))
    assert expected.count(b'"asset"') == count
    with serving(2, path) as server:
        gets(server, target, expected)
        gets(server, as_csv(target), reply(200, ended.stdout, "text/csv"))


# ---- what cannot be answered


REFUSED = {
    "/v1/rows?route=B9": (404, "NoRoute"),
    "/v1/rows?class=NONE": (422, "NoClass"),
    "/v1/rows?asset=99": (422, "NoAsset"),
    "/v1/rows?asset=99&route=B9": (404, "NoRoute"),
    "/v1/rows?class=NONE&route=B9": (404, "NoRoute"),
    "/v1/rows?asset=99&class=NONE": (422, "NoClass"),
    "/v1/lengths?route=B9": (404, "NoRoute"),
    "/v1/lengths?route=": (400, "Malformed:route"),
    "/v1/lengths?route=a1&route=A1": (400, "Malformed:route"),
    "/v1/gone?edit=14": (422, "NoEdit"),
    "/v1/gone?edit=10000000": (422, "NoEdit"),
    "/v1/rows?route=": (400, "Malformed:route"),
    "/v1/rows?route=a1": (400, "Malformed:route"),
    "/v1/rows?route=B9&from=x": (400, "Malformed:from"),
    "/v1/rows?from=-1": (400, "Malformed:from"),
    "/v1/rows?from=10000000001": (400, "Malformed:from"),
    "/v1/rows?to=": (400, "Malformed:to"),
    "/v1/rows?class=": (400, "Malformed:class"),
    "/v1/rows?class=speed": (400, "Malformed:class"),
    "/v1/rows?class=a&class=SPEED": (400, "Malformed:class"),
    "/v1/rows?asset=0": (400, "Malformed:asset"),
    "/v1/rows?asset=1000000000001": (400, "Malformed:asset"),
    "/v1/rows?asset=x&class=x&to=x&from=x&route=x": (400, "Malformed:route"),
    "/v1/rows?asset=x&class=x&to=x&from=x": (400, "Malformed:from"),
    "/v1/rows?asset=x&class=x&to=x": (400, "Malformed:to"),
    "/v1/rows?asset=x&class=x": (400, "Malformed:class"),
    "/v1/rows?exact=1&on_links=1": (400, "Malformed:on_links"),
    "/v1/rows?exact=1&on_links=0": (400, "Malformed:on_links"),
    "/v1/rows?exact=x&on_links=x": (400, "Malformed:exact"),
    "/v1/rows?asset=x&exact=x": (400, "Malformed:asset"),
    "/v1/rows?exact=": (400, "Malformed:exact"),
    "/v1/rows?on_links=true": (400, "Malformed:on_links"),
    "/v1/rows?route=A1&from=abs": (400, "Malformed:from"),
    "/v1/rows?route=A1&to=rel:KM2+1": (400, "Malformed:to"),
    "/v1/rows?from=abs:0": (404, "NoRoute"),
    "/v1/rows?to=int:1/2": (404, "NoRoute"),
    "/v1/rows?route=A1&from=abs:6001": (422, "OffRoute:from"),
    "/v1/rows?route=A1&to=rel:KM9%2B1": (422, "NoRef:to"),
    "/v1/rows?route=A1&from=abs:6001&to=abs:6002": (422, "OffRoute:from"),
    "/v1/rows?class=NONE&route=A1&from=abs:6001": (422, "NoClass"),
    "/v1/refs?route=B9": (404, "NoRoute"),
    "/v1/refs?route=a&exact=x": (400, "Malformed:route"),
    "/v1/refs?route=B9&exact=2": (400, "Malformed:exact"),
    "/v1/marks?route=B9": (404, "NoRoute"),
    "/v1/marks?route=": (400, "Malformed:route"),
    "/v1/pieces?route=B9": (404, "NoRoute"),
    "/v1/pieces?route=a1": (400, "Malformed:route"),
    "/v1/history": (400, "Malformed:asset"),
    "/v1/history?asset=0": (400, "Malformed:asset"),
    "/v1/history?asset=99": (422, "NoAsset"),
    "/v1/gone?class=NONE": (422, "NoClass"),
    "/v1/gone?edit=14&class=NONE": (422, "NoEdit"),
    "/v1/gone?since=0": (400, "Malformed:since"),
    "/v1/gone?until=10000001": (400, "Malformed:until"),
    "/v1/gone?class=x&until=x&since=x": (400, "Malformed:since"),
    "/v1/gone?class=x&until=x": (400, "Malformed:until"),
    "/v1/gone?class=x": (400, "Malformed:class"),
    "/v1/gone?edit=0": (400, "Malformed:edit"),
    "/v1/gone?edit=x": (400, "Malformed:edit"),
    "/v1/gone?edit=10000001": (400, "Malformed:edit"),
}


@pytest.mark.parametrize("target", REFUSED)
def test_what_is_refused(desk, target):
    gets(desk[0], target, error(*REFUSED[target]))


@pytest.mark.parametrize("target", REFUSED)
def test_as_csv_it_is_refused_alike(desk, target):
    gets(desk[0], as_csv(target), error(*REFUSED[target]))


# a parameter that a path does not know, and its name; it is told before all that is malformed or not there
UNKNOWN = {
    "/v1/rows?claas=SIGN": "claas",
    "/v1/rows?route=A1&edit=x&side=x": "edit",
    "/v1/rows?route=x&from=x&asst=1": "asst",
    "/v1/rows?class=NONE&Route=A1": "Route",
    "/v1/rows?limits=10": "limits",
    "/v1/rows?on_links=1&limit=10": "limit",
    "/v1/gone?limit=10": "limit",
    "/v1/history?asset=10&after=1": "after",
    "/v1/lengths?limit=10": "limit",
    "/v1/log?after=1": "after",
    "/v1/rows?=A1": "",
    "/v1/rows?rout%65s=A1": "routes",
    "/v1/links?link=x": "link",
    "/v1/classes?class=x": "class",
    "/v1/refs?name=x": "name",
    "/v1/refs?route=x&on_links=1": "on_links",
    "/v1/marks?exact=1": "exact",
    "/v1/pieces?link=1": "link",
    "/v1/history?edit=1": "edit",
    "/v1/history?asset=10&since=x": "since",
    "/v1/routes?name=A1": "name",
    "/v1/lengths?route=A1&class=SPEED": "class",
    "/v1/gone?asset=10": "asset",
    "/v1/gone?from=1": "from",
    "/v1/find?assets=10": "assets",
    "/v1/log?form=2": "form",
    "/v1/log?from=x&upto=3": "upto",
    "/v1/log?since=1": "since",
    "/v1/diagram?rout=A1": "rout",
    "/v1/diagram?route=A1&side=L": "side",
    "/v1/where?link=1&mm=0&pos=3": "pos",
    "/v1/where?method=abs": "method",
}


@pytest.mark.parametrize("target", UNKNOWN)
def test_a_parameter_that_the_path_does_not_know_is_named(desk, target):
    expected = error(400, f"Unknown:{UNKNOWN[target]}")
    gets(desk[0], target, expected)
    if target.partition("?")[0] in LISTS:
        gets(desk[0], as_csv(target), expected)


def test_the_name_is_a_text_of_json_whatever_it_is(desk):
    for written, name in [("%22%5c", '"\\'), ("%0a%09%00", "\n\t\0"), ("a+b%2B", "a b+"), ("%C3%A9", "\u00e9"), ("%ff", "\ufffd"), ("x" * 4000, "x" * 4000)]:
        head, _, body = answer(desk[0].port, request(f"GET /v1/rows?{written}=1")).partition(b"\r\n\r\n")
        assert head.split()[1] == b"400" and json.loads(body) == {"error": f"Unknown:{name}"}, (written, body)


@pytest.mark.parametrize("target", ["/v1/rows?class=RAIL&class=x", "/v1/rows?&class=RAIL&&", "/v1/rows?cl%61ss=RAIL"])
def test_of_one_name_the_first_counts(desk, target):
    server, due = desk
    gets(server, target, due["/v1/rows?class=RAIL"])
    gets(server, as_csv(target), due["/v1/rows.csv?class=RAIL"])


@pytest.mark.parametrize("target", ["/v1/totals?x=1", "/health?x=1", "/v1/route/A1?x=1", AT_3000 + "&x=1", "/v1/segments?route=A1&side=R&class=SPEED&x=1", "/v1/translate?x=1&route=A1&method=abs&pos=3000&to=int"])
def test_the_first_paths_pass_over_other_parameters(desk, target):
    without = target.replace("x=1&", "").removesuffix("&x=1").removesuffix("?x=1")
    assert answer(desk[0].port, request(f"GET {target}")) == answer(desk[0].port, request(f"GET {without}")) != b""


@pytest.mark.parametrize("path", [*LISTS, *map(as_csv, LISTS), "/v1/where", "/health"])
def test_another_method(desk, path):
    for method in ["POST", "HEAD", "PUT", "DELETE"]:
        desk[0].answers(request(f"{method} {path}"), reply(405, allow="GET"))


@pytest.mark.parametrize("path", ["/v1/links/", "/v1/link", "/v1/mark", "/v1/marks/A1", "/v1/length", "/v1/where/A1", "/v1/row", "/v1/Rows", "/v1/rows/A1", "/v1/health", "/health/", "/healthz", "/", "/v1/gone/12", "/v1/history/10", "/v1/piece", "/v1/pieces/A1", "/v1/at.csv", "/v1/log.csv", "/v1/totals.csv", "/health.csv", "/v1/rows.CSV", "/v1/rows.csv/", "/v1/rows.csv.csv", "/v1/rows.json", "/v1/.csv"])
def test_another_path(desk, path):
    gets(desk[0], path, reply(404))


def test_a_route_is_told_as_json_alone(desk):
    gets(desk[0], "/v1/route/A1.csv", error(404, "NoRoute"))


# ---- places

# what is asked for over HTTP, and the words for it on the command line; of a link, its route is of no account
PLACES = {
    "route=A1&chainage=0": ("A1", "0"),
    "route=A1&chainage=2500": ("A1", "2500"),
    "route=A1&chainage=5000": ("A1", "5000"),
    "chainage=700&route=A2": ("A2", "700"),
    "route=A1&chainage=abs:1001": ("A1", "abs:1001"),
    "route=A1&chainage=rel:KM2%2B834": ("A1", "rel:KM2+834"),
    "route=A2&chainage=int:1/3": ("A2", "int:1/3"),
    "link=1&mm=0": ("link", "1", "0"),
    "link=1&mm=4999": ("link", "1", "4999"),
    "link=1&mm=5000": ("link", "1", "5000"),
    "mm=100&link=2&route=x&chainage=x": ("link", "2", "100"),
}


def place_as_json(ended):
    """The reply with what a run of `where` printed."""
    assert (ended.stderr, ended.status) == (b"", 0), ended
    first, *rest = ended.stdout.decode().splitlines()
    route, at, link, mm, direction = first.split()
    hits = [line.split() for line in rest if len(line.split()) == 6]
    places = [line.split() for line in rest if len(line.split()) == 2]
    assert len(hits) + len(places) == len(rest)
    shown = {
        "at": int(at),
        "dir": direction,
        "hits": [
            {"asset": int(asset), "class": name, "entry": int(entry), "offset": int(offset), "side": side, "value": value}
            for asset, name, side, offset, value, entry in hits
        ],
        "link": int(link),
        "mm": int(mm),
        "positions": [{"method": method, "pos": position} for method, position in places],
        "route": route,
    }
    return reply(200, json.dumps(shown, separators=(",", ":")).encode())


@pytest.mark.parametrize("query", PLACES)
def test_a_place_is_what_the_program_prints(places, query):
    server, due = places
    gets(server, f"/v1/where?{query}", due[query])


@pytest.fixture(scope="module")
def places(tmp_path_factory):
    path = tmp_path_factory.mktemp("places") / "roads.db"
    make(path, *MORE)
    due = {query: place_as_json(printed(path, ("where", *words))) for query, words in PLACES.items()}
    assert any(b'"hits":[{' in shown for shown in due.values()) and any(b'"rel"' in shown for shown in due.values())
    with started(db=path) as server:
        yield server, due


NOWHERE = {
    "route=B9&chainage=0": (404, "NoRoute"),
    "route=A1&chainage=5001": (422, "OffRoute"),
    "route=A1&chainage=10000000000": (422, "OffRoute"),
    "route=A1&chainage=abs:6001": (422, "OffRoute"),
    "route=A1&chainage=rel:KM9-1": (422, "NoRef"),
    "route=B9&chainage=abs:0": (404, "NoRoute"),
    "chainage=abs:0": (400, "Malformed:route"),
    "route=A1&chainage=abs:": (400, "Malformed:chainage"),
    "route=A1&chainage=rel:KM2+1": (400, "Malformed:chainage"),
    "route=A1&chainage=int:3/2": (400, "Malformed:chainage"),
    "link=9&mm=0": (422, "NoLink"),
    "link=1&mm=5001": (422, "OffRoute"),
    "": (400, "Malformed:route"),
    "route=A1": (400, "Malformed:chainage"),
    "chainage=1": (400, "Malformed:route"),
    "route=a&chainage=1": (400, "Malformed:route"),
    "route=A1&chainage=": (400, "Malformed:chainage"),
    "route=A1&chainage=-1": (400, "Malformed:chainage"),
    "route=A1&chainage=2.5": (400, "Malformed:chainage"),
    "route=A1&chainage=10000000001": (400, "Malformed:chainage"),
    "link=&route=A1&chainage=1": (400, "Malformed:link"),
    "link=0&mm=1": (400, "Malformed:link"),
    "link=1000000&mm=1": (400, "Malformed:link"),
    "link=1": (400, "Malformed:mm"),
    "link=1&mm=x&route=A1&chainage=1": (400, "Malformed:mm"),
    "link=1&mm=1000000001": (400, "Malformed:mm"),
}


@pytest.mark.parametrize("query", NOWHERE)
def test_a_place_that_is_not_there(places, query):
    gets(places[0], f"/v1/where?{query}", error(*NOWHERE[query]))


def test_a_millimetre_that_no_route_runs_over():
    with serving(2) as server:
        server.does("edits", sheet_of("w1,link,4,1000", "w2,route,L1,4:0:400:+,0:0 400:400"), b"w1,done,1\nw2,done,2\n")
        gets(server, "/v1/where?link=4&mm=400", error(422, "OffRoute"))


# ---- the health


def test_the_health_counts_accepted_edits():
    with serving(5) as server:
        server.does("edits", FIRST, FIRST_REPLIES)
        gets(server, "/health", reply(200, b'{"edits":7}'))
        server.does("edits", sheet_of("x1,link,1,7", "x2,link,4,7"), b"x1,refused,LinkKnown\nx2,done,8\n")
        gets(server, "/health", reply(200, b'{"edits":8}'))
        gets(server, "/health?edits=x", reply(200, b'{"edits":8}'))


def test_behind_a_failed_commit_of_one_command_questions_go_on_but_for_places_and_the_health(tmp_path):
    path = tmp_path / "roads.db"
    make(path)
    count = 0
    with started(db=path, **with_files_up_to(400_000)) as server:
        gets(server, "/health", reply(200, b'{"edits":7}'))
        gets(server, AT_3000, reply(200, b'{"at":2500,"dir":"+","hits":[],"link":1,"mm":2500,"route":"A1"}'))
        while answer(server.port, request("POST /v1/edits", sheet_of(f"k{count},class,C{count},point"))) != reply(503):
            count += 1
        for target in ["/health", "/health?x=1", AT_3000, "/v1/at?route=B1&method=abs&pos=1", "/v1/at", "/v1/at?x=1"]:
            gets(server, target, reply(503))
        gets(server, "/v1/translate?route=A1&method=int&pos=1/3&to=abs", reply(200, b'{"method":"abs","pos":"3200","route":"A1"}'))
        classes = answer(server.port, request("GET /v1/classes"))
        assert classes.startswith(b"HTTP/1.1 200 OK\r\n") and classes.count(b'"class"') == 3 + count, classes[:500]
        gets(server, "/health", reply(503))


def test_behind_a_failed_commit_of_several_commands_nothing_is_told(tmp_path):
    path = tmp_path / "roads.db"
    make(path)
    with started(db=path, **with_files_up_to(400_000)) as server:
        sheet = sheet_of(*(f"k{n},class,C{n},point" for n in range(1, 10_001)))
        server.answers(request("POST /v1/edits", sheet), reply(503))
        for target in ["/health", *LISTS, *map(as_csv, LISTS), "/v1/rows?from=x", "/v1/rows?x=1", "/v1/gone?edit=x"]:
            gets(server, target, reply(503))
    is_whole(path)
