"""`GET /v1/log?from=N`: the accepted commands as an edit sheet, while the inventory is served."""

import pytest

from program import FIRST, FIRST_REPLIES, HEADER, ends, record, run, sheet_of, with_files_up_to
from serving import FIRST_AGAIN, SURVEY, TABLE, answer, by_curl, by_http_client, by_socket, error, reply, request, serving, sheet_reply, started
from stores import MORE, MORE_REPLIES, edit, is_whole, make, rows_of

# what the requests of TABLE leave: the first sheet, an asset by a survey, a referent and a class
ACCEPTED = [
    "s1,link,1,5000",
    "s2,link,2,3000",
    "s3,link,3,2000",
    "s4,class,SPEED,exclusive",
    "s5,class,RAIL,stretch",
    "s6,class,SIGN,point",
    "s7,route,A1,1:0:5000:+ 2:0:3000:-,0:0 5000:6000 8000:9000",
    "e1,enter,10,SPEED,A1,B,abs,3000,9000,80,0",
    "r1,ref,KM2,A1,abs,3",
    "c1,class,WIDTH,exclusive",
]
WHOLE = sheet_of(*ACCEPTED)


def log_from(number):
    """The reply with these commands from this one on."""
    return sheet_reply(sheet_of(*ACCEPTED[number - 1 :]))


@pytest.fixture(scope="module")
def desk():
    # nothing more is done there
    with started() as server:
        for asked, body, expected in TABLE:
            server.answers(request(asked, body), expected)
        yield server
        server.answers(request("GET /v1/log"), sheet_reply(WHOLE))


def gets(server, target, expected):
    server.answers(request(f"GET {target}"), expected)


def log_over(server, query=""):
    """The sheet that a request for the log is answered with."""
    got = answer(server.port, request(f"GET /v1/log{query}"))
    head, _, sheet = got.partition(b"\r\n\r\n")
    assert head.startswith(b"HTTP/1.1 200 OK\r\nContent-Type: text/csv\r\n"), got[:500]
    assert got == sheet_reply(sheet)
    return sheet


@pytest.mark.parametrize("client", [by_socket, by_curl, by_http_client])
def test_the_log_over_each_client(desk, client):
    assert client(desk.port, "GET /v1/log", None) == sheet_reply(WHOLE)
    assert client(desk.port, "GET /v1/log?from=9", None) == log_from(9)


def test_all_bytes_of_the_reply(desk):
    head = b"HTTP/1.1 200 OK\r\nContent-Type: text/csv\r\nContent-Length: 84\r\nConnection: close\r\n\r\n"
    desk.answers(request("GET /v1/log?from=9"), head + b"key,verb,a,b,c,d,e,f,g,h,i\nr1,ref,KM2,A1,abs,3,,,,,\nc1,class,WIDTH,exclusive,,,,,,,\n")


@pytest.mark.parametrize("number", range(1, len(ACCEPTED) + 1))
def test_the_log_from_each_edit(desk, number):
    gets(desk, f"/v1/log?from={number}", log_from(number))


@pytest.mark.parametrize("first, last", [(1, 1), (1, 10), (3, 7), (9, 9), (7, 3), (10, 10_000_000)])
def test_the_log_between_two_edits(desk, first, last):
    gets(desk, f"/v1/log?from={first}&until={last}", sheet_reply(sheet_of(*ACCEPTED[first - 1 : last])))


def test_the_log_up_to_an_edit(desk):
    gets(desk, "/v1/log?until=4", sheet_reply(sheet_of(*ACCEPTED[:4])))


@pytest.mark.parametrize("query, cause", [("until=0", "until"), ("until=x", "until"), ("until=", "until"), ("until=10000001", "until"), ("until=x&from=x", "from")])
def test_an_end_that_cannot_be_read(desk, query, cause):
    gets(desk, f"/v1/log?{query}", error(400, f"Malformed:{cause}"))


@pytest.mark.parametrize("number", [11, 12, 9_999_999, 10_000_000])
def test_behind_the_last_edit_is_the_header_alone(desk, number):
    gets(desk, f"/v1/log?from={number}", sheet_reply(HEADER))


def test_the_log_of_an_empty_inventory():
    with serving(3) as server:
        for target in ["/v1/log", "/v1/log?from=1", "/v1/log?from=2"]:
            gets(server, target, sheet_reply(HEADER))


# ---- the parameter

NUMBERS = {
    "?": 1,
    "?from=00": None,
    "?from=0": None,
    "?from=": None,
    "?from": None,
    "?from=x": None,
    "?from=-1": None,
    "?from=+1": None,
    "?from=%2B1": None,
    "?from=1.0": None,
    "?from=1,000": None,
    "?from=1%20": None,
    "?from=0x1": None,
    "?from=%d9%a1": None,
    "?from=10000001": None,
    "?from=18446744073709551617": None,
    "?from=1000000000000000000000000000000000000000001": None,
    "?from=007": 7,
    "?from=%31%30": 10,
    "?%66rom=8": 8,
    "?from=8&from=x": 8,
    "?from=x&from=8": None,
}

# parameters that the path does not know, and the first of them
UNKNOWN = {
    "?key=r1&to=3&From=2&route=B1&=&%ff": "key",
    "?From=2": "From",
    "?from=9&to=x&key=s1": "to",
    "?from=x&to=3": "to",
}


@pytest.mark.parametrize("query", NUMBERS)
def test_the_number_of_the_first_edit(desk, query):
    number = NUMBERS[query]
    gets(desk, f"/v1/log{query}", error(400, "Malformed:from") if number is None else log_from(number))


@pytest.mark.parametrize("query", UNKNOWN)
def test_a_parameter_that_it_does_not_know_is_named(desk, query):
    gets(desk, f"/v1/log{query}", error(400, f"Unknown:{UNKNOWN[query]}"))


# ---- paths and methods


@pytest.mark.parametrize("method", ["POST", "HEAD", "PUT", "DELETE", "OPTIONS", "PATCH", "get", "GETS"])
def test_another_method(desk, method):
    for query in ["", "?from=1", "?from=x"]:
        desk.answers(request(f"{method} /v1/log{query}"), reply(405, allow="GET"))
    desk.answers(request(f"{method} /v1/log", FIRST), reply(405, allow="GET"))


@pytest.mark.parametrize("path", ["/v1/log/", "/v1/Log", "/v1/logs", "/v1/lo", "/v1/log/5", "/v1//log", "/v1/l%6fg", "/log"])
def test_another_path(desk, path):
    gets(desk, path, reply(404))


# ---- it is the log that the program prints, and it changes nothing


def test_it_is_what_the_program_prints(tmp_path):
    path = tmp_path / "roads.db"
    make(path, *MORE)
    count = FIRST.count(b"\n") - 1 + len(MORE)
    printed = {number: run("log", path, str(number)) for number in range(1, count + 2)}
    whole = run("log", path)
    kept = rows_of(path)
    with serving(count + 2, path) as server:
        ends(whole, log_over(server), 0)
        for number, ended in printed.items():
            ends(ended, log_over(server, f"?from={number}"), 0)
    assert rows_of(path) == kept
    is_whole(path)


def test_what_is_refused_or_repeated_is_not_in_it():
    with serving(4) as server:
        server.does("edits", FIRST, FIRST_REPLIES)
        server.does("edits", FIRST, FIRST_AGAIN)
        server.does("edits", sheet_of("x1,link,1,7", "x2,link,4,7"), b"x1,refused,LinkKnown\nx2,done,8\n")
        assert log_over(server) == FIRST + record("x2,link,4,7")


def test_it_is_the_same_after_a_close(tmp_path):
    path = tmp_path / "roads.db"
    with serving(2, path) as server:
        server.does("edits", FIRST, FIRST_REPLIES)
        assert log_over(server) == FIRST
    with serving(3, path) as server:
        assert log_over(server) == FIRST
        server.does("surveys", SURVEY, b"e1,done,8\n")
        assert log_over(server, "?from=7") == sheet_of(*ACCEPTED[6:8])
    with serving(1, path) as server:
        assert log_over(server) == sheet_of(*ACCEPTED[:8])


def test_the_log_makes_the_inventory_again(tmp_path):
    """Done on an empty inventory, it makes the same rows."""
    path, copy = tmp_path / "roads.db", tmp_path / "copy.db"
    make(path, *MORE)
    with serving(1, path) as server:
        sheet = log_over(server)
    ends(edit(copy, sheet), FIRST_REPLIES + MORE_REPLIES, 0)
    assert rows_of(copy) == rows_of(path)


def test_a_copy_follows(tmp_path):
    """It asks for what stands behind its last edit, each time, and has the same rows then."""
    path, copy = tmp_path / "roads.db", tmp_path / "copy.db"
    groups = [FIRST, SURVEY, sheet_of("m1,ref,KM2,A1,abs,3", "m2,link,1,9", "m3,split,A1,5000,A2"), sheet_of("m1,ref,KM2,A1,abs,3"), sheet_of("m4,close,A2")]
    numbers = [7, 8, 10, 10, 11]
    has = 0
    with serving(2 * len(groups) + 1, path) as server:
        for sheet, number in zip(groups, numbers):
            answer(server.port, request(f"POST /v1/{'surveys' if sheet == SURVEY else 'edits'}", sheet))
            part = log_over(server, f"?from={has + 1}")
            assert part.count(b"\n") == 1 + number - has
            replied = edit(copy, part)
            assert replied.stdout.count(b",done,") == number - has and replied.status == 0, replied
            has = number
        gets(server, f"/v1/log?from={has + 1}", sheet_reply(HEADER))
    assert rows_of(copy) == rows_of(path)


def test_a_long_log(tmp_path):
    count = 20_000
    rows = [b"k%d,link,%d,5,,,,,,,\n" % (n, n) for n in range(1, count + 1)]
    path = tmp_path / "roads.db"
    ends(edit(path, HEADER + b"".join(rows)), b"".join(b"k%d,done,%d\n" % (n, n) for n in range(1, count + 1)), 0)
    with serving(2, path) as server:
        assert log_over(server) == HEADER + b"".join(rows)
        assert log_over(server, f"?from={count - 9}") == HEADER + b"".join(rows[-10:])


# ---- behind a failed commit


def test_behind_a_failed_commit_of_one_command_it_is_the_log_before(tmp_path):
    path = tmp_path / "roads.db"
    make(path)
    done, got = [], None
    with started(db=path, **with_files_up_to(400_000)) as server:
        while got != reply(503):
            text = f"k{len(done) + 1},class,C{len(done) + 1},point"
            got = answer(server.port, request("POST /v1/edits", sheet_of(text)))
            done.append(text)
        assert log_over(server) == FIRST + b"".join(record(text) for text in done[:-1])


def test_behind_a_failed_commit_of_several_commands_there_is_none(tmp_path):
    path = tmp_path / "roads.db"
    make(path)
    with started(db=path, **with_files_up_to(400_000)) as server:
        sheet = sheet_of(*(f"k{n},class,C{n},point" for n in range(1, 10_001)))
        server.answers(request("POST /v1/edits", sheet), reply(503))
        for target in ["/v1/log", "/v1/log?from=9", "/v1/log?from=x", "/v1/totals"]:
            gets(server, target, reply(503))
    is_whole(path)
