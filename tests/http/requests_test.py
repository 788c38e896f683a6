"""`roadlrs serve DB PORT MAX`: requests over sockets, curl and http.client, replies byte for byte, and what clients that fail or dawdle cost.

The first sheet's route A1 runs forwards over link 1 (5,000 mm) and then backwards over link 2 (3,000 mm); its measures go from 0 to 6,000 over
the first 5,000 mm, and from there to 9,000 over 3,000 mm. Asset 10 lies on both sides from millimetre 2,500 to the end.
"""

import os
import random
import re
import resource
import signal
import socket
import subprocess
import time

import pytest

from program import FIRST, FIRST_REPLIES, HEADER, PATIENCE, TOP, ends, faults, lines, long_sheet, record, refuses_word, run, sheet_of, with_files_up_to
from serving import AGAIN, ASK, AT, AT_3000, DAWDLING, FAILING, FIRST_AGAIN, NONE_OF, ROUTE, SEGMENTS, STRETCHES, SURVEY, TABLE, TOTALS, TRANSLATED
from serving import answer, by_curl, by_http_client, by_socket, connect, error, free_port, head_of, links_up_to, long_question, reply, request, rest_of
from serving import serving, sheet_reply, started, totals_of, wait_behind
from stores import edit, folder, is_whole, rows_of

SAYS = reply(200, TOTALS)


@pytest.mark.parametrize("client", [by_socket, by_curl, by_http_client])
def test_each_request(client):
    with serving(len(TABLE)) as server:
        for asked, body, expected in TABLE:
            assert client(server.port, asked, body) == expected, asked


@pytest.fixture(scope="module")
def desk():
    # nothing more is done there
    with started() as server:
        for asked, body, expected in TABLE:
            server.answers(request(asked, body), expected)
        yield server
        server.answers(request(f"GET {AT_3000}"), reply(200, AT))
        server.answers(ASK, SAYS)
        server.does("edits", sheet_of("z1,class,LAST,point"), b"z1,done,11\n")


def gets(server, target, expected):
    server.answers(request(f"GET {target}"), expected)


# ---- all bytes of a reply

CLOSE = b"Connection: close\r\n\r\n"
AS_TYPED = {
    b"GET /v1/translate?route=A1&method=int&pos=1/3&to=abs HTTP/1.1\r\nHost: 127.0.0.1\r\n\r\n": (
        b"HTTP/1.1 200 OK\r\nContent-Type: application/json\r\nContent-Length: 42\r\n" + CLOSE + b'{"method":"abs","pos":"3200","route":"A1"}'
    ),
    b"POST /v1/surveys HTTP/1.1\r\nHost: 127.0.0.1\r\nContent-Length: 91\r\n\r\n" + SURVEY: (
        b"HTTP/1.1 200 OK\r\nContent-Type: text/csv\r\nContent-Length: 11\r\n" + CLOSE + b"e1,again,8\n"
    ),
    b"POST /v1/edits HTTP/1.1\r\nContent-Length: 9\r\n\r\nkey,verb\n": (
        b"HTTP/1.1 422 Unprocessable Entity\r\nContent-Type: text/csv\r\nContent-Length: 18\r\n" + CLOSE + b"-,fault,BadHeader\n"
    ),
    b"GET /v1/at HTTP/1.1\r\n\r\n": (
        b"HTTP/1.1 400 Bad Request\r\nContent-Type: application/json\r\nContent-Length: 27\r\n" + CLOSE + b'{"error":"Malformed:route"}'
    ),
    b"GET /v1/route/B1 HTTP/1.1\r\n\r\n": (
        b"HTTP/1.1 404 Not Found\r\nContent-Type: application/json\r\nContent-Length: 19\r\n" + CLOSE + b'{"error":"NoRoute"}'
    ),
    b"GET /v1/none HTTP/1.1\r\n\r\n": b"HTTP/1.1 404 Not Found\r\nContent-Length: 0\r\n" + CLOSE,
    b"DELETE /v1/totals HTTP/1.1\r\n\r\n": b"HTTP/1.1 405 Method Not Allowed\r\nAllow: GET\r\nContent-Length: 0\r\n" + CLOSE,
    b"GET /v1/edits HTTP/1.1\r\n\r\n": b"HTTP/1.1 405 Method Not Allowed\r\nAllow: POST\r\nContent-Length: 0\r\n" + CLOSE,
    b"POST /v1/edits HTTP/1.1\r\n\r\n": b"HTTP/1.1 411 Length Required\r\nContent-Length: 0\r\n" + CLOSE,
    b"POST /v1/edits HTTP/1.1\r\nContent-Length: 1048577\r\n\r\n": b"HTTP/1.1 413 Payload Too Large\r\nContent-Length: 0\r\n" + CLOSE,
    b"nothing that is asked\r\n\r\n": b"HTTP/1.1 400 Bad Request\r\nContent-Length: 0\r\n" + CLOSE,
    b"GET / HTTP/1.1\r\n" + b"A: b\r\n" * 65 + b"\r\n": b"HTTP/1.1 431 Request Header Fields Too Large\r\nContent-Length: 0\r\n" + CLOSE,
}


@pytest.mark.parametrize("sent", AS_TYPED, ids=lambda sent: repr(sent[:60]))
def test_all_bytes_of_a_reply(desk, sent):
    desk.answers(sent, AS_TYPED[sent])


def test_no_line_to_answer_is_no_content():
    with serving(3) as server:
        for sheet in [b"", HEADER, HEADER.rstrip(b"\n")]:
            server.answers(request("POST /v1/edits", sheet), b"HTTP/1.1 200 OK\r\nContent-Length: 0\r\n" + CLOSE)


# ---- what is asked in a query

QUERIES = {
    # a plus sign stands for a space, and %2B for a plus sign
    "/v1/translate?route=A1&method=rel&pos=KM2%2B1&to=abs": TRANSLATED % (b"abs", b"18/5"),
    "/v1/translate?route=A1&method=rel&pos=KM2%2b1&to=int": TRANSLATED % (b"int", b"3/8000"),
    "/v1/translate?route=A1&method=rel&pos=KM2-2&to=abs": TRANSLATED % (b"abs", b"0"),
    "/v1/translate?route=A1&method=rel&pos=KM2-0&to=rel:KM2": TRANSLATED % (b"rel", b"KM2+0"),
    "/v1/translate?route=A1&method=int&pos=0000001/2&to=int": TRANSLATED % (b"int", b"1/2"),
    "/v1/translate?route=A1&method=abs&pos=3&to=rel:KM2": TRANSLATED % (b"rel", b"KM2+1/2"),
    "/v1/translate?route=A1&method=abs&pos=3&to=rel%3AKM2": TRANSLATED % (b"rel", b"KM2+1/2"),
    "/v1/translate?route=A1&method=int&pos=1/3&to=link": TRANSLATED % (b"link", b"1:8000/3"),
    "/v1/translate?%72oute=%411&m%65thod=int&pos=1%2f3&to=link": TRANSLATED % (b"link", b"1:8000/3"),
    # the first of several, and names that mean nothing
    f"{AT_3000}&pos=x&route=B1&method=int": AT,
    "/v1/at?pos=3000&x=y&&=&route=A1&Route=B1&route%20=B1&method=abs&%ff": AT,
    "/v1/totals?route=B1": TOTALS,
    "/v1/totals?": TOTALS,
    "/v1/totals??/v1/at#%": TOTALS,
    "/v1/route/A1?route=B1": ROUTE % b'{"at":2,"name":"KM2"}',
    # each class, in order
    "/v1/segments?class=SPEED&route=A1&class=WIDTH&side=L&class=SPEED": SEGMENTS % (b'"-","-","-"', b'"80","-","80"', b"L"),
    # a number with zeros before it, a point, and the far end
    "/v1/at?route=A1&method=abs&pos=003000": AT,
    "/v1/at?route=A1&method=int&pos=0/7": b'{"at":0,"dir":"+","hits":[],"link":1,"mm":0,"route":"A1"}',
    "/v1/at?route=A1&method=abs&pos=9000": AT.replace(b'"at":2500,"dir":"+"', b'"at":7999,"dir":"-"').replace(b'"link":1,"mm":2500', b'"link":2,"mm":0'),
}


@pytest.mark.parametrize("target", QUERIES)
def test_an_answer(desk, target):
    gets(desk, target, reply(200, QUERIES[target]))


MALFORMED = {"/v1/at?": "route method pos", "/v1/segments?": "route side class", "/v1/translate?": "route method pos to"}
GOOD = {"route": "A1", "method": "rel", "pos": "KM2%2B0", "to": "abs", "side": "R", "class": "SPEED"}
BAD = {
    "route": ["", "a1", "A1+", "A%2f1", "ABCDEFGHIJKLM", "%c3%a9", "%ff", "-A"],
    "method": ["", "Rel", "rel+", "measure", "rel%00"],
    "pos": ["", "KM2", "KM2+0", "KM2%200", "3000", "KM2%2B10000000001", "KM2%2B1/2", "KM2%2B%2B1", "km2%2B0"],
    "to": ["", "ABS", "rel", "rel:", "rel:km2", "rel+KM2", "links"],
    "side": ["", "r", "LR", "N"],
    "class": ["", "speed", "SPEED+", "ABCDEFGHI", "SPEED,RAIL"],
}


@pytest.mark.parametrize("path", MALFORMED)
def test_the_first_malformed_parameter_is_named(desk, path):
    names = MALFORMED[path].split()
    for at, name in enumerate(names):
        before = [f"{other}={GOOD[other]}" for other in names[:at]]
        behind = [f"{other}={BAD[other][1]}" for other in names[at + 1 :]]
        for wrong in [[], [name], *([f"{name}={text}"] for text in BAD[name])]:
            for pairs in [before + wrong + behind, behind + wrong + before]:
                gets(desk, path + "&".join(pairs), error(400, f"Malformed:{name}"))


@pytest.mark.parametrize("text", ["1/0", "3/2", "1000001/1000001", "1/", "-1/2", ""])
def test_a_text_that_is_no_proportion(desk, text):
    gets(desk, f"/v1/at?route=A1&method=int&pos={text}", error(400, "Malformed:pos"))


@pytest.mark.parametrize("query", ["class=SPEED&class=speed", "class=&class=SPEED", "class=SPEED&class"])
def test_one_class_of_several_is_malformed(desk, query):
    gets(desk, f"/v1/segments?route=A1&side=R&{query}", error(400, "Malformed:class"))


REFUSED = {
    "/v1/at?route=B1&method=rel&pos=NO%2B1": (404, "NoRoute"),
    "/v1/at?route=A1&method=rel&pos=NO%2B1": (422, "NoRef"),
    "/v1/at?route=A1&method=rel&pos=KM2-3": (422, "OffRoute"),
    "/v1/at?route=A1&method=abs&pos=9001": (422, "OffRoute"),
    "/v1/segments?route=B1&side=B&class=NO": (404, "NoRoute"),
    "/v1/segments?route=A1&side=B&class=SPEED&class=NO": (422, "NoClass:1"),
    "/v1/segments?route=A1&side=B&class=RAIL": (422, "NotExclusive:0"),
    "/v1/segments?route=A1&side=R&class=SPEED&class=SIGN&class=RAIL": (422, "NotExclusive:1"),
    "/v1/segments?route=A1&side=B&class=SPEED": (422, "SideB"),
    "/v1/translate?route=B1&method=abs&pos=9001&to=rel:NO": (404, "NoRoute"),
    "/v1/translate?route=A1&method=abs&pos=9001&to=rel:NO": (422, "OffRoute"),
    "/v1/translate?route=A1&method=abs&pos=9000&to=rel:NO": (422, "NoRef"),
    "/v1/translate?route=A1&method=abs&pos=9001&to=link": (422, "OffRoute"),
}


@pytest.mark.parametrize("target", REFUSED)
def test_a_question_that_is_refused(desk, target):
    gets(desk, target, error(*REFUSED[target]))


NO_NAMES = ["B1", "a1", "A%31", "A1%2F", "A1%20", "..", ".", "%2e%2e", "A1;x", "A1&x", "-A", "ABCDEFGHIJKLM", "\xc3\xa9", "{name}", "A1#x"]


@pytest.mark.parametrize("name", NO_NAMES)
def test_a_text_that_is_no_route(desk, name):
    gets(desk, f"/v1/route/{name}", error(404, "NoRoute"))


# ---- heads, paths and methods

UNKNOWN = ["/", "*", "v1/totals", "/v1", "/v1/", "/v1/none", "/V1/totals", "/v1/Totals", "/v1/totals/", "/v1//totals", "//v1/totals", "/v1/total"]
UNKNOWN += ["/v1/./totals", "/v1/x/../totals", "/../v1/totals", "/v1/%74otals", "/v1%2Ftotals", "/v1/totals%20", "/v1/totals;x", "/v1/totals#x"]
UNKNOWN += ["/v1/totals&x", "http://127.0.0.1/v1/totals", "/v1/\xc3\xa9", "/v1/route", "/v1/route?A1", "/v1/route/", "/v1/route/?A1", "/v1/route//"]
UNKNOWN += ["/v1/route/A1/", "/v1/route/A1/refs", "/v1/route//A1", "/v1/route/A/1", "/v1/edits/", "/v1/surveys/e1", "/v1/edit"]


@pytest.mark.parametrize("target", UNKNOWN)
def test_an_unknown_path(desk, target):
    for method in ["GET", "POST", "get"]:
        desk.answers(request(f"{method} {target}"), reply(404))


def test_a_path_that_is_no_text(desk):
    desk.answers(request("GET /v1/\xff"), reply(400))


PATHS = {"GET": ["at", "route/A1", "route/a1", "segments", "translate", "totals"], "POST": ["edits", "surveys"]}
METHODS = ["GET", "POST", "HEAD", "PUT", "DELETE", "OPTIONS", "PATCH", "get", "post", "Get", "GETS", "GE", "!", "%47ET"]


@pytest.mark.parametrize("method", METHODS)
def test_a_method_that_a_path_does_not_have(desk, method):
    for allowed, paths in PATHS.items():
        if method != allowed:
            for path in paths:
                desk.answers(request(f"{method} /v1/{path}?x"), reply(405, allow=allowed))


LINES = [b"GET", b"GET /v1/totals", b"GET /v1/totals ", b"GET  /v1/totals HTTP/1.1", b" GET /v1/totals HTTP/1.1", b"G(T /v1/totals HTTP/1.1"]
LINES += [b"GET /v1/ totals HTTP/1.1", b"GET /v1/\x7ftotals HTTP/1.1", b"GET /v1/totals HTTP/1.1 ", b"GET /v1/totals http/1.1", b"GET /v1/totals HTTP/1.1\r"]
LINES += [b"GET /v1/totals HTTP/%s" % version for version in [b"2.0", b"1.2", b"1", b"1.", b"0.9", b"1.10", b"11"]]
UNREADABLE = [b"x", b"\x16\x03\x01\x02\x00\x01\x00\x01\xfc\x03\x03", b"\x00" * 9, *(line + b"\r\n\r\n" for line in LINES)]
FIELDS = [b"Host", b"Host : x", b" Host: x", b": x", b"H\xc3\xb6st: x", b"Host: \x00", b"Host: \x7f", b"Host: a\rb", b"A: b\r\n c", b"A(: b"]
UNREADABLE += [b"GET /v1/totals HTTP/1.1\r\n%s\r\n\r\n" % field for field in FIELDS]


@pytest.mark.parametrize("head", UNREADABLE)
def test_a_head_that_cannot_be_read(desk, head):
    desk.answers(head, reply(400), ends=True)


def test_an_input_that_ends_in_its_head(desk):
    sent = request("POST /v1/surveys", SURVEY, "Host: x")
    for at in range(len(sent) - len(SURVEY)):
        desk.answers(sent[:at], reply(400), ends=True)


READABLE = [b"GET /v1/totals HTTP/1.0\r\n\r\n", b"GET /v1/totals HTTP/1.1\n\n", b"\r\n\n\r\nGET /v1/totals HTTP/1.1\r\nA: b\n\r\n"]
FIELDS = [b"Host:", b"Host:x\r\nHost:y", b"Host: \t x \t", b"A: \xff\xc3", b"!#$%&'*+-.^_`|~9: ()", b"Expect: 100-continue", b"Connection: keep-alive"]
READABLE += [b"GET /v1/totals HTTP/1.1\r\n%s\r\n\r\n" % field for field in FIELDS]


@pytest.mark.parametrize("head", READABLE)
def test_a_head_that_can_be_read(desk, head):
    desk.answers(head, SAYS)


@pytest.mark.parametrize("field", ["Content-Length: 5", "Content-Length: +5", "Content-Length: 9999999999999999999", "Transfer-Encoding: chunked"])
def test_the_body_of_a_question_is_not_read(desk, field):
    desk.answers(request("GET /v1/totals", None, field), SAYS)
    desk.answers(request("GET /v1/totals", None, field) + b"hello" * 20_000, SAYS)


# ---- how large heads are

@pytest.mark.parametrize("size", [8_000, 8_191, 8_192])
def test_a_head_that_is_long_enough(desk, size):
    assert len(head_of(size)) == size
    desk.answers(head_of(size), SAYS)
    desk.answers(head_of(size, "POST /v1/surveys", body=SURVEY), sheet_reply(AGAIN))
    gets(desk, f"/v1/totals?{'x' * (size - len(request('GET /v1/totals?')))}", SAYS)


@pytest.mark.parametrize("size", [8_193, 8_194, 100_000, 1_000_000])
def test_a_head_that_is_too_long(desk, size):
    desk.answers(head_of(size), reply(431))
    desk.answers(head_of(size, "POST /v1/surveys", body=SURVEY), reply(431))
    gets(desk, f"/v1/totals?{'x' * (size - len(request('GET /v1/totals?')))}", reply(431))
    desk.answers(head_of(size)[:8_192], reply(431))


@pytest.mark.parametrize("count, expected", [(0, SAYS), (1, SAYS), (63, SAYS), (64, SAYS), (65, reply(431)), (1_000, reply(431))])
def test_how_many_fields_a_head_has(desk, count, expected):
    desk.answers(request("GET /v1/totals", None, *["A: b"] * count), expected)
    sent = request("POST /v1/surveys", SURVEY, *["A: b"] * (count - 1))
    desk.answers(sent, sheet_reply(AGAIN) if expected == SAYS else expected)


def test_a_request_that_comes_byte_by_byte(desk):
    sent = head_of(300, "POST /v1/surveys", body=SURVEY)
    with connect(desk.port) as stream:
        stream.setsockopt(socket.IPPROTO_TCP, socket.TCP_NODELAY, 1)
        for at in range(len(sent)):
            stream.sendall(sent[at : at + 1])
        assert rest_of(stream) == sheet_reply(AGAIN)


# ---- how long bodies are

LENGTHS = {
    (): 411,
    ("Content-Lengths: 91",): 411,
    ("Transfer-Encoding: chunked",): 411,
    ("Transfer-Encoding:",): 411,
    ("TRANSFER-encoding: identity", "Content-Length: 91"): 411,
    ("Content-Length: +5", "Content-Length: 1048577", "Transfer-Encoding: chunked"): 411,
    ("Content-Length: 91", "Content-Length: 91"): 400,
    ("Content-Length: 1048577", "content-LENGTH: 91"): 400,
    ("Content-Length: 9999999999999999999",): 413,
    ("Content-Length: 1048577",): 413,
    ("Content-Length: 0000000000001048577",): 413,
}
NO_LENGTHS = ["", "+5", "-5", "5.", "5,5", "5 5", "0x5", "5e0", "five", "\xd9\xa5", "0" * 20, "9" * 20, "00000000000000000091"]


@pytest.mark.parametrize("path", ["edits", "surveys"])
@pytest.mark.parametrize("fields", LENGTHS)
def test_a_body_whose_length_is_refused(desk, path, fields):
    desk.answers(request(f"POST /v1/{path}", None, *fields) + SURVEY, reply(LENGTHS[fields]))


@pytest.mark.parametrize("text", NO_LENGTHS)
def test_a_length_that_is_no_number(desk, text):
    desk.answers(request("POST /v1/surveys", None, f"Content-Length: {text}") + SURVEY, reply(400))


@pytest.mark.parametrize("field", ["content-length: 91", "CONTENT-LENGTH:91", "Content-Length: \t091 ", "Content-Length: 0000000000000000091"])
def test_a_length_that_is_a_number(desk, field):
    desk.answers(request("POST /v1/surveys", None, field) + SURVEY, sheet_reply(AGAIN))


def test_a_body_that_ends_early_does_nothing():
    sheet = sheet_of("k1,link,9,1", "k2,link,8,1")
    with serving(len(sheet) + 3) as server:
        server.answers(request("POST /v1/edits", None, "Content-Length: 100") + b"key,verb", reply(400), ends=True)
        for at in range(len(sheet)):
            server.answers(request("POST /v1/edits", sheet)[: at - len(sheet)], reply(400), ends=True)
        server.answers(ASK, reply(200, totals_of()))
        server.does("edits", sheet, lines("k1,done,1", "k2,done,2"))


def test_bytes_behind_the_body_play_no_part():
    sheet = sheet_of("k1,link,1,5")
    for behind in [b"\n", record("k2,link,2,5"), request("POST /v1/edits", sheet_of("k2,link,2,5")), b"\x00" * 1_000_000]:
        with serving(2) as server:
            server.answers(request("POST /v1/edits", sheet) + behind, sheet_reply(b"k1,done,1\n"))
            server.does("edits", sheet_of("k3,link,3,5"), b"k3,done,2\n")


def test_the_longest_body_is_done_and_a_longer_one_is_not():
    # the last record stands at the very end
    rows = FIRST.splitlines(keepends=True)
    longest = b"".join(rows[:-1]) + b"\n" * (1_048_576 - len(FIRST)) + rows[-1]
    longer = longest.replace(b"\n\n", b"\n\n\n", 1)
    with serving(6) as server:
        server.answers(request("POST /v1/edits", longer), reply(413))
        assert by_curl(server.port, "POST /v1/edits", longer) == reply(413)
        assert by_http_client(server.port, "POST /v1/edits", longer) == reply(413)
        server.does("edits", longest, FIRST_REPLIES)
        assert by_curl(server.port, "POST /v1/edits", longest) == sheet_reply(FIRST_AGAIN)
        assert by_http_client(server.port, "POST /v1/edits", longest) == sheet_reply(FIRST_AGAIN)


# ---- which check comes first

FIRST_CHECKS = [
    (request("BREW /v1/route/", None, *["A: b"] * 65), reply(431)),
    (request("BREW /v1/none", None, "Content-Length: +5"), reply(404)),
    (request("POST /v1/none", None, "Transfer-Encoding: chunked"), reply(404)),
    (request("POST /v1/route/A1/", None, "Content-Length: 1048577"), reply(404)),
    (request("POST /v1/at", None, "Content-Length: +5"), reply(405, allow="GET")),
    (request("PUT /v1/edits"), reply(405, allow="POST")),
    (request("PUT /v1/edits", None, "Content-Length: 1048577"), reply(405, allow="POST")),
    (request("DELETE /v1/route/B1"), reply(405, allow="GET")),
    (request("POST /v1/edits", b"no sheet", "Transfer-Encoding: chunked"), reply(411)),
    (request("POST /v1/edits", b"no sheet", "Content-Length: 8"), reply(400)),
    (request("POST /v1/edits", None, "Content-Length: 1048577") + b"no sheet", reply(413)),
    (request("POST /v1/edits", None, "Content-Length: 9") + b"no sheet", reply(400)),
    (request("POST /v1/edits", b"no sheet"), sheet_reply(b"-,fault,BadHeader\n", 422)),
]


@pytest.mark.parametrize("sent, expected", FIRST_CHECKS)
def test_the_first_check_that_fails_is_told(desk, sent, expected):
    desk.answers(sent, expected, ends=True)


# ---- sheets

SHEETS_AT_FAULT = [
    ("edits", b"no sheet", b"-,fault,BadHeader\n"),
    ("edits", SURVEY, b"-,fault,BadHeader\n"),
    ("surveys", FIRST, b"-,fault,BadHeader\n"),
    ("edits", FIRST + b"of one field\n" + FIRST, FIRST_AGAIN + b"-,fault,BadCsv\n"),
    ("edits", HEADER + b'k1,"link', b"-,fault,BadCsv\n"),
    ("surveys", SURVEY + b"e2,10\n", AGAIN + b"-,fault,BadCsv\n"),
    ("surveys", SURVEY + b"e1,11,SPEED,A1,B,abs,3000,9000,80,0\n,\n", AGAIN + b"e1,refused,KeyUsed:8\n-,fault,BadCsv\n"),
]


@pytest.mark.parametrize("path, sheet, expected", SHEETS_AT_FAULT)
def test_a_sheet_at_fault(desk, path, sheet, expected):
    desk.answers(request(f"POST /v1/{path}", sheet), sheet_reply(expected, 422))


def test_what_a_sheet_did_before_its_fault_is_done():
    with serving(2) as server:
        server.answers(request("POST /v1/edits", FIRST + b"of one field\n"), sheet_reply(FIRST_REPLIES + b"-,fault,BadCsv\n", 422))
        server.does("edits", FIRST, FIRST_AGAIN)


def test_a_sheet_with_refusals(desk):
    sheet = sheet_of("s1,link,1,5000", "k1,link,0,1", "k2,link,1,7", "e1,turn,A1", "a b,link,9,1", "k3,realign,A1,0,8000,,0:0 1:1")
    replied = lines("s1,again,1", "k1,refused,Malformed:a", "k2,refused,LinkKnown", "e1,refused,KeyUsed:8", "-,refused,Malformed:key", "k3,refused,NothingLeft")
    desk.does("edits", sheet, replied)


def test_both_kinds_of_sheets_are_one_inventory(desk):
    desk.does("edits", sheet_of("e1,enter,10,SPEED,A1,B,abs,3000,9000,80,0"), AGAIN)
    desk.does("surveys", b"\xef\xbb\xbf" + SURVEY, AGAIN)


def test_a_thousand_requests_with_few_files_open():
    few = lambda: resource.setrlimit(resource.RLIMIT_NOFILE, (16, 16))
    with serving(1_000, preexec_fn=few) as server:
        for n in range(1, 501):
            server.does("edits", sheet_of(f"k{n},class,C{n},point"), b"k%d,done,%d\n" % (n, n))
            names = sorted(b"C%d" % m for m in range(1, n + 1))
            server.answers(ASK, reply(200, totals_of(*(NONE_OF % name for name in names))))


def test_an_answer_that_memory_does_not_suffice_for():
    sheet, done, question, _ = long_question()
    little = lambda: resource.setrlimit(resource.RLIMIT_AS, (18 * 2**20, 18 * 2**20))
    with serving(4, preexec_fn=little, env={**os.environ, "LC_ALL": "C"}) as server:
        server.does("edits", sheet, done)
        server.answers(question, b"HTTP/1.1 503 Service Unavailable\r\nContent-Length: 0\r\n" + CLOSE)
        gets(server, "/v1/at?route=B1&method=abs&pos=1", error(404, "NoRoute"))
        server.does("edits", sheet, done.replace(b",done,", b",again,"))


# ---- clients that fail, and clients that dawdle: these two tests take more than 20 seconds


def test_clients_that_fail_or_dawdle_cost_themselves_alone():
    sheet, done, question, answered = long_question()
    totals = reply(200, totals_of(b'{"abandoned":0,"class":"V","entered":1200,"present":1200,"retired":0}'))
    clients = FAILING * 2 + DAWDLING
    with serving(3 + 2 * len(clients)) as server:
        server.does("edits", sheet, done)
        server.answers(question, answered)
        for client in clients:
            waited = wait_behind(server, client, ASK, totals)
            assert waited < 10, (client, waited)
        server.does("edits", sheet_of("z1,class,LAST,point"), b"z1,done,%d\n" % (STRETCHES + 4))


def test_a_client_that_is_slow_is_served_all_the_same(desk):
    sent = request("POST /v1/surveys", SURVEY, "Host: x")
    with connect(desk.port) as stream:
        for at in range(0, len(sent), 15):
            stream.sendall(sent[at : at + 15])
            time.sleep(0.25)
        assert rest_of(stream) == sheet_reply(AGAIN)


# ---- inventories in files


def test_what_sheets_did_is_in_the_file():
    with folder() as path:
        with serving(2, path) as server:
            server.does("edits", FIRST, FIRST_REPLIES)
            server.does("surveys", SURVEY, b"e1,done,8\n")
        is_whole(path)
        ends(run("totals", str(path)), lines("RAIL 0 0 0 0", "SIGN 0 0 0 0", "SPEED 11000 0 0 11000"), 0)


def test_a_sheet_that_is_sent_again_changes_nothing():
    with folder() as path:
        ends(edit(path, FIRST), FIRST_REPLIES, 0)
        with serving(1, path) as server:
            server.does("surveys", SURVEY, b"e1,done,8\n")
        before = rows_of(path)
        with serving(4, path) as server:
            for _ in range(2):
                server.does("edits", FIRST, FIRST_AGAIN)
                server.does("surveys", SURVEY, AGAIN)
        ends(edit(path, FIRST), FIRST_AGAIN, 0)
        assert rows_of(path) == before


@pytest.mark.parametrize("by", [signal.SIGKILL, signal.SIGTERM])
def test_a_stop_after_a_reply_loses_nothing(by):
    port = free_port()
    with folder() as path:
        # each server has the port of the one before, at once
        for count in range(5, 55, 5):
            with started(db=path, port=port) as server:
                server.does("edits", *links_up_to(count, count - 5))
                assert server.stop(by) == (b"", b"", -by)
        sheet, again = links_up_to(50, 50)
        ends(edit(path, sheet), again, 0)
        is_whole(path)


def test_a_stop_in_the_middle_of_a_sheet():
    sheet, done = long_sheet(300)
    drawn = random.Random(5)
    with folder() as path:
        for _ in range(5):
            with started(db=path) as server, connect(server.port) as stream:
                stream.sendall(request("POST /v1/edits", sheet))
                time.sleep(drawn.random() * 0.05)
        ended = edit(path, sheet)
        assert ended.stdout.replace(b",again,", b",done,") == done, ended
        known = ended.stdout.count(b",again,")
        ends(ended, links_up_to(300, known)[1], 0)
        is_whole(path)


def test_a_file_that_is_not_written_is_told_until_the_next_start():
    count, got = 0, None
    with folder() as path:
        ends(edit(path, FIRST), FIRST_REPLIES, 0)
        with started(db=path, **with_files_up_to(400_000)) as server:
            while got != reply(503):
                count += 1
                got = answer(server.port, request("POST /v1/edits", sheet_of(f"k{count},class,C{count},point")))
                assert got in [sheet_reply(b"k%d,done,%d\n" % (count, count + 7)), reply(503)], got
            for asked in [request("POST /v1/edits", sheet_of("z1,class,LAST,point")), request("POST /v1/surveys", SURVEY)]:
                server.answers(asked, reply(503))
            # one command was in flight alone, so questions go on, and tell of the state before it
            names = sorted([b"RAIL", b"SIGN", b"SPEED"] + [b"C%d" % n for n in range(1, count)])
            server.answers(ASK, reply(200, totals_of(*(NONE_OF % name for name in names))))
        sheet = sheet_of(*(f"k{n},class,C{n},point" for n in range(1, count + 1)))
        with serving(2, path) as server:
            replied = b"".join(b"k%d,again,%d\n" % (n, n + 7) for n in range(1, count + 1))
            # the last one was written, or it was not
            allowed = [replied, replied.replace(b"k%d,again" % count, b"k%d,done" % count)]
            assert answer(server.port, request("POST /v1/edits", sheet)) in map(sheet_reply, allowed)
            server.does("surveys", SURVEY, b"e1,done,%d\n" % (count + 8))
        is_whole(path)


# ---- words, and the port


@pytest.mark.parametrize("zeros", ["", "0", "000000000000000000000000"])
def test_no_connection_is_served(zeros):
    port = free_port()
    ends(run("serve", ":memory:", f"{zeros}{port}", f"{zeros}0"), b"listening %d\n" % port, 0)


def test_a_port_that_is_taken():
    with folder() as path, started() as server:
        for db in [":memory:", str(path)]:
            faults(run("serve", db, str(server.port), "1"), "Door")
        faults(run("serve", str(path.parent / "none" / "db"), str(server.port), "1"), "Open")
        ends(edit(path, FIRST), FIRST_REPLIES, 0)


def test_nobody_is_served_where_it_cannot_be_said():
    with open("/dev/full", "wb") as full:
        faults(run("serve", ":memory:", str(free_port()), "1", stdout=full), "Write")


def test_this_machine_alone_is_listened_on():
    with serving(1) as server:
        with pytest.raises(ConnectionRefusedError):
            socket.create_connection(("127.0.0.2", server.port))
        server.answers(ASK, reply(200, totals_of()))
    with pytest.raises(ConnectionRefusedError):
        connect(server.port)


NO_NUMBERS = ["", " ", "x", "+1", "1.", "1e3", "0x10", "80 ", "\u0665", "9" * 30]


@pytest.mark.parametrize("db", [":memory:", "nowhere/db"])
def test_words_that_cannot_be_read(db):
    for port in [*NO_NUMBERS, "0", "00", "65536"]:
        for most in ["1", "x"]:
            refuses_word(run("serve", db, port, most), "PORT is no port number")
    for most in [*NO_NUMBERS, "1000001"]:
        refuses_word(run("serve", db, "65535", most), "MAX is no number of connections")


@pytest.mark.parametrize("words", [[], [":memory:"], [":memory:", "8080"], [":memory:", "8080", "1", "1"], [":memory:", "-1", "1"], [":memory:", "8080", "-1"]])
def test_words_that_are_not_understood(words):
    ended = run("serve", *words)
    assert (ended.stdout, ended.status) == (b"", 2) and ended.stderr, ended


def test_the_examples_of_the_document(tmp_path):
    text = (TOP / "docs" / "HTTP.md").read_text()
    typed = [typed for block in re.findall(r"```\n\$ (.*?)\n```", text, re.S) for typed in block.split("\n$ ")]
    assert "\n".join(typed).count("curl ") > 10
    with started(db=tmp_path / "roads.db") as server:
        for command, _, shown in (example.partition("\n") for example in typed):
            if command.startswith("cat "):
                (tmp_path / command[len("cat ") :]).write_text(f"{shown}\n")
            elif "curl " in command:
                command = command.replace(":8080/", f":{server.port}/").replace("curl ", "curl -q --noproxy '*' ")
                said = subprocess.run(command, shell=True, cwd=tmp_path, stdout=subprocess.PIPE, text=True, check=True, timeout=PATIENCE).stdout
                assert said.rstrip("\n") == shown, command


def test_help_shows_an_example():
    ended = run("serve", "--help")
    assert b"Usage: roadlrs serve <DB> <PORT> <MAX>\n" in ended.stdout and b"\nExample: roadlrs serve roads.db 8080 " in ended.stdout, ended
    assert (ended.stderr, ended.status) == (b"", 0)
