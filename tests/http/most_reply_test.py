"""`roadlrs serve --most-reply BYTES`: a reply with more bytes is an empty 503, is no longer made, and costs nothing else."""

import re

import pytest

from program import FIRST, FIRST_REPLIES, refuses_word, run, sheet_of
from serving import SURVEY, answer, connect, long_question, reply, request, rest_of, started

ASKED = {
    "segments": request("GET /v1/segments?route=A1&side=R&class=SPEED&class=SPEED"),
    "at": request("GET /v1/at?route=A1&method=abs&pos=3000"),
    "route": request("GET /v1/route/A1"),
    "diagram": request("GET /v1/diagram?route=A1"),
    "log": request("GET /v1/log"),
    "rows": request("GET /v1/rows"),
    "rows as CSV": request("GET /v1/rows.csv"),
    "lengths as CSV": request("GET /v1/lengths.csv"),
    "combinations": request("GET /v1/lengths?by=SPEED"),
    "combinations as CSV": request("GET /v1/lengths.csv?by=SPEED"),
    "links": request("GET /v1/links"),
    "marks": request("GET /v1/marks"),
    "find": request("GET /v1/find?asset=10"),
    "refused": request("GET /v1/route/B1"),
    "questions": request("POST /v1/questions", b"key,question,a,b,c,d\nq1,find,10,,,\nq2,segments,A1,R,SPEED,\n"),
}


def body_of(got):
    return got.partition(b"\r\n\r\n")[2]


def filled(server):
    for path, sheet in [("edits", FIRST), ("surveys", SURVEY)]:
        assert answer(server.port, request(f"POST /v1/{path}", sheet)).startswith(b"HTTP/1.1 200 OK\r\n")


@pytest.fixture(scope="module")
def whole():
    """The replies where nothing is said."""
    with started() as server:
        filled(server)
        return {name: answer(server.port, sent) for name, sent in ASKED.items()}


@pytest.mark.parametrize("name", ASKED)
def test_a_reply_has_at_most_so_many_bytes(whole, name, tmp_path):
    size, db = len(body_of(whole[name])), tmp_path / "roads.db"
    with started(db=db) as server:
        filled(server)
    for most, expected in [(size, whole[name]), (size - 1, reply(503)), (1, reply(503)), (10**12, whole[name])]:
        with started(db=db, options=["--most-reply", str(most)]) as server:
            server.answers(ASKED[name], expected)
            server.answers(request("GET /v1/none"), reply(404))
            server.answers(ASKED[name], expected)


def test_a_sheet_whose_lines_are_too_long_is_done_in_part():
    with started(options=["--most-reply", "20"]) as server:
        server.answers(request("POST /v1/edits", FIRST), reply(503))
        edits = re.fullmatch(rb'\{"edits":(\d+)\}', body_of(answer(server.port, request("GET /health"))))
        assert 1 <= int(edits[1]) <= 7
        server.answers(request("POST /v1/edits?resume=1", sheet_of("s1,link,1,5000", "t1,link,9,5")), reply(200, b"t1,done,%d\n" % (int(edits[1]) + 1), "text/csv"))


def test_a_reply_that_would_have_no_end_takes_little_memory():
    """Some hundred megabytes, by one request of less than one."""
    sheet, done, _, _ = long_question()
    questions = b"key,question,a,b,c,d\n" + b"q,segments,L1,R,V,\n" * 8_000
    with started() as server:
        server.does("edits", sheet, done)
        with connect(server.port) as stream:
            stream.sendall(request("POST /v1/questions", questions))
            assert rest_of(stream) == reply(503)
        peak = int(re.search(r"^VmHWM:\s+(\d+) kB$", open(f"/proc/{server.child.pid}/status").read(), re.M)[1])
        assert peak < 300_000
        server.answers(request("GET /health"), reply(200, b'{"edits":%d}' % done.count(b"\n")))


@pytest.mark.parametrize("bytes_given", ["", "0", "x", "-1", "1.5", "1000000000001", "64M"])
def test_a_text_that_is_no_length(bytes_given):
    refuses_word(run("serve", f"--most-reply={bytes_given}", ":memory:", "8080", "1"), "BYTES is no length of a reply")


def test_the_replies_of_the_first_sheet_are_as_ever():
    with started(options=["--most-reply", str(len(FIRST_REPLIES))]) as server:
        server.does("edits", FIRST, FIRST_REPLIES)
