"""Clients that go away while their sheet is done: it ends there, others are served, and the sheet goes on when it is sent again.

Who has ended its side alone has not gone, and has its whole reply.
"""

import fcntl
import re
import struct
import termios
import time

import pytest

from program import ends, long_sheet, run
from serving import answer, closes, connect, links_up_to, long_question, reply, request, resets, sheet_reply, started
from stores import folder

COUNT, TOGETHER = 30_000, 1_024
SHEET, DONE = long_sheet(COUNT)
SENT = request("POST /v1/edits", SHEET)

POSTED = re.compile(rb"\S+ POST \S+ (\d{3}) (\d+) (\d+)\n")


def unsent(stream):
    """How many bytes the other end's system has not taken."""
    return struct.unpack("i", fcntl.ioctl(stream, termios.TIOCOUTQ, bytes(4)))[0]


def told(server):
    """Of the next sheet that was served, the status, the bytes that were sent and the microseconds, by the log."""
    for line in server.child.stderr:
        if found := POSTED.fullmatch(line):
            return tuple(map(int, found.groups()))
    raise AssertionError("the log has ended")


def leaves(server, sent, leave):
    """A client that sends this and goes away; what the log tells of it. A reset would take back what is still to be sent."""
    with connect(server.port) as stream:
        stream.sendall(sent)
        while unsent(stream):
            time.sleep(0.001)
        leave(stream, None)
    return told(server)


def edits(server):
    """How many commands were accepted, as the next client is told."""
    got = answer(server.port, request("GET /health"))
    return int(re.search(rb'\r\n\r\n\{"edits":(\d+)\}$', got)[1])


def logging(*options, **settings):
    return started(options=["--log", *options], **settings)


# how each client goes, and what the log says then: a connection that is only closed is reset by the first byte of its reply
GOING = pytest.mark.parametrize("leave, answered", [(closes, (503, 1)), (resets, (503, 0))])


@GOING
def test_a_sheet_ends_where_its_client_has_gone(leave, answered):
    """Behind a commit, long before the end of the sheet. The file is sound, and has the whole sheet in the end."""
    with folder() as db:
        with logging(db=db) as server:
            assert leaves(server, SENT, leave)[:2] == answered
            known = edits(server)
            assert 0 < known < COUNT // 2 and known % TOGETHER == 0, known
        ends(run("audit", db), b"sound, and as its log says\n", 0)
        with started(db=db) as server:
            server.does("edits", *links_up_to(COUNT, known))


@GOING
def test_it_goes_on_where_that_is_asked_for(leave, answered):
    with logging() as server:
        known = 0
        for asked in ["POST /v1/edits", "POST /v1/edits?resume=1"]:
            assert leaves(server, request(asked, SHEET), leave)[:2] == answered
            before, known = known, edits(server)
            assert before < known < COUNT, (before, known)
        server.does("edits?resume=1", SHEET, b"".join(DONE.splitlines(keepends=True)[known:]))
        assert edits(server) == COUNT


@GOING
def test_a_sheet_of_questions_ends_there_too(leave, answered):
    """Alone it takes seconds."""
    sheet, done, _, _ = long_question()
    sent = request("POST /v1/questions", b"key,question,a,b,c,d\n" + b"q,segments,L1,R,V,\n" * 2_000)
    with logging() as server:
        server.does("edits", sheet, done)
        assert told(server)[0] == 200
        assert answer(server.port, sent).startswith(b"HTTP/1.1 200 OK")
        status, _, whole = told(server)
        assert status == 200
        *found, micros = leaves(server, sent, leave)
        assert tuple(found) == answered and micros < whole / 2, (found, micros, whole)


# ---- who has ended its side

ANSWERED = {
    "in full": (SHEET, (), sheet_reply(DONE)),
    "up to a fault": (SHEET + b"k,link\n", (), sheet_reply(DONE + b"-,fault,BadCsv\n", 422)),
    "too long": (SHEET, ["--most-reply", "9000"], reply(503)),
    "short": (SHEET[: SHEET.index(b"k2,")], (), sheet_reply(b"k1,done,1\n")),
}


@pytest.mark.parametrize("sheet, options, expected", ANSWERED.values(), ids=ANSWERED)
def test_who_has_ended_its_side_is_answered(sheet, options, expected):
    with logging(*options) as server:
        server.answers(request("POST /v1/edits", sheet), expected, ends=True)
        assert told(server)[1] == len(expected)


def test_the_sheet_of_who_has_ended_its_side_is_done_to_its_end():
    with folder() as db, started(db=db) as server:
        server.answers(SENT, sheet_reply(DONE), ends=True)
        assert edits(server) == COUNT
