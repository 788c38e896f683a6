"""`roadlrs serve --log`, where nobody reads the lines: they are lost and counted, and clients are served as ever."""

import fcntl
import os
import re
import select
import time

from serving import Server, reply, request

TARGET = "/v1/none?" + "x" * 180
SENT, SAYS = request(f"GET {TARGET}"), reply(404)

# How many lines a pipe of four pages takes, at the most.
PAGES = 4 * 4_096
LINE = re.compile(rb"\d{4}-\d\d-\d\dT\d\d:\d\d:\d\dZ GET /v1/none\?x+ 404 \d+ \d+")
LOST = re.compile(rb"(\d+) lines lost")


def logging(most):
    """A server whose lines go into a pipe of few bytes."""
    server = Server(most, options=["--log"])
    fcntl.fcntl(server.child.stderr, fcntl.F_SETPIPE_SZ, PAGES)
    return server


def taken(server, seconds=5.0):
    """The lines that have come, once some have and no more do."""
    stream, got = server.child.stderr.fileno(), b""
    until = time.monotonic() + seconds
    while time.monotonic() < until and select.select([stream], [], [], 1.5)[0]:
        piece = os.read(stream, 65_536)
        if not piece:
            break
        got += piece
    return got.splitlines()


def told(rows):
    """How many lines tell of a request, and how many are said to be lost; there is no other."""
    lost = [LOST.fullmatch(row) for row in rows]
    assert all(LINE.fullmatch(row) or found for row, found in zip(rows, lost)), rows
    return sum(found is None for found in lost), sum(int(found[1]) for found in lost if found)


def test_a_log_that_nobody_reads_loses_lines_and_stops_nobody():
    asked = 300
    server = logging(asked + 2)
    try:
        for _ in range(asked):
            server.answers(SENT, SAYS)
        rows = taken(server)
        lines, lost = told(rows)
        assert lines + lost == asked and lost > 100, (lines, lost)
        # the last reply comes before its line, which may find room again
        assert any(LOST.fullmatch(row) for row in rows[-2:]), rows[-2:]
        for _ in range(2):
            server.answers(SENT, SAYS)
        *rows, end = server.end()[1].splitlines()
        assert (told(rows), end) == ((2, 0), b"served %d in full, 0 cut off" % (asked + 2))
    finally:
        server.child.kill()


def test_a_log_that_nobody_reads_does_not_hold_up_the_end():
    asked = 200
    server = logging(asked)
    try:
        for _ in range(asked):
            server.answers(SENT, SAYS)
        assert server.child.wait(timeout=30) == 0
        lines, lost = told(server.child.stderr.read().splitlines())
        assert 0 < lines < asked and lost == 0
    finally:
        server.child.kill()
