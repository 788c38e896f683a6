"""A service that supervision watches: `/health`, and `--end-on-fault`, over a file that can grow no further."""

import pathlib
import resource
import signal
import tempfile

import pytest

from program import long_sheet
from serving import Server, answer, reply, request

HEALTH = request("GET /health")

# Room for an inventory, and not for many links.
ROOM = 400_000


def in_little_room():
    """What the program writes beyond this is refused by the system, as by a full disk."""
    signal.signal(signal.SIGXFSZ, signal.SIG_IGN)
    resource.setrlimit(resource.RLIMIT_FSIZE, (ROOM, ROOM))


@pytest.fixture
def db():
    with tempfile.TemporaryDirectory() as folder:
        yield pathlib.Path(folder) / "roads.db"


def served(db, *options):
    """A service over this file that is short of room."""
    return Server(1_000_000, db, options=options, preexec_fn=in_little_room)


def fill(server):
    """Sends new links until one is not written; gives how many were done before."""
    sheet, replies = long_sheet(20_000)
    header, *rows = sheet.splitlines(keepends=True)
    lines = replies.splitlines(keepends=True)
    for begun in range(0, len(rows), 200):
        got = answer(server.port, request("POST /v1/edits", header + b"".join(rows[begun : begun + 200])))
        if got == reply(503):
            return begun
        assert got.endswith(b"".join(lines[begun : begun + 200])), got[:300]
    raise AssertionError("there was room for all")


def health(server):
    return answer(server.port, HEALTH)


def test_health_tells_the_number_of_edits(db):
    server = Server(6, db)
    assert health(server) == reply(200, b'{"edits":0}')
    server.does("edits", *long_sheet(3))
    assert health(server) == reply(200, b'{"edits":3}')
    assert answer(server.port, request("POST /health", b"")) == reply(405, allow="GET")
    assert answer(server.port, request("GET /health?x=1")) == reply(200, b'{"edits":3}')
    assert answer(server.port, request("GET /health/")) == reply(404)
    assert server.end() == (b"", b"", 0)


def test_health_after_a_failed_commit(db):
    server = served(db)
    try:
        assert fill(server) > 0
        assert health(server) == reply(503)
        assert answer(server.port, request("POST /v1/edits", long_sheet(1)[0])) == reply(503)
    finally:
        written = server.stop()
    assert written[:2] == (b"", b"")


def test_a_service_that_ends_on_a_fault(db):
    server = served(db, "--end-on-fault")
    done = fill(server)
    assert server.end() == (b"", b"roadlrs: fault Keep\n", 3)
    again = Server(1, db)
    assert health(again) == reply(200, b'{"edits":%d}' % done)
    assert again.end() == (b"", b"", 0)


def test_a_service_that_has_no_fault_ends_as_ever(db):
    server = Server(1, db, options=["--end-on-fault"])
    server.does("edits", *long_sheet(3))
    assert server.end() == (b"", b"", 0)
