"""`roadlrs serve`, where descriptors are wanting or a signal interrupts a call: the service waits or goes on."""

import contextlib
import pathlib
import resource
import select
import signal
import time

from serving import ASK, connect, long_question, reply, rest_of, serving, started, totals_of

SAYS = reply(200, totals_of())


def files_of(server):
    """How many files it may have open so that it can open no more, once it waits for its first connection."""
    time.sleep(0.5)
    return 1 + max(int(path.name) for path in pathlib.Path(f"/proc/{server.child.pid}/fd").iterdir())


def allow(server, files):
    _, most = resource.prlimit(server.child.pid, resource.RLIMIT_NOFILE)
    resource.prlimit(server.child.pid, resource.RLIMIT_NOFILE, (files, most))


def is_answered(stream, seconds):
    readable, _, _ = select.select([stream], [], [], seconds)
    return bool(readable)


def test_a_server_without_descriptors_waits_for_them():
    waiting = 40
    with serving(waiting + 1) as server:
        before, _ = resource.prlimit(server.child.pid, resource.RLIMIT_NOFILE)
        server.answers(ASK, SAYS)
        allow(server, files_of(server))
        streams = [connect(server.port) for _ in range(waiting)]
        for stream in streams:
            stream.sendall(ASK)
        assert not is_answered(streams[0], 1)
        assert server.child.poll() is None
        allow(server, before)
        for stream in streams:
            assert rest_of(stream) == SAYS
            stream.close()


def test_silent_clients_give_way_where_descriptors_are_few():
    """Those that came first: the last ones wait for as long as ever."""
    few = lambda: resource.setrlimit(resource.RLIMIT_NOFILE, (64, 64))
    with started(preexec_fn=few) as server, contextlib.ExitStack() as streams:
        silent = [streams.enter_context(connect(server.port)) for _ in range(400)]
        since = time.monotonic()
        server.answers(ASK, SAYS)
        assert time.monotonic() - since < 20
        assert is_answered(silent[0], 10) and silent[0].recv(1) == b""
        for _ in range(20):
            server.answers(ASK, SAYS)
        assert server.child.poll() is None


def stop_and_go_on(server):
    """The call in which the server waits for its client is interrupted."""
    time.sleep(0.2)
    server.child.send_signal(signal.SIGSTOP)
    time.sleep(0.1)
    server.child.send_signal(signal.SIGCONT)
    time.sleep(0.1)


def test_an_interrupted_read_is_made_again():
    with serving(1) as server, connect(server.port) as stream:
        stream.sendall(ASK[:-1])
        stop_and_go_on(server)
        stream.sendall(ASK[-1:])
        assert rest_of(stream) == SAYS


def test_an_interrupted_write_is_made_again():
    sheet, done, question, expected = long_question()
    with serving(2) as server:
        server.does("edits", sheet, done)
        with connect(server.port) as stream:
            stream.sendall(question)
            stop_and_go_on(server)
            assert rest_of(stream) == expected


def test_an_interrupted_end_waits_for_its_client_all_the_same():
    """What the client sends behind its request is read after the interruption, so that the reply is not taken back."""
    with serving(1) as server, connect(server.port) as stream:
        stream.sendall(ASK)
        stop_and_go_on(server)
        stream.sendall(b"x" * 100_000)
        assert rest_of(stream) == SAYS
