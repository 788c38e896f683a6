"""`roadlrs serve` behind two hundred clients that are silent, trickle or never read: good clients are served at once all the same.

A crowd is kept up: who is dropped comes again. A client is dropped without a reply five seconds after it was accepted, where its request is not whole by then.
"""

import contextlib
import re
import select
import socket
import statistics
import subprocess
import sys
import threading
import time

import pytest

from program import FIRST, FIRST_REPLIES, PATIENCE, PROGRAM, ends, lines, sheet_of, with_files_up_to
from serving import ASK, HOST, LONG_QUESTION, Server, answer, connect, free_port, head_of, long_question, reply, request, rest_of, serving, sheet_reply, started, totals_of
from stores import edit, folder

SILENT, TRICKLING, NEVER_READING = 90, 90, 20

# What a good client may wait, at the most. The crowd comes round in less than SECONDS.
MOST, SECONDS = 0.050, 12

# A machine with much beside it pauses for longer now and then: some twelve seconds have to go by without. Where it pauses in each of them, nineteen of twenty are held to a second.
ROUNDS, MOST_BESIDE_MUCH = 4, 1.0

# Nothing of a reply goes through without being read but what two sockets keep.
LITTLE = 4_096


class Slow:
    """A client that comes again as soon as it is dropped."""

    def __init__(self, port):
        self.port = port
        self.come()

    def come(self):
        self.since = time.monotonic()
        self.stream = socket.socket()
        self.stream.setsockopt(socket.SOL_SOCKET, socket.SO_RCVBUF, LITTLE)
        self.stream.settimeout(PATIENCE)
        self.stream.connect((HOST, self.port))
        self.begin()

    def begin(self):
        """What it sends first."""

    def go_on(self):
        """What it does each second."""

    def is_dropped(self):
        with contextlib.suppress(BlockingIOError):
            return self.stream.recv(1, socket.MSG_DONTWAIT | socket.MSG_PEEK) == b""
        return False

    def look(self):
        try:
            dropped = self.is_dropped()
            if not dropped:
                self.go_on()
        except OSError:
            dropped = True
        if dropped:
            self.stream.close()
            self.come()
        return dropped


class Silent(Slow):
    """Says nothing."""


class Trickling(Slow):
    """Says a byte a second, of a request that is long enough."""

    def go_on(self):
        self.stream.sendall(b"P" if time.monotonic() - self.since < 1.5 else b"O")


class NeverReading(Slow):
    """Asks for megabytes and reads none of them. It comes again when the service has given it up."""

    question = None

    def begin(self):
        self.stream.sendall(self.question)

    def is_dropped(self):
        return time.monotonic() - self.since > 4.5


class Crowd:
    """Slow clients, each of which is looked after once a second."""

    def __init__(self, clients):
        self.clients = clients
        self.over = threading.Event()
        self.dropped = 0
        self.thread = threading.Thread(target=self.look_after)

    def look_after(self):
        while not self.over.is_set():
            for client in self.clients:
                # one after the other, so that they ask for megabytes one after the other
                self.dropped += client.look()
                if self.over.wait(1 / len(self.clients)):
                    return

    def __enter__(self):
        self.thread.start()
        return self

    def __exit__(self, *why):
        self.over.set()
        self.thread.join()
        for client in self.clients:
            client.stream.close()


def crowd_at(server, question):
    kind = type("NeverReadingThis", (NeverReading,), {"question": question})
    kinds = [Silent] * SILENT + [Trickling] * TRICKLING + [kind] * NEVER_READING
    # mixed, so that each kind is met soon
    return Crowd([kinds[at * 77 % len(kinds)](server.port) for at in range(len(kinds))])


def timed(server, sent, expected):
    since = time.monotonic()
    server.answers(sent, expected)
    return time.monotonic() - since


PAUSES = """
import sys, time
worst, last = 0, time.monotonic()
until = last + float(sys.argv[1])
while last < until:
    time.sleep(0.001)
    now = time.monotonic()
    worst, last = max(worst, now - last), now
print(worst)
"""


@contextlib.contextmanager
def pauses(seconds):
    """The longest time for which the machine does not run a program that asks for little, once the block has ended."""
    child = subprocess.Popen([sys.executable, "-c", PAUSES, str(seconds)], stdout=subprocess.PIPE)
    found = []
    yield found
    found.append(float(child.communicate()[0]))


def is_quick(times):
    return max(times) <= MOST


def is_quick_beside_much(times):
    return statistics.median(times) <= MOST and statistics.quantiles(times, n=20)[-1] <= MOST_BESIDE_MUCH


def shown(times):
    return f"median {statistics.median(times):.4f} s, worst {max(times):.4f} s of {len(times)}"


@pytest.fixture(scope="module")
def busy():
    """A server with a crowd. Those who never read ask for the log, of a megabyte: it is long, and soon made."""
    sheet, done, _, _ = long_question()
    with started() as server:
        server.does("edits", sheet, done)
        for begun in range(0, LINKS, LINKS // 2):
            numbers = range(begun, begun + LINKS // 2)
            texts, replied = [f"q{n},link,{1000 + n},5" for n in numbers], [f"q{n},done,{604 + n}" for n in numbers]
            server.does("edits", sheet_of(*texts), lines(*replied))
        with crowd_at(server, request("GET /v1/log")):
            yield server


LINKS = 40_000


V_TOTAL = b'{"abandoned":0,"class":"V","entered":1200,"present":1200,"retired":0}'


def class_total(name):
    return b'{"abandoned":0,"class":"%s","entered":0,"present":0,"retired":0}' % name


def waits(busy, known):
    """How long good clients wait, who ask and send sheets for some seconds."""
    questions, sheets = [], []
    until = time.monotonic() + SECONDS
    while time.monotonic() < until:
        totals = totals_of(*map(class_total, sorted(known)), V_TOTAL)
        questions.append(timed(busy, ASK, reply(200, totals)))
        name = b"G%d" % len(known)
        sheets.append(timed(busy, request("POST /v1/edits", sheet_of(f"g{len(known)},class,G{len(known)},point")), sheet_reply(b"g%d,done,%d\n" % (len(known), 604 + LINKS + len(known)))))
        known.append(name)
        time.sleep(0.05)
    assert len(questions) > 20
    return questions, sheets


def test_good_clients_wait_at_most_50_ms(busy):
    known, told, paused = [], [], []
    for _ in range(ROUNDS):
        with pauses(SECONDS) as found:
            questions, sheets = waits(busy, known)
        paused += found
        told.append(f"questions: {shown(questions)}; sheets: {shown(sheets)}; the machine pauses for {found[0]:.4f} s")
        print("\n" + told[-1])
        if is_quick(questions) and is_quick(sheets):
            return
        assert is_quick_beside_much(questions) and is_quick_beside_much(sheets), told
    assert min(paused) > MOST / 2, told


FAULTS = [
    (b"nothing that is asked\r\n\r\n", reply(400), False),
    (b"x", reply(400), True),
    (b"\x00" * 9, reply(400), False),
    (b"", reply(400), True),
    (request("GET /v1/none"), reply(404), False),
    (request("POST /v1/none", None, "Content-Length: 1048576"), reply(404), False),
    (request("DELETE /v1/totals"), reply(405, allow="GET"), False),
    (request("PUT /v1/edits", None, "Content-Length: 1048576"), reply(405, allow="POST"), False),
    (request("POST /v1/edits"), reply(411), False),
    (request("POST /v1/edits", None, "Transfer-Encoding: chunked"), reply(411), False),
    (request("POST /v1/edits", None, "Content-Length: 1048577"), reply(413), False),
    (request("POST /v1/edits", None, "Content-Length: x"), reply(400), False),
    (request("POST /v1/edits", None, "Content-Length: 9") + b"no sheet", reply(400), True),
    (head_of(8_193), reply(431), False),
    (request("GET /v1/totals", None, *["A: b"] * 65), reply(431), False),
]


@pytest.mark.parametrize("sent, expected, ends", FAULTS, ids=lambda value: repr(value)[:40])
def test_what_is_malformed_is_told_at_once(busy, sent, expected, ends):
    since = time.monotonic()
    busy.answers(sent, expected, ends)
    assert time.monotonic() - since < 2


def test_a_request_in_pieces_is_served_once_it_is_whole(busy):
    sheet = sheet_of("p1,class,PIECES,point")
    sent = request("POST /v1/edits", sheet)
    with connect(busy.port) as stream:
        stream.setsockopt(socket.IPPROTO_TCP, socket.TCP_NODELAY, 1)
        for at in range(0, len(sent), 10):
            assert not select.select([stream], [], [], 0.05)[0]
            stream.sendall(sent[at : at + 10])
        assert re.fullmatch(rb"p1,done,\d+\n", rest_of(stream).partition(b"\r\n\r\n")[2])


def test_a_client_that_is_not_done_in_time_gets_nothing():
    """And it costs itself alone, and counts as one connection."""
    with serving(4) as server:
        streams = [connect(server.port) for _ in range(3)]
        since = time.monotonic()
        streams[1].sendall(ASK[:-1])
        streams[2].sendall(request("POST /v1/edits", None, "Content-Length: 9") + b"no sheet")
        assert timed(server, ASK, reply(200, totals_of())) < 1
        for stream in streams:
            assert rest_of(stream) == b""
            assert 4.5 < time.monotonic() - since < 8
            stream.close()


def test_a_client_that_reads_in_the_end_gets_its_whole_reply():
    """What it has not taken is sent while others are served."""
    sheet, done, question, answered = long_question()
    with serving(7) as server:
        server.does("edits", sheet, done)
        with connect(server.port) as stream:
            stream.sendall(question)
            time.sleep(1)
            for _ in range(5):
                assert timed(server, ASK, reply(200, totals_of(V_TOTAL))) < 1
            assert rest_of(stream) == answered


def test_a_reply_that_is_not_taken_in_time_is_cut():
    sheet, done, question, answered = long_question()
    with serving(2) as server:
        server.does("edits", sheet, done)
        with connect(server.port) as stream:
            stream.sendall(question)
            time.sleep(7)
            with contextlib.suppress(ConnectionResetError):
                got = rest_of(stream)
                assert len(got) < len(answered) and answered.startswith(got)


def takes_at(stream, rate, got, is_over=lambda: False):
    """Takes what comes, as many bytes a second as that, until the other end has ended or that is enough."""
    since = time.monotonic()
    with contextlib.suppress(ConnectionResetError):
        while not is_over():
            due = int(rate * (time.monotonic() - since)) + 65_536 - len(got)
            if due <= 0:
                time.sleep(0.01)
            elif piece := stream.recv(min(due, 262_144)):
                got += piece
            else:
                return


def test_a_reply_that_is_being_read_has_more_time():
    """Each megabyte that its client takes gives it four seconds more: this one takes it in twelve."""
    sheet, done, question, answered = long_question()
    with serving(2) as server:
        server.does("edits", sheet, done)
        with socket.socket() as stream:
            stream.setsockopt(socket.SOL_SOCKET, socket.SO_RCVBUF, 262_144)
            stream.connect((HOST, server.port))
            stream.sendall(question)
            got, since = bytearray(), time.monotonic()
            takes_at(stream, len(answered) / 12, got)
            assert (len(got), bytes(got) == answered) == (len(answered), True)
            assert time.monotonic() - since > 8


def large_question(stretches):
    """A sheet of many short stretches, and a question of all their values, many times over."""
    texts = ["m1,link,4,10000", "m2,class,V,exclusive", f"m3,route,L1,4:0:{stretches}:+,0:0 {stretches}:{stretches}"]
    texts += [f"v{n},enter,{n + 1},V,L1,B,abs,{n},{n + 1},{n:012},0" for n in range(stretches)]
    return sheet_of(*texts), lines(*(f"{text.split(',')[0]},done,{n}" for n, text in enumerate(texts, 1)))


def test_no_reply_that_is_being_read_is_cut_for_another():
    """Three of 36 MB are. A fourth has no room beside them and is a 503, and small ones are served as ever."""
    sheet, done = large_question(2_400)
    replies, over = [bytearray() for _ in range(3)], threading.Event()
    with started() as server, contextlib.ExitStack() as streams:
        server.does("edits", sheet, done)
        readers = []
        for got in replies:
            stream = streams.enter_context(connect(server.port))
            stream.sendall(LONG_QUESTION)
            takes_at(stream, 700_000, got, got.__len__)
            thread = threading.Thread(target=takes_at, args=(stream, 700_000, got, over.is_set))
            thread.start()
            readers.append((thread, stream, got))
        server.answers(LONG_QUESTION, reply(503))
        server.answers(request("GET /health"), reply(200, b'{"edits":2403}'))
        over.set()
        for thread, stream, got in readers:
            thread.join()
            got += rest_of(stream)
        assert replies[0].startswith(b"HTTP/1.1 200 OK\r\n") and len(replies[0]) > 35_000_000
        assert replies[0] == replies[1] == replies[2]
        # now there is room
        assert answer(server.port, LONG_QUESTION) == replies[0]


def test_the_oldest_gives_way_where_too_many_wait():
    """Three hundred silent clients come at once: those that came first are dropped for the last, which are not."""
    with started() as server:
        streams = [connect(server.port) for _ in range(300)]
        assert timed(server, ASK, reply(200, totals_of())) < 1
        time.sleep(0.2)
        dropped = [bool(select.select([stream], [], [], 0)[0]) for stream in streams]
        assert sum(dropped[:40]) == 40 and not any(dropped[60:]), dropped
        for stream in streams:
            stream.close()


# ---- the two words of `serve`


@contextlib.contextmanager
def started_with(*words, db=":memory:", most="1000000", **settings):
    port = free_port()
    streams = {"stdin": subprocess.DEVNULL, "stdout": subprocess.PIPE, "stderr": subprocess.PIPE}
    child = subprocess.Popen([PROGRAM, "serve", str(db), str(port), most, *words], **streams, **settings)
    try:
        assert child.stdout.readline() == b"listening %d\n" % port
        server = Server.__new__(Server)
        server.port, server.child = port, child
        yield server
    finally:
        child.kill()
        child.communicate()


LINE = re.compile(rb"(\d{4}-\d\d-\d\dT\d\d:\d\d:\d\dZ) (\S+) (\S+) (\d{3}|-) (\d+) (\d+)\n")


def test_each_request_has_a_line_where_that_is_asked_for():
    long_target = "/v1/at?" + "x" * 1_000
    with started_with("--log", most="6") as server:
        server.answers(ASK, reply(200, totals_of()))
        server.answers(request("GET /v1/none?a=b"), reply(404))
        server.answers(request(f"GET {long_target}"), reply(400, b'{"error":"Malformed:route"}'))
        server.answers(b"GET /\x1b[31m\x07 HTTP/1.1\r\n\r\n", reply(400))
        server.does("edits", sheet_of("k1,class,C,point"), b"k1,done,1\n")
        with connect(server.port) as stream:
            assert rest_of(stream) == b""
        written, logged, status = server.end()
    assert (written, status) == (b"", 0)
    *logged, end = logged.splitlines(keepends=True)
    assert end == b"served 5 in full, 1 cut off\n"
    rows = [LINE.fullmatch(line).groups() for line in logged]
    now = time.time()
    for at, *_ in rows:
        assert abs(now - time.mktime(time.strptime(at.decode(), "%Y-%m-%dT%H:%M:%SZ")) + time.timezone) < 60
    told = [(method, target, status, int(size)) for _, method, target, status, size, _ in rows]
    sizes = [len(reply(200, totals_of())), len(reply(404)), len(reply(400, b'{"error":"Malformed:route"}')), len(reply(400)), len(sheet_reply(b"k1,done,1\n"))]
    assert told[:5] == [
        (b"GET", b"/v1/totals", b"200", sizes[0]),
        (b"GET", b"/v1/none?a=b", b"404", sizes[1]),
        (b"GET", long_target.encode()[:196], b"400", sizes[2]),
        (b"GET", b"/?[31m?", b"400", sizes[3]),
        (b"POST", b"/v1/edits", b"200", sizes[4]),
    ]
    assert told[5] == (b"-", b"-", b"-", 0)
    assert all(int(row[5]) < 2_000_000 for row in rows)


def test_nothing_is_logged_otherwise():
    with serving(1) as server:
        server.answers(ASK, reply(200, totals_of()))


def fill_up(server):
    """Sends sheets until one cannot be written."""
    for n in range(10_000):
        got = answer(server.port, request("POST /v1/edits", sheet_of(f"k{n},class,K{n},point")))
        if got == reply(503):
            return
        assert got == sheet_reply(b"k%d,done,%d\n" % (n, n + 8)), got
    raise AssertionError("each sheet was written")


def test_a_service_ends_once_a_commit_has_failed_where_that_is_asked_for():
    with folder() as path:
        ends(edit(path, FIRST), FIRST_REPLIES, 0)
        with started_with("--end-on-fault", db=path, **with_files_up_to(400_000)) as server:
            fill_up(server)
            written, told, status = server.end()
            assert (written, status) == (b"", 3) and re.fullmatch(rb"roadlrs: fault \w+\n", told), (written, told, status)
        with serving(1, path) as server:
            server.does("edits", FIRST, FIRST_REPLIES.replace(b",done,", b",again,"))


def test_a_service_goes_on_otherwise():
    with folder() as path:
        ends(edit(path, FIRST), FIRST_REPLIES, 0)
        with started(db=path, **with_files_up_to(400_000)) as server:
            fill_up(server)
            server.answers(request("POST /v1/edits", FIRST), reply(503))
            assert server.child.poll() is None
