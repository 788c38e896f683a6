"""The program as a server on this machine: the bytes of requests and of replies, and clients that send the ones and get the others."""

import contextlib
import http.client
import itertools
import os
import select
import signal
import socket
import struct
import subprocess
import threading
import time

from program import FIRST, FIRST_REPLIES, PATIENCE, PROGRAM, lines, long_sheet, sheet_of

HOST = "127.0.0.1"
TAKEN = itertools.count()
CSV, JSON = "text/csv", "application/json"

REASONS = {
    200: "OK",
    400: "Bad Request",
    403: "Forbidden",
    404: "Not Found",
    405: "Method Not Allowed",
    409: "Conflict",
    411: "Length Required",
    413: "Payload Too Large",
    422: "Unprocessable Entity",
    431: "Request Header Fields Too Large",
    503: "Service Unavailable",
}


def request(asked, body=None, *fields):
    """The bytes of what is asked, as `GET /v1/totals`, with these fields; a body comes with its length."""
    stated = [] if body is None else [f"Content-Length: {len(body)}"]
    return "\r\n".join([f"{asked} HTTP/1.1", *fields, *stated, "", ""]).encode("latin-1") + (body or b"")


def head_of(size, asked="GET /v1/totals", fields=(), body=None):
    """A request whose head has so many bytes, by one long field."""
    bare = len(request(asked, body, *fields, "X: ")) - len(body or b"")
    return request(asked, body, *fields, "X: " + "x" * (size - bare))


def reply(status, body=b"", kind=JSON, allow=None):
    """The bytes of a reply."""
    head = [f"HTTP/1.1 {status} {REASONS[status]}"]
    head += [f"Content-Type: {kind}"] if body else []
    head += [f"Allow: {allow}"] if allow else []
    head += [f"Content-Length: {len(body)}", "Connection: close"]
    return "\r\n".join([*head, "", ""]).encode() + body


def error(status, cause):
    return reply(status, b'{"error":"%s"}' % cause.encode())


def sheet_reply(replied, status=200):
    return reply(status, replied, CSV)


def free_port():
    """A port that nobody has. Where ./test runs files side by side, each slot takes its own ports in turn, so that nobody takes a
    port that another is about to listen on."""
    slot = os.environ.get("ROADLRS_SLOT")
    ports = [0] if slot is None else (12_000 + 2_000 * int(slot) + next(TAKEN) % 2_000 for _ in range(2_000))
    for port in ports:
        with socket.socket() as stream, contextlib.suppress(OSError):
            # a port whose last connections have just ended is free: a server takes it too
            stream.setsockopt(socket.SOL_SOCKET, socket.SO_REUSEADDR, 1)
            stream.bind((HOST, port))
            return stream.getsockname()[1]
    raise AssertionError("no port is free")


def connect(port):
    return socket.create_connection((HOST, port), timeout=PATIENCE)


def rest_of(stream):
    """What comes until the other end has ended."""
    pieces = []
    while piece := stream.recv(65_536):
        pieces.append(piece)
    return b"".join(pieces)


def answer(port, sent, ends=False):
    """What the bytes that are sent are answered, by a client that ends its side behind them or keeps it open."""
    with connect(port) as stream:
        stream.sendall(sent)
        if ends:
            stream.shutdown(socket.SHUT_WR)
        return rest_of(stream)


def by_socket(port, asked, body):
    return answer(port, request(asked, body))


def by_curl(port, asked, body):
    method, target = asked.split(" ")
    given = [] if body is None else ["--data-binary", "@-"]
    words = ["curl", "-q", "-sS", "-i", "--noproxy", "*", "-X", method, *given, f"http://{HOST}:{port}{target}"]
    return subprocess.run(words, input=body or b"", capture_output=True, check=True, timeout=PATIENCE).stdout


def by_http_client(port, asked, body):
    connection = http.client.HTTPConnection(HOST, port, timeout=PATIENCE)
    with contextlib.closing(connection):
        connection.request(*asked.split(" "), body)
        got = connection.getresponse()
        assert got.version == 11
        head = [f"HTTP/1.1 {got.status} {got.reason}", *(f"{name}: {value}" for name, value in got.getheaders()), "", ""]
        return "\r\n".join(head).encode() + got.read()


class Server:
    """A program that serves so many connections, and has said so."""

    def __init__(self, most, db=":memory:", port=None, options=(), **settings):
        self.port = port or free_port()
        words = [PROGRAM, "serve", *options, str(db), str(self.port), str(most)]
        streams = {"stdin": subprocess.DEVNULL, "stdout": subprocess.PIPE, "stderr": subprocess.PIPE}
        self.child = subprocess.Popen(words, **streams, **settings)
        ready, _, _ = select.select([self.child.stdout], [], [], PATIENCE)
        line = self.child.stdout.readline() if ready else b""
        if line != b"listening %d\n" % self.port:
            self.child.kill()
            raise AssertionError((line, *self.child.communicate()))

    def answers(self, sent, expected, ends=False):
        got = answer(self.port, sent, ends)
        assert got == expected, (sent[:500], got[:500], expected[:500])

    def does(self, path, sheet, replied):
        self.answers(request(f"POST /v1/{path}", sheet), sheet_reply(replied))

    def end(self):
        """What it wrote since, and its status, once it has ended."""
        written = self.child.communicate(timeout=PATIENCE)
        return *written, self.child.returncode

    def stop(self, by=signal.SIGKILL):
        self.child.send_signal(by)
        return self.end()


@contextlib.contextmanager
def started(most=1_000_000, db=":memory:", **settings):
    """A server that is stopped in the end."""
    server = Server(most, db, **settings)
    try:
        yield server
    finally:
        server.stop()


@contextlib.contextmanager
def serving(most, db=":memory:", **settings):
    """A server that serves the last of its connections, then ends in good order, and has written nothing more."""
    with started(most, db, **settings) as server:
        yield server
        ended = server.end()
        assert ended == (b"", b"", 0), ended


# ---- the requests that there are, over the first sheet

SURVEY_HEADER = b"key,asset,class,route,side,method,from,to,value,offset\n"
SURVEY = SURVEY_HEADER + b"e1,10,SPEED,A1,B,abs,3000,9000,80,0\n"
FIRST_AGAIN = FIRST_REPLIES.replace(b",done,", b",again,")
AGAIN = b"e1,again,8\n"

AT = b'{"at":2500,"dir":"+","hits":[{"asset":10,"class":"SPEED","entry":8,"offset":0,"side":"B","value":"80"}],"link":1,"mm":2500,"route":"A1"}'
ROUTE = b'{"length":8000,"marks":[[0,0],[5000,6000],[8000,9000]],"name":"A1","pieces":["1:0:5000:+","2:0:3000:-"],"refs":[%s]}'
SEGMENTS = b'{"route":"A1","segments":[{"from":0,"to":2500,"values":[%s]},{"from":2500,"to":8000,"values":[%s]}],"side":"%s"}'
TRANSLATED = b'{"method":"%s","pos":"%s","route":"A1"}'
NONE_OF = b'{"abandoned":0,"class":"%s","entered":0,"present":0,"retired":0}'


def totals_of(*totals):
    return b'{"totals":[%s]}' % b",".join(totals)


THREE_TOTALS = [NONE_OF % b"RAIL", NONE_OF % b"SIGN", b'{"abandoned":0,"class":"SPEED","entered":11000,"present":11000,"retired":0}']
TOTALS = totals_of(*THREE_TOTALS, NONE_OF % b"WIDTH")

AT_3000 = "/v1/at?route=A1&method=abs&pos=3000"
ASK = request("GET /v1/totals")

# each request, with its body and its reply, one after the other
TABLE = [
    ("POST /v1/edits", FIRST, sheet_reply(FIRST_REPLIES)),
    ("GET /v1/route/A1", None, reply(200, ROUTE % b"")),
    ("POST /v1/surveys", SURVEY, sheet_reply(b"e1,done,8\n")),
    ("POST /v1/surveys", SURVEY, sheet_reply(AGAIN)),
    (f"GET {AT_3000}", None, reply(200, AT)),
    ("GET /v1/segments?route=A1&side=R&class=SPEED", None, reply(200, SEGMENTS % (b'"-"', b'"80"', b"R"))),
    ("GET /v1/translate?route=A1&method=int&pos=1/3&to=abs", None, reply(200, TRANSLATED % (b"abs", b"3200"))),
    ("GET /v1/totals", None, reply(200, totals_of(*THREE_TOTALS))),
    ("POST /v1/edits", sheet_of("r1,ref,KM2,A1,abs,3", "c1,class,WIDTH,exclusive"), sheet_reply(b"r1,done,9\nc1,done,10\n")),
    ("GET /v1/route/A1", None, reply(200, ROUTE % b'{"at":2,"name":"KM2"}')),
    ("GET /v1/at?route=A1&method=abs&pos=9001", None, error(422, "OffRoute")),
    ("GET /v1/none", None, reply(404)),
    ("DELETE /v1/totals", None, reply(405, allow="GET")),
]


# ---- an inventory of links, and an answer of megabytes


def links_up_to(count, known):
    """A sheet of so many links, and the replies where some are known."""
    sheet, done = long_sheet(count)
    rows = done.splitlines(keepends=True)
    return sheet, b"".join([row.replace(b",done,", b",again,") for row in rows[:known]] + rows[known:])



STRETCHES = 600
CLASSES_ASKED = 990


def long_question():
    """A sheet of many short stretches, its reply, a question of all their values, many times over, and its answer."""
    values = [f"{n:012}" for n in range(STRETCHES)]
    texts = ["m1,link,4,1000", "m2,class,V,exclusive", f"m3,route,L1,4:0:{STRETCHES}:+,0:0 {STRETCHES}:{STRETCHES}"]
    texts += [f"v{n},enter,{n + 1},V,L1,B,abs,{n},{n + 1},{value},0" for n, value in enumerate(values)]
    done = lines(*(f"{text.split(',')[0]},done,{n}" for n, text in enumerate(texts, 1)))
    shown = ['{"from":%d,"to":%d,"values":[%s]}' % (n, n + 1, ",".join([f'"{value}"'] * CLASSES_ASKED)) for n, value in enumerate(values)]
    answered = '{"route":"L1","segments":[%s],"side":"R"}' % ",".join(shown)
    return sheet_of(*texts), done, LONG_QUESTION, reply(200, answered.encode())


LONG_QUESTION = request(f"GET /v1/segments?route=L1&side=R{'&class=V' * CLASSES_ASKED}")


# ---- clients that fail, and clients that dawdle: each has a connection until the next client is served


def closes(stream, served):
    stream.close()


def resets(stream, served):
    """The other end's next read or write fails."""
    stream.setsockopt(socket.SOL_SOCKET, socket.SO_LINGER, struct.pack("ii", 1, 0))
    stream.close()


def resets_in_its_body(stream, served):
    stream.sendall(request("POST /v1/edits", FIRST)[:-1])
    resets(stream, served)


def resets_before_its_reply(stream, served):
    stream.sendall(LONG_QUESTION)
    resets(stream, served)


def resets_in_its_reply(stream, served):
    stream.sendall(LONG_QUESTION)
    stream.recv(1_000)
    resets(stream, served)


def says_nothing(stream, served):
    assert rest_of(stream) == b""


def says_a_byte_a_second(stream, served):
    """From its body on."""
    stream.sendall(request("POST /v1/edits", FIRST)[: -len(FIRST)])
    with contextlib.suppress(OSError):
        for byte in FIRST:
            stream.sendall(bytes([byte]))
            if served.wait(1):
                return


def takes_little_of_its_reply(stream, served):
    """Now and then, so that each write to it goes on."""
    stream.sendall(LONG_QUESTION)
    while not served.wait(0.25):
        stream.recv(65_536)


def keeps_its_side_open(stream, served):
    stream.sendall(ASK)
    assert rest_of(stream).startswith(b"HTTP/1.1 200 OK\r\n")
    served.wait(PATIENCE)


def sends_on_and_on(stream, served):
    with contextlib.suppress(OSError):
        while not served.is_set():
            stream.sendall(ASK * 1_000)


FAILING = [closes, resets, resets_in_its_body, resets_before_its_reply, resets_in_its_reply]
DAWDLING = [says_nothing, says_a_byte_a_second, takes_little_of_its_reply, keeps_its_side_open, sends_on_and_on]


def wait_behind(server, client, sent, expected):
    """How many seconds the next client, which sends this and gets that, waits behind one that is there already."""
    served = threading.Event()
    with connect(server.port) as stream:
        thread = threading.Thread(target=client, args=[stream, served])
        thread.start()
        since = time.monotonic()
        try:
            server.answers(sent, expected)
            return time.monotonic() - since
        finally:
            served.set()
            thread.join()
