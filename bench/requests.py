"""How many requests a second are answered, each over a new connection, beside Python's http.server over sqlite3.

    python3 bench/requests.py [--program FILE] [--assets N] [--requests N] [--runs N]

Both servers answer `GET /v1/at` in a thousand places of a route, from the same inventory, to one client that reads each reply to
its end before it connects again. The client is a thread of this program, so its own time counts for both. A line has the best
of the runs.
"""

import argparse
import http.server
import json
import pathlib
import socket
import sqlite3
import subprocess
import sys
import tempfile
import time
import urllib.parse

TOP = pathlib.Path(__file__).resolve().parent.parent
HEADER = "key,verb,a,b,c,d,e,f,g,h,i\n"
ROUTES, PLACES = 10, 1_000
TABLES = """
CREATE TABLE asset (number INTEGER NOT NULL, class TEXT NOT NULL, value TEXT NOT NULL, lateral INTEGER NOT NULL, PRIMARY KEY (number)) STRICT;
CREATE TABLE span (asset INTEGER NOT NULL REFERENCES asset, route TEXT NOT NULL, lo INTEGER NOT NULL, hi INTEGER NOT NULL, side INTEGER NOT NULL, PRIMARY KEY (asset, route, lo)) STRICT;
CREATE INDEX span_place ON span (route, lo);
"""
AT = "SELECT asset, class, side, lateral, value FROM span JOIN asset ON number = asset WHERE route = ? AND lo <= ? AND lo > ? - 1000 AND hi > ? ORDER BY asset"


def entered(assets):
    """Assets of 5 mm every 10 mm, on both sides, on ten routes."""
    rows = assets // ROUTES
    for number in range(1, assets + 1):
        route, row = divmod(number - 1, rows)
        yield number, f"R{route + 1}", 10 * row, f"v{row % 7}"


def sheets(assets):
    """Edit sheets of at most 10,000 records, so that each goes into one request."""
    length = 10 * (assets // ROUTES)
    lines = ["c,class,SPEED,exclusive,,,,,,,\n"]
    for n in range(1, ROUTES + 1):
        lines.append(f"l{n},link,{n},{length},,,,,,,\nr{n},route,R{n},{n}:0:{length}:+,0:0 {length}:{length},,,,,,\n")
    lines += [f"e{n},enter,{n},SPEED,{route},B,abs,{at},{at + 5},{value},0\n" for n, route, at, value in entered(assets)]
    return [(HEADER + "".join(lines[n : n + 10_000])).encode() for n in range(0, len(lines), 10_000)]


class Plain(http.server.BaseHTTPRequestHandler):
    """The same question, answered from sqlite3."""

    def do_GET(self):
        asked = urllib.parse.parse_qs(urllib.parse.urlsplit(self.path).query)
        place = int(asked["pos"][0])
        rows = self.server.db.execute(AT, (asked["route"][0], place, place, place)).fetchall()
        hits = [{"asset": n, "class": kind, "offset": offset, "side": "BLR"[side], "value": value} for n, kind, side, offset, value in rows]
        body = json.dumps({"at": place, "hits": hits, "route": asked["route"][0]}, separators=(",", ":")).encode()
        self.send_response(200)
        self.send_header("Content-Type", "application/json")
        self.send_header("Content-Length", str(len(body)))
        self.send_header("Connection", "close")
        self.end_headers()
        self.wfile.write(body)

    def log_message(self, *_):
        pass


def serve_plain(file):
    server = http.server.HTTPServer(("127.0.0.1", 0), Plain)
    server.db = sqlite3.connect(file)
    print("listening", server.server_port, flush=True)
    server.serve_forever()


def free_port():
    with socket.socket() as it:
        it.bind(("127.0.0.1", 0))
        return it.getsockname()[1]


def send(port, request):
    with socket.create_connection(("127.0.0.1", port)) as it:
        it.sendall(request)
        reply = b""
        while piece := it.recv(65_536):
            reply += piece
    assert reply.startswith((b"HTTP/1.1 200", b"HTTP/1.0 200")), reply


def ask(port, length, number):
    place = number * 367 % PLACES * length // PLACES
    send(port, f"GET /v1/at?route=R1&method=abs&pos={place} HTTP/1.1\r\nHost: x\r\n\r\n".encode())


def rate(words, posts, assets, requests):
    """How many requests a second the server of these words answers, once it has been sent these sheets."""
    server = subprocess.Popen(words, stdout=subprocess.PIPE, text=True)
    try:
        port = int(server.stdout.readline().split()[1])
        for body in posts:
            send(port, b"POST /v1/edits HTTP/1.1\r\nContent-Length: %d\r\n\r\n" % len(body) + body)
        start = time.perf_counter()
        for number in range(requests):
            ask(port, 10 * (assets // ROUTES), number)
        return requests / (time.perf_counter() - start)
    finally:
        server.kill()
        server.wait()


def main():
    words = argparse.ArgumentParser(description=__doc__.partition("\n")[0])
    words.add_argument("--program", default=TOP / "roadlrs")
    words.add_argument("--assets", type=int, default=100_000)
    words.add_argument("--requests", type=int, default=5_000)
    words.add_argument("--runs", type=int, default=3)
    words.add_argument("--plain", help=argparse.SUPPRESS)
    given = words.parse_args()
    if given.plain:
        return serve_plain(given.plain)
    with tempfile.TemporaryDirectory() as room:
        posts = sheets(given.assets)
        most = str(given.requests + len(posts))
        theirs = f"{room}/theirs.db"
        db = sqlite3.connect(theirs)
        db.executescript(TABLES)
        db.executemany("INSERT INTO asset VALUES (?, 'SPEED', ?, 0)", ((n, value) for n, _, _, value in entered(given.assets)))
        db.executemany("INSERT INTO span VALUES (?, ?, ?, ?, 0)", ((n, route, at, at + 5) for n, route, at, _ in entered(given.assets)))
        db.commit()
        db.close()
        for name, make, sent in (
            ("roadlrs", lambda: [given.program, "serve", ":memory:", str(free_port()), most], posts),
            ("http.server over sqlite3", lambda: [sys.executable, __file__, "--plain", theirs], []),
        ):
            best = max(rate(make(), sent, given.assets, given.requests) for _ in range(given.runs))
            print(f"{name}: {best:.0f} requests a second")


if __name__ == "__main__":
    main()
