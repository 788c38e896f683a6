"""How long a diagram of a route with many rows takes, and how large it is.

    python3 bench/diagram.py [--rows N] [--runs N]

One route with so many rows (100,000 if nothing else is said), of another asset each, 5 mm long every 10 mm, of three exclusive classes
in turn, on the left, the right or both sides. The inventory is served from memory by ./roadlrs and asked over HTTP: for the diagram of
the whole route, of a hundredth of it, and, to compare, for the segments of one class. A line has the least of the runs, from the
connection to the last byte.
"""

import argparse
import pathlib
import socket
import subprocess
import time
import urllib.request

TOP = pathlib.Path(__file__).resolve().parent.parent
HEADER = b"key,verb,a,b,c,d,e,f,g,h,i\n"
CLASSES = ["C0", "C1", "C2"]
MOST_BYTES = 1_000_000


def records(rows):
    length = 10 * rows
    yield from (b"c%s,class,%s,exclusive,,,,,,,\n" % (name.encode(), name.encode()) for name in CLASSES)
    yield b"l,link,1,%d,,,,,,,\n" % length
    yield b"r,route,R1,1:0:%d:+,0:0 %d:%d,,,,,,\n" % (length, length, length)
    for n in range(rows):
        yield b"e%d,enter,%d,%s,R1,%s,abs,%d,%d,v%d,0\n" % (n, n + 1, CLASSES[n % 3].encode(), b"LRB"[n // 3 % 3 : n // 3 % 3 + 1], 10 * n, 10 * n + 5, n % 7)


def sheets(rows):
    """The records in sheets that a request may have."""
    sheet = HEADER
    for record in records(rows):
        if len(sheet) + len(record) > MOST_BYTES:
            yield sheet
            sheet = HEADER
        sheet += record
    yield sheet


def free_port():
    with socket.socket() as stream:
        stream.bind(("127.0.0.1", 0))
        return stream.getsockname()[1]


def answer(port, path, body=None):
    with urllib.request.urlopen(f"http://127.0.0.1:{port}{path}", data=body) as got:
        return got.read()


def least(port, path, runs):
    times = []
    for _ in range(runs):
        started = time.monotonic()
        size = len(answer(port, path))
        times.append(time.monotonic() - started)
    return min(times), size


def main():
    words = argparse.ArgumentParser()
    words.add_argument("--rows", type=int, default=100_000)
    words.add_argument("--runs", type=int, default=5)
    given = words.parse_args()
    port = free_port()
    child = subprocess.Popen([TOP / "roadlrs", "serve", ":memory:", str(port), "1000000"], stdout=subprocess.PIPE)
    try:
        child.stdout.readline()
        for sheet in sheets(given.rows):
            replied = answer(port, "/v1/edits", sheet)
            assert b"refused" not in replied, replied[:200]
        print(f"{given.rows} rows on one route; the least of {given.runs} runs")
        for name, path in [
            ("diagram of the whole route", "/v1/diagram?route=R1"),
            ("diagram of a hundredth", f"/v1/diagram?route=R1&from=0&to={given.rows // 10}"),
            ("diagram of one class", "/v1/diagram?route=R1&class=C0"),
            ("segments of one class", "/v1/segments?route=R1&side=R&class=C0"),
        ]:
            seconds, size = least(port, path, given.runs)
            print(f"{name:28} {1000 * seconds:10.1f} ms {size:12,d} bytes")
    finally:
        child.kill()
        child.wait()


main()
