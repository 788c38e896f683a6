"""How much memory a long answer takes, beside its own bytes.

    python3 bench/answers.py [--assets N] [--repeats R]

One route has so many assets of an exclusive class, side by side and of two values in turn, so that there are as many segments. `segments` of the
class, asked for so many times over, is answered over HTTP, and by a sheet of questions and by `strip` on the command line. The program is the one that
ROADLRS names.
"""

import argparse
import os
import pathlib
import socket
import subprocess
import tempfile
import time

from files import BUILT, HEADER


def sheet(assets):
    length = 10 * assets
    yield HEADER.decode()
    yield f"c,class,SPEED,exclusive,,,,,,,\nl,link,1,{length},,,,,,,\nr,route,A1,1:0:{length}:+,0:0 {length}:{length},,,,,,\n"
    for n in range(assets):
        yield f"e{n},enter,{n + 1},SPEED,A1,B,abs,{10 * n},{10 * n + 10},v{n % 2},0\n"


def peak(pid):
    lines = pathlib.Path(f"/proc/{pid}/status").read_text().splitlines()
    return int(next(line for line in lines if line.startswith("VmHWM:")).split()[1]) / 1_000


def over_http(program, database, repeats):
    with socket.socket() as it:
        it.bind(("127.0.0.1", 0))
        port = it.getsockname()[1]
    server = subprocess.Popen([program, "serve", database, str(port), "1"], stdout=subprocess.PIPE, text=True)
    server.stdout.readline()
    before, started, size = peak(server.pid), time.monotonic(), 0
    with socket.create_connection(("127.0.0.1", port)) as it:
        it.sendall(f"GET /v1/segments?route=A1&side=L{'&class=SPEED' * repeats} HTTP/1.1\r\n\r\n".encode())
        it.setblocking(True)
        first = it.recv(1 << 20)
        spent, after = time.monotonic() - started, peak(server.pid)
        size = len(first)
        while more := it.recv(1 << 20):
            size += len(more)
    server.wait()
    return size / 1e6, after - before, spent


def by_a_command(words, out):
    """How much a command prints, and the most memory that it holds."""
    with open(out, "wb") as file:
        run = subprocess.Popen(words, stdout=file)
        _, status, used = os.wait4(run.pid, 0)
    run.returncode = os.waitstatus_to_exitcode(status)
    assert run.returncode == 0, run.returncode
    return out.stat().st_size / 1e6, used.ru_maxrss / 1_000


def by_a_sheet(program, database, repeats, folder):
    asked = folder / "questions.csv"
    asked.write_text(f"key,question,a,b,c,d\nq,segments,A1,L,{' '.join(['SPEED'] * repeats)},\n")
    return by_a_command([program, "ask", database, asked], folder / "answers")


def by_strip(program, database, repeats, folder):
    return by_a_command([program, "strip", database, "A1", "L", *["SPEED"] * repeats], folder / "answers")


def main():
    words = argparse.ArgumentParser(description=__doc__.splitlines()[0])
    words.add_argument("--assets", type=int, default=20_000)
    words.add_argument("--repeats", type=int, default=400)
    given = words.parse_args()
    program = os.environ.get("ROADLRS", str(BUILT))
    with tempfile.TemporaryDirectory(dir="/dev/shm") as name:
        folder = pathlib.Path(name)
        database, made = folder / "roads.db", folder / "sheet.csv"
        made.write_text("".join(sheet(given.assets)))
        subprocess.run([program, "edit", database, made], stdout=subprocess.DEVNULL, check=True)
        size, memory, spent = over_http(program, database, given.repeats)
        print(f"over HTTP: {size:,.0f} MB of reply, {memory:,.0f} MB of memory more, {memory / size:.1f} times, {spent:.1f} s")
        for name, printed in [("a sheet", by_a_sheet), ("strip", by_strip)]:
            _, least = printed(program, database, 1, folder)
            size, memory = printed(program, database, given.repeats, folder)
            print(f"by {name}: {size:,.0f} MB of lines, {memory:,.0f} MB of memory in all, {memory - least:,.0f} MB more than for one class")


main()
