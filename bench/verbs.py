"""What each verb costs beside few and beside many assets, and on a route with many rows.

    python3 bench/verbs.py [--file FOLDER [--instructions]] [MANY..]

Routes of 1,000 mm with three assets each, which the measured commands edit, stand beside 1,000 other routes with 1,000 assets, and
with MANY (30,000 and 970,000) on them together: over :memory:, or with --file over a database in FOLDER. The sheet goes through a
pipe: when the program waits for more, it has done all that it was sent, and its processor time then, less that before the commands
of a verb, is what they cost. A figure is for one command, the least of three rounds of 64 commands, which over a file are one
transaction. With --instructions they are counted, by valgrind, of one round on a copy of the closed database, less those of a sheet
without a record. Nothing else but Python is needed; ROADLRS in the environment names the program.
"""

import argparse
import os
import re
import shutil
import subprocess
import sys
import tempfile
import time

from sheets import BUILT, HEADER

COMMANDS = 64
ROWS = 100_000
ROUNDS = 3


def row(*fields):
    return ",".join([str(field) for field in fields] + [""] * (11 - len(fields))).encode() + b"\n"


class Program:
    """The program over a pipe, with what it has used of a processor."""

    def __init__(self, path, database):
        words = [path, "edit", database, "stdin"]
        self.process = subprocess.Popen(words, stdin=subprocess.PIPE, stdout=subprocess.DEVNULL)
        self.send([HEADER])

    def nanoseconds(self):
        with open(f"/proc/{self.process.pid}/schedstat") as it:
            return int(it.read().split()[0])

    def is_waiting(self):
        with open(f"/proc/{self.process.pid}/stat") as it:
            return it.read().rsplit(")", 1)[1].split()[0] == "S"

    def settled(self):
        """Its processor time once it waits and uses none."""
        used = -1
        while True:
            time.sleep(0.02)
            now = self.nanoseconds()
            if now == used and self.is_waiting():
                return now
            used = now

    def send(self, rows):
        self.process.stdin.write(b"".join(rows))
        self.process.stdin.flush()

    def cost(self, rows, commands):
        """Microseconds of processor time for one of so many commands."""
        before = self.settled()
        self.send(rows)
        return (self.settled() - before) / commands / 1_000

    def end(self):
        self.process.stdin.close()
        if self.process.wait() != 0:
            sys.exit("a measured command was refused, or there was a fault")


def edited(first, count, is_cut):
    """Routes that the commands of a verb edit: two links each, of which the route has half, and three assets. Where is_cut, each has been split."""
    for n in range(first, first + count):
        yield row(f"l{n}", "link", 10_000 + n, 1_000)
        yield row(f"m{n}", "link", 100_000 + n, 1_000)
        yield row(f"r{n}", "route", f"R{n}", f"{10_000 + n}:0:500:+ {100_000 + n}:0:500:-", "0:0 500:500 1000:1000")
        yield row(f"k{n}", "ref", f"KM{n}", f"R{n}", "abs", 700)
        for k in range(3):
            yield row(f"e{n}x{k}", "enter", 1 + 3 * n + k, "SPEED", f"R{n}", "B", "abs", 300 * k, 300 * k + 200, 80, 0)
        if is_cut:
            yield row(f"s{n}", "split", f"R{n}", 500, f"T{n}")


def others(count):
    """A thousand other routes with so many assets on them together."""
    for n in range(1_000):
        yield row(f"L{n}", "link", 200_000 + n, 1_000_000)
        yield row(f"R{n}", "route", f"S{n}", f"{200_000 + n}:0:1000000:+", "0:0 1000000:1000000")
    for n in range(count):
        at = n // 1_000 * 30
        yield row(f"E{n}", "enter", 1_000_000 + n, "RAIL", f"S{n % 1_000}", "R", "abs", at, at + 20, "STEEL", 0)


def of_verb(verb, n):
    """The command of a verb on a route of its own."""
    name = f"R{n}"
    fields = {
        "link": (300_000 + n, 1_000),
        "class": (f"C{n}", "point"),
        "route": (f"T{n}", f"{10_000 + n}:500:1000:+", "0:0 500:500"),
        "ref": (f"N{n}", name, "abs", 10),
        "unref": (f"KM{n}",),
        "enter": (100_000 + n, "RAIL", name, "L", "abs", 10, 900, "STEEL", 0),
        "supersede": (100_000 + n, "SPEED", name, "L", "abs", 10, 900, 50, 0),
        "retire": (1 + 3 * n, name, "abs", 50, 100),
        "split": (name, 500, f"T{n}"),
        "join": (name, f"T{n}"),
        "recalibrate": (name, "0:0 1000:2000"),
        "renumber": (name, f"T{n}"),
        "realign": (name, 400, 600, f"{100_000 + n}:600:900:+", "0:0 1100:1100"),
        "turn": (name,),
        "close": (name,),
    }[verb]
    return row(f"t{n}", verb, *fields)


VERBS = ("link", "class", "route", "ref", "unref", "enter", "supersede", "retire", "split", "join", "recalibrate", "renumber", "realign", "turn", "close")
CLASSES = [row("c1", "class", "SPEED", "exclusive"), row("c2", "class", "RAIL", "stretch")]


def batches():
    """The verb and the first route of each round of commands."""
    return [(verb, (turn * len(VERBS) + place) * COMMANDS) for turn in range(ROUNDS) for place, verb in enumerate(VERBS)]


def commands(verb, first):
    return [of_verb(verb, first + n) for n in range(COMMANDS)]


def filled(path, database, count):
    """The program, once it has entered what the measured commands edit, and so many other assets."""
    program = Program(path, database)
    program.send(CLASSES)
    for verb, first in batches():
        program.send(edited(first, COMMANDS, verb == "join"))
    program.send(others(count))
    return program


def costs(path, database, count):
    """What one command of each verb costs beside so many other assets, in microseconds of a processor."""
    program, found = filled(path, database, count), {}
    for verb, first in batches():
        cost = program.cost(commands(verb, first), COMMANDS)
        found[verb] = min(cost, found.get(verb, cost))
    program.end()
    return found


def instructions(path, database, rows):
    """How many the program takes for these records on a copy of a closed database, with its opening."""
    copy, sheet = f"{database}-copy", f"{database}-sheet"
    shutil.copy(database, copy)
    with open(sheet, "wb") as it:
        it.write(b"".join([HEADER, *rows]))
    words = ["valgrind", "--tool=callgrind", "--callgrind-out-file=/dev/null", path, "edit", copy, sheet]
    done = subprocess.run(words, stdout=subprocess.DEVNULL, stderr=subprocess.PIPE, text=True, check=True)
    return int(re.search(r"refs: +([0-9,]+)", done.stderr)[1].replace(",", ""))


def counted(path, database, count):
    """What one command of each verb costs, in thousands of instructions."""
    program = filled(path, database, count)
    program.settled()
    program.end()
    opening = instructions(path, database, [])
    return {verb: (instructions(path, database, commands(verb, first)) - opening) / COMMANDS / 1_000 for verb, first in batches()[: len(VERBS)]}


def long_route():
    """A route of 30 km with a row every 300 mm, and a link of its own behind it that it does not run over."""
    yield row("l1", "link", 1, 40_000_000)
    yield row("l2", "link", 2, 1_000)
    yield row("r1", "route", "A1", "1:0:30000000:+", "0:0 15000000:15000000 30000000:30000000")
    for n in range(ROWS):
        yield row(f"e{n}", "enter", 1 + n, "RAIL", "A1", "R", "abs", 300 * n, 300 * n + 200, "STEEL", 0)


def on_long_route():
    """Commands on the long route, with how many there are of each."""
    yield "enter", 100, [row(f"n{n}", "enter", 200_000 + n, "SPEED", "A1", "L", "abs", 250_000 * n, 250_000 * n + 100, 80, 0) for n in range(100)]
    yield "retire", 100, [row(f"o{n}", "retire", 50 + 900 * n, "A1", "abs", 0, 30_000_000) for n in range(100)]
    yield "ref", 100, [row(f"p{n}", "ref", f"N{n}", "A1", "abs", 1_000 * n) for n in range(100)]
    yield "split", 1, [row("q", "split", "A1", 15_000_000, "A2")]
    yield "join", 1, [row("s", "join", "A1", "A2")]
    yield "renumber", 1, [row("t", "renumber", "A1", "A3")]
    yield "recalibrate", 1, [row("u", "recalibrate", "A3", "0:0 15000000:15000000 30000000:60000000")]
    yield "realign", 1, [row("v", "realign", "A3", 20_000_000, 20_000_500, "2:0:1000:+", "0:0 30000500:60000000")]
    yield "turn", 1, [row("w", "turn", "A3")]
    yield "close", 1, [row("x", "close", "A3")]


def long_costs(path, database):
    """What one command of each verb costs on the long route."""
    program = Program(path, database)
    program.send(CLASSES)
    program.send(long_route())
    found = {verb: program.cost(rows, count) for verb, count, rows in on_long_route()}
    program.end()
    return found


def least(measured):
    return {verb: min(found[verb] for found in measured) for verb in measured[0]}


def measured(costs, folder, *given):
    """What is found over :memory:, or over a new database in the folder."""
    if folder is None:
        return costs(":memory:", *given)
    with tempfile.TemporaryDirectory(dir=folder) as it:
        return costs(f"{it}/verbs.db", *given)


def main():
    words = argparse.ArgumentParser()
    words.add_argument("--file", metavar="FOLDER")
    words.add_argument("--instructions", action="store_true")
    words.add_argument("many", type=int, nargs="*", default=[30_000, 970_000])
    words = words.parse_args()
    path = os.environ.get("ROADLRS", str(BUILT))
    counts = [1_000, *words.many]
    cost, unit = (counted, "thousands of instructions") if words.instructions else (costs, "microseconds")
    found = [measured(lambda *it: cost(path, *it), words.file, count) for count in counts]
    print(f"one command, in {unit}, beside so many assets, and the last beside the first")
    print(f"{'':12}" + "".join(f"{count:12,}" for count in counts) + f"{'ratio':>12}")
    for verb in VERBS:
        figures = [it[verb] for it in found]
        print(f"{verb:12}" + "".join(f"{it:12.1f}" for it in figures) + f"{figures[-1] / figures[0]:12.2f}")
    if words.instructions:
        return
    print(f"one command on a route of {ROWS:,} rows, in microseconds")
    runs = [measured(lambda *it: long_costs(path, *it), words.file) for _ in range(ROUNDS)]
    for verb, cost in least(runs).items():
        print(f"{verb:12}{cost:12.1f}")


if __name__ == "__main__":
    main()
