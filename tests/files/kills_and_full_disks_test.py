"""An inventory in a file whose program is killed, whose disk is full, or that two programs want at once."""

import contextlib
import os
import pathlib
import random
import sqlite3
import subprocess
import tempfile
import threading
import time

import pytest

from program import FIRST, FIRST_REPLIES, HEADER, PATIENCE, PROGRAM, ends, faults, record, run, with_files_up_to
from refusing import library
from stores import edit, folder, is_whole, look, make, rows_of

ROUTES = 20
STRETCH = 1_000_000


def long_records(count):
    """Records that are all done: links, routes and classes, and then assets that come and go, with routes that are split and joined."""
    texts = ["c1,class,SPEED,exclusive", "c2,class,RAIL,stretch", "c3,class,SIGN,point"]
    for n in range(1, ROUTES + 1):
        texts += [f"l{n},link,{n},{STRETCH}", f"r{n},route,R{n},{n}:0:{STRETCH}:+,0:0 {STRETCH // 2}:{STRETCH // 2} {STRETCH}:{STRETCH}"]
    drawn = random.Random(7)
    asset = 0
    split = set()
    while len(texts) < count:
        n = drawn.randrange(1, ROUTES + 1)
        key = f"k{len(texts)}"
        kind = drawn.random()
        if kind < 0.1 and n not in split:
            split.add(n)
            texts.append(f"{key},split,R{n},{STRETCH // 2},S{n}")
        elif kind < 0.1:
            split.remove(n)
            texts.append(f"{key},join,R{n},S{n}")
        else:
            asset += 1
            verb, of = ("supersede", "SPEED") if kind < 0.2 else ("enter", "RAIL")
            start = drawn.randrange(STRETCH // 2 - 200)
            texts.append(f"{key},{verb},{asset},{of},R{n},{drawn.choice('LRB')},abs,{start},{start + 150},a,0")
    return [record(text) for text in texts]


def replies_of(records, word="done"):
    return [b"%s,%s,%d\n" % (text.partition(b",")[0], word.encode(), n) for n, text in enumerate(records, 1)]


class Running:
    """A program at work on a sheet that it gets bit by bit; what it answers is read as it comes."""

    def __init__(self, path, **settings):
        words = [PROGRAM, "edit", str(path), "stdin"]
        self.child = subprocess.Popen(words, stdin=subprocess.PIPE, stdout=subprocess.PIPE, stderr=subprocess.PIPE, **settings)
        self.answered = []
        self.reader = threading.Thread(target=self.read)
        self.reader.start()

    def read(self):
        for line in self.child.stdout:
            if line.endswith(b"\n"):
                self.answered.append(line)

    def feed(self, records):
        """Gives it records, until it takes no more or is killed."""
        with contextlib.suppress(BrokenPipeError, ValueError):
            self.child.stdin.write(b"".join(records))
            self.child.stdin.flush()

    def waits_for(self, count):
        """Whether it answered so many records, before it ended."""
        until = time.monotonic() + PATIENCE
        while len(self.answered) < count and self.child.poll() is None and time.monotonic() < until:
            time.sleep(0.0002)
        return len(self.answered) >= count

    def end(self):
        """Its status and what it wrote to the standard error, once it has ended."""
        with contextlib.suppress(BrokenPipeError):
            self.child.stdin.close()
        told = self.child.stderr.read()
        self.reader.join()
        return self.child.wait(PATIENCE), told

    def kill(self):
        self.child.kill()
        self.end()


@pytest.mark.parametrize("header, in_flight", [(HEADER, 1_024), (HEADER.replace(b"key", b'"key"'), 1)])
def test_killed_at_random_moments(header, in_flight):
    """Records that have arrived are kept together; behind a quote they are done one by one. Each time every acknowledged record is answered `again` with its number, and the tables at the end are those of a run that nobody stopped."""
    records = long_records(2_000)
    done, again = replies_of(records), replies_of(records, "again")
    drawn = random.Random(11)
    with folder() as path, folder() as other:
        ends(edit(other, HEADER + b"".join(records)), b"".join(done), 0)
        acknowledged = 0
        for stop in range(50):
            running = Running(path)
            feeder = threading.Thread(target=running.feed, args=([header, *records],))
            feeder.start()
            running.waits_for(min(acknowledged + drawn.randrange(0, 80), len(records)))
            time.sleep(drawn.random() * 0.003)
            running.kill()
            feeder.join()
            answered = running.answered
            assert answered[:acknowledged] == again[: min(acknowledged, len(answered))], stop
            # those that were on their way may have been done, all of a group or none
            fresh = answered[acknowledged:]
            kept = sum(line == again[n] for n, line in enumerate(fresh, acknowledged))
            assert kept <= in_flight, (stop, kept)
            assert fresh == again[acknowledged : acknowledged + kept] + done[acknowledged + kept : len(answered)], (stop, fresh[:2])
            acknowledged = max(acknowledged, len(answered))
        assert acknowledged > 0
        ended = edit(path, HEADER + b"".join(records))
        assert (ended.status, ended.stderr) == (0, b""), ended.stderr
        lines = ended.stdout.splitlines(keepends=True)
        assert lines[:acknowledged] == again[:acknowledged]
        assert all(line in (done[n], again[n]) for n, line in enumerate(lines)) and len(lines) == len(records)
        is_whole(path)
        assert rows_of(path) == rows_of(other)


def test_killed_while_the_store_is_made():
    drawn = random.Random(12)
    for _ in range(20):
        with folder() as path:
            running = Running(path)
            time.sleep(drawn.random() * 0.02)
            running.kill()
            ends(edit(path, FIRST), FIRST_REPLIES, 0)
            is_whole(path)


def test_two_programs_at_one_file():
    """The second is refused, or waits until the first has ended; nothing that was answered is lost."""
    more = [record(f"a{n},link,{100 + n},5") for n in range(1, 21)]
    with folder() as path:
        make(path)
        first = Running(path)
        first.feed([HEADER, *more[:10]])
        assert first.waits_for(10)
        second = Running(path)
        second.feed([HEADER, record("b1,link,200,5")])
        until = time.monotonic() + 2
        while second.child.poll() is None and time.monotonic() < until:
            time.sleep(0.01)
        assert second.answered == [], second.answered
        first.feed(more[10:])
        assert first.waits_for(20)
        assert first.end() == (0, b"")
        status, told = second.end()
        if status == 3:
            assert (told, second.answered) == (b"roadlrs: fault Open\n", [])
        else:
            assert (status, second.answered) == (0, [b"b1,done,28\n"])
        ends(edit(path, HEADER + b"".join(more)), b"".join(b"a%d,again,%d\n" % (n, 7 + n) for n in range(1, 21)), 0)
        is_whole(path)


def test_a_file_that_sqlite3_has():
    """While another program is in a transaction on it, the store is refused, and left as it was."""
    with folder() as path:
        make(path)
        before = path.read_bytes()
        with contextlib.closing(sqlite3.connect(path, isolation_level=None)) as db:
            db.execute("BEGIN EXCLUSIVE")
            faults(run("edit", str(path), "stdin", "--wait", "0", given=FIRST), "Open")
            assert path.read_bytes() == before
            db.execute("ROLLBACK")
        ends(edit(path, FIRST), FIRST_REPLIES.replace(b"done", b"again"), 0)


# ---- no room


def goes_on(path, records, answered, told, status):
    """The program ended in the fault `Keep`; with room again each answered record is there, and the sheet goes on."""
    done, again = replies_of(records), replies_of(records, "again")
    assert (status, told) == (3, b"roadlrs: fault Keep\n"), (status, told)
    assert answered == done[: len(answered)] and len(answered) < len(records), answered[-1:]
    ended = edit(path, HEADER + b"".join(records))
    assert (ended.status, ended.stderr) == (0, b""), ended.stderr
    lines = ended.stdout.splitlines(keepends=True)
    assert lines[: len(answered)] == again[: len(answered)]
    assert len(lines) == len(records) and all(line in (done[n], again[n]) for n, line in enumerate(lines))
    is_whole(path)


# Behind a quote in the header records are done one by one; else those are kept together that have arrived.
ONE_BY_ONE = HEADER.replace(b"key", b'"key"')


@pytest.mark.parametrize("header, limits", [(ONE_BY_ONE, (400_000, 1_000_000, 2_000_000)), (HEADER, (500_000, 600_000, 700_000))])
def test_a_file_that_may_not_grow(header, limits):
    records = long_records(2_000)
    for limit in limits:
        with folder() as path:
            running = Running(path, **with_files_up_to(limit))
            feeder = threading.Thread(target=running.feed, args=([header, *records],))
            feeder.start()
            feeder.join()
            status, told = running.end()
            goes_on(path, records, running.answered, told, status)


def is_mounted(folder, options):
    """Whether this user may mount a disk, and has done so."""
    return subprocess.run(["mount", "-t", "tmpfs", "-o", options, "tmpfs", folder], capture_output=True, check=False).returncode == 0


@contextlib.contextmanager
def small_disk(size, may_mount):
    """A folder on a disk of so many bytes, and the settings of a run there; where none may be mounted, a library (filling.c) refuses
    a run what such a disk would."""
    with tempfile.TemporaryDirectory() as name:
        if may_mount and is_mounted(name, f"size={size}"):
            try:
                yield pathlib.Path(name), {}
            finally:
                subprocess.run(["umount", name], check=True)
        else:
            yield pathlib.Path(name), {"env": {**os.environ, "LD_PRELOAD": str(library("filling")[0]), "FILLED_AFTER": str(size)}}


@pytest.mark.parametrize("may_mount", [True, False], ids=["mounted", "stood in for"])
@pytest.mark.parametrize("header, size", [(ONE_BY_ONE, 400_000), (HEADER, 800_000)])
def test_a_full_disk(may_mount, header, size):
    records = long_records(2_000)
    with small_disk(size, may_mount) as (disk, settings):
        path = disk / "roads.db"
        running = Running(path, **settings)
        running.feed([header, *records])
        status, told = running.end()
        assert running.answered, "the disk was full before the first record"
        if not settings:
            subprocess.run(["mount", "-o", "remount,size=40m", str(disk)], check=True)
        goes_on(path, records, running.answered, told, status)


def test_no_room_for_a_new_store():
    with folder() as path:
        running = Running(path, **with_files_up_to(8_192))
        status, told = running.end()
        assert (status, told) == (3, b"roadlrs: fault Open\n"), (status, told)
        ends(edit(path, FIRST), FIRST_REPLIES, 0)
        is_whole(path)


def test_the_log_stays_small():
    """The pages of the log go into the database from time to time."""
    records = long_records(2_000)
    with folder() as path:
        running = Running(path)
        feeder = threading.Thread(target=running.feed, args=([HEADER, *records],))
        feeder.start()
        assert running.waits_for(len(records))
        feeder.join()
        log = path.with_name(path.name + "-wal")
        assert log.stat().st_size < 10_000_000
        assert running.end() == (0, b"")
        assert look(path, "SELECT count(*) FROM edit") == [[(len(records),)]]
        assert not log.exists() or log.stat().st_size < 100


def test_the_log_stays_small_on_a_route_of_many_pieces():
    """A group ends behind the record with which more than 4,096 rows are listed: each of these has 2,000, two for each piece."""
    pieces = " ".join(f"{8 + n % 2}:{20 * n}:{20 * n + 10}:+" for n in range(1_000))
    records = [record(f"e{n},enter,{n},BAR,R1,B,abs,0,10000,x,0") for n in range(1, 129)]
    with folder() as path:
        make(path, "l8,link,8,20000", "l9,link,9,20000", "c1,class,BAR,stretch", f"r1,route,R1,{pieces},0:0 10000:10000")
        running = Running(path)
        running.feed([HEADER, *records])
        assert running.waits_for(len(records))
        assert path.with_name(path.name + "-wal").stat().st_size < 6_000_000
        assert running.end() == (0, b"")
        assert look(path, "SELECT count(*) FROM entered") == [[(len(records) * 2_000,)]]
