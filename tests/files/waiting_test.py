"""A file that another program has is waited for: `--wait`, questions beside each other and beside a writer, and sqlite3 as both."""

import contextlib
import os
import random
import re
import sqlite3
import subprocess
import threading
import time

import pytest

from program import FIRST, FIRST_REPLIES, HEADER, PATIENCE, PROGRAM, Ended, ends, faults, on_terminal, record, run, sheet_of
from serving import started
from stores import folder, is_whole, make, make_full

AGAIN = FIRST_REPLIES.replace(b"done", b"again")
SUMMARY = b"7 records: 0 would be done, 7 again, 0 refused\n"

# How long readers and a writer go on: longer by hand.
SECONDS = float(os.environ.get("ROADLRS_WAITING_SECONDS", "10"))


# ---- the option


@pytest.mark.parametrize("given", [["--wait", "5"], ["--wait=5"], ["--wait", "0"], ["--wait=3600"], ["--wait", "007"], ["--wait", "x", "--wait=1"]])
def test_the_option_goes_with_every_command_anywhere(given):
    words = ["at", ":memory:", "A1", "abs", "5"]
    for place in range(len(words) + 1):
        ends(run(*words[:place], *given, *words[place:]), b"", 1, b"roadlrs: NoRoute\n")


@pytest.mark.parametrize("given", [["--wait", "x"], ["--wait=x"], ["--wait="], ["--wait"], ["--wait", "3601"], ["--wait", "-1"], ["--wait", "1.5"], ["--wait", "+5"], ["--wait=1", "--wait=y"], ["--wait", "--explain"]])
def test_a_wait_that_cannot_be_read_is_named(given):
    ended = run("totals", ":memory:", *given)
    value = given[-1].removeprefix("--wait=") if given != ["--wait"] else ""
    said = f"error: invalid value '{value}' for '--wait <SECONDS>': no whole number from 0 to 3600\n\nFor more information, try '--help'.\n"
    ends(ended, b"", 2, said.encode())


# ---- who waits for whom


@contextlib.contextmanager
def held(path):
    """A run that has the file, until its standard input ends."""
    words = [PROGRAM, "edit", str(path), "stdin"]
    with subprocess.Popen(words, stdin=subprocess.PIPE, stdout=subprocess.PIPE) as child:
        child.stdin.write(HEADER + record("h1,link,900,5"))
        child.stdin.flush()
        assert child.stdout.readline().startswith(b"h1,")
        try:
            yield child
        finally:
            child.stdin.close()
            child.stdout.read()


def begun(*words, given=b""):
    """A run that goes on beside the test."""
    child = subprocess.Popen([PROGRAM, *map(str, words)], stdin=subprocess.PIPE, stdout=subprocess.PIPE, stderr=subprocess.PIPE)
    child.stdin.write(given)
    child.stdin.close()
    child.stdin = None
    return child


def ended(child):
    stdout, stderr = child.communicate(timeout=PATIENCE)
    return Ended(subprocess.CompletedProcess([], child.returncode, stdout, stderr))


WAITERS = {
    "edit": (["edit", "DB", "stdin"], FIRST, AGAIN),
    "totals": (["totals", "DB"], b"", b"RAIL 0 0 0 0\nSIGN 0 0 0 0\nSPEED 0 0 0 0\n"),
    "audit": (["audit", "DB"], b"", b"sound, and as its log says\n"),
    "check": (["check", "DB", "stdin"], FIRST, AGAIN),
}


@pytest.mark.parametrize("what", WAITERS)
def test_a_run_waits_until_another_has_ended(what):
    words, given, printed = WAITERS[what]
    with folder() as path:
        make(path)
        words = [path if word == "DB" else word for word in words]
        with held(path):
            waiting = begun(*words, "--wait", "300", given=given)
            time.sleep(0.7)
            assert waiting.poll() is None
        ends(ended(waiting), printed, 0, SUMMARY if what == "check" else b"")
        is_whole(path)


@pytest.mark.parametrize("what", WAITERS)
def test_it_does_not_wait_where_that_is_said_and_no_longer_than_is_said(what):
    words, given, _ = WAITERS[what]
    with folder() as path:
        make(path)
        words = [str(path) if word == "DB" else word for word in words]
        with held(path):
            before = time.monotonic()
            faults(run(*words, "--wait", "0", given=given), "Open")
            assert time.monotonic() - before < 5
            before = time.monotonic()
            faults(run(*words, "--wait=2", given=given), "Open")
            assert 2 <= time.monotonic() - before < 30


def test_two_that_make_one_inventory_make_it_one_after_the_other():
    for _ in range(5):
        with folder() as path:
            children = [begun("edit", path, "stdin", "--wait", "300", given=sheet_of(f"k{n},link,{n},5")) for n in range(1, 7)]
            replies = sorted(ended(child).stdout for child in children)
            numbers = sorted(int(reply.split(b",")[2]) for reply in replies)
            assert numbers == [1, 2, 3, 4, 5, 6], replies
            is_whole(path)


def test_a_question_waits_for_an_inventory_that_is_made():
    with folder() as path:
        with held(path):
            waiting = begun("totals", path, "--wait", "300")
            time.sleep(0.3)
            assert waiting.poll() is None
        ends(ended(waiting), b"", 0)


def test_what_is_waited_for_is_said_on_a_terminal_after_a_second():
    with folder() as path:
        make(path)
        with held(path) as child:
            done, shown = on_terminal(["stderr"], "totals", str(path), "--wait", "3")
            assert done.status == 3
            said, cleared, rest = shown.partition(b"\r\x1b[K")
            assert re.fullmatch(rf"waits for (process {child.pid} \([^()]*\)|another program), which has {re.escape(str(path))}", said.decode()), shown
            assert cleared and rest.startswith(b"explain: ") and rest.endswith(b"roadlrs: fault Open\r\n"), shown
            assert run("totals", str(path), "--wait", "2").stderr == b"roadlrs: fault Open\n"
            done, shown = on_terminal(["stderr"], "totals", str(path), "--wait", "0")
            assert b"waits for" not in shown, shown
        done, shown = on_terminal(["stderr"], "totals", str(path))
        assert (done.status, shown) == (0, b""), shown


def test_who_serves_the_file_is_named_with_its_port():
    """Whatever options stand before the file."""
    with folder() as path:
        make(path)
        identity = run("log", str(path), "1", "--sum").stdout.split()[1][:16].decode()
        with started(db=path, options=["--most-reply", "70000", "--expect", identity, "--wait", "1"]) as server:
            said = run("totals", str(path), "--wait", "0", "--explain").stderr.decode()
            assert f"process {server.child.pid}" in said and f"http://127.0.0.1:{server.port}/v1/totals" in said, said


def test_a_question_whose_answer_is_not_read_keeps_no_writer_out():
    with folder() as path:
        assets(path)
        answer = run("rows", str(path)).stdout
        # an answer that has begun, and is longer than a pipe takes
        with subprocess.Popen([PROGRAM, "rows", str(path)], stdout=subprocess.PIPE, bufsize=0) as asking:
            first = asking.stdout.read(1)
            ends(run("edit", str(path), "stdin", "--wait", "0", given=sheet_of("z1,link,2,5")), b"z1,done,3004\n", 0)
            assert asking.poll() is None
            assert first + asking.stdout.read() == answer
        assert asking.returncode == 0
        is_whole(path)


def test_questions_that_have_yet_to_arrive_keep_no_writer_out():
    with folder() as path:
        make(path)
        words = [PROGRAM, "ask", str(path), "stdin"]
        with subprocess.Popen(words, stdin=subprocess.PIPE, stdout=subprocess.PIPE, bufsize=0) as asking:
            asking.stdin.write(b"key,question,a,b,c,d\nq1,find,1,,,\n")
            assert asking.stdout.readline().startswith(b"q1,")
            ends(run("edit", str(path), "stdin", "--wait", "0", given=sheet_of("z1,link,9,5")), b"z1,done,8\n", 0)
            asking.stdin.write(b"q2,find,1,,,\n")
            asking.stdin.close()
            assert asking.stdout.read().startswith(b"q2,")
        is_whole(path)


# ---- many readers and a writer

BURST = 10


def burst(number):
    """A sheet that is one commit, since it is in a file."""
    return sheet_of(*(f"b{number}-{n},link,{100 + BURST * number + n},5" for n in range(BURST)))


class Writing:
    """Bursts of edits, one after the other; some runs are killed, and then the same burst is sent again."""

    def __init__(self, path, over):
        self.path, self.over = path, over
        self.begun = self.done = self.killed = 0
        self.failed = None
        self.thread = threading.Thread(target=self.work)

    def send(self, sheet, drawn):
        """Whether the run was not killed; then all its records are done, or were done before."""
        child = subprocess.Popen([PROGRAM, "edit", str(self.path), str(sheet), "--wait", "600"], stdout=subprocess.PIPE, stderr=subprocess.PIPE)
        if drawn.random() < 0.4:
            time.sleep(drawn.random() * 0.2)
            child.kill()
        stdout, stderr = child.communicate(timeout=PATIENCE)
        if child.returncode == -9:
            self.killed += 1
            return False
        words = {line.split(b",")[1] for line in stdout.splitlines()}
        assert child.returncode == 0 and stderr == b"" and words in ({b"done"}, {b"again"}), (stdout, stderr)
        return True

    def work(self):
        drawn = random.Random(3)
        try:
            while not self.over.is_set():
                sheet = self.path.with_name("burst.csv")
                sheet.write_bytes(burst(self.begun))
                self.begun += 1
                while not self.send(sheet, drawn):
                    pass
                self.done += 1
        except AssertionError as failure:
            self.failed = failure


def reading(path, writing, over, drawn, seen):
    """Asks again and again: each answer is a state that was committed, at least as new as what was acknowledged when it was asked."""
    while not over.is_set():
        before = writing.done
        child = subprocess.Popen([PROGRAM, "log", str(path), "--wait", "600"], stdout=subprocess.PIPE, stderr=subprocess.PIPE)
        if drawn.random() < 0.1:
            time.sleep(drawn.random() * 0.05)
            child.kill()
        stdout, stderr = child.communicate(timeout=PATIENCE)
        if child.returncode != -9:
            seen.append((before, len(stdout.splitlines()) - 1 - 7, writing.begun, child.returncode, stderr))


def test_readers_and_a_writer_with_kills_among_them():
    over, seen = threading.Event(), []
    with folder() as path:
        make(path)
        writing = Writing(path, over)
        readers = [threading.Thread(target=reading, args=(path, writing, over, random.Random(n), seen)) for n in range(8)]
        for thread in [writing.thread, *readers]:
            thread.start()
        time.sleep(SECONDS)
        over.set()
        for thread in [writing.thread, *readers]:
            thread.join()
        assert writing.failed is None, writing.failed
        for before, records, begun_then, status, stderr in seen:
            assert (status, stderr) == (0, b"") and records % BURST == 0 and before <= records // BURST <= begun_then, (before, records, begun_then, status, stderr)
        assert len(seen) >= 8 and writing.done >= 2 and writing.killed >= 1, (len(seen), writing.done, writing.killed)
        is_whole(path)
        ends(run("audit", str(path)), b"sound, and as its log says\n", 0)


# ---- beside SQLite


def assets(path, count=3_000):
    """An inventory of so many assets, each with the value AA: they are on many pages."""
    texts = ["s1,link,1,900000", "s2,class,RAIL,stretch", "s3,route,A1,1:0:900000:+,0:0 900000:900000"]
    texts += [f"e{n},enter,{n + 1},RAIL,A1,B,abs,{n * 100},{n * 100 + 50},AA,0" for n in range(count)]
    sheet = path.with_name("assets.csv")
    sheet.write_bytes(sheet_of(*texts))
    assert run("edit", str(path), str(sheet)).status == 0


def values_in(told):
    """The values that are told of the assets, all of which were changed together each time."""
    if told.status == 3:
        return told.stderr
    return frozenset(line.split(b",")[8] for line in told.stdout.splitlines()[1:])


def values(path, *words):
    return values_in(run("rows", str(path), *words))


def test_an_edit_comes_between_questions_that_never_pause():
    """Each of them is still reading when the next one begins."""
    with folder() as path:
        assets(path)
        over = threading.Event()

        def ask():
            while not over.is_set():
                values(path, "--wait", "60")

        readers = [threading.Thread(target=ask) for _ in range(6)]
        for thread in readers:
            thread.start()
        try:
            time.sleep(0.5)
            for n in range(4):
                ends(run("edit", str(path), "stdin", "--wait", "30", given=sheet_of(f"z{n},link,{n + 2},5")), b"z%d,done,%d\n" % (n, n + 3_004), 0)
        finally:
            over.set()
            for thread in readers:
                thread.join()
        is_whole(path)


@pytest.mark.parametrize("mode, pages", [("WAL", 1_000_000), ("WAL", 20), ("DELETE", 0)])
def test_nothing_but_what_sqlite_has_committed_is_answered(mode, pages):
    with folder() as path:
        assets(path)
        over, commits = threading.Event(), []

        def write():
            with contextlib.closing(sqlite3.connect(path, isolation_level=None, timeout=60)) as db:
                db.execute(f"PRAGMA wal_autocheckpoint = {pages}")
                while not over.is_set():
                    with contextlib.suppress(sqlite3.OperationalError):
                        db.execute("BEGIN IMMEDIATE")
                        db.execute("UPDATE asset SET value = ?", ("ABC"[len(commits) % 3] * 2,))
                        db.execute("COMMIT")
                        commits.append(1)
                    if db.in_transaction:
                        db.execute("ROLLBACK")
                    time.sleep(0.01)

        # sqlite does not wait for a lock where it changes the mode
        with contextlib.closing(sqlite3.connect(path, isolation_level=None)) as db:
            db.execute(f"PRAGMA journal_mode = {mode}")
        writer = threading.Thread(target=write)
        writer.start()
        try:
            # a question that has begun before sqlite's index of the log may have to wait until sqlite has gone
            until = time.monotonic() + 60
            while not commits and time.monotonic() < until:
                time.sleep(0.01)
            until = time.monotonic() + SECONDS / 2
            told = []
            while time.monotonic() < until or (len(commits) < 3 and time.monotonic() < until + 60):
                told.append(values(path, "--wait", "60"))
                # without a log a writer of sqlite's comes between two questions alone, and tries ten times a second
                time.sleep(0.15 if mode == "DELETE" else 0)
        finally:
            over.set()
            writer.join()
        whole = {frozenset([b"AA"]), frozenset([b"BB"]), frozenset([b"CC"])}
        assert told and commits and set(told) <= whole, (len(told), len(commits), set(told) - whole)
        is_whole(path)


def test_nothing_is_answered_of_a_file_into_which_sqlite_copies_its_log_meanwhile():
    drawn = random.Random(5)
    with folder() as path:
        assets(path)
        for n in range(20):
            asking = begun("rows", path, "--wait", "300")
            time.sleep(drawn.random() * 0.1)
            with contextlib.closing(sqlite3.connect(path, isolation_level=None, timeout=60)) as db:
                db.execute("UPDATE asset SET value = ?", ("BCA"[n % 3] * 2,))
                db.execute("PRAGMA wal_checkpoint").fetchall()
            told = values_in(ended(asking))
            assert told in (frozenset(["ABC"[n % 3].encode() * 2]), frozenset(["BCA"[n % 3].encode() * 2])), (n, told)
        is_whole(path)


def test_an_open_transaction_of_sqlite_in_its_log_does_not_keep_questions_out():
    with folder() as path:
        assets(path, 50)
        with contextlib.closing(sqlite3.connect(path, isolation_level=None)) as db:
            assert db.execute("PRAGMA journal_mode = WAL").fetchone() == ("wal",)
            db.execute("UPDATE asset SET value = 'BB'")
            db.execute("BEGIN IMMEDIATE")
            db.execute("UPDATE asset SET value = 'CC'")
            assert values(path, "--wait", "0") == {b"BB"}
            faults(run("edit", str(path), "stdin", "--wait", "0", given=FIRST), "Open")
            db.execute("COMMIT")
            assert values(path, "--wait", "0") == {b"CC"}
        assert values(path, "--wait", "0") == {b"CC"}


def test_an_edit_waits_for_a_reader_of_sqlite():
    with folder() as path:
        make_full(path)
        with contextlib.closing(sqlite3.connect(path, isolation_level=None)) as db:
            db.execute("BEGIN")
            db.execute("SELECT * FROM link").fetchall()
            faults(run("edit", str(path), "stdin", "--wait", "0", given=FIRST), "Open")
            assert run("totals", str(path), "--wait", "0").status == 0
            waiting = begun("edit", path, "stdin", "--wait", "300", given=FIRST)
            time.sleep(0.5)
            assert waiting.poll() is None
            db.execute("COMMIT")
        ends(ended(waiting), AGAIN, 0)


def test_sqlite3_reads_beside_questions_and_is_kept_out_by_an_edit():
    with folder() as path:
        make(path)
        shell = ["sqlite3", str(path), "SELECT count(*) FROM edit"]
        for _ in range(20):
            asking = begun("log", path, "--wait", "60")
            assert subprocess.run(shell, capture_output=True, timeout=60).stdout == b"7\n"
            assert ended(asking).stdout.count(b"\n") == 8
        with held(path):
            told = subprocess.run(shell, capture_output=True, timeout=60)
            assert told.returncode != 0 and b"locked" in told.stderr, told
