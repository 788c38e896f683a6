"""Long work shows on a terminal how far it is, at which pace, and how long still; behind Ctrl-C the line says how to go on."""

import os
import pathlib
import pty
import re
import signal
import subprocess
import tempfile
import time

import pytest

from program import FIRST, FIRST_REPLIES, HEADER, PATIENCE, Ended, ends, lines, long_sheet, on_terminal, record, run, shown_on
from slowing import run_slowly, slowly
from stores import edit

COUNT = rb"\d{1,3}(?:,\d{3})*"
PACE = rb"(?:, \d{1,3}%)?(?:, " + COUNT + rb" a second)?(?:, \d+ (?:s|min|h) left)?"
WHOLE_PACE = rb", \d{1,3}%, " + COUNT + rb" a second, \d+ (?:s|min|h) left"
TAKEN_AWAY = rb"\r\x1b\[K"
GO_ON = rb"; after Ctrl-C: --resume"
EXPLAINED = rb"(?:explain: [^\r\n]+\r\n)+"

# for an inventory in a file, and for one in memory, which takes a fifth of the time
SHEET, REPLIES = long_sheet(20_000)
LONG, LONG_REPLIES = long_sheet(60_000)
BAD_RECORD = b"of one field\n"


def line(done, pace=PACE, advice=b""):
    """A line that says how far work is."""
    return rb"\r" + done + pace + advice + rb"\x1b\[K"


def has_shown(*parts):
    """Whether a terminal has shown two such lines."""
    whole = re.compile(line(*parts))
    return lambda shown: len(whole.findall(shown)) > 1


def counts_of(shown, noun):
    """The counts that were shown, which never sink."""
    counts = [int(count.replace(b",", b"")) for count in re.findall(rb"\r(" + COUNT + rb") " + noun, shown)]
    assert counts == sorted(counts) and counts, shown[-500:]
    return counts


@pytest.fixture
def top():
    with tempfile.TemporaryDirectory() as folder:
        yield pathlib.Path(folder)


@pytest.fixture
def sheet(top):
    (top / "sheet.csv").write_bytes(SHEET)
    return top / "sheet.csv"


@pytest.fixture
def long(top):
    (top / "long.csv").write_bytes(LONG)
    return top / "long.csv"


def test_a_sheet_in_a_file_shows_its_part_its_pace_and_its_rest(top, sheet):
    records = COUNT + rb" records"
    ended, shown = run_slowly(["stderr"], "edit", top / "roads.db", sheet, is_enough=has_shown(records, WHOLE_PACE, GO_ON))
    ends(ended, REPLIES, 0)
    making = re.escape(b"makes a new inventory: %s/roads.db\r\n" % bytes(top))
    assert re.fullmatch(making + rb"(?:" + line(records, advice=GO_ON) + rb")+" + TAKEN_AWAY, shown), shown[-500:]
    assert counts_of(shown, b"records")[-1] <= 20_000
    assert all(int(percent) <= 100 for percent in re.findall(rb"(\d+)%", shown))
    assert max(len(it) for it in shown.split(b"\r")) < 80 + len(b"\x1b[K")


def test_what_is_kept_in_memory_alone_is_not_gone_on_with(long):
    records = COUNT + rb" records"
    ended, shown = run_slowly(["stderr"], "edit", ":memory:", long, is_enough=has_shown(records, WHOLE_PACE))
    ends(ended, LONG_REPLIES, 0)
    assert re.fullmatch(rb"(?:" + line(records) + rb")+" + TAKEN_AWAY, shown), shown[-500:]


def test_a_sheet_that_is_sent_slowly_shows_its_count_and_its_pace(top):
    """How much is still to come is not known."""
    with slowly(["stderr"], "edit", top / "roads.db", "stdin", stdin=subprocess.PIPE, stdout=subprocess.PIPE) as slow:
        sent = SHEET.splitlines(keepends=True)
        slow.child.stdin.write(b"".join(sent[:21]))
        for text in sent[21:61]:
            slow.child.stdin.write(text)
            slow.child.stdin.flush()
            time.sleep(0.05)
        stdout, _ = slow.child.communicate(timeout=PATIENCE)
    shown = slow.shown()
    ends(Ended(subprocess.CompletedProcess([], slow.child.returncode, stdout, b"")), b"".join(REPLIES.splitlines(keepends=True)[:60]), 0)
    sent_line = line(COUNT + rb" records", rb"(?:, " + COUNT + rb" a second)?", GO_ON)
    assert re.search(rb"\r\n(?:" + sent_line + rb")+" + TAKEN_AWAY + rb"$", shown), shown[-500:]
    assert 20 < counts_of(shown, b"records")[-1] <= 60


def test_after_ctrl_c_the_line_stands_there_and_the_sheet_goes_on(top, sheet):
    with tempfile.TemporaryFile() as replies:
        with slowly(["stderr"], "edit", top / "roads.db", sheet, stdout=replies) as slow:
            slow.slow_until(has_shown(COUNT + rb" records", WHOLE_PACE, GO_ON))
            slow.child.send_signal(signal.SIGINT)
            assert slow.child.wait(timeout=PATIENCE) == -signal.SIGINT
        replies.seek(0)
        answered = replies.read()
    assert re.search(line(COUNT + rb" records", WHOLE_PACE, GO_ON) + rb"$", slow.shown()), slow.shown()[-500:]
    done = answered.count(b"\n")
    assert REPLIES.startswith(answered) and done >= counts_of(slow.shown(), b"records")[-1]
    ended = run("edit", top / "roads.db", sheet, "--resume")
    behind = int(re.fullmatch(rb"resumes behind record (\d+), key k\1\n", ended.stderr)[1])
    assert done <= behind < 20_000
    assert (ended.status, ended.stdout) == (0, b"".join(REPLIES.splitlines(keepends=True)[behind:])), ended
    assert run("log", top / "roads.db").stdout.count(b"\n") == 20_001


def test_a_sheet_that_is_gone_on_with_shows_the_pace_of_what_is_left(top, sheet):
    ends(edit(top / "roads.db", b"".join(SHEET.splitlines(keepends=True)[:5_001])), b"".join(REPLIES.splitlines(keepends=True)[:5_000]), 0)
    ended, shown = run_slowly(
        ["stderr"], "edit", top / "roads.db", sheet, "--resume", is_enough=has_shown(COUNT + rb" records", WHOLE_PACE, GO_ON)
    )
    ends(ended, b"".join(REPLIES.splitlines(keepends=True)[5_000:]), 0)
    assert counts_of(shown, b"records")[-1] <= 15_000
    assert all(int(percent) >= 20 for percent in re.findall(rb"(\d+)%", shown)), shown


def test_a_check_shows_how_far_it_is(long):
    ended, shown = run_slowly(["stderr"], "check", ":memory:", long, is_enough=has_shown(rb"tried " + COUNT + rb" lines", WHOLE_PACE))
    ends(ended, LONG_REPLIES, 0)
    said = rb"60000 records: 60000 would be done, 0 again, 0 refused\r\nchanges: adds 60000 links\r\n"
    assert re.fullmatch(rb"(?:" + line(rb"tried " + COUNT + rb" lines") + rb")+" + TAKEN_AWAY + said, shown), shown[-500:]


def test_questions_show_how_far_they_are(top):
    ends(edit(top / "roads.db", FIRST), FIRST_REPLIES, 0)
    asked = b"".join(b"q%d,translate,A1,int,1/3,abs\n" % n for n in range(300_000))
    (top / "questions.csv").write_bytes(b"key,question,a,b,c,d\n" + asked)
    ended, shown = run_slowly(
        ["stderr"], "ask", top / "roads.db", top / "questions.csv", is_enough=has_shown(COUNT + rb" lines", rb", \d{1,3}%, .*left")
    )
    ends(ended, b"".join(b"q%d,position,A1,abs,3200\n" % n for n in range(300_000)), 0)
    assert re.fullmatch(rb"(?:" + line(COUNT + rb" lines") + rb")+" + TAKEN_AWAY, shown), shown[-500:]
    assert counts_of(shown, b"lines")[-1] <= 300_000


def test_an_audit_says_how_many_edits_there_are(top):
    ends(edit(top / "roads.db", LONG), LONG_REPLIES, 0)
    edits = COUNT + rb" of 60,000 edits"
    ended, shown = run_slowly(["stderr"], "audit", top / "roads.db", is_enough=has_shown(edits, WHOLE_PACE))
    ends(ended, b"sound, and as its log says\n", 0)
    assert re.fullmatch(rb"(?:" + line(edits) + rb")+" + TAKEN_AWAY, shown), shown[-500:]


def test_a_line_is_taken_away_before_a_fault():
    sheet = LONG + BAD_RECORD
    ended, shown = run_slowly(["stderr"], "edit", ":memory:", "stdin", given=sheet, is_enough=has_shown(COUNT + rb" records"))
    ends(ended, LONG_REPLIES, 3)
    fault = EXPLAINED + rb"roadlrs: fault BadCsv\r\n"
    assert re.fullmatch(rb"(?:" + line(COUNT + rb" records") + rb")+" + TAKEN_AWAY + fault, shown), shown[-500:]


def test_replies_on_a_terminal_are_whole_lines_beside_it():
    refused = HEADER + record("k,link,0,5") * 60_000
    for sheet, replies, status in [(LONG, LONG_REPLIES, 0), (refused, lines("k,refused,Malformed:a") * 60_000, 1)]:
        ended, shown = run_slowly(["stdout", "stderr"], "edit", ":memory:", "stdin", given=sheet, is_enough=has_shown(COUNT + rb" records"))
        ends(ended, b"", status)
        pieces = rb"(?:" + line(COUNT + rb" records") + rb")+" + TAKEN_AWAY
        assert re.search(pieces, shown), shown[-500:]
        assert re.sub(pieces, b"", shown).replace(b"\r\n", b"\n") == replies


def test_nothing_is_shown_where_standard_error_is_no_terminal(top, sheet):
    with tempfile.TemporaryFile() as errors, tempfile.TemporaryFile() as replies:
        began = time.monotonic()
        with slowly([], "edit", top / "roads.db", sheet, stdout=replies, stderr=errors) as slow:
            slow.slow_until(lambda _: time.monotonic() > began + 3)
            assert slow.child.wait(timeout=PATIENCE) == 0
        errors.seek(0)
        replies.seek(0)
        assert (errors.read(), replies.read()) == (b"", REPLIES)


def test_nothing_is_shown_to_whoever_types_a_sheet():
    outer, inner = pty.openpty()
    reader, echoed = shown_on(outer)
    try:
        with slowly(["stderr"], "edit", ":memory:", "stdin", stdin=inner, stdout=subprocess.PIPE) as slow:
            for text in FIRST.splitlines(keepends=True):
                os.write(outer, text)
                time.sleep(0.3)
            os.write(outer, b"\x04")
            replies = slow.child.stdout.read()
            assert slow.child.wait(timeout=PATIENCE) == 0
        assert (replies, slow.shown()) == (FIRST_REPLIES, b"")
    finally:
        os.close(inner)
        reader.join()
        os.close(outer)
    assert b"".join(echoed).startswith(HEADER[:-1])


def test_an_opening_says_how_large_the_file_is(top):
    """From four megabytes on, and only while it lasts."""
    sheet, replies = long_sheet(70_000)
    ends(edit(top / "roads.db", sheet), replies, 0)
    megabytes = (top / "roads.db").stat().st_size // 1_000_000
    ended, shown = on_terminal(["stderr"], "totals", top / "roads.db")
    ends(ended, b"", 0)
    opening = b"opening %s/roads.db, %d MB, about 1 s" % (bytes(top), megabytes)
    assert megabytes >= 4 and shown == opening + b"\r\x1b[K", (megabytes, shown)
