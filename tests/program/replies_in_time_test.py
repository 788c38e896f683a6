"""Each reply line goes out before the program waits for more of the sheet: whoever sends records one by one can wait for each reply."""

import os
import pathlib
import pty
import select
import subprocess
import tempfile

import pytest

from program import HEADER, PATIENCE, PROGRAM
from stores import folder, rows_of

SURVEY_HEADER = b"key,asset,class,route,side,method,from,to,value,offset\n"


def line_from(stream, count=1):
    """The next lines of a stream, of which nothing behind them has come yet."""
    line = b""
    while line.count(b"\n") < count or not line.endswith(b"\n"):
        ready, _, _ = select.select([stream], [], [], PATIENCE)
        assert ready, f"no reply came after {line!r}"
        piece = os.read(stream, 65536)
        assert piece, f"the replies ended after {line!r}"
        line += piece
    return line


def answers_each(words, header, exchanges, given, to, replies):
    """Each record that goes to the program is answered before the next one goes."""
    program = subprocess.Popen([PROGRAM, *words], stdin=given, stdout=replies[1])
    try:
        os.close(replies[1])
        to = to() if callable(to) else to
        if given not in (None, subprocess.DEVNULL):
            os.close(given)
        os.write(to, header)
        for sent, expected in exchanges:
            os.write(to, sent)
            if expected:
                assert line_from(replies[0], expected.count(b"\n")) == expected
        os.close(to)
        return program.wait(PATIENCE)
    finally:
        program.kill()
        program.wait()
        os.close(replies[0])


def links(count=10):
    return [(b"k%d,link,%d,5,,,,,,,\n" % (n, n), b"k%d,done,%d\n" % (n, n)) for n in range(1, count + 1)]


def test_a_pipe_is_answered_record_by_record():
    given, to = os.pipe()
    assert answers_each(["edit", ":memory:", "stdin"], HEADER, links(), given, to, os.pipe()) == 0


def done(*numbers):
    return b"".join(b"k%d,done,%d\n" % (n, n) for n in numbers)


# What is sent, and the lines that have to come before anything else is sent.
PIECES = {
    "each record": links(),
    "records behind empty lines": [(b"\n\r\n" + sent + b"\n\n", line) for sent, line in links()],
    "lines that end in two bytes": [(sent.replace(b"\n", b"\r\n"), line) for sent, line in links()],
    "a quoted field": [(b'"k1",link,1,5,,,,,,,\nk2,link,2,5,,,,,,,\nk3,li', done(1, 2)), (b"nk,3,5,,,,,,,\n", done(3))],
    "two records and a half": [(b"k1,link,1,5,,,,,,,\nk2,link,2,5,,,,,,,\nk3,link,3,", done(1, 2)), (b"5,,,,,,,\n", done(3))],
    "half a record": [(b"k1,link", b""), (b",1,5,,,,,", b""), (b",,\n", done(1))],
    "many records": [(b"".join(b"k%d,link,%d,5,,,,,,,\n" % (n, n) for n in range(1, 1_001)), done(*range(1, 1_001))), (b"x1,link,1,5,,,,,,,\n", b"x1,refused,LinkKnown\n")],
}


@pytest.mark.parametrize("name", PIECES)
def test_a_pipe_into_a_file_is_answered_as_its_records_arrive(name):
    with folder() as path:
        given, to = os.pipe()
        assert answers_each(["edit", str(path), "stdin"], HEADER, PIECES[name], given, to, os.pipe()) == (1 if name == "many records" else 0)
        count = sum(line.count(b",done,") for _, line in PIECES[name])
        assert rows_of(path)["link"] == [(n, 5) for n in range(1, count + 1)]


def test_a_survey_through_a_pipe_is_answered_record_by_record():
    given, to = os.pipe()
    exchanges = [(b"k%d,10,SIGN,A1,L,abs,0,,STOP,0\n" % n, b"k%d,refused,NoClass\n" % n) for n in range(1, 11)]
    assert answers_each(["survey", ":memory:", "stdin"], SURVEY_HEADER, exchanges, given, to, os.pipe()) == 1


def test_a_named_pipe_is_answered_record_by_record():
    with tempfile.TemporaryDirectory() as folder:
        path = pathlib.Path(folder) / "sheet"
        os.mkfifo(path)
        opened = lambda: os.open(path, os.O_WRONLY)
        assert answers_each(["edit", ":memory:", str(path)], HEADER, links(), subprocess.DEVNULL, opened, os.pipe()) == 0


def test_a_terminal_is_answered_record_by_record():
    outer, inner = pty.openpty()
    program = subprocess.Popen([PROGRAM, "edit", ":memory:", "stdin"], stdin=inner, stdout=subprocess.PIPE)
    try:
        os.write(outer, HEADER)
        for sent, expected in links():
            os.write(outer, sent)
            assert line_from(program.stdout.fileno()) == expected
        os.write(outer, b"\x04")
        assert program.wait(PATIENCE) == 0
    finally:
        program.kill()
        program.wait()
        program.stdout.close()
        os.close(inner)
        os.close(outer)
