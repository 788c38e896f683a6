"""Where replies, help and progress go: full devices, closed streams, terminals; and sheets that come slowly."""

import contextlib
import os
import pathlib
import re
import resource
import select
import socket
import subprocess
import tempfile
import time

from program import (
    FIRST,
    FIRST_REPLIES,
    HEADER,
    PATIENCE,
    PROGRAM,
    Ended,
    ends,
    faults,
    lines,
    long_sheet,
    record,
    run,
    run_on_terminal,
    run_sheet,
)

LONG, LONG_REPLIES = long_sheet(60_000)
BAD_RECORD = b"of one field\n"
EXPLAINED = rb"(?:explain: [^\r\n]+\r\n)+"


def onto_full_device(*words, given=b""):
    with open("/dev/full", "wb") as full:
        return run(*words, given=given, stdout=full)


def with_closed(redirection, *words, given=b""):
    """A run that begins with a stream closed, as the shell does for this redirection."""
    return run("-c", f'exec "$0" "$@" {redirection}', PROGRAM, *words, given=given, executable="sh")


def test_replies_to_a_full_device():
    refused = HEADER + record("k,link,0,5") * 300
    for sheet in [FIRST, LONG, refused, FIRST + BAD_RECORD]:
        faults(onto_full_device("edit", ":memory:", "stdin", given=sheet), "Write")


def test_a_full_device_is_no_fault_where_there_is_no_reply():
    ends(onto_full_device("edit", ":memory:", "stdin", given=HEADER), b"", 0)
    faults(onto_full_device("edit", ":memory:", "stdin", given=b"key,verb\n"), "BadHeader")


def test_help_to_a_full_device():
    for words in [["--help"], ["edit", "--help"], ["strip", "--help"], ["--version"]]:
        faults(onto_full_device(*words), "Write")


def test_the_status_tells_where_the_standard_error_is_full():
    with open("/dev/full", "wb") as full:
        ends(run("edit", stderr=full), b"", 2)
        ends(run("edit", ":memory:", "stdin", given=FIRST + BAD_RECORD, stderr=full), FIRST_REPLIES, 3)


def test_a_closed_standard_output():
    faults(with_closed(">&-", "edit", ":memory:", "stdin", given=FIRST), "Write")
    faults(with_closed(">&-", "--help"), "Write")
    ends(with_closed(">&-", "edit", ":memory:", "stdin", given=HEADER), b"", 0)


def test_a_sheet_is_not_written_to_where_the_standard_output_is_closed():
    with tempfile.TemporaryDirectory() as folder:
        sheet = pathlib.Path(folder) / "sheet"
        sheet.write_bytes(FIRST)
        faults(with_closed(">&-", "edit", ":memory:", str(sheet)), "Write")
        assert sheet.read_bytes() == FIRST


def test_a_closed_standard_error():
    ends(with_closed("2>&-", "edit", ":memory:", "stdin", given=FIRST), FIRST_REPLIES, 0)
    ends(with_closed("2>&-", "edit", ":memory:", "stdin", given=FIRST + BAD_RECORD), FIRST_REPLIES, 3)


def test_a_closed_standard_input():
    faults(with_closed("<&-", "edit", ":memory:", "stdin"), "Read")


def test_a_sheet_that_breaks_off_unread():
    """The records that were read whole have their lines."""
    for taken, answered in [(0, 0), (len(HEADER), 0), (len(FIRST) - 10, 6), (len(FIRST), 7)]:
        near, far = socket.socketpair()
        # a socket that is closed with something unread in it fails the reads of the other, once that has what was sent
        far.send(b"unread")
        near.send(FIRST[:taken])
        near.close()
        with far:
            ended = run("edit", ":memory:", "stdin", given=None, stdin=far)
        faults(ended, "Read", b"".join(FIRST_REPLIES.splitlines(keepends=True)[:answered]))


def test_replies_into_a_pipe_that_is_closed():
    streams = {"stdin": subprocess.PIPE, "stdout": subprocess.PIPE, "stderr": subprocess.PIPE}
    with tempfile.TemporaryDirectory() as folder:
        sheet = pathlib.Path(folder) / "sheet"
        sheet.write_bytes(LONG)
        for bytes_read in [0, 1, 100_000]:
            with subprocess.Popen([PROGRAM, "edit", ":memory:", str(sheet)], **streams) as child:
                taken = child.stdout.read(bytes_read)
                child.stdout.close()
                errors = child.communicate(timeout=PATIENCE)[1]
            assert taken == LONG_REPLIES[:bytes_read], taken[-100:]
            assert (errors, child.returncode) == (b"", 3), (errors, child.returncode)


def test_replies_into_a_file_that_takes_only_so_much():
    """What was written is the beginning of the replies: no line says more than was done."""
    for room in [0, 10, 100_000]:
        with tempfile.TemporaryFile() as replies:
            limit = lambda: resource.setrlimit(resource.RLIMIT_FSIZE, (room, room))
            settings = {"stdout": replies, "preexec_fn": limit, "restore_signals": False}
            faults(run("edit", ":memory:", "stdin", given=LONG, **settings), "Write")
            replies.seek(0)
            assert replies.read() == LONG_REPLIES[:room]


def test_a_sheet_that_comes_byte_by_byte():
    streams = {"stdin": subprocess.PIPE, "stdout": subprocess.PIPE, "stderr": subprocess.PIPE}
    with subprocess.Popen([PROGRAM, "edit", ":memory:", "stdin"], bufsize=0, **streams) as child:
        for byte in FIRST:
            child.stdin.write(bytes([byte]))
        stdout, stderr = child.communicate(timeout=PATIENCE)
    ends(Ended(subprocess.CompletedProcess([], child.returncode, stdout, stderr)), FIRST_REPLIES, 0)


def test_a_standard_input_that_does_not_wait():
    """Another program may have set the pipe so: what is still to come is waited for."""
    reader, writer = os.pipe()
    os.set_blocking(reader, False)
    with subprocess.Popen([PROGRAM, "edit", ":memory:", "stdin"], stdin=reader, stdout=subprocess.PIPE, stderr=subprocess.PIPE) as child:
        os.close(reader)
        with open(writer, "wb", buffering=0) as sheet:
            for start in range(0, len(FIRST), 60):
                time.sleep(0.1)
                sheet.write(FIRST[start : start + 60])
        stdout, stderr = child.communicate(timeout=PATIENCE)
    ends(Ended(subprocess.CompletedProcess([], child.returncode, stdout, stderr)), FIRST_REPLIES, 0)


def test_a_standard_output_that_does_not_wait():
    """A reader that is slow gets all lines."""
    reader, writer = os.pipe()
    os.set_blocking(writer, False)
    with tempfile.TemporaryDirectory() as folder:
        sheet = pathlib.Path(folder) / "sheet"
        sheet.write_bytes(LONG)
        with subprocess.Popen([PROGRAM, "edit", ":memory:", str(sheet)], stdout=writer, stderr=subprocess.PIPE) as child:
            os.close(writer)
            time.sleep(1)
            with open(reader, "rb") as replies:
                stdout = replies.read()
            stderr = child.communicate(timeout=PATIENCE)[1]
    ends(Ended(subprocess.CompletedProcess([], child.returncode, stdout, stderr)), LONG_REPLIES, 0)


def test_a_standard_error_that_nobody_reads_stops_nobody():
    """The pipe is full: a line is waited with for a second, and is then not said."""
    for is_waiting in [True, False]:
        reader, writer = os.pipe()
        os.set_blocking(writer, False)
        with contextlib.suppress(BlockingIOError):
            while True:
                os.write(writer, bytes(4_096))
        os.set_blocking(writer, is_waiting)
        before = time.monotonic()
        ends(run("edit", ":memory:", "stdin", given=FIRST + BAD_RECORD, stderr=writer), FIRST_REPLIES, 3)
        ends(run("edit", ":memory:", "stdin", "--explain", given=FIRST + BAD_RECORD, stderr=writer), FIRST_REPLIES, 3)
        ends(run("find", ":memory:", "x", stderr=writer), b"", 2)
        ends(run("nonsense", stderr=writer), b"", 2)
        ends(run("edit", ":memory:", "stdin", given=FIRST, stderr=writer), FIRST_REPLIES, 0)
        assert time.monotonic() - before < 60
        # who reads it again is told
        while os.read(reader, 65_536):
            if not select.select([reader], [], [], 0)[0]:
                break
        ends(run("edit", ":memory:", "stdin", given=FIRST + BAD_RECORD, stderr=writer), FIRST_REPLIES, 3)
        assert os.read(reader, 65_536) == b"roadlrs: fault BadCsv\n"
        os.close(reader)
        os.close(writer)


def test_a_short_sheet_shows_no_progress():
    ended, shown = run_on_terminal(FIRST, "stderr")
    ends(ended, FIRST_REPLIES, 0)
    assert shown == b"", shown


def test_a_last_line_without_an_end_is_told_on_a_terminal():
    note = b"\r\x1b[Knote: the last line of the sheet has no end; look whether it was cut off\r\n"
    for sheet, told in [(FIRST[:-1], note), (FIRST, b""), (FIRST.replace(b"\n", b"\r"), b""), (b"", b"")]:
        ended, shown = run_on_terminal(sheet, "stderr")
        ends(ended, FIRST_REPLIES if sheet else b"", 0)
        assert shown == told, shown
    ends(run_sheet(FIRST[:-1]), FIRST_REPLIES, 0)


def test_the_full_output_of_a_run_on_a_terminal_is_explained():
    with open("/dev/full", "wb") as full:
        ended, shown = run_on_terminal(LONG, "stderr", stdout=full)
    ends(ended, b"", 3)
    assert re.fullmatch(EXPLAINED + rb"roadlrs: fault Write\r\n", shown), shown[-500:]


def test_replies_on_a_terminal_are_whole_lines():
    refused = HEADER + record("k,link,0,5") * 30_000
    for sheet, replies, status in [(LONG, LONG_REPLIES, 0), (refused, lines("k,refused,Malformed:a") * 30_000, 1)]:
        ended, shown = run_on_terminal(sheet, "stdout")
        ends(ended, b"", status)
        assert shown.replace(b"\r\n", b"\n") == replies
