"""Runs the program as a user does. ROADLRS in the environment names another program to run in its place."""

import os
import pathlib
import pty
import resource
import signal
import subprocess
import threading

TOP = pathlib.Path(__file__).resolve().parents[2]
PROGRAM = os.environ.get("ROADLRS", str(TOP / "roadlrs"))

# The file that ./roadlrs builds and runs.
BUILT = os.environ.get("ROADLRS", str(TOP / "crates" / "lrs_cli" / "out" / "lrs_cli"))

HEADER = b"key,verb,a,b,c,d,e,f,g,h,i\n"

# Seconds that a run may take on a machine with much beside it.
PATIENCE = 600


class Ended:
    """What a run wrote, as far as that was caught, and its status."""

    def __init__(self, done):
        self.stdout, self.stderr, self.status = done.stdout or b"", done.stderr or b"", done.returncode

    def __repr__(self):
        return f"status {self.status}, stdout {self.stdout!r}, stderr {self.stderr!r}"


def run(*words, given=b"", **settings):
    """Runs the program with these words and this standard input, and catches what it writes unless that goes elsewhere."""
    settings = {"input": given, "stdout": subprocess.PIPE, "stderr": subprocess.PIPE, **settings}
    return Ended(subprocess.run([PROGRAM, *words], timeout=PATIENCE, **settings))


def run_sheet(sheet):
    return run("edit", ":memory:", "stdin", given=sheet)


def with_files_up_to(limit):
    """Settings of a run whose files may have so many bytes; a write beyond fails, as on a full disk."""

    def prepare():
        signal.signal(signal.SIGXFSZ, signal.SIG_IGN)
        resource.setrlimit(resource.RLIMIT_FSIZE, (limit, limit))

    return {"preexec_fn": prepare, "restore_signals": False}


def record(text, width=11):
    """The record of these first fields, with empty ones after them, and a line end."""
    return (text + "," * (width - 1 - text.count(",")) + "\n").encode()


def sheet_of(*texts):
    return HEADER + b"".join(record(text) for text in texts)


def lines(*replies):
    return "".join(reply + "\n" for reply in replies).encode()


def ends(ended, stdout, status, stderr=b""):
    """The run wrote exactly this and ended with this status."""
    assert (ended.stdout, ended.stderr, ended.status) == (stdout, stderr, status), ended


def refuses_word(ended, said):
    """The run did nothing, since a word cannot be read: a hint shows it, and the last line says which it is."""
    *hints, last = ended.stderr.splitlines()
    assert (ended.stdout, ended.status, last) == (b"", 2, b"error: " + said.encode()), ended
    assert len(hints) <= 2 and ended.stderr.startswith(b'hint: "'), ended


def faults(ended, name, stdout=b""):
    """The run ended in this fault, after it had written this."""
    ends(ended, stdout, 3, f"roadlrs: fault {name}\n".encode())


def replies(*rows):
    """A sheet of these records gets these replies, line by line."""
    expected = lines(*(reply for _, reply in rows))
    refused = any(",refused," in reply for _, reply in rows)
    ends(run_sheet(sheet_of(*(text for text, _ in rows))), expected, 1 if refused else 0)


# the first sheet: three links, three classes, and a route over two of the links
FIRST = sheet_of(
    "s1,link,1,5000",
    "s2,link,2,3000",
    "s3,link,3,2000",
    "s4,class,SPEED,exclusive",
    "s5,class,RAIL,stretch",
    "s6,class,SIGN,point",
    "s7,route,A1,1:0:5000:+ 2:0:3000:-,0:0 5000:6000 8000:9000",
)
FIRST_REPLIES = lines(*(f"s{n},done,{n}" for n in range(1, 8)))


def long_sheet(count):
    """A sheet of so many links, and the replies to it."""
    sheet = HEADER + b"".join(b"k%d,link,%d,5,,,,,,,\n" % (n, n) for n in range(1, count + 1))
    return sheet, b"".join(b"k%d,done,%d\n" % (n, n) for n in range(1, count + 1))


def shown_on(terminal):
    """Reads all that is written to a terminal, on a thread of its own."""
    seen = []

    def read():
        while True:
            try:
                piece = os.read(terminal, 65536)
            except OSError:
                return
            if not piece:
                return
            seen.append(piece)

    reader = threading.Thread(target=read)
    reader.start()
    return reader, seen


def on_terminal(names, *words, **settings):
    """A run with the streams of these names on one terminal, and what that shows."""
    outer, inner = pty.openpty()
    reader, seen = shown_on(outer)
    try:
        ended = run(*words, **settings, **dict.fromkeys(names, inner))
    finally:
        os.close(inner)
        reader.join()
        os.close(outer)
    return ended, b"".join(seen)


def run_on_terminal(sheet, *names, **streams):
    """The same of a run that does a sheet in memory."""
    return on_terminal(names, "edit", ":memory:", "stdin", given=sheet, **streams)


def after_first(*rows):
    """After the first sheet these records get these replies; the numbers of edits go on at 8."""
    sheet = FIRST + b"".join(record(text) for text, _ in rows)
    refused = any(",refused," in reply for _, reply in rows)
    ends(run_sheet(sheet), FIRST_REPLIES + lines(*(reply for _, reply in rows)), 1 if refused else 0)
