"""Runs that take long: the program is stopped again and again while its clock goes on, until its terminal has shown enough."""

import contextlib
import os
import pty
import signal
import subprocess
import tempfile
import time

from program import BUILT, PATIENCE, Ended, shown_on

# Seconds for which the program runs, and then stands still.
RUNS, STANDS = 0.01, 0.3


class Slow:
    """A run of the program, with the streams of some names on one terminal."""

    def __init__(self, child, seen):
        self.child, self.seen = child, seen

    def shown(self):
        return b"".join(self.seen)

    def slow_until(self, is_enough):
        """Lets it run a little now and then, until what the terminal shows is enough, or it ends."""
        ends = time.monotonic() + PATIENCE
        while self.child.poll() is None and not is_enough(self.shown()):
            assert time.monotonic() < ends, self.shown()[-500:]
            self.child.send_signal(signal.SIGSTOP)
            time.sleep(STANDS)
            self.child.send_signal(signal.SIGCONT)
            time.sleep(RUNS)


@contextlib.contextmanager
def slowly(names, *words, **streams):
    """A slow run. A stream that is neither on the terminal nor given has nothing, or goes nowhere."""
    outer, inner = pty.openpty()
    reader, seen = shown_on(outer)
    nowhere = dict.fromkeys(["stdin", "stdout", "stderr"], subprocess.DEVNULL)
    child = subprocess.Popen([BUILT, *words], **{**nowhere, **streams, **dict.fromkeys(names, inner)})
    try:
        yield Slow(child, seen)
    finally:
        child.kill()
        child.wait()
        os.close(inner)
        reader.join()
        os.close(outer)


def run_slowly(names, *words, is_enough, given=b""):
    """A run to its end that was slowed, with these streams on one terminal, and what that shows."""
    with tempfile.TemporaryFile() as stdin, tempfile.TemporaryFile() as stdout:
        stdin.write(given)
        stdin.seek(0)
        streams = {name: file for name, file in [("stdin", stdin), ("stdout", stdout)] if name not in names}
        with slowly(names, *words, **streams) as slow:
            slow.slow_until(is_enough)
            slow.child.wait(timeout=PATIENCE)
        stdout.seek(0)
        return Ended(subprocess.CompletedProcess([], slow.child.returncode, stdout.read(), b"")), slow.shown()
