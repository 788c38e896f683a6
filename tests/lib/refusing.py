"""Runs of a proved program in which one call of the system's is refused: an allocation, a read or a write (refusing.c);
or before one of which, a change of a file, the program stops, or the power goes (stopping.c). They need a C compiler."""

import concurrent.futures
import contextlib
import functools
import os
import pathlib
import subprocess
import tempfile

from program import BUILT, PATIENCE, Ended
from serving import free_port

# How many runs there are side by side.
RUNS = min(os.cpu_count() or 2, 4)


@functools.cache
def library(name):
    """A library that stands before the system's, compiled once for all tests."""
    folder = tempfile.TemporaryDirectory()
    made = pathlib.Path(folder.name) / f"{name}.so"
    source = pathlib.Path(__file__).with_name(f"{name}.c")
    subprocess.run([os.environ.get("CC", "cc"), "-O1", "-shared", "-fPIC", "-o", made, source], check=True)
    return made, folder


class Refusal:
    """The call of a kind (ALLOCATION, READ or WRITE) that has this number; and afterwards whether there was such a call."""

    LIBRARY = "refusing"

    def __init__(self, kind, number):
        self.kind, self.number, self.was_reached = kind, number, False

    def settings(self, note):
        return {"REFUSED_NOTE": note, f"REFUSED_{self.kind}": str(self.number)}

    @contextlib.contextmanager
    def environment(self):
        with tempfile.TemporaryDirectory() as folder:
            note = pathlib.Path(folder) / "note"
            yield {**os.environ, "LD_PRELOAD": str(library(self.LIBRARY)[0]), **self.settings(str(note))}
            self.was_reached = note.exists()

    def run(self, *words, given=b""):
        """Runs the program with these words, the first its path."""
        with self.environment() as env:
            return Ended(subprocess.run(words, input=given, capture_output=True, env=env, timeout=PATIENCE))


class Stop(Refusal):
    """A stop before the change of a file that has this number; its kind is what stops (`program`, `tearing` or `power`)."""

    LIBRARY = "stopping"

    def settings(self, note):
        return {"STOPPED_NOTE": note, "STOPPED_BY": self.kind, "STOPPED_AT": str(self.number)}


def with_each_refused(kind, test, first=1, step=1, most=100_000, what=Refusal):
    """Gives the test each refusal or stop from the first on, several side by side, until none is reached any more; how many were."""
    library(what.LIBRARY)
    reached = 0
    with concurrent.futures.ThreadPoolExecutor(RUNS) as pool:
        for start in range(first, most, RUNS * step):
            refusals = [what(kind, number) for number in range(start, start + RUNS * step, step)]
            list(pool.map(test, refusals))
            reached += sum(refusal.was_reached for refusal in refusals)
            if not refusals[-1].was_reached:
                return reached
    raise AssertionError(f"{most} calls or more: {kind}")


def fault_of(ended):
    """The fault that the program named as it stopped."""
    assert ended.status == 3, ended
    assert ended.stderr.startswith(b"roadlrs: fault ") and ended.stderr.endswith(b"\n"), ended
    return ended.stderr[len(b"roadlrs: fault ") : -1].decode()


def refused_before_listening(path, number):
    """Whether the allocation of this number is one of those before a server over this file listens."""
    refusal = Refusal("ALLOCATION", number)
    words = [BUILT, "serve", path, str(free_port()), "1"]
    with refusal.environment() as env, subprocess.Popen(words, env=env, stdout=subprocess.PIPE, stderr=subprocess.DEVNULL) as program:
        program.stdout.readline()
        reached = pathlib.Path(env["REFUSED_NOTE"]).exists()
        program.kill()
    return reached


def greatest(holds, least=0, most=1_000_000):
    """The greatest number of which this holds; it holds of all below it."""
    while least < most:
        middle = (least + most + 1) // 2
        least, most = (middle, most) if holds(middle) else (least, middle - 1)
    return least


def allocations_of_an_opening(path):
    """How many allocations there are before a server over this file listens."""
    return greatest(lambda number: refused_before_listening(path, number))
