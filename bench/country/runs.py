"""Runs of the program that bench/country/country.py measures."""

import os
import pathlib
import subprocess
import time


class Run:
    """A run of the program to its end: the seconds of the clock and the processor, the most memory, what it wrote, and its replies."""

    def __init__(self, words, replies):
        started, self.memory, self.written, done = time.monotonic(), 0, 0, 0
        with open(replies, "wb") as out:
            child = subprocess.Popen(list(map(str, words)), stdout=out, stdin=subprocess.DEVNULL)
        while not done:
            self.memory = max(self.memory, of_process(child.pid, "status", "VmHWM") / 1_000)
            self.written = max(self.written, of_process(child.pid, "io", "write_bytes") / 1_000_000)
            time.sleep(min(0.05, max(0.002, (time.monotonic() - started) / 100)))
            done, status, used = os.wait4(child.pid, os.WNOHANG)
        child.returncode = self.status = os.waitstatus_to_exitcode(status)
        self.clock, self.processor = time.monotonic() - started, used.ru_utime + used.ru_stime
        self.replies = pathlib.Path(replies).read_bytes()


def of_process(pid, file, name):
    """A number that the system keeps of a process, or 0 once it has ended."""
    try:
        lines = pathlib.Path(f"/proc/{pid}/{file}").read_text().splitlines()
    except OSError:
        return 0
    return next((int(line.split()[1]) for line in lines if line.startswith(name + ":")), 0)
