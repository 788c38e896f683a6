"""How much memory a run of the program has held."""

import os
import pathlib
import subprocess

from program import PROGRAM


def bytes_of(pid, name):
    status = pathlib.Path(f"/proc/{pid}/status").read_text().splitlines()
    return 1_000 * int(next(line for line in status if line.startswith(name)).split()[1])


def most_of(road, out, *words, given=b""):
    """The most memory that a run of the program has held; what it writes goes to a file."""
    with open(out, "wb") as file:
        child = subprocess.Popen([PROGRAM, words[0], str(road), *words[1:]], stdin=subprocess.PIPE, stdout=file)
        child.stdin.write(given)
        child.stdin.close()
        _, status, used = os.wait4(child.pid, 0)
    child.returncode = os.waitstatus_to_exitcode(status)
    assert child.returncode == 0
    return 1_000 * used.ru_maxrss
