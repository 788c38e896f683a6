"""A page typed into one shell, from its first command to its last: what each prints is what the page shows."""

import contextlib
import os
import pathlib
import re
import select
import signal
import subprocess
import time

from documents import blocks, typed
from program import PROGRAM, TOP
from serving import free_port

# A block of one of these languages is a file: the first of this ending that the next commands name.
ENDINGS = {"csv": "csv", "sh": "sh", "python": "py", "sql": "sql"}

END = re.compile(rb"\x1e(\d+)\n")

# The ports that pages serve at.
PORTS = ["8080", "8081"]

# Seconds that a command may take.
PATIENCE = 60


class Shell:
    """One bash in a folder; the commands' outputs are on one stream, and their input has nothing."""

    def __init__(self, folder):
        streams = {"stdin": subprocess.PIPE, "stdout": subprocess.PIPE, "stderr": subprocess.STDOUT}
        env = {**os.environ, "LC_ALL": "C.UTF-8", "TZ": "UTC"}
        self.child = subprocess.Popen(["bash", "--norc"], cwd=folder, env=env, start_new_session=True, **streams)

    def type(self, command, expected):
        """What it wrote, with a line end, and its status. One in the background is waited for until it has written what the page shows."""
        self.child.stdin.write(f"{{ {command}\n}} </dev/null; printf '\\x1e%d\\n' $?\n".encode())
        self.child.stdin.flush()
        is_behind = command.endswith(" &")
        written, until = b"", time.monotonic() + PATIENCE
        while not (end := END.search(written)) or (is_behind and END.sub(b"", written) != expected.encode()):
            ready, _, _ = select.select([self.child.stdout], [], [], max(0, until - time.monotonic()))
            piece = os.read(self.child.stdout.fileno(), 65_536) if ready else b""
            assert piece, (command, written)
            written += piece
        written = END.sub(b"", written, count=1).decode()
        return written + "\n" * (written != "" and not written.endswith("\n")), int(end[1])

    def end(self):
        """Ends it, and all that it has begun."""
        with contextlib.suppress(ProcessLookupError):
            os.killpg(self.child.pid, signal.SIGKILL)
        self.child.communicate()


def put_files(folder, files, text):
    """Writes each file that stands above a block of commands."""
    for ending, content in files.items():
        (folder / re.search(rf"[\w.-]+\.{ending}\b", text)[0]).write_text(content)


def play(page, folder):
    """Types a page into a shell, in a folder that has the program and the examples; hands back how many commands there were.

    A command that ends in another status than 0 shows refusals, or its status by `; echo $?`."""
    (folder / "examples").symlink_to(TOP / "examples")
    (folder / "roadlrs").symlink_to(pathlib.Path(PROGRAM).resolve())
    ports = {port: str(free_port()) for port in PORTS}
    with_ports = lambda text: re.sub("|".join(PORTS), lambda found: ports[found[0]], text)
    shell, files, seen = Shell(folder), {}, 0
    try:
        for language, text in blocks(page):
            text = with_ports(text)
            if language:
                assert ENDINGS[language] not in files, text
                files[ENDINGS[language]] = text
                continue
            put_files(folder, files, text)
            files = {}
            for command, expected in typed(text):
                written, status = shell.type(command, expected)
                assert written == expected, f"{page.name}: {command}\n--- the page\n{expected}\n--- written\n{written}"
                assert status == (1 if ",refused," in expected else 0), f"{page.name}: {command}: status {status}"
                seen += 1
    finally:
        shell.end()
    assert not files, files
    return seen
