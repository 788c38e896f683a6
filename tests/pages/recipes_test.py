"""docs/recipes: each page runs as it stands, typed into one shell in a folder of its own."""

import os
import pathlib
import random
import re
import signal
import subprocess
import time

import pytest

from documents import blocks
from program import HEADER, PATIENCE, PROGRAM, TOP, ends, run
from serving import Server
from sessions import play

FOLDER = TOP / "docs" / "recipes"
INDEX = FOLDER / "README.md"

# pages that other tests run
ELSEWHERE = {"README", "postgresql"}

PAGES = sorted(page for page in FOLDER.glob("*.md") if page.stem not in ELSEWHERE)


@pytest.mark.parametrize("page", PAGES, ids=lambda page: page.stem)
def test_a_page_runs_as_it_stands(page, tmp_path):
    assert play(page, tmp_path) > 5


def test_the_index_names_each_page_once():
    named = re.findall(r"\]\((\w+\.md)\)", INDEX.read_text())
    assert sorted(named) == sorted(page.name for page in FOLDER.glob("*.md") if page != INDEX)


# a follower that is killed


def follower(folder, port):
    """The page's script in a session of its own, so that what it has begun can be killed with it."""
    words = ["sh", "follow.sh", f"http://127.0.0.1:{port}", "copy.db", "0.01"]
    quiet = {"stdin": subprocess.DEVNULL, "stdout": subprocess.DEVNULL, "stderr": subprocess.DEVNULL}
    return subprocess.Popen(words, cwd=folder, start_new_session=True, **quiet)


def records(first, count):
    return b"".join(b"k%d,link,%d,5,,,,,,,\n" % (n, n) for n in range(first, first + count))


def test_a_follower_that_is_killed_at_any_moment_ends_equal(tmp_path):
    """With what it has begun, or alone, so that this goes on for a while beside the next one; and now and then the service."""
    (script,) = [text for language, text in blocks(FOLDER / "follow.md") if language == "sh"]
    (tmp_path / "follow.sh").write_text(script)
    (tmp_path / "roadlrs").symlink_to(pathlib.Path(PROGRAM).resolve())
    chosen = random.Random(5)
    server = Server(1_000_000, tmp_path / "first.db")
    try:
        for first in range(1, 4_001, 400):
            if first % 1_600 == 1:
                server.stop()
                server = Server(1_000_000, tmp_path / "first.db", port=server.port)
            server.does("edits", HEADER + records(first, 400), b"".join(b"k%d,done,%d\n" % (n, n) for n in range(first, first + 400)))
            child = follower(tmp_path, server.port)
            time.sleep(chosen.uniform(0, 0.5) ** 2)
            chosen.choice([os.kill, os.killpg])(child.pid, signal.SIGKILL)
            child.wait()
        child = follower(tmp_path, server.port)
        try:
            until = time.monotonic() + PATIENCE
            while run("log", str(tmp_path / "copy.db")).stdout != HEADER + records(1, 4_000):
                assert child.poll() is None and time.monotonic() < until
                time.sleep(0.1)
        finally:
            os.killpg(child.pid, signal.SIGKILL)
            child.wait()
    finally:
        server.stop()
    ends(run("audit", str(tmp_path / "copy.db")), b"sound, and as its log says\n", 0)
