"""A file or its log that is removed, renamed or replaced while the program has it open: what would go into nothing is not
acknowledged."""

import os
import pathlib
import shutil
import subprocess

import pytest

from program import FIRST, FIRST_REPLIES, HEADER, PATIENCE, PROGRAM, ends, record, run, sheet_of
from serving import answer, by_curl, reply, request, sheet_reply, started


def log_of(db):
    return pathlib.Path(f"{db}-wal")


def removed(path):
    path.unlink()


def renamed(path):
    path.rename(f"{path}.away")


def replaced(path):
    shutil.copy(path, f"{path}.copy")
    os.replace(f"{path}.copy", path)


MOVES = [removed, renamed, replaced]


def posted(text):
    return request("POST /v1/edits", sheet_of(text))


@pytest.mark.parametrize("names", [pathlib.Path, log_of], ids=["file", "log"])
@pytest.mark.parametrize("moves", MOVES)
def test_a_service_acknowledges_nothing_into_a_file_that_is_gone(tmp_path, moves, names):
    db = tmp_path / "roads.db"
    ends(run("edit", str(db), "stdin", given=FIRST), FIRST_REPLIES, 0)
    with started(db=db) as server:
        server.answers(posted("a1,link,8,5"), sheet_reply(b"a1,done,8\n"))
        moves(names(db))
        server.answers(posted("a2,link,9,5"), reply(503))
        server.answers(posted("a3,link,10,5"), reply(503))
        assert b" 503 " in by_curl(server.port, "GET /health", None)


@pytest.mark.parametrize("moves", MOVES)
def test_a_supervised_service_ends(tmp_path, moves):
    db = tmp_path / "roads.db"
    ends(run("edit", str(db), "stdin", given=FIRST), FIRST_REPLIES, 0)
    with started(db=db, options=["--end-on-fault"]) as server:
        moves(db)
        assert answer(server.port, posted("a2,link,9,5")) == reply(503)
        _, said, status = server.end()
        assert (said, status) == (b"roadlrs: fault Keep\n", 3)


@pytest.mark.parametrize("moves", MOVES)
def test_edits_from_a_pipe_stop(tmp_path, moves):
    db = tmp_path / "roads.db"
    ends(run("edit", str(db), "stdin", given=FIRST), FIRST_REPLIES, 0)
    streams = {"stdin": subprocess.PIPE, "stdout": subprocess.PIPE, "stderr": subprocess.PIPE}
    with subprocess.Popen([PROGRAM, "edit", str(db), "stdin"], **streams) as child:
        child.stdin.write(HEADER + record("a1,link,8,5"))
        child.stdin.flush()
        assert child.stdout.readline() == b"a1,done,8\n"
        moves(db)
        written, said = child.communicate(record("a2,link,9,5"), timeout=PATIENCE)
        assert (written, said, child.returncode) == (b"", b"roadlrs: fault Keep\n", 3)


def test_a_file_that_stays_is_written_on(tmp_path):
    db = tmp_path / "roads.db"
    ends(run("edit", str(db), "stdin", given=FIRST), FIRST_REPLIES, 0)
    with started(db=db) as server:
        server.answers(posted("a1,link,8,5"), sheet_reply(b"a1,done,8\n"))
        shutil.copy(db, tmp_path / "copy.db")
        server.answers(posted("a2,link,9,5"), sheet_reply(b"a2,done,9\n"))
    assert b"a2,link,9,5" in run("log", str(db)).stdout
