"""A sheet that is done as a whole or not at all, over HTTP (`POST /v1/edits?all=1`, `POST /v1/surveys?all=1`): if nothing of it is refused."""

import json
import shutil

import pytest

from drawn_inventories import BEGUN, Drawn
from program import HEADER, lines, sheet_of
from serving import SURVEY_HEADER, answer, reply, request, sheet_reply, started
from stores import edit, make_full, rows_of, settle

ASKED = ["GET /v1/log", "GET /health", "GET /v1/totals", "GET /v1/links", "GET /v1/route/A1", "GET /v1/history?asset=10"]

# the second record stands on the first one
SOUND = ("n1,link,9,5", "n2,route,B1,9:0:5:+,0:0 5:5", "n3,class,LAMP,point")
DONE = lines("n1,done,14", "n2,done,15", "n3,done,16")
AGAIN = DONE.replace(b",done,", b",again,")


@pytest.fixture
def path(tmp_path):
    path = tmp_path / "roads.db"
    make_full(path)
    settle(path)
    return path


def told(server):
    """What the inventory is, as far as it is asked."""
    return [answer(server.port, request(asked)) for asked in ASKED]


def tried(server, sheet, kind="edits"):
    """The lines that a sheet would be answered."""
    body = answer(server.port, request(f"POST /v1/{kind}/check", sheet)).partition(b"\r\n\r\n")[2]
    return lines(*json.loads(body)["replies"])


def refused(replied):
    """Those of some lines that refuse a record."""
    return b"".join(line for line in replied.splitlines(keepends=True) if b",refused," in line)


def stays(server, asked, sheet, expected):
    """The sheet is answered so, and nothing changes."""
    before = told(server)
    server.answers(request(f"POST /v1/{asked}", sheet), expected)
    assert told(server) == before


def test_a_sheet_without_refusals_is_done(path, tmp_path):
    other = tmp_path / "other.db"
    shutil.copy(path, other)
    with started(db=path) as one, started(db=other) as two:
        one.does("edits?all=1", sheet_of(*SOUND), DONE)
        two.does("edits", sheet_of(*SOUND), DONE)
        assert told(one) == told(two)
    settle(path)
    settle(other)
    assert rows_of(path) == rows_of(other)


def test_nothing_is_done_where_a_record_is_refused(path):
    before = rows_of(path)
    with started(db=path) as server:
        sheet = sheet_of(SOUND[0], "x1,close,NONE", *SOUND[1:])
        replied = tried(server, sheet)
        assert replied.count(b",done,") == 3 and replied.count(b",refused,") == 1, replied
        stays(server, "edits?all=1", sheet, sheet_reply(refused(replied), 409))
        # and once more
        stays(server, "edits?all=1", sheet, sheet_reply(refused(replied), 409))
    settle(path)
    assert rows_of(path) == before
    # mended, it is done
    with started(db=path) as server:
        server.does("edits?all=1", sheet_of(*SOUND), DONE)
        server.answers(request("GET /health"), reply(200, b'{"edits":16}'))


@pytest.mark.parametrize("at", range(4))
def test_wherever_the_record_stands(path, at):
    with started(db=path) as server:
        sheet = sheet_of(*SOUND[:at], "x1,close,NONE", *SOUND[at:])
        stays(server, "edits?all=1", sheet, sheet_reply(refused(tried(server, sheet)), 409))


def test_keys_that_were_accepted_before_are_no_refusals(path):
    with started(db=path) as server:
        server.does("edits?all=1", sheet_of(*SOUND), DONE)
        stays(server, "edits?all=1", sheet_of(*SOUND), sheet_reply(AGAIN))
        server.does("edits?all=1", sheet_of(*SOUND, "n4,link,10,5"), AGAIN + b"n4,done,17\n")
        # under another command the key is used
        stays(server, "edits?all=1", sheet_of("n5,link,11,5", "n4,link,12,5"), sheet_reply(b"n4,refused,KeyUsed:17\n", 409))


def test_a_survey(path):
    sound = SURVEY_HEADER + b"a1,20,SIGN,A1,L,abs,10,,STOP,0\na2,21,SIGN,A1,L,abs,10,,STOP,0\n"
    with started(db=path) as server:
        bad = sound + b"a3,20,SIGN,A1,L,abs,10,,STOP,0\n"
        stays(server, "surveys?all=1", bad, sheet_reply(b"a3,refused,AssetKnown\n", 409))
        server.does("surveys?all=1", sound, b"a1,done,14\na2,done,15\n")


def test_a_sheet_at_fault(path):
    with started(db=path) as server:
        for asked in ["edits?all=1", "surveys?all=1"]:
            stays(server, asked, b"a,b\n", sheet_reply(b"-,fault,BadHeader\n", 422))
        short = sheet_of(*SOUND) + b"short,record\n"
        stays(server, "edits?all=1", short, sheet_reply(b"-,fault,BadCsv\n", 422))
        bad = sheet_of("x1,close,NONE") + b"short,record\n"
        stays(server, "edits?all=1", bad, sheet_reply(refused(tried(server, bad)) + b"-,fault,BadCsv\n", 422))
        # of an empty sheet, and of one with no records, nothing is refused
        for empty in [b"", HEADER]:
            stays(server, "edits?all=1", empty, reply(200))


@pytest.mark.parametrize("switches", ["all=2", "all=", "all", "all=0", "all=1&resume=1", "resume=1&all=1", "all=1&resume=2", "resume=1&all=2"])
def test_other_values_and_both_switches_cannot_be_read(path, switches):
    with started(db=path) as server:
        for asked in ["edits", "surveys", "edits/check", "surveys/check", "questions"]:
            stays(server, f"{asked}?{switches}", sheet_of(*SOUND), reply(400))


def test_it_plays_no_part_where_nothing_is_done(path):
    with started(db=path) as server:
        for asked in ["edits/check", "surveys/check", "questions"]:
            expected = answer(server.port, request(f"POST /v1/{asked}", sheet_of(*SOUND)))
            stays(server, f"{asked}?all=1", sheet_of(*SOUND), expected)


def test_nothing_is_done_where_the_reply_would_be_too_long(path):
    with started(db=path, options=["--most-reply", str(len(DONE) - 1)]) as server:
        server.answers(request("POST /v1/edits?all=1", sheet_of(*SOUND)), reply(503))
        server.answers(request("GET /health"), reply(200, b'{"edits":13}'))
    with started(db=path, options=["--most-reply", str(len(DONE))]) as server:
        server.does("edits?all=1", sheet_of(*SOUND), DONE)


def of_replies(sheet, replied, word):
    """The records of a sheet whose replies say this word, and these replies."""
    header, *records = sheet.splitlines(keepends=True)
    chosen = [(record, line) for record, line in zip(records, replied.splitlines(keepends=True), strict=True) if line.split(b",")[1].strip() == word]
    return header + b"".join(record for record, _ in chosen), b"".join(line for _, line in chosen)


def test_drawn_sheets(tmp_path):
    found = {"done": 0, "refused": 0}
    for seed in range(20):
        drawn = Drawn(3000 + seed)
        path, other = tmp_path / f"{seed}.db", tmp_path / f"{seed}-other.db"
        edit(path, BEGUN)
        edit(path, drawn.sheet(20))
        settle(path)
        shutil.copy(path, other)
        before, sheet = rows_of(path), drawn.sheet(12)
        replied = edit(other, sheet).stdout
        sound, done = of_replies(sheet, replied, b"done")
        if refused(replied):
            with started(db=path) as server:
                server.answers(request("POST /v1/edits?all=1", sheet), sheet_reply(refused(replied), 409))
            settle(path)
            assert rows_of(path) == before, seed
        # what was done of it, alone
        with started(db=path) as server:
            server.answers(request("POST /v1/edits?all=1", sound), sheet_reply(done) if done else reply(200))
        settle(path)
        settle(other)
        assert rows_of(path) == rows_of(other), seed
        found["done"] += bool(done)
        found["refused"] += bool(refused(replied))
    assert found["done"] > 5 and found["refused"] > 5, found
