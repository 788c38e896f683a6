"""What a sheet would be answered and what it would change, over HTTP (`POST /v1/edits/check`, `POST /v1/surveys/check`): nothing is done."""

import csv
import json
import shutil

import pytest

from advice_cases import cases, make_begun
from differences import difference
from drawn_inventories import BEGUN, Drawn
from program import HEADER, sheet_of
from schemas import API, fits
from serving import SURVEY_HEADER, answer, reply, request, started
from stores import edit, make_full, rows_of, settle


@pytest.fixture
def path(tmp_path):
    path = tmp_path / "roads.db"
    make_full(path)
    settle(path)
    return path


def checked(server, sheet, kind="edits", status=200):
    """The reply to a sheet that is tried, which is JSON with no more in it than is promised."""
    got = answer(server.port, request(f"POST /v1/{kind}/check", sheet))
    head, _, body = got.partition(b"\r\n\r\n")
    assert head.startswith(b"HTTP/1.1 %d " % status) and b"Content-Type: application/json" in head, got
    said = json.loads(body)
    assert list(said) == ["done", "again", "refused", "fault", "replies", "advice", "difference"], said
    assert fits(said, API["components"]["schemas"]["Trial"]), said
    for item in said["advice"]:
        assert list(item) == ["line", "key", "column", "value", "wanted", "text"], item
    return said


def test_a_sheet_is_tried_and_not_done(path, tmp_path):
    before = rows_of(path)
    sheet = sheet_of("n1,link,9,5", "n2,close,NONE", "s1,link,1,5000", "n3,close,A2")
    copy = tmp_path / "copy.db"
    shutil.copy(path, copy)
    done = edit(copy, sheet)
    with started(db=path) as server:
        said = checked(server, sheet)
        assert (said["done"], said["again"], said["refused"], said["fault"]) == (2, 1, 1, None), said
        assert said["replies"] == done.stdout.decode().splitlines(), said
        assert said["difference"] == difference(path, copy).decode().splitlines(), said
        text = "line 3, key n2: column C (a, the route): no route has this name: mend it, or put the record that makes the route before this one"
        assert said["advice"] == [{"line": 3, "key": "n2", "column": "C", "value": "NONE", "wanted": None, "text": text}], said
        # and once more: nothing was done
        assert checked(server, sheet) == said
    assert rows_of(path) == before


def test_each_case_of_advice(tmp_path):
    """The text is what `check` says, and begins with the line and the key; the value is that of the column on that line."""
    path = tmp_path / "cases.db"
    make_begun(path)
    settle(path)
    with started(db=path) as server:
        for kind, sheet, replies, fault, advice in cases():
            said = checked(server, sheet, "surveys" if kind == "survey" else "edits", 422 if fault else 200)["advice"]
            assert [item["text"] for item in said] == advice, sheet
            causes = [reply for reply in replies.decode().splitlines() if ",refused," in reply] + [fault] * bool(fault)
            for item, cause in zip(said, causes, strict=True):
                assert (item["wanted"] is not None) == (",Malformed:" in cause), (item, cause)
                assert (item["value"] is None) == (item["column"] is None), item
                if cause != fault:
                    assert item["text"].startswith(f"line {item['line']}, key {item['key']}: " if item["key"] else f"line {item['line']}: "), item
                if item["column"]:
                    assert f"{item['column']} (" in item["text"].partition(": ")[2], item
                    row = next(csv.reader(sheet.decode().split("\n", item["line"] - 1)[-1].splitlines(keepends=True)))
                    assert item["value"] == row[ord(item["column"]) - ord("A")], (item, row)


def test_what_is_wanted_and_what_is_not_known(path):
    with started(db=path) as server:
        sheet = HEADER + b"s1,link,x\xff,5,,,,,,,\n,link,9,5,,,,,,,\ns3,retire,12,A2,abs,9,x,,,,\nx4,enter,15,SPEED,A2,L,rel,KM9+5,KM9+9,80,0\n"
        said = checked(server, sheet)["advice"]
        assert [(item["line"], item["key"], item["column"], item["value"]) for item in said] == [(2, "s1", "C", "x\ufffd"), (3, None, "A", ""), (4, "s3", "G", "x"), (5, "x4", "H", "KM9+5")], said
        assert [item["wanted"] for item in said] == [
            "a whole number from 1 to 999999 is wanted",
            "1 to 40 of A-Z, a-z, 0-9, ., :, _ and - are wanted, and not - alone",
            "a measure is wanted, a whole number from 0 to 100000000000, and nothing for a point",
            None,
        ], said


def test_a_survey_is_tried(path):
    survey = SURVEY_HEADER + b"a1,20,SIGN,A1,L,abs,10,,STOP,0\na2,20,SIGN,A1,L,abs,10,,STOP,0\n"
    with started(db=path) as server:
        said = checked(server, survey, "surveys")
        assert said["replies"] == ["a1,done,14", "a2,refused,AssetKnown"], said
        assert said["difference"] == ["+,asset,20,SIGN,STOP,0", "+,holds,20,SIGN,STOP,0,1,8,9,L"], said


def test_a_sheet_at_fault(path):
    with started(db=path) as server:
        said = checked(server, b"a,b\n", status=422)
        assert (said["fault"], said["replies"], said["difference"]) == ("BadHeader", [], []), said
        text = f'line 1: the header has the fields "a", "b"; the header {HEADER.decode().strip()} is wanted'
        assert said["advice"] == [{"line": 1, "key": None, "column": None, "value": None, "wanted": None, "text": text}], said
        said = checked(server, sheet_of("n1,link,9,5") + b"short,record\n", status=422)
        assert [item["line"] for item in said["advice"]] == [3], said
        assert (said["fault"], said["replies"], said["difference"]) == ("BadCsv", ["n1,done,14"], ["+,link,9,5"]), said
        said = checked(server, HEADER)
        assert (said["done"], said["fault"], said["replies"], said["difference"]) == (0, None, [], []), said


def test_other_methods_are_refused(path):
    with started(db=path) as server:
        for kind in ("edits", "surveys"):
            server.answers(request(f"GET /v1/{kind}/check"), reply(405, allow="POST"))
            got = answer(server.port, request(f"POST /v1/{kind}/check"))
            assert got.startswith(b"HTTP/1.1 411 "), got


def test_bytes_that_are_no_text(path):
    with started(db=path) as server:
        said = checked(server, HEADER + b"\xff\xfe,link,9,5,,,,,,,\nn2,link,9,\xc3\x28,,,,,,,\n")
        assert said["refused"] == 2 and len(said["replies"]) == 2, said


def test_drawn_sheets(tmp_path):
    for seed in range(20):
        drawn = Drawn(1000 + seed)
        path, copy = tmp_path / f"{seed}.db", tmp_path / f"{seed}-copy.db"
        edit(path, BEGUN)
        edit(path, drawn.sheet(20))
        settle(path)
        shutil.copy(path, copy)
        sheet = drawn.sheet(12)
        done = edit(copy, sheet)
        with started(db=path) as server:
            said = checked(server, sheet)
        assert said["replies"] == done.stdout.decode().splitlines(), seed
        assert said["difference"] == difference(path, copy).decode().splitlines(), seed
