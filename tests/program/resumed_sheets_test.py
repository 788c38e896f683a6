"""A sheet whose replies were lost goes on behind its last record that is an edit, by `--resume` and over HTTP."""

import pathlib
import random
import tempfile

import pytest

from program import BUILT, FIRST, FIRST_REPLIES, HEADER, ends, faults, lines, record, run, sheet_of
from refusing import Stop, with_each_refused
from sent_sheets import REPLIES, ROWS, SHEET
from serving import answer, reply, request, serving, sheet_reply
from stores import edit, is_whole, rows_of

AT_FIRST = b"resumes at the first record\n"


def behind(number, key):
    return f"resumes behind record {number}, key {key}\n".encode()


def replies_from(number):
    return lines(*(reply for _, reply in ROWS[number:]))


def status_from(number):
    return 1 if any(",refused," in reply for _, reply in ROWS[number:]) else 0


@pytest.fixture
def top():
    with tempfile.TemporaryDirectory() as folder:
        yield pathlib.Path(folder)


def begun(top, number):
    """An inventory in which the first records of the sheet were done, and the sheet in a file."""
    (top / "sheet.csv").write_bytes(SHEET)
    if number:
        replied = [reply for _, reply in ROWS[:number]]
        ends(edit(top / "roads.db", sheet_of(*(text for text, _ in ROWS[:number]))), lines(*replied), 1 if any(",refused," in it for it in replied) else 0)
    return top / "roads.db", top / "sheet.csv"


def decided(number):
    """How many records of the sheet are decided once so many were looked at, and the key of the last of them."""
    last = max((n for n in range(number) if ",done," in ROWS[n][1]), default=None)
    return (0, None) if last is None else (last + 1, ROWS[last][0].split(",")[0])


@pytest.mark.parametrize("number", range(len(ROWS) + 1))
@pytest.mark.parametrize("given", ["file", "stdin"])
def test_a_sheet_goes_on_wherever_it_was_cut(top, number, given):
    db, sheet = begun(top, number)
    ends(edit(top / "whole.db", SHEET), REPLIES, 1)
    at, key = decided(number)
    said = behind(at, key) if key else AT_FIRST
    ended = run("edit", db, sheet, "--resume") if given == "file" else run("edit", db, "stdin", "--resume", given=SHEET)
    ends(ended, replies_from(at), status_from(at), said)
    assert rows_of(db) == rows_of(top / "whole.db")


def test_the_whole_sheet_sent_again_is_another_run(top):
    """That is why it goes on behind the last edit."""
    db, sheet = begun(top, len(ROWS))
    again = [reply.replace(",done,", ",again,") for _, reply in ROWS]
    ends(run("edit", db, sheet), lines(*again[:2], "x1,done,5", *again[3:]), 1)


def test_a_survey_goes_on(top):
    ends(edit(top / "roads.db", FIRST), FIRST_REPLIES, 0)
    header = b"key,asset,class,route,side,method,from,to,value,offset\n"
    first, second, third = b"a1,10,SPEED,A1,L,abs,10,20,50,0\n", b"a2,11,SPEED,A1,L,abs,15,20,50,0\n", b"a3,12,SIGN,A1,L,abs,15,,STOP,0\n"
    ends(run("survey", top / "roads.db", "stdin", given=header + first), b"a1,done,8\n", 0)
    ended = run("survey", top / "roads.db", "--resume", "stdin", given=header + first + second + third)
    ends(ended, b"a2,refused,Overlap:10\na3,done,9\n", 1, behind(1, "a1"))


def test_a_known_key_with_another_command_is_no_edit_of_the_sheet(top):
    ends(edit(top / "roads.db", sheet_of("k1,link,1,5000", "k2,link,2,5")), b"k1,done,1\nk2,done,2\n", 0)
    ended = run("edit", top / "roads.db", "stdin", "--resume", given=sheet_of("k1,link,1,5000", "k2,link,3,5"))
    ends(ended, b"k2,refused,KeyUsed:2\n", 1, behind(1, "k1"))


def test_a_fresh_inventory_begins_at_the_first_record():
    ends(run("edit", ":memory:", "stdin", "--resume", given=FIRST), FIRST_REPLIES, 0, AT_FIRST)
    ends(run("edit", ":memory:", "stdin", "--resume", given=b""), b"", 0, AT_FIRST)


def test_a_sheet_that_cannot_be_read_on_is_at_fault_as_without(top):
    db = top / "roads.db"
    ended = run("edit", db, "stdin", "--resume", given=b"a,b\n1,2\n")
    ends(ended, b"", 3, AT_FIRST + b"roadlrs: fault BadHeader\n")
    ends(edit(db, sheet_of("k1,link,1,5000")), b"k1,done,1\n", 0)
    cut = sheet_of("k1,link,1,5000", "k2,link,2,5") + b"of one field\n" + record("k3,link,3,5")
    ends(run("edit", db, "stdin", "--resume", given=cut), b"k2,done,2\n", 3, behind(1, "k1") + b"roadlrs: fault BadCsv\n")
    faults(run("edit", db, top / "nowhere.csv", "--resume"), "Read")


def test_a_long_sheet_goes_on(top):
    """Behind more records than are kept together."""
    rows = [record(f"k{n},link,{n},5") for n in range(1, 2001)]
    (top / "sheet.csv").write_bytes(HEADER + b"".join(rows))
    replied = [b"k%d,done,%d\n" % (n, n) for n in range(1, 2001)]
    ends(edit(top / "roads.db", HEADER + b"".join(rows[:777])), b"".join(replied[:777]), 0)
    ended = run("edit", top / "roads.db", top / "sheet.csv", "--resume")
    ends(ended, b"".join(replied[777:]), 0, behind(777, "k777"))


@pytest.mark.parametrize("by", ["program", "tearing", "power"])
def test_a_sheet_is_stopped_at_each_change_and_goes_on(top, by):
    """Whatever was kept, the sheet goes on to the rows of one run, with the lines of that run."""
    ends(edit(top / "whole.db", SHEET), REPLIES, 1)
    wanted = rows_of(top / "whole.db")
    (top / "sheet.csv").write_bytes(SHEET)

    def test(stop):
        path = top / f"{stop.number}.db"
        stopped = stop.run(BUILT, "edit", path, top / "sheet.csv")
        assert stopped.status == (137 if stop.was_reached else 1), (stop.number, stopped)
        ended = run("edit", path, top / "sheet.csv", "--resume")
        at = len(ROWS) - ended.stdout.count(b"\n")
        _, key = decided(at)
        ends(ended, replies_from(at), status_from(at), behind(at, key) if at else AT_FIRST)
        assert rows_of(path) == wanted, stop.number
        is_whole(path)

    assert with_each_refused(by, test, what=Stop) > 10


def test_sheets_of_chance_go_on(top):
    """Sheets in which many records are refused, cut anywhere: the rest and the rows are those of one run."""
    chance = random.Random(36)
    for turn in range(12):
        texts = [f"k{n},link,{chance.randint(1, 12)},{chance.randint(0, 3)}" for n in range(40)]
        ended = edit(top / f"whole{turn}.db", sheet_of(*texts))
        assert ended.status == (1 if b",refused," in ended.stdout else 0), (turn, ended)
        whole = ended.stdout.splitlines(keepends=True)
        cut = chance.randint(0, 40)
        edit(top / f"{turn}.db", sheet_of(*texts[:cut]))
        ended = run("edit", top / f"{turn}.db", "stdin", "--resume", given=sheet_of(*texts))
        at = max((n + 1 for n in range(cut) if b",done," in whole[n]), default=0)
        rest = b"".join(whole[at:])
        assert (ended.stdout, ended.status) == (rest, 1 if b",refused," in rest else 0), (turn, cut, ended)
        assert rows_of(top / f"{turn}.db") == rows_of(top / f"whole{turn}.db")


# ---- a key that stands twice


def twice(first, second, key):
    return f"records {first} and {second} have one key, {key}\nroadlrs: fault RepeatedKey\n".encode()


REPEATED = [
    (["a,link,1,5", "b,link,2,5", "c,link,3,5", "a,link,1,5"], (1, 4, "a")),
    (["a,link,1,5", "b,link,2,5", "b,link,3,5", "a,link,1,5"], (2, 3, "b")),
    (["a,link,1,5", "a,link,1,5", "a,link,1,5"], (1, 2, "a")),
    (["b,link,x,5", "a,link,1,5", "b,link,2,5", "b,link,x,6", "b,link,3,5"], (3, 5, "b")),
]


@pytest.mark.parametrize("texts, found", REPEATED)
@pytest.mark.parametrize("options", [[], ["--all"]], ids=["each", "all"])
def test_a_sheet_with_a_key_twice_does_not_go_on(top, texts, found, options):
    """Its first record may be done, and those between the two not."""
    db = top / "roads.db"
    edit(db, sheet_of("z,link,9,9", *texts[:1]))
    before = rows_of(db)
    ends(run("edit", db, "stdin", "--resume", *options, given=sheet_of(*texts)), b"", 3, twice(*found))
    assert rows_of(db) == before
    ends(run("edit", ":memory:", "stdin", "--resume", *options, given=sheet_of(*texts)), b"", 3, twice(*found))
    assert b"RepeatedKey" not in run("edit", db, "stdin", *options, given=sheet_of(*texts)).stderr


def test_without_its_second_record_it_goes_on(top):
    ends(edit(top / "roads.db", sheet_of("a,link,1,5")), b"a,done,1\n", 0)
    ended = run("edit", top / "roads.db", "stdin", "--resume", given=sheet_of("a,link,1,5", "b,link,2,5", "c,link,3,5"))
    ends(ended, b"b,done,2\nc,done,3\n", 0, behind(1, "a"))


def test_records_without_a_key_or_behind_another_length_play_no_part(top):
    malformed = sheet_of("a,link,x,5", "a,link,1,5", "a,link,x,5")
    ends(run("edit", ":memory:", "stdin", "--resume", given=malformed), b"a,refused,Malformed:a\na,done,1\na,refused,Malformed:a\n", 1, AT_FIRST)
    cut = sheet_of("a,link,1,5") + b"of one field\n" + record("a,link,1,5")
    ends(run("edit", ":memory:", "stdin", "--resume", given=cut), b"a,done,1\n", 3, AT_FIRST + b"roadlrs: fault BadCsv\n")


def test_a_survey_with_a_key_twice_does_not_go_on(top):
    ends(edit(top / "roads.db", FIRST), FIRST_REPLIES, 0)
    header = b"key,asset,class,route,side,method,from,to,value,offset\n"
    surveyed = header + b"a1,10,SPEED,A1,L,abs,10,20,50,0\na2,11,SPEED,A1,L,abs,30,40,50,0\na1,12,SIGN,A1,L,abs,15,,STOP,0\n"
    ends(run("survey", top / "roads.db", "stdin", "--resume", given=surveyed), b"", 3, twice(1, 3, "a1"))


def test_keys_of_chance(top):
    """The first record whose key stood before is found, as a set of the keys finds it."""
    chance = random.Random(41)
    for turn in range(40):
        keys = [f"k{chance.randint(0, 40 * (1 + turn % 5))}" for _ in range(30)]
        found = next(((keys.index(key) + 1, n + 1, key) for n, key in enumerate(keys) if key in keys[:n]), None)
        ended = run("edit", ":memory:", "stdin", "--resume", given=sheet_of(*(f"{key},link,{n + 1},5" for n, key in enumerate(keys))))
        if found:
            ends(ended, b"", 3, twice(*found))
        else:
            assert (ended.status, ended.stderr) == (0, AT_FIRST), (turn, ended)


# ---- over HTTP


def test_a_sheet_with_a_key_twice_does_not_go_on_over_http(top):
    db = top / "roads.db"
    ends(edit(db, sheet_of("a,link,1,5")), b"a,done,1\n", 0)
    sheet = sheet_of("a,link,1,5", "b,link,2,5", "a,link,1,5")
    with serving(3, db) as server:
        server.answers(request("POST /v1/edits?resume=1", sheet), sheet_reply(b"-,fault,RepeatedKey\n", 422))
        server.answers(request("POST /v1/surveys?resume=1", sheet), sheet_reply(b"-,fault,BadHeader\n", 422))
        server.answers(request("POST /v1/edits", sheet), sheet_reply(b"a,again,1\nb,done,2\na,again,1\n"))


def test_a_sheet_goes_on_over_http(top):
    db, _ = begun(top, 5)
    with serving(6, db) as server:
        server.answers(request("POST /v1/edits?resume=0", SHEET), reply(400))
        server.answers(request("POST /v1/edits?resume=true", SHEET), reply(400))
        server.answers(request("POST /v1/edits?other=1&resume=1&resume=2", SHEET), sheet_reply(replies_from(4)))
        server.answers(request("POST /v1/edits?resume=1", SHEET), sheet_reply(replies_from(7)))
        server.answers(request("POST /v1/edits?resume=1", b"a,b\n"), sheet_reply(b"-,fault,BadHeader\n", 422))
        server.answers(request("POST /v1/surveys?resume=1", SHEET), sheet_reply(b"-,fault,BadHeader\n", 422))


def test_a_sheet_that_is_posted_whole_again_does_what_it_refused(top):
    """So HTTP.md tells clients to go on instead."""
    db, _ = begun(top, len(ROWS))
    with serving(2, db) as server:
        server.answers(request("POST /v1/edits?resume=1", SHEET), sheet_reply(replies_from(7)))
        assert b"x1,done,5" in answer(server.port, request("POST /v1/edits", SHEET))
