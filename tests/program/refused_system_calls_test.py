"""One call of the system's is refused in each run, in turn: an allocation, a read or a write. What was answered is then the start of what is
answered without, the program names the fault, and the same sheet with nothing refused ends as if nothing had been.
"""

import collections
import pathlib
import subprocess
import tempfile

import pytest

from program import BUILT, FIRST, FIRST_REPLIES, HEADER, PATIENCE, lines, record, run
from refusing import allocations_of_an_opening, fault_of, with_each_refused
from serving import answer, free_port, reply, request, sheet_reply
from stores import edit, is_whole, make, rows_of
from worked_replies import WORKED_ROWS

# after the first sheet; each record is done
ALL_VERBS = [
    "e1,enter,10,SPEED,A1,B,abs,3000,9000,80,0",
    "p1,enter,20,SIGN,A1,L,abs,9000,,STOP,0",
    "t1,enter,30,RAIL,A1,R,int,1/3,2/3,STEEL,0",
    "r1,ref,KM2,A1,abs,3",
    "r2,ref,KM6,A1,abs,6003",
    "m1,retire,10,A1,abs,5000,6000",
    "j1,supersede,12,SPEED,A1,L,abs,3000,4000,50,0",
    "e4,split,A1,5000,A2",
    "e5,join,A1,A2",
    "j2,turn,A1",
    "j3,turn,A1",
    "e6,recalibrate,A1,0:0 8000:8000",
    "e8,realign,A1,4000,6000,3:0:2000:+,0:0 8000:8000",
    "n1,renumber,A1,B1",
    "u1,unref,KM2",
    "c1,close,B1",
]
SURVEY = b"""key,asset,class,route,side,method,from,to,value,offset
e1,10,SPEED,A1,B,abs,3000,9000,80,0
p1,20,SIGN,A1,L,abs,9000,,STOP,0
t1,30,RAIL,A1,R,int,1/3,2/3,STEEL,0
t2,31,RAIL,A1,R,int,1/3,3/3,STEEL,x
t3,31,TREE,A1,R,int,1/3,3/3,STEEL,0
"""
SURVEY_REPLIES = lines("e1,done,8", "p1,done,9", "t1,done,10", "t2,refused,Malformed:i", "t3,refused,NoClass")


def is_answered_in_part(ended, replies, status, faults):
    """The run stopped in one of these faults, and what it wrote begins as the replies do; or the refusal changed nothing."""
    if (ended.stdout, ended.stderr, ended.status) != (replies, b"", status):
        assert fault_of(ended) in faults, ended
        assert replies.startswith(ended.stdout), ended


@pytest.mark.parametrize("name", WORKED_ROWS)
def test_a_worked_row_bears_a_refused_growth(name):
    """Over an inventory in memory, with each allocation of the program refused in turn."""
    rows = WORKED_ROWS[name]
    sheet = FIRST + b"".join(record(text) for text, _ in rows)
    replies = FIRST_REPLIES + lines(*(reply for _, reply in rows))
    status = 1 if b",refused," in replies else 0

    def test(refusal):
        ended = refusal.run(BUILT, "edit", ":memory:", "stdin", given=sheet)
        is_answered_in_part(ended, replies, status, {"Memory"})

    assert with_each_refused("ALLOCATION", test) > 100


def test_a_survey_bears_a_refused_growth():
    """Over an inventory in memory, without a class; and, each 29th allocation, over a file, its records one by one."""
    replies = SURVEY_REPLIES
    for n, key in enumerate([b"e1", b"p1", b"t1"], 8):
        replies = replies.replace(b"%b,done,%d" % (key, n), b"%b,refused,NoClass" % key)

    def in_memory(refusal):
        ended = refusal.run(BUILT, "survey", ":memory:", "stdin", given=SURVEY)
        is_answered_in_part(ended, replies, 1, {"Memory"})

    assert with_each_refused("ALLOCATION", in_memory) > 50
    with tempfile.TemporaryDirectory() as folder:
        first = pathlib.Path(folder) / "first.db"
        make(first)
        made = first.read_bytes()

        def in_a_file(refusal):
            path = first.with_name(f"{refusal.number}.db")
            path.write_bytes(made)
            ended = refusal.run(BUILT, "survey", path, "stdin", given=SURVEY.replace(b"key", b'"key"', 1))
            is_answered_in_part(ended, SURVEY_REPLIES, 1, {"Memory", "Open"})
            path.unlink()

        assert with_each_refused("ALLOCATION", in_a_file, step=29) > 10


def at_all_verbs(kind, faults, step, one_by_one=True):
    """The sheet of all verbs over a file with each step-th call of a kind refused; and then once more. Behind a quote in the header its
    records are done one by one; else those are kept together that have arrived."""
    header = HEADER.replace(b"key", b'"key"') if one_by_one else HEADER
    sheet = header + b"".join(map(record, ALL_VERBS))
    keys = [text.partition(",")[0] for text in ALL_VERBS]
    done = lines(*(f"{key},done,{n}" for n, key in enumerate(keys, 8)))
    with tempfile.TemporaryDirectory() as folder:
        first = pathlib.Path(folder) / "first.db"
        make(first)
        after = pathlib.Path(folder) / "after.db"
        make(after, *ALL_VERBS)
        wanted, made = rows_of(after), first.read_bytes()

        def test(refusal):
            path = first.with_name(f"{refusal.number}.db")
            path.write_bytes(made)
            ended = refusal.run(BUILT, "edit", path, "stdin", given=sheet)
            is_answered_in_part(ended, done, 0, faults)
            answered = ended.stdout.count(b"\n")
            again = edit(path, sheet)
            assert (again.status, again.stderr) == (0, b""), (refusal.number, again)
            expected, said = done.splitlines(), again.stdout.splitlines()
            repeated = [line.replace(b"done", b"again") for line in expected]
            # the command that was on its way may have been done; or those that were, all or none
            kept = sum(line in repeated for line in said)
            assert said == repeated[:kept] + expected[kept:], (refusal.number, again)
            assert answered <= kept <= (answered + 1 if one_by_one else len(done)), (refusal.number, again)
            assert rows_of(path) == wanted, refusal.number
            is_whole(path)
            path.unlink()

        assert with_each_refused(kind, test, step=step) > 10


def test_all_verbs_over_a_file_bear_a_refused_growth():
    """Those of a commit too: want of memory is no failure of the disk."""
    at_all_verbs("ALLOCATION", {"Memory", "Open"}, 23)


@pytest.mark.parametrize("one_by_one", [True, False])
def test_all_verbs_over_a_file_bear_a_refused_write(one_by_one):
    at_all_verbs("WRITE", {"Open", "Keep", "MustReopen", "Write"}, 1, one_by_one)


def at_each_read_and_write(kind, fault, verb, sheet, replies):
    """A sheet in a file over an inventory in memory, with each call of a kind refused."""
    with tempfile.TemporaryDirectory() as folder:
        path = pathlib.Path(folder) / "sheet.csv"
        path.write_bytes(sheet)

        def test(refusal):
            ended = refusal.run(BUILT, verb, ":memory:", path)
            is_answered_in_part(ended, replies, 1, {fault})
            # nothing is passed over: a refusal that was reached is told
            assert refusal.was_reached == (ended.status == 3), (refusal.number, ended)

        assert with_each_refused(kind, test) > 0


def test_a_sheet_that_cannot_be_read_or_answered():
    sheet = FIRST + record("a1,link,1,7")
    replies = FIRST_REPLIES + b"a1,refused,LinkKnown\n"
    at_each_read_and_write("READ", "Read", "edit", sheet, replies)
    at_each_read_and_write("WRITE", "Write", "edit", sheet, replies)


def test_a_survey_that_cannot_be_read_or_answered():
    refused = SURVEY_REPLIES
    for n, key in enumerate([b"e1", b"p1", b"t1"], 8):
        refused = refused.replace(b"%b,done,%d" % (key, n), b"%b,refused,NoClass" % key)
    at_each_read_and_write("READ", "Read", "survey", SURVEY, refused)
    at_each_read_and_write("WRITE", "Write", "survey", SURVEY, refused)


QUESTIONS = b"""key,question,a,b,c,d
q1,at,A1,abs,3000,
q2,translate,A1,int,1/3,link
q3,find,10,,,
q4,segments,A1,L,SPEED,
q5,find,11,,,
"""
ANSWERS = lines("q1,place,A1,2500,1,2500,+,1", "q1,hit,10,SPEED,B,0,80,8", "q2,position,A1,link,1:8000/3", "q3,found,1", "q3,row,A1,2500,8000,B",
                "q4,segments,A1,L,2", "q4,segment,0,2500,-", "q4,segment,2500,8000,80", "q5,refused,NoAsset")


@pytest.mark.parametrize("source", ["stdin", "questions.csv"])
@pytest.mark.parametrize("kind, faults", [("ALLOCATION", {"Memory", "Open"}), ("READ", {"Read", "Open"}), ("WRITE", {"Write"})])
def test_questions_of_a_file_with_each_call_refused(tmp_path, source, kind, faults):
    """The answers that went out are the first ones; the file stays as it is. Of the many allocations of an opening one in 61 is refused."""
    first, sheet = tmp_path / "first.db", tmp_path / "questions.csv"
    make(first, "e1,enter,10,SPEED,A1,B,abs,3000,9000,80,0")
    made = first.read_bytes()
    sheet.write_bytes(QUESTIONS)

    def test(refusal):
        path = tmp_path / f"{refusal.number}.db"
        path.write_bytes(made)
        ended = refusal.run(BUILT, "ask", path, "stdin" if source == "stdin" else sheet, given=QUESTIONS)
        is_answered_in_part(ended, ANSWERS, 1, faults)
        assert path.read_bytes() == made
        path.unlink()

    assert with_each_refused(kind, test, step=61 if kind == "ALLOCATION" else 1) > 0


@pytest.mark.parametrize("kind, faults", [("READ", {"Read", "Open"}), ("WRITE", {"Open", "Keep", "MustReopen", "Write"})])
def test_a_survey_over_a_file_that_fails(kind, faults):
    """Each read or write fails in turn, of the survey, of the replies or of the store; then the same survey is done."""
    with tempfile.TemporaryDirectory() as folder:
        first = pathlib.Path(folder) / "first.db"
        make(first)
        made = first.read_bytes()
        survey = first.with_name("survey.csv")
        survey.write_bytes(SURVEY)

        def test(refusal):
            path = first.with_name(f"{kind}{refusal.number}.db")
            path.write_bytes(made)
            ended = refusal.run(BUILT, "survey", path, survey)
            is_answered_in_part(ended, SURVEY_REPLIES, 1, faults)
            answered = ended.stdout.splitlines()
            again = run("survey", path, survey)
            assert again.status == 1 and again.stderr == b"", (refusal.number, again)
            assert again.stdout.replace(b"again", b"done") == SURVEY_REPLIES, (refusal.number, again)
            assert all(b",again," in line for line in again.stdout.splitlines()[: min(len(answered), 3)]), (refusal.number, again)
            is_whole(path)

        assert with_each_refused(kind, test) > 5


def served(refusal, sent):
    """What is answered to one request, or how the program ended before it listened."""
    port = free_port()
    words = [BUILT, "serve", ":memory:", str(port), "1"]
    with refusal.environment() as env, subprocess.Popen(words, env=env, stdout=subprocess.PIPE, stderr=subprocess.PIPE) as program:
        replied = answer(port, sent) if program.stdout.readline() else program.stderr.read()
        assert program.wait(PATIENCE) == (3 if replied.startswith(b"roadlrs: ") else 0), (refusal.number, replied)
    return replied


def test_a_sheet_over_http_bears_a_refused_growth():
    """It is answered in full, or by the 503 that says that memory does not suffice; only a connection for which there is none is closed."""
    sent = request("POST /v1/edits", FIRST, "Content-Type: text/csv")
    full, unavailable = sheet_reply(FIRST_REPLIES), reply(503)
    found = collections.Counter()
    with_each_refused("ALLOCATION", lambda refusal: found.update([served(refusal, sent)]))
    assert set(found) <= {full, unavailable, b"", b"roadlrs: fault Memory\n", b"roadlrs: fault Door\n"}, found
    assert found[full] > 100 and found[unavailable] > 100 and found[b""] <= 2, found


def test_a_server_over_a_file_goes_on_after_a_refused_growth(tmp_path):
    """One edit is sent three times, with each allocation behind the opening refused in turn, those of its commit too. One request may get a 503,
    or no reply; the server then answers the next ones all the same."""
    first = tmp_path / "first.db"
    make(first)
    made = first.read_bytes()
    sent = request("POST /v1/edits", HEADER + record("e1,enter,10,SPEED,A1,B,abs,3000,9000,80,0"), "Content-Type: text/csv")
    done, again, unavailable = sheet_reply(b"e1,done,8\n"), sheet_reply(b"e1,again,8\n"), reply(503)
    found = collections.Counter()

    def test(refusal):
        path = tmp_path / f"{refusal.number}.db"
        path.write_bytes(made)
        port = free_port()
        words = [BUILT, "serve", path, str(port), "3"]
        with refusal.environment() as env, subprocess.Popen(words, env=env, stdout=subprocess.PIPE, stderr=subprocess.DEVNULL) as program:
            assert program.stdout.readline() == b"listening %d\n" % port, refusal.number
            replies = [answer(port, sent) for _ in range(3)]
            assert program.wait(PATIENCE) == 0, (refusal.number, replies)
        answered = [replied for replied in replies if replied not in (unavailable, b"")]
        # what has no reply may have been done
        assert answered[0] == done or replies[0] != answered[0] == again, (refusal.number, replies)
        assert len(answered) >= 2 and set(answered[1:]) == {again}, (refusal.number, replies)
        found.update(replies)
        path.unlink()

    with_each_refused("ALLOCATION", test, first=allocations_of_an_opening(first) + 1)
    assert found[unavailable] > 100 and found[b""] <= 6, found
