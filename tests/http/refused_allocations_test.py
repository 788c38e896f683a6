"""Want of memory where a program goes on: a server over an inventory in memory is refused one allocation, each in turn, while it does each
verb and answers each question. And the proved tests of lrs_examples, run so."""

import collections
import contextlib
import pathlib
import queue
import re
import subprocess

from program import BUILT, TOP, lines, sheet_of
from refusing import RUNS, Refusal, allocations_of_an_opening, greatest, with_each_refused
from serving import answer, free_port, reply, request, sheet_reply, started
from stores import MORE, make, settle

CRATES = TOP / "crates"


# ---- a server goes on

# Routes of five pieces, with as many rows on them: the lists of each verb grow more than once.
FIRST = [
    "link,3,5000",
    "link,7,9000",
    "class,SPEED,exclusive",
    "class,SIGN,stretch",
    "route,A,3:0:4:+ 7:5:20:+ 3:9:10:+ 7:30:40:+ 3:20:25:+,0:10 20:40 35:100",
    "ref,KM1,A,abs,40",
    "enter,3,SIGN,A,B,int,0/1,4/35,x,0",
    "enter,4,SIGN,A,L,int,6/35,1/1,x,0",
    "enter,7,SIGN,A,B,int,2/35,9/35,x,0",
    "enter,8,SPEED,A,B,int,0/1,1/1,80,0",
]
VERBS = [
    "link,8,5000",
    "class,RAIL,point",
    "route,B,7:100:103:- 8:0:4:+ 7:110:111:- 8:10:14:+ 7:120:121:+,0:100 13:113",
    "ref,KM2,A,abs,100",
    "enter,9,SIGN,A,L,int,1/35,2/35,x,0",
    "supersede,10,SPEED,A,L,int,6/35,28/35,60,0",
    "retire,4,A,int,15/35,25/35",
    "split,A,20,C",
    "join,A,C",
    "join,A,B",
    "turn,A",
    "unref,KM1",
    "realign,A,5,30,3:100:110:+ 3:200:210:-,0:0 43:43",
    "recalibrate,A,0:10 20:40 43:100",
    "renumber,A,D",
    "split,D,20,E",
    "close,E",
]
ALL = FIRST + VERBS
# all that an inventory has
STATE = ["log", "links", "classes", "route/A", "route/B", "route/C", "route/D", "route/E", "rows", "gone", "totals"]


def posted(texts):
    """An edit sheet of these records, whose keys say where they stand."""
    return request("POST /v1/edits", sheet_of(*(f"k{n},{text}" for n, text in enumerate(texts, 1))), "Content-Type: text/csv")


def done(count, known=0):
    """The reply to a sheet of so many records, of which the first were known."""
    return sheet_reply(lines(*(f"k{n},{'again' if n <= known else 'done'},{n}" for n in range(1, count + 1))))


def get(target):
    return request(f"GET /v1/{target}")


def state(port):
    return [answer(port, get(target)) for target in STATE]


def states():
    """What the inventory is behind the first sheet, and after each verb."""
    found = []
    with started() as server:
        for count in range(len(FIRST), len(ALL) + 1):
            server.answers(posted(ALL[:count]), done(count, count - 1 if found else 0))
            found.append(state(server.port))
    return found


class Servers:
    """Servers that have done the first sheet, each with one allocation refused. A port is used again, by one after the other."""

    def __init__(self):
        self.ports = queue.SimpleQueue()
        for _ in range(RUNS):
            self.ports.put(free_port())

    @contextlib.contextmanager
    def start(self, refusal):
        port = self.ports.get()
        words = [BUILT, "serve", ":memory:", str(port), "1000000"]
        try:
            with refusal.environment() as env, subprocess.Popen(words, env=env, stdout=subprocess.PIPE, stderr=subprocess.DEVNULL) as program:
                try:
                    assert program.stdout.readline() == b"listening %d\n" % port, refusal.number
                    answer(port, posted(FIRST))
                    yield port, pathlib.Path(env["REFUSED_NOTE"])
                finally:
                    program.kill()
        finally:
            self.ports.put(port)

    def refused_in_the_first_sheet(self, number):
        """Whether the allocation of this number, which is behind those of the opening, is one of the first sheet's."""
        with self.start(Refusal("ALLOCATION", number)) as (_, note):
            return note.exists()

    def with_each_refused(self, test, step=1):
        """Gives the test each server, with one allocation refused behind the first sheet: its port, and the file that is there once that was."""
        first = greatest(self.refused_in_the_first_sheet, allocations_of_an_opening(":memory:")) + 1

        def with_one(refusal):
            with self.start(refusal) as (port, note):
                test(port, note)

        return with_each_refused("ALLOCATION", with_one, first, step)


def test_a_server_goes_on_after_a_refused_growth_in_each_verb():
    """What wanted memory left the inventory as it was: either it is done once more behind what was before it in the sheet, or that is all that was
    done, the sheet is answered 503, and the others are done as it is sent again. In the end all is as if nothing had been refused."""
    known, found = states(), collections.Counter()

    def test(port, note):
        got = answer(port, posted(ALL))
        if not note.exists():
            return
        if got != done(len(ALL), len(FIRST)):
            now = state(port)
            assert got in (reply(503), b"") and now in known, (got, now)
            kept = known.index(now)
            assert answer(port, posted(ALL)) == done(len(ALL), len(FIRST) + kept)
        found[got[:12]] += 1
        assert state(port) == known[-1]

    Servers().with_each_refused(test)
    assert found[b"HTTP/1.1 200"] > 100 and found[b"HTTP/1.1 503"] > 100 and found[b""] <= 2, found


# Stretches of a route: which lie at a place and which meet a stretch, by their assets, as values of a class, drawn, and added up.
QUESTIONS = b"key,question,a,b,c,d\nq1,at,A,int,7/35,\nq2,translate,A,abs,40,rel:KM1\nq3,find,4,,,\nq4,segments,A,L,SPEED SPEED,\n"
ANSWERS = lines(
    "q1,place,A,7,7,8,+,3",
    "q1,hit,4,SIGN,L,0,x,8",
    "q1,hit,7,SIGN,B,0,x,9",
    "q1,hit,8,SPEED,B,0,80,10",
    "q2,position,A,rel,KM1+0",
    "q3,found,1",
    "q3,row,A,6,35,L",
    "q4,segments,A,L,1",
    "q4,segment,0,35,80,80",
)


def goes_on(asked, step):
    """A server whose allocations behind the first sheet are refused, each step-th in turn, answers these requests as they are to be answered, or
    503; and the next time so. How often each was refused."""
    servers, refused = Servers(), collections.Counter()

    def test(port, note):
        for sent, answered in asked.items():
            got = answer(port, sent)
            if got != answered:
                assert got in (reply(503), b""), got
                refused[sent] += 1
                assert answer(port, sent) == answered

    servers.with_each_refused(test, step)
    return refused


def answered_without_a_refusal(asked):
    with Servers().start(Refusal("ALLOCATION", 0)) as (port, _):
        answers = {sent: answer(port, sent) for sent in asked}
    assert all(answered.startswith(b"HTTP/1.1 200 OK") for answered in answers.values())
    return answers


def test_a_server_goes_on_after_a_refused_growth_in_each_question():
    """It is answered in full, or 503; and the next time in full."""
    asked = {request("POST /v1/questions", QUESTIONS, "Content-Type: text/csv"): sheet_reply(ANSWERS)}
    asked.update(answered_without_a_refusal(map(get, ["rows?route=A&from=3&to=7", "diagram?route=A", "totals"])))
    refused = goes_on(asked, 7)
    assert all(refused[sent] > 10 for sent in asked), refused


# The route runs over link 3 from 0 to 4 and from 9 to 10 and 20 to 25, over link 7 from 5 to 20 and from 30 to 40. Its proportion 7/35 is
# chainage 7, three millimetres behind the start of its second piece; its measure 40 is chainage 20, that of KM1.
HITS = b'{"asset":4,"class":"SIGN","entry":8,"offset":0,"side":"L","value":"x"},{"asset":7,"class":"SIGN","entry":9,"offset":0,"side":"B","value":"x"},'
HITS += b'{"asset":8,"class":"SPEED","entry":10,"offset":0,"side":"B","value":"80"}'
PIECES = b'"3:0:4:+","7:5:20:+","3:9:10:+","7:30:40:+","3:20:25:+"'
GETS = {
    "at?route=A&method=int&pos=7/35": b'{"at":7,"dir":"+","hits":[' + HITS + b'],"link":7,"mm":8,"route":"A"}',
    "translate?route=A&method=abs&pos=40&to=rel:KM1": b'{"method":"rel","pos":"KM1+0","route":"A"}',
    "translate?route=A&method=abs&pos=40&to=link": b'{"method":"link","pos":"7:30","route":"A"}',
    "segments?route=A&side=L&class=SPEED": b'{"route":"A","segments":[{"from":0,"to":35,"values":["80"]}],"side":"L"}',
    "route/A": b'{"length":35,"marks":[[0,10],[20,40],[35,100]],"name":"A","pieces":[' + PIECES + b'],"refs":[{"at":20,"name":"KM1"}]}',
    "find?asset=4": b'{"rows":[{"from":6,"route":"A","side":"L","to":35}]}',
    "routes": b'{"routes":[{"length":35,"name":"A"}]}',
}


def test_a_server_goes_on_after_a_refused_growth_in_each_query():
    """The same of queries, with each allocation of theirs refused."""
    asked = {get(target): reply(200, body) for target, body in GETS.items()}
    refused = goes_on(asked, 1)
    assert all(refused[sent] > 5 for sent in asked), refused


SURVEY = b"""key,asset,class,route,side,method,from,to,value,offset
v1,20,SIGN,A,R,int,0/1,3/35,x,0
v2,20,SIGN,A,R,int,0/1,3/35,x,0
v3,21,SIGN,A,B,rel,KM1+1,KM1-1,x,0
"""


def test_a_server_goes_on_after_a_refused_growth_in_a_survey():
    """It is done, or answered 503; sent again it is answered by the numbers under which its records were accepted."""
    sent, found = request("POST /v1/surveys", SURVEY, "Content-Type: text/csv"), collections.Counter()
    first = sheet_reply(lines("v1,done,11", "v2,refused,AssetKnown", "v3,refused,Empty"))
    again = sheet_reply(lines("v1,again,11", "v2,refused,AssetKnown", "v3,refused,Empty"))

    def test(port, note):
        got = answer(port, sent)
        found[got[:12]] += 1
        if got != first:
            assert got in (reply(503), b""), got
            assert answer(port, sent) in (first, again)
        # (the refusal may be of an allocation of the second)
        assert again in [answer(port, sent), answer(port, sent)]

    Servers().with_each_refused(test)
    assert found[b"HTTP/1.1 503"] > 20, found


# ---- a file that is looked at as a whole

# so many allocations at the end of a check: it copies all that the inventory holds and finds it sound, does the sheet, and says what it would do
LAST = 320


def test_a_check_of_a_file_bears_a_refused_growth(tmp_path):
    """It says so, or at its end that it could not write its replies; and the file stays as it is."""
    db = tmp_path / "roads.db"
    make(db, *MORE)
    settle(db)
    made, replied = db.read_bytes(), b"n1,done,14\nn2,done,15\n"

    def ended(refusal):
        path = tmp_path / f"{refusal.number}.db"
        path.write_bytes(made)
        found = refusal.run(BUILT, "check", path, "stdin", given=sheet_of("n1,link,77,5", "n2,close,A1"))
        assert path.read_bytes() == made, refusal.number
        path.unlink()
        return found

    def is_reached(number):
        refusal = Refusal("ALLOCATION", number)
        ended(refusal)
        return refusal.was_reached

    found = collections.Counter()

    def test(refusal):
        said = ended(refusal)
        found[said.stdout] += 1
        assert replied.startswith(said.stdout), (refusal.number, said)
        # what would change is told before the program ends
        last = said.stderr.splitlines()[-1:]
        assert said.stdout == replied if said.status == 0 else (said.status, last) == (3, [b"roadlrs: fault Memory"]), (refusal.number, said)

    with_each_refused("ALLOCATION", test, greatest(is_reached) - LAST)
    assert found[b""] > 100, found


# ---- a proved test


def proved_tests(crate, module):
    """The program of the crate's proved tests, which rt ci makes, and the names of those of a module."""
    program = CRATES / crate / "out" / f"{crate}_tests"
    if not program.exists():
        subprocess.run(["rt", "test"], cwd=CRATES / crate, stdin=subprocess.DEVNULL, check=True)
    listed = subprocess.run([program, "--list"], capture_output=True, text=True, check=True).stdout
    return program, re.findall(rf"\b{module}::\w+", listed)


def refused_calls(crate, module="memory"):
    """The calls that were refused a growth while each allocation of each test was refused in turn. Each test passed all the same."""
    program, names = proved_tests(crate, module)
    assert names, (crate, module)
    refused = set()
    for name in names:

        def test(refusal, name=name):
            ended = refusal.run(program, name)
            assert ended.status == 0, (crate, name, refusal.number, ended)
            # (some allocations only make what a call is tried on: no test tells of those)
            refused.update(call.decode() for call in re.findall(rb"^refused: (\S+)$", ended.stdout, re.M))

        assert with_each_refused("ALLOCATION", test) > 0, (crate, name)
    return refused


def test_spans_bear_a_refused_growth():
    changes = ("add", "remove_within", "remove_asset_within", "remove_class_places", "cut", "concat", "turned")
    calls = (*changes, "of_rows", "copy", "at", "met")
    assert refused_calls("lrs_examples") == {f"Spans::{call}" for call in calls}
