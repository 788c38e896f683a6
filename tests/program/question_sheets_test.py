"""A sheet of questions: `roadlrs ask DB QUESTIONS`, and POST /v1/questions with the same bytes."""

import json
import subprocess

import pytest

from program import FIRST, PATIENCE, PROGRAM, ends, faults, lines, run, sheet_of
from serving import answer, error, reply, request, sheet_reply, started
from stores import digest, edit, folder

HEADER = b"key,question,a,b,c,d\n"
MARK = b"\xef\xbb\xbf"
MORE = sheet_of(
    "a1,enter,10,SPEED,A1,B,abs,3000,9000,80,0",
    "a2,enter,11,RAIL,A1,L,abs,0,4000,W-beam,600",
    "a3,enter,12,SIGN,A1,R,abs,3000,,STOP,1500",
    "a4,ref,KM2,A1,abs,3",
    "a5,class,SURFACE,exclusive",
    "a6,enter,13,SURFACE,A1,L,int,0/1,1/2,AC14,0",
    "a7,enter,14,SIGN,A1,R,abs,10,,YIELD,0",
    "a8,retire,14,A1,abs,10",
)


def at_2500(key):
    held = ["hit,10,SPEED,B,0,80,8", "hit,11,RAIL,L,600,W-beam,9", "hit,12,SIGN,R,1500,STOP,10", "hit,13,SURFACE,L,0,AC14,13"]
    return [f"{key},{line}" for line in ["place,A1,2500,1,2500,+,4", *held]]


# Each question with its reply lines, of an inventory of both sheets.
ASKED = [
    ("q1,at,A1,abs,3000,", at_2500("q1")),
    ("q2,at,A1,rel,KM2+5000,", ["q2,place,A1,5002,2,2997,-,1", "q2,hit,10,SPEED,B,0,80,8"]),
    ("q3,at,A1,int,1/1000,", ["q3,place,A1,8,1,8,+,2", "q3,hit,11,RAIL,L,600,W-beam,9", "q3,hit,13,SURFACE,L,0,AC14,13"]),
    ("q4,translate,A1,int,1/3,abs", ["q4,position,A1,abs,3200"]),
    ("q5,translate,A1,abs,3000,rel:KM2", ["q5,position,A1,rel,KM2+2498"]),
    ("q6,translate,A1,abs,3000,int", ["q6,position,A1,int,5/16"]),
    ("q7,translate,A1,abs,3000,link", ["q7,position,A1,link,1:2500"]),
    ("q8,find,10,,,", ["q8,found,1", "q8,row,A1,2500,8000,B"]),
    ("q9,find,14,,,", ["q9,found,0"]),
    ("q10,segments,A1,L,SPEED SURFACE,", ["q10,segments,A1,L,3", "q10,segment,0,2500,-,AC14", "q10,segment,2500,4000,80,AC14", "q10,segment,4000,8000,80,-"]),
    ("q11,segments,A1,R,SURFACE,", ["q11,segments,A1,R,1", "q11,segment,0,8000,-"]),
    ("q12,where,A1,2500,,", [*at_2500("q12"), "q12,positions,3", "q12,position,A1,abs,3000", "q12,position,A1,int,5/16", "q12,position,A1,rel,KM2+2498"]),
    ("q13,where,A1,abs:3000,,", [*at_2500("q13"), "q13,positions,3", "q13,position,A1,abs,3000", "q13,position,A1,int,5/16", "q13,position,A1,rel,KM2+2498"]),
    # a position stands in its millimetre, whose chainage is told
    ("q14,where,A1,int:1/3,,", ["q14,place,A1,2666,1,2666,+,3", "q14,hit,10,SPEED,B,0,80,8", "q14,hit,11,RAIL,L,600,W-beam,9", "q14,hit,13,SURFACE,L,0,AC14,13", "q14,positions,3", "q14,position,A1,abs,15996/5", "q14,position,A1,int,1333/4000", "q14,position,A1,rel,KM2+2664"]),
    ("q15,where,A1,rel:KM2+5000,,", ["q15,place,A1,5002,2,2997,-,1", "q15,hit,10,SPEED,B,0,80,8", "q15,positions,3", "q15,position,A1,abs,6002", "q15,position,A1,int,2501/4000", "q15,position,A1,rel,KM2+5000"]),
    ("q16,where,link,2,2997,", ["q16,place,A1,5002,2,2997,-,1", "q16,hit,10,SPEED,B,0,80,8", "q16,positions,3", "q16,position,A1,abs,6002", "q16,position,A1,int,2501/4000", "q16,position,A1,rel,KM2+5000"]),
    ("q17,where,link,01,0,", ["q17,place,A1,0,1,0,+,2", "q17,hit,11,RAIL,L,600,W-beam,9", "q17,hit,13,SURFACE,L,0,AC14,13", "q17,positions,3", "q17,position,A1,abs,0", "q17,position,A1,int,0/1", "q17,position,A1,rel,KM2-2"]),
]

REFUSED = [
    ("r1,at,B1,abs,3000,", "r1,refused,NoRoute"),
    ("r2,at,A1,abs,9001,", "r2,refused,OffRoute"),
    ("r3,at,A1,rel,KM9+1,", "r3,refused,NoRef"),
    ("r4,translate,A1,abs,3000,rel:KM9", "r4,refused,NoRef"),
    ("r5,find,15,,,", "r5,refused,NoAsset"),
    ("r6,segments,A1,L,SPEED RAIL,", "r6,refused,NotExclusive:1"),
    ("r7,segments,A1,L,LIGHT SPEED,", "r7,refused,NoClass:0"),
    ("r8,segments,A1,B,SPEED,", "r8,refused,SideB"),
    ("r9,where,B1,0,,", "r9,refused,NoRoute"),
    ("s1,where,A1,8001,,", "s1,refused,OffRoute"),
    ("s2,where,A1,abs:9001,,", "s2,refused,OffRoute"),
    ("s3,where,A1,rel:KM9+1,,", "s3,refused,NoRef"),
    ("s4,where,link,4,0,", "s4,refused,NoLink"),
    ("s5,where,link,1,5001,", "s5,refused,OffRoute"),
    ("s6,where,link,3,0,", "s6,refused,OffRoute"),
]

MALFORMED = [
    ("a b,at,A1,abs,3000,", "-,refused,Malformed:key"),
    (",find,10,,,", "-,refused,Malformed:key"),
    ("-,find,10,,,", "-,refused,Malformed:key"),
    ("k" * 41 + ",find,10,,,", "-,refused,Malformed:key"),
    ("m1,,A1,abs,3000,", "m1,refused,Malformed:question"),
    ("m2,AT,A1,abs,3000,", "m2,refused,Malformed:question"),
    ("m3,totals,,,,", "m3,refused,Malformed:question"),
    ("m4,at,a1,abs,3000,", "m4,refused,Malformed:a"),
    ("m5,at,A1,ABS,3000,", "m5,refused,Malformed:b"),
    ("m6,at,A1,abs,-1,", "m6,refused,Malformed:c"),
    ("m7,at,A1,rel,KM2,", "m7,refused,Malformed:c"),
    ("m8,at,A1,abs,3000,x", "m8,refused,Malformed:d"),
    ("m9,at,,,,x", "m9,refused,Malformed:a"),
    ("n1,translate,A1,abs,3000,", "n1,refused,Malformed:d"),
    ("n2,translate,A1,abs,3000,rel:", "n2,refused,Malformed:d"),
    ("n3,translate,A1,abs,3000,rel:km2", "n3,refused,Malformed:d"),
    ("n4,translate,A1,abs,3000,Link", "n4,refused,Malformed:d"),
    ("n5,find,0,,,", "n5,refused,Malformed:a"),
    ("n6,find,1000000000001,,,", "n6,refused,Malformed:a"),
    ("n7,find,10,10,,", "n7,refused,Malformed:b"),
    ("n8,segments,A1,X,SPEED,", "n8,refused,Malformed:b"),
    ("n9,segments,A1,L,,", "n9,refused,Malformed:c"),
    ("o1,segments,A1,L,SPEED  SURFACE,", "o1,refused,Malformed:c"),
    ("o2,segments,A1,L,SPEED ,", "o2,refused,Malformed:c"),
    ("o3,segments,A1,L,speed,", "o3,refused,Malformed:c"),
    ("o4,segments,A1,L,SPEED,x", "o4,refused,Malformed:d"),
    ("p1,where,a1,5,,", "p1,refused,Malformed:a"),
    ("p2,where,,5,,", "p2,refused,Malformed:a"),
    ("p3,where,A1,,,", "p3,refused,Malformed:b"),
    ("p4,where,A1,km:3,,", "p4,refused,Malformed:b"),
    ("p5,where,A1,abs:,,", "p5,refused,Malformed:b"),
    ("p6,where,A1,abs: 3,,", "p6,refused,Malformed:b"),
    ("p7,where,A1,-1,,", "p7,refused,Malformed:b"),
    ("p8,where,A1,10000000001,,", "p8,refused,Malformed:b"),
    ("p9,where,A1,5,5,", "p9,refused,Malformed:c"),
    ("t1,where,A1,5,,x", "t1,refused,Malformed:d"),
    ("t2,where,link,0,5,", "t2,refused,Malformed:b"),
    ("t3,where,link,abs:1,5,", "t3,refused,Malformed:b"),
    ("t4,where,link,1,,", "t4,refused,Malformed:c"),
    ("t5,where,link,1,1000000001,", "t5,refused,Malformed:c"),
    ("t6,where,link,1,5,x", "t6,refused,Malformed:d"),
    ("t7,where,LINK,1,5,", "t7,refused,Malformed:c"),
    ("t8,where,Link,1,5,", "t8,refused,Malformed:a"),
    ("o5,segments,A1,L," + " ".join(["SPEED"] * 1001) + ",", "o5,refused,Malformed:c"),
]

ALL = [*ASKED, *((asked, [line]) for asked, line in [*REFUSED, *MALFORMED])]


def questions(*rows):
    return HEADER + "".join(row + "\n" for row in rows).encode()


@pytest.fixture(scope="module")
def roads():
    with folder() as path:
        for sheet in [FIRST, MORE]:
            assert edit(path, sheet).status == 0
        yield path


def ask(path, sheet):
    return run("ask", str(path), "stdin", given=sheet)


@pytest.mark.parametrize("asked, expected", ALL, ids=lambda x: x[:24] if isinstance(x, str) else "")
def test_each_question_has_its_lines(roads, asked, expected):
    ends(ask(roads, questions(asked)), lines(*expected), 1 if "refused" in expected[0] else 0)


def test_questions_are_answered_in_their_order(roads, tmp_path):
    sheet = questions(*(asked for asked, _ in ALL))
    expected = lines(*(line for _, lined in ALL for line in lined))
    ends(ask(roads, sheet), expected, 1)
    path = tmp_path / "questions.csv"
    path.write_bytes(sheet)
    ends(run("ask", str(roads), str(path)), expected, 1)
    path.write_bytes(questions(*(asked for asked, _ in ASKED)))
    ends(run("ask", str(roads), str(path)), lines(*(line for _, lined in ASKED for line in lined)), 0)


def test_the_answers_are_those_of_the_single_questions(roads):
    """Each question but `segments` beside the command of its name, whose lines have spaces for commas."""
    for asked, expected in ASKED:
        key, name, *fields = asked.rstrip(",").split(",")
        if name == "segments":
            continue
        said = run(name, str(roads), *fields)
        told = [line.split(",")[1:] for line in expected if f"{key},positions," not in line]
        if name in ("at", "where"):
            told[0] = told[0][:-1]
        if name == "where":
            told = [["position", *row[2:]] if row[0] == "position" else row for row in told]
        if name == "find":
            told = told[1:]
        if name == "translate":
            told = [[told[0][-1]]]
        else:
            told = [row[1:] for row in told]
        ends(said, lines(*(" ".join(row) for row in told)), 0)


@pytest.mark.parametrize("sheet", [b"", HEADER, HEADER.rstrip(b"\n"), b"\n", b"\r\n\r\n", HEADER + b"\n\r\n", MARK, MARK + HEADER])
def test_an_empty_sheet_has_no_lines(roads, sheet):
    ends(ask(roads, sheet), b"", 0)


def test_a_sheet_is_read_as_csv(roads):
    line = lines("q,position,A1,link,1:2500")
    for sheet in [
        MARK + HEADER + b"q,translate,A1,abs,3000,link",
        HEADER.replace(b"\n", b"\r\n") + b"q,translate,A1,abs,3000,link\r\n",
        HEADER + b'"q","translate","A1",abs,"3000",link\n',
        HEADER + b"\n\nq,translate,A1,abs,0003000,link\n",
    ]:
        ends(ask(roads, sheet), line, 0)


def test_another_header_or_width_ends_the_sheet(roads):
    for header in [HEADER.upper(), HEADER[:-3] + b"\n", HEADER[:-1] + b",e\n", b"key,verb,a,b,c,d\n", FIRST.splitlines(True)[0]]:
        faults(ask(roads, header + b"q,find,10,,,\n"), "BadHeader")
    found = lines("q,found,1", "q,row,A1,2500,8000,B")
    for bad in [b"q,find,10,,\n", b"q,find,10,,,,\n", b"q\n"]:
        faults(ask(roads, HEADER + b"q,find,10,,,\n" + bad + b"q,find,10,,,\n"), "BadCsv", found)


def test_asking_changes_nothing_and_makes_no_file(roads, tmp_path):
    before = digest(roads)
    ask(roads, questions(*(asked for asked, _ in ALL)))
    assert digest(roads) == before
    faults(run("ask", str(tmp_path / "none.db"), "stdin", given=HEADER), "Open")
    assert list(tmp_path.iterdir()) == []
    ends(run("ask", ":memory:", "stdin", given=questions("q,find,10,,,")), lines("q,refused,NoAsset"), 1)
    faults(run("ask", str(roads), str(tmp_path / "none.csv")), "Read")
    ended = run("ask", str(roads), "-")
    assert (ended.status, ended.stderr.splitlines()[0]) == (3, b"hint: standard input is written stdin"), ended


def test_each_answer_goes_out_before_the_next_question_comes(roads):
    asked = subprocess.Popen([PROGRAM, "ask", str(roads), "stdin"], stdin=subprocess.PIPE, stdout=subprocess.PIPE)
    asked.stdin.write(HEADER)
    for row, expected in ALL:
        asked.stdin.write(row.encode() + b"\n")
        asked.stdin.flush()
        for line in expected:
            assert asked.stdout.readline() == line.encode() + b"\n", row
    asked.stdin.close()
    assert (asked.stdout.read(), asked.wait(PATIENCE)) == (b"", 1)


def test_a_full_device_is_a_fault(roads, tmp_path):
    path = tmp_path / "questions.csv"
    path.write_bytes(questions("q,find,10,,,"))
    for given in ["stdin", str(path)]:
        with open("/dev/full", "wb") as full:
            faults(run("ask", str(roads), given, given=questions("q,find,10,,,"), stdout=full), "Write")


@pytest.fixture(scope="module")
def port():
    with started() as server:
        for sheet in [FIRST, MORE]:
            assert b" 200 " in answer(server.port, request("POST /v1/edits", sheet))
        yield server.port


def post(port, body, target="/v1/questions"):
    return answer(port, request("POST " + target, body))


def test_over_http_the_lines_are_the_same(port):
    sheet = questions(*(asked for asked, _ in ALL))
    expected = sheet_reply(lines(*(line for _, lined in ALL for line in lined)))
    assert post(port, sheet) == expected
    assert post(port, sheet, "/v1/questions?resume=1&x=2") == expected
    assert post(port, HEADER) == post(port, b"") == reply(200)


def test_over_http_a_sheet_at_fault_says_so(port):
    assert post(port, HEADER.upper()) == sheet_reply(b"-,fault,BadHeader\n", 422)
    assert post(port, FIRST) == sheet_reply(b"-,fault,BadHeader\n", 422)
    found = lines("q,found,1", "q,row,A1,2500,8000,B")
    assert post(port, HEADER + b"q,find,10,,,\nq,find\n") == sheet_reply(found + b"-,fault,BadCsv\n", 422)
    assert post(port, HEADER, "/v1/questions?resume=2") == reply(400)
    assert answer(port, request("GET /v1/questions")) == reply(405, allow="POST")
    assert post(port, HEADER, "/v1/questions/") == reply(404)
    assert error(404, "NoRoute") == answer(port, request("GET /v1/at?route=B1&method=abs&pos=1"))


def test_segments_are_those_of_the_single_question_over_http(port):
    for asked, expected in ASKED:
        key, name, *fields = asked.split(",")
        if name == "segments":
            classes = "".join(f"&class={name}" for name in fields[2].split())
            said = answer(port, request(f"GET /v1/segments?route={fields[0]}&side={fields[1]}{classes}"))
            segments = json.loads(said.partition(b"\r\n\r\n")[2])["segments"]
            told = [",".join([key, "segment", str(one["from"]), str(one["to"]), *one["values"]]) for one in segments]
            assert [f"{key},segments,{fields[0]},{fields[1]},{len(told)}", *told] == expected
