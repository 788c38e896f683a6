"""`roadlrs survey DB SHEET`: bytes in, bytes out, status.

In a fresh inventory there are no classes, so that each entry of a survey is refused; what a survey enters is tried over a file in which an edit
sheet has made links, classes, a route and an asset.
"""

import contextlib
import pathlib
import tempfile

import pytest

from program import FIRST, ends, faults, lines, run
from stores import edit, folder, make, more_sheet

HEADER = b"key,asset,class,route,side,method,from,to,value,offset\n"
SIGN = b"p1,20,SIGN,A1,L,abs,9000,,STOP,0\n"
NO_CLASS = b"p1,refused,NoClass\n"
MARK = b"\xef\xbb\xbf"


def run_survey(sheet):
    return run("survey", ":memory:", "stdin", given=sheet)


def replies(*rows):
    """A survey of these records gets these replies, line by line."""
    sheet = HEADER + b"".join((text + "\n").encode() for text, _ in rows)
    ends(run_survey(sheet), lines(*(reply for _, reply in rows)), 1)


@pytest.mark.parametrize("sheet", [b"", HEADER, HEADER.rstrip(b"\n"), b"\n", b"\r\n\r\n\n", HEADER + b"\n\r\n", MARK])
def test_empty_survey_has_no_reply(sheet):
    ends(run_survey(sheet), b"", 0)


def test_a_survey_is_a_file_or_the_standard_input():
    with tempfile.TemporaryDirectory() as folder:
        path = pathlib.Path(folder) / "survey.csv"
        path.write_bytes(HEADER + SIGN)
        ends(run("survey", ":memory:", str(path)), NO_CLASS, 1)
    ends(run_survey(HEADER + SIGN), NO_CLASS, 1)


def test_a_byte_order_mark_is_left_out():
    for sheet in [MARK + HEADER, MARK + MARK + HEADER, MARK + HEADER.replace(b"key", b'"key"')]:
        ends(run_survey(sheet + SIGN), NO_CLASS, 1)
    faults(run_survey(MARK + MARK + HEADER.replace(b"key", b'"key"') + SIGN), "BadHeader")
    faults(run_survey(MARK * 3 + HEADER + SIGN), "BadHeader")


def test_the_header_of_the_other_kind():
    faults(run_survey(FIRST), "BadHeader")
    faults(run("edit", ":memory:", "stdin", given=HEADER + SIGN), "BadHeader")
    for header in [SIGN, HEADER[:-8] + b"\n", HEADER[:-1] + b",x\n", HEADER.upper(), HEADER.replace(b"key,", b"key,verb,"), HEADER.replace(b"from,to", b"to,from")]:
        faults(run_survey(header + SIGN), "BadHeader")


def test_records_of_another_length():
    faults(run_survey(HEADER + SIGN + b"p2,21,SIGN,A1,L,abs,9000,,STOP\n"), "BadCsv", NO_CLASS)
    faults(run_survey(HEADER + SIGN + b"p2,enter,21,SIGN,A1,L,abs,9000,,STOP,0\n"), "BadCsv", NO_CLASS)
    faults(run_survey(HEADER + SIGN + b"p2\n"), "BadCsv", NO_CLASS)
    faults(run_survey(HEADER + SIGN + b" \n"), "BadCsv", NO_CLASS)


def test_a_torn_quote():
    faults(run_survey(HEADER + SIGN + b'p2,21,"SIGN,A1,L,abs,9000,,STOP,0\n' + SIGN), "BadCsv", NO_CLASS)
    faults(run_survey(HEADER + b'"p1,20,SIGN,A1,L,abs,9000,,STOP,0\n'), "BadCsv")
    ends(run_survey(HEADER + b'p1,20,SIGN,A1,L,abs,9000,,STOP,"0'), NO_CLASS, 1)


def test_each_malformed_field_has_its_letter():
    good = ["p1", "20", "SIGN", "A1", "L", "abs", "9000", "", "STOP", "0"]
    wrong = ["a b", "0", "sign", "-A", "N", "Abs", "x", "x", "-", "x"]
    names = ["key", *"abcdefghi"]
    rows = []
    for at, name in enumerate(names):
        fields = good[:at] + wrong[at:]
        rows.append((",".join(fields), f"{'-' if at == 0 else 'p1'},refused,Malformed:{name}"))
    replies(*rows)


def test_numbers_with_leading_zeros():
    replies(
        ("p1,0000000000000000000000000000000000020,SIGN,A1,L,abs,009000,,STOP,00000000000000000000", "p1,refused,NoClass"),
        ("p1,1000000000000,SIGN,A1,L,abs,100000000000,,STOP,100000", "p1,refused,NoClass"),
        ("p1,1000000000001,SIGN,A1,L,abs,9000,,STOP,0", "p1,refused,Malformed:a"),
        ("p1,20,SIGN,A1,L,abs,100000000001,,STOP,0", "p1,refused,Malformed:f"),
        ("p1,20,SIGN,A1,L,abs,9000,,STOP,100001", "p1,refused,Malformed:i"),
        ("p1,20,SIGN,A1,L,int,2/4,3/3,STOP,0", "p1,refused,NoClass"),
        ("p1,20,SIGN,A1,L,int,3/2,,STOP,0", "p1,refused,Malformed:f"),
        ("p1,20,SIGN,A1,L,rel,KM2+0,KM2-01,STOP,0", "p1,refused,NoClass"),
        ("p1,20,SIGN,A1,L,rel,9000,,STOP,0", "p1,refused,Malformed:f"),
        ("p1,20,SIGN,A1,L,abs,1/2,,STOP,0", "p1,refused,Malformed:f"),
    )


def test_a_survey_cut_after_each_byte():
    survey = HEADER + SIGN + SIGN.replace(b"p1", b"p2")
    for at in range(len(survey) + 1):
        head, *rest = survey[:at].split(b"\n")
        done = [b"p%d,refused,NoClass\n" % n for n in range(1, len(rest))]
        ended = run_survey(survey[:at])
        if at > 0 and head + b"\n" != HEADER:
            faults(ended, "BadHeader")
        elif rest and rest[-1] and rest[-1].count(b",") < 9:
            faults(ended, "BadCsv", b"".join(done))
        elif rest and rest[-1]:
            cause = b"Malformed:i" if rest[-1].endswith(b",") else b"NoClass"
            ends(ended, b"".join(done) + b"p%d,refused,%s\n" % (len(rest), cause), 1)
        else:
            ends(ended, b"".join(done), 1 if done else 0)


ENTERED = "e1,enter,10,SPEED,A1,B,abs,3000,9000,80,0"
PLACED = HEADER + b"e1,10,SPEED,A1,B,abs,3000,9000,80,0\n" + SIGN + b"t1,30,RAIL,A1,R,int,1/3,2/3,STEEL,150\n"
PLACED_REPLIES = lines("e1,again,8", "p1,done,9", "t1,done,10")


@contextlib.contextmanager
def laid_out():
    """A store in which an edit sheet made three links, three classes, a route and an asset."""
    with folder() as path:
        make(path, ENTERED)
        yield path


def run_survey_at(path, sheet):
    return run("survey", str(path), "stdin", given=sheet)


def test_a_survey_after_an_edit_sheet():
    with laid_out() as path:
        ends(run_survey_at(path, PLACED), PLACED_REPLIES, 0)
        sheet = more_sheet("p1,enter,20,SIGN,A1,L,abs,9000,,STOP,0", "t1,supersede,30,RAIL,A1,R,int,1/3,2/3,STEEL,150")
        ends(edit(path, sheet), lines("p1,again,9", "t1,refused,KeyUsed:10"), 1)


def test_each_record_of_a_survey_has_its_line():
    rows = (
        ("e1,0010,SPEED,A1,B,abs,03000,009000,80,000", "e1,again,8"),
        ("e1,10,SPEED,A1,B,abs,3000,9000,70,0", "e1,refused,KeyUsed:8"),
        ("t1,30,RAIL,A1,R,int,1/3,2/3,STEEL,0", "t1,done,9"),
        ("t1,30,RAIL,A1,R,int,2/6,4/6,STEEL,0", "t1,again,9"),
        ('"t1","30",RAIL,A1,R,int,1/3,"2/3",STEEL,"0"', "t1,again,9"),
        ("k,11,SPEED,A1,L,abs,8999,9000,60,0", "k,refused,Overlap:10"),
        ("k,30,RAIL,A1,R,int,0/1,1/1,STEEL,0", "k,refused,AssetKnown"),
        ("k,40,RAIL,A1,R,abs,9000,,STEEL,0", "k,refused,WrongKind"),
        ("k,40,TREE,A1,R,abs,9000,,STEEL,0", "k,refused,NoClass"),
        ("a b,40,SIGN,A1,L,abs,9000,,STOP,0", "-,refused,Malformed:key"),
        (",,,,,,,,,", "-,refused,Malformed:key"),
        ("k,40,SIGN,A1,L,abs,9000,,STOP,100001", "k,refused,Malformed:i"),
        ("enter,40,SIGN,A1,L,abs,9000,,STOP,100000", "enter,done,10"),
    )
    with laid_out() as path:
        sheet = HEADER + b"".join(f"{text}\n".encode() for text, _ in rows)
        ends(run_survey_at(path, sheet), lines(*(reply for _, reply in rows)), 1)


def test_how_a_survey_may_be_laid_out():
    for sheet in (MARK + MARK + HEADER + SIGN, (HEADER + SIGN).replace(b"\n", b"\r"), HEADER + SIGN[:-2] + b'"0'):
        with laid_out() as path:
            ends(run_survey_at(path, sheet), b"p1,done,9\n", 0)


def test_a_survey_that_enters_is_cut_after_each_byte():
    """What was done is answered, nothing else is done, and the whole survey is done after it."""
    replies = PLACED_REPLIES.splitlines(keepends=True)
    with laid_out() as path:
        whole = path.read_bytes()
        for at in range(len(HEADER), len(PLACED) + 1):
            path.write_bytes(whole)
            path.with_name(path.name + "-wal").unlink(missing_ok=True)
            head, last = PLACED[:at].rsplit(b"\n", 1)
            done = b"".join(replies[: head.count(b"\n")])
            ended = run_survey_at(path, PLACED[:at])
            if last and last.count(b",") < 9:
                faults(ended, "BadCsv", done)
            elif last.endswith(b","):
                ends(ended, done + last.split(b",")[0] + b",refused,Malformed:i\n", 1)
            else:
                ends(ended, b"".join(replies[: head.count(b"\n") + bool(last)]), 0)
