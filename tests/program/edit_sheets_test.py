"""`roadlrs edit :memory: SHEET`: bytes in, bytes out, status. The expected bytes are those of the formats' text."""

import pathlib
import tempfile

import pytest

from program import FIRST, FIRST_REPLIES, HEADER, after_first, ends, faults, lines, record, replies, run, run_sheet

MARK = b"\xef\xbb\xbf"


@pytest.mark.parametrize("sheet", [b"", HEADER, HEADER.rstrip(b"\n"), b"\n", b"\r\n\r\n\n", HEADER + b"\n\r\n"])
def test_empty_sheet_has_no_reply(sheet):
    ends(run_sheet(sheet), b"", 0)


def test_first_sheet():
    ends(run_sheet(FIRST), FIRST_REPLIES, 0)


def test_first_sheet_cut_after_each_byte():
    for at in range(len(FIRST) + 1):
        head, *rest = FIRST[:at].split(b"\n")
        done = FIRST_REPLIES.splitlines(keepends=True)[: max(0, len(rest) - 1)]
        ended = run_sheet(FIRST[:at])
        if at > 0 and head + b"\n" != HEADER:
            faults(ended, "BadHeader")
        elif rest and rest[-1] and rest[-1].count(b",") < 10:
            faults(ended, "BadCsv", b"".join(done))
        else:
            if rest and rest[-1]:
                done = FIRST_REPLIES.splitlines(keepends=True)[: len(rest)]
            ends(ended, b"".join(done), 0)


def test_limits_of_links():
    replies(
        ("a1,link,999999,1000000000", "a1,done,1"),
        ("a2,link,0,1", "a2,refused,Malformed:a"),
        ("a3,link,1000000,1", "a3,refused,Malformed:a"),
        ("a4,link,4,0", "a4,refused,Malformed:b"),
        ("a5,link,4,1000000001", "a5,refused,Malformed:b"),
        ("a6,link,1,1", "a6,done,2"),
        ("a7,link,0000000000000000000000000000000000004,00007", "a7,done,3"),
        ("a8,link,18446744073709551620,1", "a8,refused,Malformed:a"),
        ("a9,link,5,18446744073709551617", "a9,refused,Malformed:b"),
        ("b1,link,,1", "b1,refused,Malformed:a"),
        ("b2,link,5,", "b2,refused,Malformed:b"),
        ("b3,link,+5,1", "b3,refused,Malformed:a"),
        ("b4,link,-5,1", "b4,refused,Malformed:a"),
        ("b5,link, 5,1", "b5,refused,Malformed:a"),
        ("b6,link,5,1.0", "b6,refused,Malformed:b"),
        ("b7,link,5,1e3", "b7,refused,Malformed:b"),
        ("b8,link,\u0665,1", "b8,refused,Malformed:a"),
        ("b9,link,0,0,x", "b9,refused,Malformed:a"),
    )


def test_routes_that_are_refused():
    after_first(
        ("a1,route,A1,9:0:1:+,0:0 1:1", "a1,refused,RouteKnown"),
        ("a2,route,C1,9:0:1:+,0:0 1:1", "a2,refused,NoLink"),
        ("a3,route,C1,3:5:5:+,0:0 1:1", "a3,refused,BadPiece:0"),
        ("a4,route,C1,3:0:10:+ 3:0:2001:-,0:0 1:1", "a4,refused,BadPiece:1"),
        ("a5,route,C1,3:0:10:+ 3:9:20:-,0:0 21:21", "a5,refused,Taken:1"),
        ("a6,route,C1,3:0:10:+ 1:3999:5000:+,0:0 1:1", "a6,refused,Taken:1"),
        ("a7,route,C1,3:0:10:+,0:0 9:9", "a7,refused,BadMarks:1"),
        ("a8,route,C1,3:0:10:+,0:5 10:5", "a8,refused,BadMarks:1"),
        ("a9,route,C1,3:0:10:+,1:0 10:9", "a9,refused,BadMarks:0"),
        ("b1,route,C1,3:0:2000:+,0:99999999000 2000:100000000000", "b1,done,8"),
        ("b2,route,D1,3:1999:2000:+,0:0 1:1", "b2,refused,Taken:0"),
        ("s7,route,A1,01:0:5000:+ 2:0:3000:-,0:0 5000:06000 8000:9000", "s7,again,7"),
        ("s7,route,A1,1:0:5000:+ 2:0:3000:-,0:0 8000:9000", "s7,refused,KeyUsed:7"),
    )


def test_the_first_of_two_faults_of_a_route():
    after_first(
        ("t1,route,A1,3:5:5:+,0:0 1:1", "t1,refused,RouteKnown"),
        ("t2,route,C1,3:5:5:+ 9:0:1:+,0:0 1:1", "t2,refused,NoLink"),
        ("t3,route,C1,3:0:10:+ 3:0:10:+ 3:7:7:+,0:0 1:1", "t3,refused,BadPiece:2"),
        ("t4,route,C1,1:0:10:+ 1:0:10:+,0:0 1:1", "t4,refused,Taken:1"),
        ("t5,route,C1,1:0:10:+,0:0 1:1", "t5,refused,Taken:0"),
    )


def test_routes_that_touch():
    after_first(
        ("r1,route,C1,3:0:10:+ 3:20:30:-,0:7 20:8", "r1,done,8"),
        ("r2,route,C2,3:9:11:-,0:0 2:2", "r2,refused,Taken:0"),
        ("r3,route,C2,3:30:31:+ 3:19:21:-,0:0 3:3", "r3,refused,Taken:1"),
        ("r4,route,C2,3:10:20:-,0:0 10:10", "r4,done,9"),
    )


def test_routes_that_are_malformed():
    after_first(
        ("a1,route,,3:0:10:+,0:0 10:9", "a1,refused,Malformed:a"),
        ("a2,route,-A,3:0:10:+,0:0 10:9", "a2,refused,Malformed:a"),
        ("a3,route,ABCDEFGHIJKLM,3:0:10:+,0:0 10:9", "a3,refused,Malformed:a"),
        ("a4,route,C1,,0:0 10:9", "a4,refused,Malformed:b"),
        ("a5,route,C1,3:0:10,0:0 10:9", "a5,refused,Malformed:b"),
        ("a6,route,C1,3:0:10:*,0:0 10:9", "a6,refused,Malformed:b"),
        ("a7,route,C1,3:0:10:+  3:10:20:+,0:0 10:9", "a7,refused,Malformed:b"),
        ("a8,route,C1, 3:0:10:+,0:0 10:9", "a8,refused,Malformed:b"),
        ("a9,route,C1,0:0:10:+,0:0 10:9", "a9,refused,Malformed:b"),
        ("b1,route,C1,1000000:0:10:+,0:0 10:9", "b1,refused,Malformed:b"),
        ("b2,route,C1,3:0:1000000001:+,0:0 10:9", "b2,refused,Malformed:b"),
        ("b3,route,C1,3:0:10:+,", "b3,refused,Malformed:c"),
        ("b4,route,C1,3:0:10:+,0:0", "b4,refused,Malformed:c"),
        ("b5,route,C1,3:0:10:+,0:0 10:100000000001", "b5,refused,Malformed:c"),
        ("b6,route,C1,3:0:10:+,0:0 10000000001:9", "b6,refused,Malformed:c"),
        ("b7,route,C1,3:0:10:+,0:0 10:9,x", "b7,refused,Malformed:d"),
        ("b8,route,c1,3:0:10:+,0:0 10:9", "b8,refused,Malformed:a"),
        ("b9,route,C1,3:0:10:+:,0:0 10:9", "b9,refused,Malformed:b"),
        ("c1,route,C1,3:0:10:+ ,0:0 10:9", "c1,refused,Malformed:b"),
        ("c2,route,C1,3:1000000001:10:+,0:0 10:9", "c2,refused,Malformed:b"),
        ("c3,route,C1,3:0:-10:+,0:0 10:9", "c3,refused,Malformed:b"),
        ("c4,route,C1,3:0:10:+,0:0 10:10:10", "c4,refused,Malformed:c"),
        ("c5,route,C1,3:0:10:+,0:0 10", "c5,refused,Malformed:c"),
        ("c6,route,C1,003:0:0010:-,0:00 10:100000000000", "c6,done,8"),
        ("c6,route,C1,3:0:10:-,0:0 010:100000000000", "c6,again,8"),
    )


UNREADABLE = {
    "int": ["1/0", "3/2", "1000001/1000001", "1/", "-1/2", ""],
    "abs": ["+5", "5.0", "100000000001", ""],
    "rel": ["KM2", "KM2++1", "km2+1", "KM2+10000000001", ""],
}


@pytest.mark.parametrize("method", UNREADABLE)
def test_texts_that_are_no_position(method):
    after_first(*((f"n{n},ref,KM3,A1,{method},{text}", f"n{n},refused,Malformed:d") for n, text in enumerate(UNREADABLE[method])))


def test_texts_of_one_position():
    """Zeros before a number, terms that are not the lowest and the sign of a zero distance make no other command."""
    after_first(
        ("r1,ref,KM2,A1,abs,0000000000000000000000003", "r1,done,8"),
        ("r1,ref,KM2,A1,abs,3", "r1,again,8"),
        ("r2,ref,KM3,A1,int,0000001/2", "r2,done,9"),
        ("r2,ref,KM3,A1,int,1/2", "r2,again,9"),
        ("r2,ref,KM3,A1,int,500000/1000000", "r2,again,9"),
        ("r3,ref,KM4,A1,rel,KM2-0", "r3,done,10"),
        ("r3,ref,KM4,A1,rel,KM2+0", "r3,again,10"),
        ("r3,ref,KM4,A1,rel,KM2+1", "r3,refused,KeyUsed:10"),
    )


def test_longest_route():
    links = [(f"k{n},link,{n},1000000000", f"k{n},done,{n - 10}") for n in range(11, 22)]
    pieces = [f"{n}:0:1000000000:+" for n in range(11, 22)]
    replies(
        *links,
        (f"a,route,A,{' '.join(pieces)},0:0 10000000000:1", "a,refused,TooLong"),
        (f"b,route,A,{' '.join(pieces[:10])},0:0 10000000000:100000000000", "b,done,12"),
        # a route that is too long is not looked for on ground that another one has
        (f"c,route,B,{' '.join(pieces)},0:0 1:1", "c,refused,TooLong"),
        (f"d,route,B,{' '.join(pieces[1:])},0:0 1:1", "d,refused,Taken:0"),
    )


def test_most_pieces_and_marks():
    apart = " ".join(f"3:{2 * n}:{2 * n + 1}:+" for n in range(1000))
    marks = " ".join(f"{n}:{n}" for n in range(999)) + " 1000:1000"
    after_first(
        (f"a,route,C1,{apart} 1:0:1:+,0:0 1001:1", "a,refused,Malformed:b"),
        (f"b,route,C1,{apart},{marks} 1001:1001", "b,refused,Malformed:c"),
        (f"c,route,C1,{apart},{marks}", "c,done,8"),
    )


def test_known_link():
    replies(
        ("a,link,1,7", "a,done,1"),
        ("b,link,1,7", "b,refused,LinkKnown"),
        ("c,link,001,8", "c,refused,LinkKnown"),
        ("d,link,2,7", "d,done,2"),
    )


def test_classes():
    replies(
        ("a,class,A,point", "a,done,1"),
        ("b,class,ABCDEFG9,stretch", "b,done,2"),
        ("c,class,0,exclusive", "c,done,3"),
        ("d,class,ABCDEFGHI,point", "d,refused,Malformed:a"),
        ("e,class,,point", "e,refused,Malformed:a"),
        ("f,class,a,point", "f,refused,Malformed:a"),
        ("g,class,A-B,point", "g,refused,Malformed:a"),
        ("h,class,B,Point", "h,refused,Malformed:b"),
        ("i,class,B,", "i,refused,Malformed:b"),
        ("j,class,B,points", "j,refused,Malformed:b"),
        ("k,class,A,stretch", "k,refused,ClassKnown"),
        ("l,class,A,point", "l,refused,ClassKnown"),
    )


def test_fields_that_a_verb_does_not_use_are_empty():
    for place, letter in enumerate("cdefghi"):
        row = "k,link,1,5" + "," * (place + 1) + "x"
        replies((row, f"k,refused,Malformed:{letter}"))
        replies((row.replace("link,1,5", "class,A,point"), f"k,refused,Malformed:{letter}"))
    replies(("k,link,1,5,,x,,x", "k,refused,Malformed:d"))


def test_keys():
    longest = "Az09.:_-" * 5
    replies(
        (f"{longest},link,1,1", f"{longest},done,1"),
        (f"{longest}x,link,2,1", "-,refused,Malformed:key"),
        ("-,link,2,1", "-,refused,Malformed:key"),
        (",link,2,1", "-,refused,Malformed:key"),
        ("a b,link,2,1", "-,refused,Malformed:key"),
        ("a/b,link,2,1", "-,refused,Malformed:key"),
        ("\u00e9,link,2,1", "-,refused,Malformed:key"),
        ("--,link,2,1", "--,done,2"),
        (".,link,3,1", ".,done,3"),
        ("?,nothing,0,0", "-,refused,Malformed:key"),
    )


@pytest.mark.parametrize("verb", ["", "Link", "links", "LINK", " link", "edit"])
def test_unknown_verbs(verb):
    replies((f"k,{verb},0,0", "k,refused,Malformed:verb"))


def test_repeated_keys():
    replies(
        ("a,link,1,5", "a,done,1"),
        ("b,link,2,5", "b,done,2"),
        ("a,link,1,5", "a,again,1"),
        ("a,link,01,005", "a,again,1"),
        ("a,link,1,6", "a,refused,KeyUsed:1"),
        ("a,class,A,point", "a,refused,KeyUsed:1"),
        ("b,link,2,5", "b,again,2"),
        ("a,link,1,0", "a,refused,Malformed:b"),
        ("c,link,2,5", "c,refused,LinkKnown"),
        ("c,link,3,5", "c,done,3"),
        ("A,link,4,5", "A,done,4"),
    )


GOOD = HEADER.rstrip(b"\n")


@pytest.mark.parametrize(
    "header",
    [
        b"key,verb",
        b"key",
        b"key,asset,class,route,side,method,from,to,value,offset",
        GOOD + b",",
        GOOD + b",j",
        GOOD[:-2],
        GOOD.upper(),
        GOOD + b" ",
        b" " + GOOD,
        GOOD.replace(b"verb", b"Verb"),
        GOOD.replace(b",", b";"),
        b"k1,link,1,5,,,,,,,",
    ],
)
def test_headers_that_are_refused(header):
    faults(run_sheet(header + b"\nk1,link,1,5,,,,,,,\n"), "BadHeader")
    faults(run_sheet(header), "BadHeader")


def test_a_header_of_two_fields_and_an_empty_record():
    faults(run_sheet(b"key,verb\n\n,,,\n"), "BadHeader")


def test_records_of_another_length():
    good = record("k1,link,1,5") + record("k2,link,0,5")
    answered = lines("k1,done,1", "k2,refused,Malformed:a")
    for row in [b"k3,link,3,5,,,,,,\n", b"k3,link,3,5,,,,,,,,\n", b" \n", b'""\n', b"k3\n", b'k3,"link']:
        faults(run_sheet(HEADER + good + row + record("k4,link,4,5")), "BadCsv", answered)
    faults(run_sheet(HEADER + b'k1,"link\n'), "BadCsv")
    faults(run_sheet(HEADER + b'"'), "BadCsv")


def test_a_torn_quote():
    faults(run_sheet(HEADER + b'k1,"link'), "BadCsv")
    faults(run_sheet(FIRST + b'k1,"link'), "BadCsv", FIRST_REPLIES)


@pytest.mark.parametrize("end", [b"\n", b"\r", b"\r\n", b"\n\n", b"\r\r\n", b"\n\r\n\n"])
def test_line_ends(end):
    sheet = FIRST.replace(b"\n", end)
    ends(run_sheet(sheet), FIRST_REPLIES, 0)
    ends(run_sheet(end + sheet), FIRST_REPLIES, 0)
    ends(run_sheet(sheet[: -len(end)]), FIRST_REPLIES, 0)


def test_quoted_fields():
    rows = [
        (b'"a","link","1","5"', "a,done,1"),
        (b'b,"li"nk,2,5', "b,done,2"),
        (b'"c",link,"3",5', "c,done,3"),
        (b'd,li"nk",4,5', "d,refused,Malformed:verb"),
        (b'e,link,"4,",5', "e,refused,Malformed:a"),
        (b'f,link,"4\n",5', "f,refused,Malformed:a"),
        (b'g,link,"""4""",5', "g,refused,Malformed:a"),
        (b'"h""",link,4,5', "-,refused,Malformed:key"),
        (b'"i" ,link,4,5', "-,refused,Malformed:key"),
        (b' "j",link,4,5', "-,refused,Malformed:key"),
        (b'k,link,"4"",",5', "k,refused,Malformed:a"),
    ]
    for header in (HEADER, HEADER.replace(b",i\n", b',"i"\n')):
        sheet = header + b"".join(row + b",,,,,,,\n" for row, _ in rows)
        ends(run_sheet(sheet), lines(*(reply for _, reply in rows)), 1)


def test_mark_before_the_header():
    body = FIRST[len(HEADER) :]
    quoted = b'"key",' + HEADER[4:]
    for sheet in [MARK + FIRST, MARK + MARK + FIRST, MARK + quoted + body, b"\n" + MARK + FIRST]:
        ends(run_sheet(sheet), FIRST_REPLIES, 0)
    ends(run_sheet(b'"' + MARK + b'key",' + HEADER[4:] + body), FIRST_REPLIES, 0)
    ends(run_sheet(MARK), b"", 0)
    for sheet in [MARK * 3 + FIRST, MARK + MARK + quoted + body, b" " + MARK + FIRST]:
        faults(run_sheet(sheet), "BadHeader")
    ends(run_sheet(HEADER + MARK + record("k,link,1,5")), lines("-,refused,Malformed:key"), 1)


def test_bytes_that_are_no_text():
    row = b"k\xff,link,1,5,,,,,,,\n" + b"k,l\x00nk,1,5,,,,,,,\n" + b"k,link,1,5\x80,,,,,,,\n"
    ends(run_sheet(HEADER + row), lines("-,refused,Malformed:key", "k,refused,Malformed:verb", "k,refused,Malformed:b"), 1)


def test_long_fields():
    long = "9" * 100_000
    replies(
        (f"{long},link,1,5", "-,refused,Malformed:key"),
        (f"k,{long},1,5", "k,refused,Malformed:verb"),
        (f"k,link,{long},5", "k,refused,Malformed:a"),
        ("k,link," + "0" * 100_000 + "1,5", "k,done,1"),
    )


def test_an_inventory_that_cannot_be_opened():
    with tempfile.TemporaryDirectory() as folder:
        faults(run("edit", f"{folder}/none/db", "stdin", given=FIRST), "Open")
        # the inventory is opened before the sheet
        faults(run("edit", f"{folder}/none/db", f"{folder}/sheet"), "Open")
        # and the words are read before both
        assert run("edit", f"{folder}/none/db", f"{folder}/sheet", "more").status == 2


def test_sheets_in_files():
    with tempfile.TemporaryDirectory() as folder:
        sheet = pathlib.Path(folder) / "stdin"
        sheet.write_bytes(FIRST)
        ends(run("edit", ":memory:", str(sheet)), FIRST_REPLIES, 0)
        ends(run("edit", ":memory:", "./stdin", cwd=folder), FIRST_REPLIES, 0)
        ends(run("edit", ":memory:", "stdin", cwd=folder), b"", 0)
        faults(run("edit", ":memory:", f"{folder}/none", given=FIRST), "Read")
        faults(run("edit", ":memory:", folder, given=FIRST), "Read")
