"""Worked examples of questions, of sheets that cannot be read, of HTTP, of limits and of refusals, over a file; what changes nothing changes no
row of any table."""

from program import HEADER, ends, run
from serving import SURVEY, reply, request
from worked_examples_over_files import RECALIBRATED, REALIGNED, SPEED_LIMIT, does, example, example_from_nothing, faulty, gets, misreads, posts, refuses, says, sends

NO_POSITION = "POS is no position by this method"


def test_exact_translation():
    """A third and a seventh of the route are told as exact fractions; such a fraction is answered, and not entered."""
    example(
        says("translate A1 int 1/3 abs", "3200"),
        says("translate A1 abs 3200 int", "1/3"),
        says("translate A1 int 1/7 abs", "9600/7"),
        says("translate A1 int 1/7 link", "1:8000/7"),
        says("translate A1 int 1/7 int", "1/7"),
        misreads("translate A1 abs 9600/7 int", NO_POSITION),
        misreads("translate A1 int 3/2 abs", NO_POSITION),
        gets("/v1/translate?route=A1&method=int&pos=1/3&to=abs", '{"method":"abs","pos":"3200","route":"A1"}'),
        gets("/v1/translate?route=A1&method=int&pos=1/7&to=abs", '{"method":"abs","pos":"9600/7","route":"A1"}'),
        gets("/v1/translate?route=A1&method=int&pos=3/2&to=abs", '{"error":"Malformed:pos"}', 400),
    )


def test_strip_report():
    example(
        SPEED_LIMIT,
        RECALIBRATED,
        REALIGNED,
        says(
            "strip A1 R SPEED",
            "STRIP A1 R 8.000",
            "        FROM           TO        SPEED",
            "       0.000        2.500            -",
            "       2.500        4.000           80",
            "       4.000        6.000            -",
            "       6.000        8.000           80",
        ),
        gets(
            "/v1/segments?route=A1&side=R&class=SPEED",
            '{"route":"A1","segments":[{"from":0,"to":2500,"values":["-"]},{"from":2500,"to":4000,"values":["80"]},'
            '{"from":4000,"to":6000,"values":["-"]},{"from":6000,"to":8000,"values":["80"]}],"side":"R"}',
        ),
    )


def entered_before_it(value):
    """A speed limit of this value up to the one of asset 10, from which another value cuts it off."""
    return does(
        f"e3,enter,11,SPEED,A1,B,abs,0,3000,{value},0",
        "e3,done,9",
        asset={11: f"SPEED {value} 0"},
        rows={11: "A1 0 2500 B"},
        entered={9: "11 1:0:2500:B"},
        totals={"SPEED": "16000 0 0 16000"},
    )


def test_segments():
    """The longest stretches of equal values, whatever assets have them."""
    target = "/v1/segments?route=A1&side=R&class=SPEED"
    example(
        SPEED_LIMIT,
        refuses("strip A1 R RAIL TREE", "NoClass:1"),
        refuses("strip A1 R SPEED RAIL", "NotExclusive:1"),
        refuses("strip A1 B SPEED RAIL", "NotExclusive:1"),
        refuses("strip A1 B SPEED", "SideB"),
        gets(f"{target}&class=TREE", '{"error":"NoClass:1"}', 422),
        gets(f"{target}&class=RAIL", '{"error":"NotExclusive:1"}', 422),
        gets(
            f"{target}&class=SPEED",
            '{"route":"A1","segments":[{"from":0,"to":2500,"values":["-","-"]},{"from":2500,"to":8000,"values":["80","80"]}],"side":"R"}',
        ),
        entered_before_it(60),
        gets(target, '{"route":"A1","segments":[{"from":0,"to":2500,"values":["60"]},{"from":2500,"to":8000,"values":["80"]}],"side":"R"}'),
    )
    example(
        SPEED_LIMIT,
        entered_before_it(80),
        gets(target, '{"route":"A1","segments":[{"from":0,"to":8000,"values":["80"]}],"side":"R"}'),
        says("strip A1 L SPEED", "STRIP A1 L 8.000", "        FROM           TO        SPEED", "       0.000        8.000           80"),
    )


def test_torn_quote():
    """A sheet that ends inside a quoted field."""
    torn = HEADER + b'k1,"link'
    example_from_nothing(faulty(torn, "BadCsv"))
    example(SPEED_LIMIT, faulty(torn, "BadCsv"))


def test_short_body():
    """A body that ends before it is as long as the request says."""
    short = request("POST /v1/edits", None, "Content-Length: 100") + b"key,verb"
    example_from_nothing(sends(short, reply(400)))
    example(SPEED_LIMIT, sends(short, reply(400)))


def test_referent_positions():
    """A distance from a referent is counted from the edge of its millimetre that is nearer to the start."""
    example(
        does("r1,ref,KM2,A1,abs,3", "r1,done,8", ref={"KM2": "A1 2"}),
        does(
            "r2,enter,30,RAIL,A1,L,rel,KM2+498,KM2+1498,STEEL,300",
            "r2,done,9",
            asset={30: "RAIL STEEL 300"},
            rows={30: "A1 500 1500 L"},
            entered={9: "30 1:500:1500:L"},
            totals={"RAIL": "1000 0 0 1000"},
        ),
        refuses("at A1 rel KM2-3", "OffRoute"),
        refuses("at A1 rel X1+0", "NoRef"),
        does("r3,ref,KM3,A1,rel,KM2-3", "r3,refused,OffRoute"),
        does("r4,ref,KM3,A1,rel,X1+0", "r4,refused,NoRef"),
        says("translate A1 abs 3 rel:KM2", "KM2+1/2"),
        says("translate A1 int 0/1 rel:KM2", "KM2-2"),
        says("translate A1 rel KM2+1 abs", "18/5"),
        says("at A1 rel KM2+498", "A1 500 1 500 +", "30 RAIL L 300 STEEL 9"),
        says("at A1 rel KM2+1498", "A1 1500 1 1500 +"),
        gets("/v1/translate?route=A1&method=rel&pos=KM2%2B1&to=abs", '{"method":"abs","pos":"18/5","route":"A1"}'),
    )


def test_route_and_link_positions():
    """Where two pieces meet the later one is meant, and at the end of the route the last one."""
    example(
        says("translate A1 int 1/3 link", "1:8000/3"),
        says("translate A1 abs 6000 link", "2:3000"),
        says("translate A1 abs 9000 link", "2:0"),
        says("where link 2 3000", "A1 5000 2 2999 -", "abs 6000", "int 5/8"),
        says("where link 2 0", "A1 7999 2 0 -", "abs 8999", "int 7999/8000"),
        refuses("where link 3 0", "OffRoute"),
        refuses("where link 4 0", "NoLink"),
    )


def test_survey_over_http():
    assert len(SURVEY) == 91
    record = "e1,enter,10,SPEED,A1,B,abs,3000,9000,80,0"
    stated = SPEED_LIMIT[2]
    at = '{"at":2500,"dir":"+","hits":[{"asset":10,"class":"SPEED","entry":8,"offset":0,"side":"B","value":"80"}],"link":1,"mm":2500,"route":"A1"}'
    assert len(at) == 136
    example(
        posts("/v1/surveys", SURVEY, record, "e1,done,8", **stated),
        posts("/v1/surveys", SURVEY, record, "e1,again,8"),
        gets("/v1/at?route=A1&method=abs&pos=3000", at),
        gets("/v1/at?route=A1&method=abs&pos=9001", '{"error":"OffRoute"}', 422),
    )


def test_limits_of_numbers():
    example(
        does("a1,link,999999,1000000000", "a1,done,8", link={999_999: 1_000_000_000}),
        does("a2,link,0,1", "a2,refused,Malformed:a"),
        does("a3,link,1000000,1", "a3,refused,Malformed:a"),
        does("a4,link,4,0", "a4,refused,Malformed:b"),
        does("a5,link,4,1000000001", "a5,refused,Malformed:b"),
    )


def test_join_refusals():
    example(
        does(
            "b1,route,B1,3:0:2000:+,0:99999999000 2000:100000000000",
            "b1,done,8",
            course={"B1": "3:0:2000:+"},
            marks={"B1": "0:99999999000 2000:100000000000"},
        ),
        does("b2,join,A1,A1", "b2,refused,SameRoute"),
        does("b3,join,B1,A1", "b3,refused,MeasureRange"),
        does("b4,join,C1,A1", "b4,refused,NoRoute"),
        does(
            "b5,join,A1,B1",
            "b5,done,9",
            course={"A1": "1:0:5000:+ 2:0:3000:- 3:0:2000:+", "B1": None},
            marks={"A1": "0:0 5000:6000 8000:9000 10000:10000", "B1": None},
        ),
    )


def test_every_refusal():
    """A refused record changes nothing. The causes that are not here are in the examples of what they refuse."""
    refused = [
        ("link,1,7", "LinkKnown"),
        ("class,RAIL,point", "ClassKnown"),
        ("route,A1,9:0:1:+,0:0 1:1", "RouteKnown"),
        ("route,C1,9:0:1:+,0:0 1:1", "NoLink"),
        ("route,C1,3:5:5:+,0:0 1:1", "BadPiece:0"),
        ("route,C1,3:0:10:+ 3:9:20:-,0:0 21:21", "Taken:1"),
        ("ref,KM2,A1,abs,3", "RefKnown"),
        ("unref,ZZ", "NoRef"),
        ("enter,40,TREE,A1,L,abs,1,2,X,0", "NoClass"),
        ("enter,40,SIGN,A1,L,abs,1,2,X,0", "WrongKind"),
        ("enter,40,RAIL,A1,L,abs,9001,9002,X,0", "OffRoute"),
        ("enter,40,RAIL,A1,L,abs,5,5,X,0", "Empty"),
        ("retire,99,A1,abs,0,1", "NoAsset"),
        ("recalibrate,A1,0:0 8000:0", "BadMarks:1"),
        ("renumber,A1,A1", "RouteKnown"),
    ]
    example(
        SPEED_LIMIT,
        does("r1,ref,KM2,A1,abs,3", "r1,done,9", ref={"KM2": "A1 2"}),
        *(does(f"a{n},{text}", f"a{n},refused,{cause}") for n, (text, cause) in enumerate(refused)),
        does(
            "b7,renumber,A1,M4",
            "b7,done,10",
            course={"A1": None, "M4": "1:0:5000:+ 2:0:3000:-"},
            marks={"A1": None, "M4": "0:0 5000:6000 8000:9000"},
            ref={"KM2": "M4 2"},
            rows={10: "M4 2500 8000 B"},
        ),
        does("b8,unref,KM2", "b8,done,11", ref={"KM2": None}),
    )


# eleven links of 1,000,000,000 mm each, one more than a route may have
LONG_LINKS = [does(f"l{n},link,{n},1000000000", f"l{n},done,{n - 3}", link={n: 1_000_000_000}) for n in range(11, 22)]
LONG_PIECES = [f"{n}:0:1000000000:+" for n in range(11, 22)]


def test_longest_route():
    """Near its end a measure is no whole millimetre: as a point it stands in the last one, and as an end it is the end."""
    course = " ".join(LONG_PIECES[:10])
    example(
        *LONG_LINKS,
        does(f"a1,route,B1,{' '.join(LONG_PIECES)},0:0 10000000000:100000000000", "a1,refused,TooLong"),
        does(
            f"a2,route,B1,{course},0:0 10000000000:100000000000",
            "a2,done,19",
            course={"B1": course},
            marks={"B1": "0:0 10000000000:100000000000"},
        ),
        says("at B1 abs 99999999999", "B1 9999999999 20 999999999 +"),
        says("translate B1 abs 99999999999 link", "20:9999999999/10"),
        does(
            "a3,enter,20,SIGN,B1,L,abs,99999999999,,X,0",
            "a3,done,20",
            asset={20: "SIGN X 0"},
            rows={20: "B1 9999999999 10000000000 L"},
            entered={20: "20 20:999999999:1000000000:L"},
            totals={"SIGN": "1 0 0 1"},
        ),
        does(
            "a4,enter,10,SPEED,B1,L,abs,0,99999999999,X,0",
            "a4,done,21",
            asset={10: "SPEED X 0"},
            rows={10: "B1 0 10000000000 L"},
            entered={21: "10 " + " ".join(f"{n}:0:1000000000:L" for n in range(11, 21))},
            totals={"SPEED": "10000000000 0 0 10000000000"},
        ),
    )


TOO_FEW = b"""error: the following required arguments were not provided:
  <POS>

Usage: roadlrs at <DB> <ROUTE> <METHOD> <POS>

For more information, try '--help'.
"""


def test_command_line_refusals():
    """Words that are too few, a question that is refused, and a sheet under another header."""
    ends(run("at", ":memory:", "A1", "abs"), b"", 2, TOO_FEW)
    ends(run("at", ":memory:", "A1", "abs", "5"), b"", 1, b"roadlrs: NoRoute\n")
    ends(run("edit", ":memory:", "stdin", given=b"key,verb\n"), b"", 3, b"roadlrs: fault BadHeader\n")
    example_from_nothing(refuses("at A1 abs 5", "NoRoute"), faulty(b"key,verb\n", "BadHeader"))
    example(refuses("at B1 abs 5", "NoRoute"), faulty(b"key,verb\n", "BadHeader"))
