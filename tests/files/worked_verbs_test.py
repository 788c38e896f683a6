"""Worked examples of the verbs, over a file: what each record is answered, and all that the inventory holds after it."""

from worked_examples_over_files import FIRST_LINES, RECALIBRATED, REALIGNED, SPEED_LIMIT, does, example, example_from_nothing, misreads, refuses, says

SIGN_AT_THE_END = does(
    "p1,enter,20,SIGN,A1,L,abs,9000,,STOP,0",
    "p1,done,8",
    asset={20: "SIGN STOP 0"},
    rows={20: "A1 7999 8000 L"},
    entered={8: "20 2:0:1:R"},
    totals={"SIGN": "1 0 0 1"},
)
SPLIT = does(
    "e4,split,A1,5000,A2",
    "e4,done,9",
    course={"A1": "1:0:5000:+", "A2": "2:0:3000:-"},
    marks={"A1": "0:0 5000:6000", "A2": "0:6000 3000:9000"},
    rows={10: "A1 2500 5000 B, A2 0 3000 B"},
)


def test_empty_sheet():
    example_from_nothing()


def test_first_sheet():
    """Record by record, and at once."""
    example_from_nothing(*FIRST_LINES)
    example()


def test_speed_limit_entered():
    example(
        refuses("find 10", "NoAsset"),
        SPEED_LIMIT,
        says("find 10", "A1 2500 8000 B"),
        says("at A1 abs 3000", "A1 2500 1 2500 +", "10 SPEED B 0 80 8"),
        says("at A1 abs 2999", "A1 2499 1 2499 +"),
        says("at A1 abs 9000", "A1 7999 2 0 -", "10 SPEED B 0 80 8"),
    )


def test_half_millimetre_ends():
    """The measure 3 is chainage 5/2: as an end of a stretch it is 3, and as a point it stands in millimetre 2."""
    example(
        says("translate A1 abs 3 int", "1/3200"),
        does(
            "a1,enter,11,SPEED,A1,B,abs,0,3,80,0",
            "a1,done,8",
            asset={11: "SPEED 80 0"},
            rows={11: "A1 0 3 B"},
            entered={8: "11 1:0:3:B"},
            totals={"SPEED": "6 0 0 6"},
        ),
        does(
            "a2,enter,12,SIGN,A1,L,abs,3,,STOP,0",
            "a2,done,9",
            asset={12: "SIGN STOP 0"},
            rows={12: "A1 2 3 L"},
            entered={9: "12 1:2:3:L"},
            totals={"SIGN": "1 0 0 1"},
        ),
        does("a3,ref,KM2,A1,abs,3", "a3,done,10", ref={"KM2": "A1 2"}),
        does(
            "a4,enter,13,SPEED,A1,B,abs,3,6,60,0",
            "a4,done,11",
            asset={13: "SPEED 60 0"},
            rows={13: "A1 3 5 B"},
            entered={11: "13 1:3:5:B"},
            totals={"SPEED": "10 0 0 10"},
        ),
        says("at A1 abs 3", "A1 2 1 2 +", "11 SPEED B 0 80 8", "12 SIGN L 0 STOP 9"),
        says("at A1 int 3/8000", "A1 3 1 3 +", "13 SPEED B 0 60 11"),
    )


def test_sign_on_backward_piece():
    """The left of the route is the right of a link that it runs backwards over."""
    example(
        SIGN_AT_THE_END,
        says("at A1 abs 9000", "A1 7999 2 0 -", "20 SIGN L 0 STOP 8"),
        says("at A1 int 3999/4000", "A1 7998 2 1 -"),
        does("m1,retire,20,A1,abs,0,9000", "m1,refused,WrongKind"),
        does("m2,retire,20,A1,abs,9000,", "m2,done,9", rows={20: None}, gone={9: "retired 20 2:0:1:R"}, totals={"SIGN": "1 1 0 0"}),
        says("at A1 abs 9000", "A1 7999 2 0 -"),
        says("find 20"),
    )


def test_split_at_mark():
    example(
        SPEED_LIMIT,
        does("m1,split,A1,5000,A1", "m1,refused,RouteKnown"),
        does("m2,split,A1,0,A2", "m2,refused,NoMark"),
        does("m3,split,A1,8000,A2", "m3,refused,NoMark"),
        SPLIT,
        says("find 10", "A1 2500 5000 B", "A2 0 3000 B"),
        says("at A2 abs 6000", "A2 0 2 2999 -", "10 SPEED B 0 80 8"),
        refuses("at A1 abs 6001", "OffRoute"),
    )


def test_joined_again():
    """The course, the marks and the one row are as before the split, also where the second part was measured anew."""
    joined = {
        "course": {"A1": "1:0:5000:+ 2:0:3000:-", "A2": None},
        "marks": {"A1": "0:0 5000:6000 8000:9000", "A2": None},
        "rows": {10: "A1 2500 8000 B"},
    }
    example(SPEED_LIMIT, SPLIT, does("e5,join,A1,A2", "e5,done,10", **joined), refuses("at A2 abs 6000", "NoRoute"))
    example(
        SPEED_LIMIT,
        SPLIT,
        does("w1,recalibrate,A2,0:10 3000:3010", "w1,done,10", marks={"A2": "0:10 3000:3010"}),
        does("w2,join,A1,A2", "w2,done,11", **joined),
    )


def test_overlap_and_touch():
    """What only touches another asset of an exclusive class has none of its millimetres."""
    example(
        SPEED_LIMIT,
        does("e2,enter,11,SPEED,A1,L,abs,8999,9000,60,0", "e2,refused,Overlap:10"),
        does(
            "e3,enter,11,SPEED,A1,B,abs,0,3000,60,0",
            "e3,done,9",
            asset={11: "SPEED 60 0"},
            rows={11: "A1 0 2500 B"},
            entered={9: "11 1:0:2500:B"},
            totals={"SPEED": "16000 0 0 16000"},
        ),
    )


def test_repeated_key():
    """The same command acts once, also in other digits; another one under its key is refused."""
    example(
        SPEED_LIMIT,
        does("e1,enter,10,SPEED,A1,B,abs,3000,9000,80,0", "e1,again,8"),
        does("e1,enter,0010,SPEED,A1,B,abs,03000,9000,80,0", "e1,again,8"),
        does("e1,enter,10,SPEED,A1,B,abs,3000,9000,60,0", "e1,refused,KeyUsed:8"),
        does("s1,link,1,5000", "s1,again,1"),
        does("s1,link,1,6000", "s1,refused,KeyUsed:1"),
        does(
            "t1,enter,31,RAIL,A1,R,int,1/3,2/3,STEEL,0",
            "t1,done,9",
            asset={31: "RAIL STEEL 0"},
            rows={31: "A1 2667 5333 R"},
            entered={9: "31 1:2667:5000:R 2:2667:3000:L"},
            totals={"RAIL": "2666 0 0 2666"},
        ),
        does("t1,enter,31,RAIL,A1,R,int,2/6,4/6,STEEL,0", "t1,again,9"),
    )


def test_recalibrated():
    """Measures change; millimetres do not."""
    example(
        SPEED_LIMIT,
        RECALIBRATED,
        says("at A1 abs 2500", "A1 2500 1 2500 +", "10 SPEED B 0 80 8"),
        says("at A1 abs 2499", "A1 2499 1 2499 +"),
        refuses("at A1 abs 8001", "OffRoute"),
    )


def test_split_without_mark():
    example(SPEED_LIMIT, RECALIBRATED, does("e7,split,A1,5000,A2", "e7,refused,NoMark"))


def test_realigned():
    """What lay on the ground that left is abandoned; the rest stays on its ground."""
    example(
        SPEED_LIMIT,
        RECALIBRATED,
        does("m1,realign,A1,5000,4000,,0:0 1:1", "m1,refused,Empty"),
        does("m2,realign,A1,0,8001,,0:0 1:1", "m2,refused,OffRoute"),
        does("m3,realign,A1,0,10,1:20:30:+,0:0 8000:9000", "m3,refused,Taken:0"),
        REALIGNED,
        says("at A1 abs 4000", "A1 4000 3 0 +"),
        says("at A1 abs 6000", "A1 6000 2 1999 -", "10 SPEED B 0 80 8"),
    )


def test_realigned_to_nothing():
    example(SPEED_LIMIT, does("f1,realign,A1,0,8000,,0:0 1:1", "f1,refused,NothingLeft"))


def test_inserted_piece():
    """Nothing is abandoned, and what lies behind moves on along the route, with its referent."""
    example(
        SPEED_LIMIT,
        does("q3,ref,KM5,A1,abs,5400", "q3,done,9", ref={"KM5": "A1 4500"}),
        does(
            "f2,realign,A1,4000,4000,3:0:2000:+,0:0 10000:10000",
            "f2,done,10",
            course={"A1": "1:0:4000:+ 3:0:2000:+ 1:4000:5000:+ 2:0:3000:-"},
            marks={"A1": "0:0 10000:10000"},
            ref={"KM5": "A1 6500"},
            rows={10: "A1 2500 4000 B, A1 6000 10000 B"},
        ),
    )


def test_taken_ground():
    """A millimetre of a link lies in one route at most; what left a route is free."""
    example(
        SPEED_LIMIT,
        RECALIBRATED,
        REALIGNED,
        does("g1,route,B1,1:3999:5000:+,0:0 1001:1001", "g1,refused,Taken:0"),
        does("g2,route,B1,1:4000:5000:-,0:0 1000:1000", "g2,done,11", course={"B1": "1:4000:5000:-"}, marks={"B1": "0:0 1000:1000"}),
        says("at B1 abs 0", "B1 0 1 4999 -"),
        says("at B1 abs 1000", "B1 999 1 4000 -"),
    )


def test_retired_for_good():
    """An asset's number is used once, and what was retired is entered under it no more."""
    example(
        SPEED_LIMIT,
        does("h1,retire,10,A1,abs,0,3000", "h1,refused,Empty"),
        does(
            "h2,retire,10,A1,abs,0,9000",
            "h2,done,9",
            rows={10: None},
            gone={9: "retired 10 1:2500:5000:B 2:0:3000:B"},
            totals={"SPEED": "11000 11000 0 0"},
        ),
        says("find 10"),
        does("h3,enter,10,SPEED,A1,B,abs,3000,9000,80,0", "h3,refused,AssetKnown"),
    )


def test_part_retired():
    """Each end goes to the nearest millimetre, a half going up."""
    example(
        SPEED_LIMIT,
        does(
            "m1,retire,10,A1,abs,5000,6000",
            "m1,done,9",
            rows={10: "A1 2500 4167 B, A1 5000 8000 B"},
            gone={9: "retired 10 1:4167:5000:B"},
            totals={"SPEED": "11000 1666 0 9334"},
        ),
    )


def test_superseded_on_one_side():
    """The other side stays with the older asset."""
    example(
        SPEED_LIMIT,
        does("m1,supersede,14,RAIL,A1,B,abs,3000,9000,50,0", "m1,refused,WrongKind"),
        does("m2,supersede,10,SPEED,A1,B,abs,3000,9000,50,0", "m2,refused,AssetKnown"),
        does(
            "j1,supersede,12,SPEED,A1,L,abs,3000,6000,50,0",
            "j1,done,9",
            asset={12: "SPEED 50 0"},
            rows={10: "A1 2500 5000 R, A1 5000 8000 B", 12: "A1 2500 5000 L"},
            entered={9: "12 1:2500:5000:L"},
            gone={9: "retired 10 1:2500:5000:L"},
            totals={"SPEED": "13500 2500 0 11000"},
        ),
        says("at A1 abs 3000", "A1 2500 1 2500 +", "10 SPEED R 0 80 8", "12 SPEED L 0 50 9"),
        does(
            "j3,supersede,13,SPEED,A1,L,abs,6000,9000,40,0",
            "j3,done,10",
            asset={13: "SPEED 40 0"},
            rows={10: "A1 2500 8000 R", 13: "A1 5000 8000 L"},
            entered={10: "13 2:0:3000:R"},
            gone={10: "retired 10 2:0:3000:R"},
            totals={"SPEED": "16500 5500 0 11000"},
        ),
    )


TURNED = {"course": {"A1": "2:0:3000:+ 1:0:5000:-"}, "marks": {"A1": "0:0 3000:3000 8000:9000"}}
NOT_TURNED = {"course": {"A1": "1:0:5000:+ 2:0:3000:-"}, "marks": {"A1": "0:0 5000:6000 8000:9000"}}


def test_turned_route():
    """Seen from its other end: places and totals are as before, and what is 0 to 5,500 was 2,500 to 8,000."""
    example(
        SPEED_LIMIT,
        does("j2,turn,A1", "j2,done,9", rows={10: "A1 0 5500 B"}, **TURNED),
        says("at A1 int 5499/8000", "A1 5499 1 2500 -", "10 SPEED B 0 80 8"),
        says("at A1 int 5500/8000", "A1 5500 1 2499 -"),
        does("j3,turn,A1", "j3,done,10", rows={10: "A1 2500 8000 B"}, **NOT_TURNED),
    )


def test_turned_route_with_a_sign():
    """A sign on the left at its end is one on the right at its start, over the same millimetre of the link; a second turn undoes that."""
    example(
        SIGN_AT_THE_END,
        does("j2,turn,A1", "j2,done,9", rows={20: "A1 0 1 R"}, **TURNED),
        says("at A1 abs 0", "A1 0 2 0 +", "20 SIGN R 0 STOP 8"),
        does("j3,turn,A1", "j3,done,10", rows={20: "A1 7999 8000 L"}, **NOT_TURNED),
        says("at A1 abs 9000", "A1 7999 2 0 -", "20 SIGN L 0 STOP 8"),
    )


def test_turned_route_with_a_millimetre_on_each_side():
    """Millimetre 2 becomes 7,997, and each row there changes its side; the millimetres beside it have nothing before and after."""
    example(
        does(
            "k1,enter,30,RAIL,A1,L,int,1/4000,3/8000,STEEL,0",
            "k1,done,8",
            asset={30: "RAIL STEEL 0"},
            rows={30: "A1 2 3 L"},
            entered={8: "30 1:2:3:L"},
            totals={"RAIL": "1 0 0 1"},
        ),
        does(
            "k2,enter,40,SPEED,A1,R,int,1/4000,3/8000,60,0",
            "k2,done,9",
            asset={40: "SPEED 60 0"},
            rows={40: "A1 2 3 R"},
            entered={9: "40 1:2:3:R"},
            totals={"SPEED": "1 0 0 1"},
        ),
        does("r1,ref,KM2,A1,abs,3", "r1,done,10", ref={"KM2": "A1 2"}),
        says("at A1 rel KM2+0", "A1 2 1 2 +", "30 RAIL L 0 STEEL 8", "40 SPEED R 0 60 9"),
        does("j2,turn,A1", "j2,done,11", rows={30: "A1 7997 7998 R", 40: "A1 7997 7998 L"}, ref={"KM2": "A1 7997"}, **TURNED),
        says("at A1 int 7997/8000", "A1 7997 1 2 -", "30 RAIL R 0 STEEL 8", "40 SPEED L 0 60 9"),
        says("at A1 rel KM2+0", "A1 7997 1 2 -", "30 RAIL R 0 STEEL 8", "40 SPEED L 0 60 9"),
        says("at A1 int 7996/8000", "A1 7996 1 3 -"),
        says("at A1 int 3999/4000", "A1 7998 1 1 -"),
        does("k3,enter,41,SPEED,A1,L,int,7997/8000,3999/4000,70,0", "k3,refused,Overlap:40"),
        does(
            "k4,enter,41,SPEED,A1,R,int,7997/8000,3999/4000,70,0",
            "k4,done,12",
            asset={41: "SPEED 70 0"},
            rows={41: "A1 7997 7998 R"},
            entered={12: "41 1:2:3:L"},
            totals={"SPEED": "2 0 0 2"},
        ),
        does("j3,turn,A1", "j3,done,13", rows={30: "A1 2 3 L", 40: "A1 2 3 R", 41: "A1 2 3 L"}, ref={"KM2": "A1 2"}, **NOT_TURNED),
    )


def test_closed_route():
    """What lay on it is abandoned, and its name and its ground are free."""
    example(
        SIGN_AT_THE_END,
        does(
            "c1,close,A1",
            "c1,done,9",
            course={"A1": None},
            marks={"A1": None},
            rows={20: None},
            gone={9: "abandoned 20 2:0:1:R"},
            totals={"SIGN": "1 0 1 0"},
        ),
        refuses("at A1 abs 0", "NoRoute"),
        does("c2,route,A1,2:0:1:+,0:0 1:1", "c2,done,10", course={"A1": "2:0:1:+"}, marks={"A1": "0:0 1:1"}),
        says("at A1 abs 0", "A1 0 2 0 +"),
    )


def test_referents_that_stay_and_go():
    """A referent stays in its millimetre, on whichever route that is, and goes where the millimetre leaves its route."""
    example(
        does("r1,ref,KM2,A1,abs,3", "r1,done,8", ref={"KM2": "A1 2"}),
        does("r5,ref,KM5,A1,abs,7000", "r5,done,9", ref={"KM5": "A1 6000"}),
        does(
            "e4,split,A1,5000,A2",
            "e4,done,10",
            course={"A1": "1:0:5000:+", "A2": "2:0:3000:-"},
            marks={"A1": "0:0 5000:6000", "A2": "0:6000 3000:9000"},
            ref={"KM5": "A2 1000"},
        ),
        refuses("at A1 rel KM5+0", "NoRef"),
        does(
            "e5,join,A1,A2",
            "e5,done,11",
            course={"A1": "1:0:5000:+ 2:0:3000:-", "A2": None},
            marks={"A1": "0:0 5000:6000 8000:9000", "A2": None},
            ref={"KM5": "A1 6000"},
        ),
        does(
            "q1,realign,A1,0,10,3:0:10:+,0:0 8000:9000",
            "q1,done,12",
            course={"A1": "3:0:10:+ 1:10:5000:+ 2:0:3000:-"},
            marks={"A1": "0:0 8000:9000"},
            ref={"KM2": None},
        ),
        does("q2,unref,KM2", "q2,refused,NoRef"),
        does("q3,unref,KM5", "q3,done,13", ref={"KM5": None}),
        misreads("at A1 rel KM5", "POS is no position by this method"),
    )
