"""On a terminal it is said how places are understood: in metres, with the measures there. Where measures were meant most likely,
a hint says how they are written, or in a sheet at which chainages they are. Of an asset of which nothing is left it is said what
took the last of it, and of a record that is refused what is near to what it names, or where the asset lies that it is about.
Elsewhere nothing is said of it, and the answer is the same everywhere."""

import pytest
from program import FIRST, HEADER, TOP, on_terminal, record, run, sheet_of


@pytest.fixture(scope="module")
def county(tmp_path_factory):
    """The county of the examples, before its year of changes."""
    db = tmp_path_factory.mktemp("county") / "county.db"
    for verb, name in (("edit", "network"), ("edit", "classes"), ("survey", "survey-2025")):
        ended = run(verb, db, TOP / "examples" / f"{name}.csv")
        assert ended.status == 0, ended
    return db


@pytest.fixture(scope="module")
def small(tmp_path_factory):
    """A1, whose measures are about as many as its millimetres, and H1, on which a measure is 2 m."""
    db = tmp_path_factory.mktemp("small") / "small.db"
    more = record("h1,link,4,2000") + record("h2,route,H1,4:0:2000:+,0:0 2000:1")
    ended = run("edit", db, "stdin", given=FIRST + more)
    assert ended.status == 0, ended
    return db


def said(*words, given=b""):
    """The lines that standard error shows of a run on a terminal, and those of a run beside a pipe left out. Both write the same
    and end the same."""
    beside = run(*words, given=given)
    ended, shown = on_terminal(["stderr"], *words, given=given)
    assert (ended.stdout, ended.status) == (beside.stdout, beside.status), (ended, beside)
    said = shown.decode().replace("\r\n", "\n").splitlines()
    for line in beside.stderr.decode().splitlines():
        said.remove(line)
    return said


QUESTIONS = [
    (
        "rows DB --route A38 --from 14000 --to 16000",
        "A38 from 14.000 m (measure 12013.972) to 16.000 m (measure 12015.968)",
        "hint: 14000 and 16000 are chainages in millimetres; for measures write abs:14000 and abs:16000",
    ),
    (
        "diagram DB A38 --from 14000 --to 16000",
        "A38 from 14.000 m (measure 12013.972) to 16.000 m (measure 12015.968)",
        "hint: 14000 and 16000 are chainages in millimetres; for measures write abs:14000 and abs:16000",
    ),
    (
        "where DB A38 14000",
        "A38 at 14.000 m (measure 12013.972)",
        "hint: 14000 is a chainage in millimetres; for a measure write abs:14000",
    ),
    (
        "where DB A38 19800",
        "A38 at 19.800 m (measure 12019.760)",
        "hint: 19800 is a chainage in millimetres; for a measure write abs:19800",
    ),
    (
        "rows DB --route B4100 --to 2000",
        "B4100 to 2.000 m (measure 1.998)",
        "hint: 2000 is a chainage in millimetres; for a measure write abs:2000",
    ),
    # what lies where no measure has its number, and a stretch that is as long as that between measures
    ("where DB A38 2000000", "A38 at 2000.000 m (measure 14000)"),
    ("rows DB --route A38 --from 4200000", "A38 from 4200.000 m (measure 16200)"),
    ("diagram DB A38 --to 1002000", "A38 to 1002.000 m (measure 13000)"),
    ("rows DB --route A38 --from 13000 --to 2000000", "A38 from 13.000 m (measure 12012.974) to 2000.000 m (measure 14000)"),
    # a position is where it is: an end at the nearest millimetre, and a place in the one in which it stands
    ("rows DB --route A38 --from abs:14000 --to abs:16000", "A38 from 2000.000 m (measure 14000) to 4000.167 m (measure 16000)"),
    ("diagram DB A38 --to rel:KM16+0", "A38 to 4000.166 m (measure 15999.999)"),
    ("where DB A38 abs:16000", "A38 at 4000.166 m (measure 16000)"),
    ("where DB A38 int:1/2", "A38 at 3900.000 m (measure 15899.750)"),
    # a hint is of the chainage alone
    (
        "rows DB --route A38 --from abs:14000 --to 16000",
        "A38 from 2000.000 m (measure 14000) to 16.000 m (measure 12015.968)",
        "hint: 16000 is a chainage in millimetres; for a measure write abs:16000",
    ),
    # behind the end of the route there is no measure
    ("rows DB --route A38 --from 7800000 --to 9000000", "A38 from 7800.000 m (measure 19800) to 9000.000 m"),
    ("where DB A38 7800001", "A38 at 7800.001 m"),
]


@pytest.mark.parametrize("words, lines", [(words, lines) for words, *lines in QUESTIONS])
def test_a_terminal_is_told_what_the_places_of_a_question_name(county, words, lines):
    assert said(*words.replace("DB", str(county)).split()) == lines


@pytest.mark.parametrize(
    "words",
    [
        "rows DB --route A38",
        "rows DB --from 14000 --to 16000",
        "rows DB --route NONE --from 1",
        "rows DB --route NONE --from abs:14000",
        "rows DB --from abs:14000",
        "rows DB --route A38 --from abs:14000 --to abs:20000",
        "diagram DB A38 --from rel:NONE+5",
        "where DB A38 int:3/2",
        "diagram DB A38",
        "where DB link 1 14000",
        "at DB A38 abs 14000",
        "totals DB",
    ],
)
def test_nothing_is_told_where_no_place_of_a_route_is_named(county, words):
    assert said(*words.replace("DB", str(county)).split()) == []


def test_a_half_of_a_thousandth_goes_up(small):
    hint = "hint: 1 is a chainage in millimetres; for a measure write abs:1"
    assert said("where", small, "H1", "1") == ["H1 at 0.001 m (measure 0.001)", hint]
    assert said("where", small, "H1", "3") == ["H1 at 0.003 m (measure 0.002)"]
    assert said("where", small, "H1", "2000") == ["H1 at 2.000 m (measure 1)"]


def test_measures_that_are_as_many_as_millimetres_are_no_mistake(small):
    assert said("rows", small, "--route", "A1", "--from", "1000", "--to", "2000") == [
        "A1 from 1.000 m (measure 1200) to 2.000 m (measure 2400)"
    ]
    assert said("where", small, "A1", "6000") == ["A1 at 6.000 m (measure 7000)"]


def test_on_one_terminal_it_stands_before_the_answer(county):
    _, shown = on_terminal(["stdout", "stderr"], "where", county, "A38", "2000000")
    assert shown.startswith(b"A38 at 2000.000 m (measure 14000)\r\nA38 2000000 1 2000000 +\r\n"), shown


def test_a_check_tells_where_routes_are_cut(county):
    assert said("check", county, TOP / "examples" / "year-2026.csv") == [
        "key RM-2026-0004: splits A38 at 4200.000 m (measure 16200)",
        "key RM-2026-0011: replaces 1700.000 m of A38: from 1200.000 m (measure 13198.397) to 2900.000 m (measure 14899.101)",
    ]


def test_a_check_hints_at_measures_that_were_meant(county):
    sheet = sheet_of("x1,split,A38,16200,A439", "x2,split,A38,x,A439", "x3,split,A39,1,A439")
    assert said("check", county, "stdin", given=sheet) == [
        "key x1: splits A38 at 16.200 m (measure 12016.168)",
        "hint: 16200 is a chainage in millimetres; measure 16200 is at chainage 4200000",
        "key x1: A38 has marks at 0 and 1002000, and none between",
        "key x3: the nearest route is A38",
    ]


def test_a_check_tells_of_each_cut_in_the_state_in_which_it_is_tried(small):
    """The second route has its chainages from 0, the measures stay, and what was realigned has the new ones."""
    sheet = sheet_of(
        "x1,split,A1,5000,A2",
        "x2,link,9,1000",
        "x3,realign,A2,1000,2000,9:0:1000:+,0:100 3000:103",
        "x4,realign,A2,0,1500,,0:0 1500:1500",
    )
    assert said("check", small, "stdin", given=sheet) == [
        "key x1: splits A1 at 5.000 m (measure 6000)",
        "key x3: replaces 1.000 m of A2: from 1.000 m (measure 7000) to 2.000 m (measure 8000)",
        "key x4: replaces 1.500 m of A2: from 0.000 m (measure 100) to 1.500 m (measure 101.500)",
    ]


def test_a_check_tells_of_twenty_cuts_and_counts_the_others():
    marks = " ".join(f"{at}:{at}" for at in range(0, 3001, 100))
    first = HEADER + record("s1,link,1,3000") + record(f"s2,route,A1,1:0:3000:+,{marks}")
    cuts = b"".join(record(f"c{at},split,A1,{at},B{at}") for at in range(2900, 700, -100))
    shown = said("check", ":memory:", "stdin", given=first + cuts)
    assert shown == [f"key c{at}: splits A1 at {at / 1000:.3f} m (measure {at})" for at in range(2900, 900, -100)] + [
        "and 2 more that split or realign"
    ]


def test_a_check_tells_nothing_of_cuts_where_there_are_none(county):
    assert said("check", county, "stdin", given=sheet_of("x1,renumber,A38,A39")) == []
    of_no_header = said("check", county, "stdin", given=record("x1,split,A38,4200000,A439"))
    assert all(line.startswith("explain: ") for line in of_no_header), of_no_header
    survey = b"key,asset,class,route,side,method,from,to,value,offset\nv1,900,SPEED,A38,B,abs,12000,13000,50,0\n"
    lies = "asset 101 (100) lies on A38 from 0.000 m (measure 12000) to 3500.583 m (measure 15500.000), side B"
    assert said("check", county, "stdin", "--survey", given=survey) == [f"key v1: {lies}"]


NEARBY = [
    ("enter,99900,SPED,A38,B,abs,12000,13000,50,0", "the nearest class is SPEED"),
    ("enter,99900,SPEED,A83,B,abs,12000,13000,50,0", "the nearest route is A38"),
    ("enter,99900,SPEED,A38,B,abs,12000,98000,50,0", "A38 has measures 12000 to 19800, and is 7800.000 m long"),
    ("ref,P9,A38,rel,KM130+0", "the nearest referent is KM13"),
    ("recalibrate,A38,0:0 7000000:7000", "A38 has measures 12000 to 19800, and is 7800.000 m long"),
    ("unref,KM130", "the nearest referent is KM13"),
    ("close,ZZZZ", None),
    ("join,A38,B410", "the nearest route is B4100"),
    ("split,A38,4000000,A439", "A38 has marks at 3001000 and 4200000, and none between"),
]


def test_a_check_tells_what_is_near_to_what_is_refused(county):
    sheet = sheet_of(*(f"x{n},{text}" for n, (text, _) in enumerate(NEARBY)))
    told = said("check", county, "stdin", given=sheet)
    assert [line for line in told if "splits" not in line] == [f"key x{n}: {near}" for n, (_, near) in enumerate(NEARBY) if near]
    survey = b"key,asset,class,route,side,method,from,to,value,offset\nv1,99900,SPEED,B410,B,abs,0,100,50,0\n"
    assert said("check", county, "stdin", "--survey", given=survey) == ["key v1: the nearest route is B4100"]
    many = sheet_of(*(f"x{n},close,A39" for n in range(30)))
    assert said("check", county, "stdin", given=many) == [f"key x{n}: the nearest route is A38" for n in range(20)]


def told_of(db, *texts):
    """What a check of these records, x0 and so on, says of those that are refused: the keys, and what is said of each."""
    sheet = sheet_of(*(f"x{n},{text}" for n, text in enumerate(texts)))
    told = [line for line in said("check", db, "stdin", given=sheet) if ": splits " not in line]
    return dict(line.removeprefix("key ").split(": ", 1) for line in told)


SMA11 = "asset 201 (SMA11) lies on A38 from 0.000 m (measure 12000) to 4200.000 m (measure 16200), side B"
AC11 = "asset 203 (AC11) lies on A38 from 4200.000 m (measure 16200) to 7800.000 m (measure 19800), side R"

HOLDERS = [
    # the least asset that a new one would lie over: all of its stretch, on its side
    ("enter,99900,SURFACE,A38,R,abs,16000,17000,X,0", SMA11),
    ("enter,99900,SURFACE,A38,R,abs,16200,17000,X,0", AC11),
    # nothing of it lies there, on this route or on another
    ("retire,201,A38,abs,17000,18000", SMA11),
    ("retire,201,B4100,abs,0,1000", SMA11),
    ("retire,508,A38,abs,17000", "asset 508 (town) lies on A38 at 4200.000 m (measure 16200), side L"),
    # other causes
    ("enter,99900,SURFACE,A38,R,abs,16200,16200,X,0", None),
    ("enter,201,SURFACE,A38,R,abs,16200,17000,X,0", None),
    ("retire,99900,A38,abs,17000,18000", None),
]


def test_a_check_tells_where_the_asset_lies_that_a_refused_record_is_about(county):
    held = {f"x{n}": holder for n, (_, holder) in enumerate(HOLDERS) if holder}
    assert told_of(county, *(text for text, _ in HOLDERS)) == held
    survey = b"key,asset,class,route,side,method,from,to,value,offset\nv1,99900,SURFACE,A38,R,abs,16000,17000,X,0\n"
    assert said("check", county, "stdin", "--survey", given=survey) == [f"key v1: {SMA11}"]
    many = told_of(county, *["retire,201,A38,abs,17000,18000"] * 30)
    assert many == {f"x{n}": SMA11 for n in range(20)}


def test_a_check_tells_the_first_stretch_that_a_new_asset_would_lie_over(small):
    first = "asset 10 (60) lies on A1 from 2.500 m (measure 3000) to 5.000 m (measure 6000), side B"
    second = "asset 10 (60) lies on A1 from 6.000 m (measure 7000) to 8.000 m (measure 9000), side B"
    assert told_of(
        small,
        "enter,10,SPEED,A1,B,abs,3000,9000,60,0",
        "retire,10,A1,abs,6000,7000",
        "enter,11,SPEED,A1,L,abs,6500,8000,40,0",
        "enter,12,SPEED,A1,R,abs,1200,8000,40,0",
        "enter,13,SPEED,A1,R,abs,6000,7000,40,0",
    ) == {"x2": second, "x3": first}


def test_a_check_tells_a_stretch_on_a_side_of_the_new_asset(small):
    """The asset lies to the left of A1, of which the first part is turned: there it lies to the right."""
    assert told_of(
        small,
        "enter,10,SPEED,A1,L,abs,0,9000,60,0",
        "split,A1,5000,A2",
        "turn,A1",
        "join,A1,A2",
        "enter,11,SPEED,A1,L,int,0/1,1/1,40,0",
        "enter,12,SPEED,A1,B,int,0/1,1/1,40,0",
    ) == {
        "x4": "asset 10 (60) lies on A1 from 5.000 m (measure 6000) to 8.000 m (measure 9000), side L",
        "x5": "asset 10 (60) lies on A1 from 0.000 m (measure 0) to 5.000 m (measure 6000), side R",
    }


def test_a_check_tells_where_an_asset_lies_that_is_not_where_it_is_retired(small):
    """On the route of the record, else on the first that has it by name, else what took the last of it."""
    assert told_of(
        small,
        "enter,10,SPEED,A1,B,abs,3000,9000,60,0",
        "split,A1,5000,A2",
        "retire,10,A2,abs,7000,9000",
        "retire,10,A2,abs,8000,9000",
        "retire,10,H1,int,0/1,1/1",
        "retire,10,A1,abs,0,6000",
        "retire,10,A1,abs,0,6000",
        "close,A2",
        "retire,10,A1,abs,0,6000",
    ) == {
        "x3": "asset 10 (60) lies on A2 from 0.000 m (measure 6000) to 1.000 m (measure 7000), side B",
        "x4": "asset 10 (60) lies on A1 from 2.500 m (measure 3000) to 5.000 m (measure 6000), side B",
        "x6": "asset 10 (60) lies on A2 from 0.000 m (measure 6000) to 1.000 m (measure 7000), side B",
        "x8": "asset 10: the last of it was abandoned by edit 14 (key x7)",
    }


LIMIT = "e1,enter,10,SPEED,A1,B,abs,3000,9000,60,0"

LAST = {
    "retired": ([LIMIT, "e2,retire,10,A1,abs,0,9000"], "asset 10: the last of it was retired by edit 9 (key e2)"),
    "abandoned": ([LIMIT, "c1,close,A1"], "asset 10: the last of it was abandoned by edit 9 (key c1)"),
    "by_parts": ([LIMIT, "e2,retire,10,A1,abs,5000,9000", "e3,retire,10,A1,abs,0,5000"], "asset 10: the last of it was retired by edit 10 (key e3)"),
    "a_part_of_it": ([LIMIT, "e2,retire,10,A1,abs,5000,9000"], None),
    "none_of_it": ([LIMIT], None),
    "of_none": ([], None),
}


@pytest.mark.parametrize("name", LAST)
def test_find_tells_what_took_the_last_of_an_asset(tmp_path, name):
    texts, told = LAST[name]
    db = tmp_path / "roads.db"
    ended = run("edit", db, "stdin", given=FIRST + b"".join(map(record, texts)))
    assert ended.status == 0, ended
    assert said("find", db, "10") == ([told] if told else [])
