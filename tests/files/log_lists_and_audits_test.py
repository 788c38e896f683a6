"""The log, lists and audits of an inventory, compared with its tables as Python's sqlite3 reads them."""

import csv
import fractions
import io
import pathlib
import random
import tempfile

import pytest

from program import FIRST, HEADER, ends, faults, run, sheet_of
from sent_sheets import random_record
from stores import MORE, change, edit, look, make_full, rows_of, settle


@pytest.fixture
def top():
    with tempfile.TemporaryDirectory() as folder:
        yield pathlib.Path(folder)


@pytest.fixture
def db(top):
    make_full(top / "roads.db")
    return top / "roads.db"


def table(ended):
    """The header and the records of what a run printed."""
    assert (ended.stderr, ended.status) == (b"", 0), ended
    header, *records = csv.reader(io.StringIO(ended.stdout.decode()))
    return header, records


def texts(rows):
    return [[str(field) for field in row] for row in rows]


# ---- the log


def log_of(path, *words):
    ended = run("log", str(path), *words)
    assert (ended.stderr, ended.status) == (b"", 0), ended
    return ended.stdout


def test_the_log_is_the_sheet_that_was_accepted(top):
    make_full(top / "roads.db")
    assert log_of(top / "roads.db") == FIRST + sheet_of(*MORE)[len(HEADER) :]


def test_the_log_makes_the_same_tables(top):
    """Of inventories that were made by chance, with much that was refused."""
    drawn = random.Random(11)
    for seed in range(25):
        path, copy = top / f"{seed}.db", top / f"{seed}-copy.db"
        edit(path, sheet_of(*(random_record(drawn, n) for n in range(1, 60))))
        log = log_of(path)
        ended = edit(copy, log)
        assert ended.status == 0 and ended.stdout.count(b",done,") == log.count(b"\n") - 1, (seed, ended)
        assert rows_of(copy) == rows_of(path), seed
        assert log_of(copy) == log


def test_a_part_of_the_log_continues_a_copy(db, top):
    for number in range(1, 14):
        copy = top / f"copy-{number}.db"
        log = log_of(db).splitlines(keepends=True)
        for sheet in [b"".join(log[:number]), log_of(db, str(number))]:
            ended = edit(copy, sheet)
            assert (ended.stdout.count(b",done,"), ended.status) == (sheet.count(b"\n") - 1, 0), (number, ended)
        assert rows_of(copy) == rows_of(db), number


def test_the_log_behind_its_end(db):
    assert log_of(db, "14") == HEADER
    assert log_of(db, "13") == HEADER + log_of(db).splitlines(keepends=True)[-1]
    assert log_of(db, "10000000") == HEADER


def test_the_command_of_a_key(db):
    assert log_of(db, "--key", "e5") == HEADER + b"e5,retire,11,A1,abs,1000,2000,,,,\n"
    ends(run("log", db, "--key", "e55"), b"", 1, b"roadlrs: NoKey\n")


@pytest.mark.parametrize("words", [["0"], ["x"], ["--key", ""], ["--key", "a b"], ["10000001"], ["1", "2"], ["--key"], ["2", "--key", "e5"]])
def test_misused_words_of_the_log(db, words):
    ended = run("log", db, *words)
    assert (ended.stdout, ended.status) == (b"", 2) and ended.stderr, ended


# ---- lists


def test_routes(db):
    header, found = table(run("list", db, "routes"))
    assert header == ["route", "length", "from", "to"]
    pieces, marks = look(db, "SELECT route, SUM(b - a) FROM piece GROUP BY route ORDER BY route", "SELECT route, measure FROM mark ORDER BY route, n")
    lengths = dict(pieces)
    ends_of = {route: [m for r, m in marks if r == route] for route in lengths}
    assert found == texts([route, lengths[route], ends_of[route][0], ends_of[route][-1]] for route in sorted(lengths))


def test_links_and_classes(db):
    assert table(run("list", db, "links")) == (["link", "length"], texts(rows_of(db)["link"]))
    assert table(run("list", db, "classes")) == (["class", "kind"], [["RAIL", "stretch"], ["SIGN", "point"], ["SPEED", "exclusive"]])



def measure_at(marks, chainage, exact=False):
    """The measure at a chainage: exactly, or as a decimal of three places, a half going up."""
    for (c, m), (d, n) in zip(marks, marks[1:]):
        if c <= chainage <= d:
            measure = m + fractions.Fraction((n - m) * (chainage - c), d - c)
            thousandths = (measure * 1000 + fractions.Fraction(1, 2)) // 1
            return str(measure) if exact else f"{thousandths // 1000}.{thousandths % 1000:03}"
    raise AssertionError(chainage)


def marks_of(path):
    marks = {}
    for route, chainage, measure in look(path, "SELECT route, chainage, measure FROM mark ORDER BY route, n")[0]:
        marks.setdefault(route, []).append((chainage, measure))
    return marks


@pytest.mark.parametrize("exact", [False, True])
def test_referents(db, exact):
    header, found = table(run("list", db, "refs", *["--exact"] * exact))
    assert header == ["ref", "route", "chainage", "measure"]
    marks = marks_of(db)
    wanted = [[name, route, str(at), measure_at(marks[route], at, exact)] for name, route, at in rows_of(db)["ref"]]
    assert sorted(found) == sorted(wanted) and found


def test_marks(db):
    header, found = table(run("list", db, "marks"))
    assert header == ["route", "chainage", "measure"]
    assert found == texts([route, *mark] for route, marks in sorted(marks_of(db).items()) for mark in marks) and found


def test_pieces(db):
    header, found = table(run("list", db, "pieces"))
    assert header == ["route", "from", "to", "link", "link_from", "link_to", "direction"]
    assert found == pieces_of(db) == [["A1", "0", "5000", "1", "0", "5000", "+"], ["A2", "0", "3000", "2", "0", "3000", "-"]]


def pieces_of(path):
    placed, ends = [], {}
    for route, link, a, b, against in look(path, "SELECT route, link, a, b, dir FROM piece ORDER BY route, n")[0]:
        start = ends.get(route, 0)
        ends[route] = start + b - a
        placed.append(texts([[route, start, ends[route], link, a, b, "+-"[against]]])[0])
    return placed


@pytest.mark.parametrize("what", ["refs", "marks", "pieces"])
def test_lists_of_one_route(db, what):
    at = 1 if what == "refs" else 0
    found = table(run("list", db, what))[1]
    for route in ["A1", "A2"]:
        assert table(run("list", db, what, "--route", route))[1] == [row for row in found if row[at] == route]
    ends(run("list", db, what, "--route", "B9"), b"", 1, b"roadlrs: NoRoute\n")


@pytest.mark.parametrize("words", [["routes", "--route", "A1"], ["links", "--route", "A1"], ["classes", "--exact"], ["marks", "--exact"]])
def test_options_that_a_list_has_not(db, words):
    ended = run("list", db, *words)
    assert (ended.stdout, ended.status) == (b"", 2) and ended.stderr, ended


def wanted_rows(path, route=None, start=None, end=None, class_=None, asset=None, exact=False):
    marks = marks_of(path)
    sides = "LRB"
    found = look(
        path,
        "SELECT s.route, s.lo, s.hi, s.side, s.asset, a.class, a.value, a.lateral, o.edit FROM span s JOIN asset a ON a.number = s.asset"
        " JOIN origin o ON o.asset = s.asset ORDER BY s.route, s.lo, s.side, a.class, s.asset",
    )[0]
    return [
        [r, str(lo), str(hi), measure_at(marks[r], lo, exact), measure_at(marks[r], hi, exact), sides[side], str(number), kind, value, str(offset), str(edit)]
        for r, lo, hi, side, number, kind, value, offset, edit in found
        if (route is None or r == route)
        and (start is None or hi > start)
        and (end is None or lo < end)
        and (class_ is None or kind == class_)
        and (asset is None or number == asset)
    ]


ROW_HEADER = ["route", "from", "to", "from_measure", "to_measure", "side", "asset", "class", "value", "offset", "entry"]


@pytest.mark.parametrize(
    "words, wanted",
    [
        ([], {}),
        (["--route", "A1"], {"route": "A1"}),
        (["--route", "A2", "--from", "500", "--to", "1000"], {"route": "A2", "start": 500, "end": 1000}),
        (["--class", "RAIL"], {"class_": "RAIL"}),
        (["--asset", "10"], {"asset": 10}),
        (["--from", "1000"], {"start": 1000}),
        (["--to", "1000"], {"end": 1000}),
        (["--to", "0"], {"end": 0}),
        (["--asset", "12", "--class", "RAIL"], {"asset": 12, "class_": "RAIL"}),
        (["--exact"], {"exact": True}),
        (["--exact", "--route", "A1"], {"exact": True, "route": "A1"}),
    ],
)
def test_rows(db, words, wanted):
    header, found = table(run("rows", db, *words))
    assert header == ROW_HEADER
    assert found == wanted_rows(db, **wanted), words


def test_rows_of_inventories_of_chance(top):
    drawn = random.Random(13)
    for seed in range(25):
        path = top / f"{seed}.db"
        edit(path, sheet_of(*(random_record(drawn, n) for n in range(1, 80))))
        assert table(run("rows", path))[1] == wanted_rows(path), seed
        assert table(run("rows", path, "--exact"))[1] == wanted_rows(path, exact=True), seed
        assert table(run("list", path, "pieces"))[1] == pieces_of(path), seed
        assert table(run("rows", path, "--on-links"))[1] == on_links(path), seed


def on_links(path):
    """Each row on each piece that it has a millimetre of: its part of the link, the side seen along the link."""
    placed = pieces_of(path)
    lines = []
    for route, low, high, _, _, side, asset, kind, value, offset, _ in wanted_rows(path):
        for name, start, end, link, a, b, direction in placed:
            first, last = max(int(low), int(start)), min(int(high), int(end))
            if name == route and first < last:
                along = direction == "+"
                place = int(a) + first - int(start) if along else int(b) - (last - int(start))
                seen = side if along else {"L": "R", "R": "L", "B": "B"}[side]
                lines.append(texts([[asset, kind, value, offset, link, place, place + last - first, seen, route]])[0])
    return lines


def test_rows_on_links(db):
    header, found = table(run("rows", db, "--on-links"))
    assert header == ["asset", "class", "value", "offset", "link", "from", "to", "side", "route"]
    assert found == on_links(db) and ["12", "SIGN", "STOP", "0", "2", "0", "1", "L", "A2"] in found
    assert table(run("rows", db, "--on-links", "--asset", "10"))[1] == [row for row in found if row[0] == "10"]
    ended = run("rows", db, "--on-links", "--exact")
    assert (ended.stdout, ended.status) == (b"", 2) and ended.stderr, ended


@pytest.mark.parametrize(
    "words, name",
    [(["--route", "B9"], "NoRoute"), (["--class", "NONE"], "NoClass"), (["--asset", "99"], "NoAsset"), (["--route", "B9", "--asset", "99"], "NoRoute")],
)
def test_rows_of_what_is_not_there(db, words, name):
    ends(run("rows", db, *words), b"", 1, f"roadlrs: {name}\n".encode())


def test_what_is_gone(db):
    header, found = table(run("gone", db))
    assert header == ["edit", "key", "verb", "reason", "asset", "class", "value", "link", "from", "to", "side"]
    assert found == [["12", "e5", "retire", "retired", "11", "RAIL", "steel", "1", "833", "1667", "L"]]
    assert table(run("gone", db, "--edit", "12"))[1] == found
    assert table(run("gone", db, "--edit", "11"))[1] == []
    ends(run("gone", db, "--edit", "14"), b"", 1, b"roadlrs: NoEdit\n")


def test_what_a_closed_route_abandons(db):
    ends(edit(db, sheet_of("f1,close,A2")), b"f1,done,14\n", 0)
    found = table(run("gone", db, "--edit", "14"))[1]
    held = look(db, "SELECT COUNT(*) FROM gone WHERE edit = 14")[0][0][0]
    assert len(found) == held and {row[3] for row in found} == {"abandoned"} and {(row[1], row[2]) for row in found} == {("f1", "close")}


def ledger_of(path, name):
    """The rows of a ledger, each with its edit's key and verb."""
    cause = "x.cause" if name == "gone" else "-1"
    found = look(
        path,
        f"SELECT x.edit, e.token, e.line, {cause}, x.asset, a.class, a.value, x.link, x.lo, x.hi, x.side FROM {name} x JOIN edit e ON e.number = x.edit"
        f" JOIN asset a ON a.number = x.asset ORDER BY x.edit, 4, x.asset, x.link, x.lo, x.side",
    )[0]
    return [[edit, key, line.split(",")[0], ["retired", "abandoned", "entered"][why], *others, "LR"[side]] for edit, key, line, why, *others, side in found]


def test_what_is_gone_by_edits_and_class(top):
    drawn = random.Random(19)
    told = 0
    for seed in range(15):
        path = top / f"{seed}.db"
        edit(path, sheet_of(*(random_record(drawn, n) for n in range(1, 80))))
        rows = ledger_of(path, "gone")
        edits = look(path, "SELECT COUNT(*) FROM edit")[0][0][0]
        assert table(run("gone", path))[1] == texts(rows)
        told += len(rows)
        for _ in range(4):
            first, last = sorted(drawn.sample(range(1, edits + 3), 2))
            for words, keeps in [
                (["--since", first], lambda row: row[0] >= first),
                (["--until", last], lambda row: row[0] <= last),
                (["--since", first, "--until", last], lambda row: first <= row[0] <= last),
                (["--class", "RAIL"], lambda row: row[5] == "RAIL"),
                (["--class", "SIGN", "--until", last], lambda row: row[5] == "SIGN" and row[0] <= last),
            ]:
                ended = run("gone", path, *map(str, words))
                if ended.stdout or ended.status == 0:
                    assert table(ended)[1] == texts(row for row in rows if keeps(row)), (seed, words)
                else:
                    ends(ended, b"", 1, b"roadlrs: NoClass\n")
    assert told


def test_the_history_of_assets(top):
    drawn = random.Random(23)
    for seed in range(15):
        path = top / f"{seed}.db"
        edit(path, sheet_of(*(random_record(drawn, n) for n in range(1, 80))))
        for asset in look(path, "SELECT number FROM asset")[0]:
            header, found = table(run("history", path, str(asset[0])))
            assert header == ["edit", "key", "verb", "event", "link", "from", "to", "side"]
            wanted = [row for name in ["entered", "gone"] for row in ledger_of(path, name) if row[4] == asset[0]]
            assert found == texts([*row[:4], *row[7:]] for row in wanted) and found
    ends(run("history", top / "0.db", "999"), b"", 1, b"roadlrs: NoAsset\n")


def test_the_log_up_to_an_edit(db):
    lines = log_of(db).splitlines(keepends=True)
    for last in range(1, 16):
        assert log_of(db, "--until", str(last)) == b"".join(lines[: last + 1])
        assert log_of(db, "5", "--until", str(last)) == b"".join([HEADER, *lines[5 : last + 1]])
    for words in [["--until", "0"], ["--until", "x"], ["--until", "5", "--key", "e5"], ["--until", "5", "--sum"]]:
        ended = run("log", db, *words)
        assert (ended.stdout, ended.status) == (b"", 2) and ended.stderr, words


@pytest.mark.parametrize("what", ["", "route", "ROUTES", "assets"])
def test_a_list_of_nothing_known(db, what):
    ended = run("list", db, what)
    assert (ended.stdout, ended.status) == (b"", 2) and b"WHAT is none of routes, links, classes, refs, marks and pieces" in ended.stderr, ended


@pytest.mark.parametrize("words", [["list", "DB", "routes"], ["rows", "DB"], ["gone", "DB"], ["log", "DB"], ["audit", "DB"]])
def test_reports_make_no_inventory(top, words):
    faults(run(*(str(top / "new.db") if word == "DB" else word for word in words)), "Open")
    assert list(top.iterdir()) == []


def test_reports_in_memory():
    ends(run("log", ":memory:"), HEADER, 0)
    ends(run("list", ":memory:", "links"), b"link,length\n", 0)
    ends(run("rows", ":memory:"), ",".join(ROW_HEADER).encode() + b"\n", 0)


# ---- audits

SOUND = b"sound, and as its log says\n"


def test_an_inventory_that_nobody_touched_passes(top):
    drawn = random.Random(17)
    for seed in range(15):
        path = top / f"{seed}.db"
        edit(path, sheet_of(*(random_record(drawn, n) for n in range(1, 60))))
        ends(run("audit", path), SOUND, 0)
    ends(run("audit", ":memory:"), SOUND, 0)


# changes of all tables that agree among themselves, so that the inventory opens
CHANGES = [
    ("link", ["UPDATE link SET length = 2001 WHERE number = 3"]),
    ("asset", ["UPDATE asset SET value = '81' WHERE number = 10"]),
    ("asset", ["UPDATE asset SET lateral = 1 WHERE number = 11"]),
    ("mark", ["UPDATE mark SET measure = 8999 WHERE route = 'A2' AND measure = 9000"]),
    ("ref", ["UPDATE ref SET place = 1999 WHERE name = 'KM2'"]),
    ("ref", ["UPDATE ref SET name = 'KM3' WHERE name = 'KM2'"]),
    ("class", ["UPDATE class SET name = 'SIGNS' WHERE name = 'SIGN'", "UPDATE asset SET class = 'SIGNS' WHERE class = 'SIGN'"]),
    ("link", ["UPDATE edit SET line = 'link,3,2001' WHERE number = 3"]),
    ("edit", ["UPDATE edit SET token = 's33' WHERE token = 's3'"]),
]


# the first row that is another: as it is kept, and as the log makes it
ROWS_TOLD = [
    ("3,2001", "3,2000"),
    ("10,SPEED,81,0,8", "10,SPEED,80,0,8"),
    ("11,RAIL,steel,1,9", "11,RAIL,steel,150,9"),
    ("A2,3000:8999", "A2,3000:9000"),
    ("KM2,A1,1999", "KM2,A1,1666"),
    ("KM3,A1,1666", "KM2,A1,1666"),
    ("SIGNS,point", "SIGN,point"),
    ("3,2000", "3,2001"),
]


@pytest.mark.parametrize("name, statements, told", [(*change, told) for change, told in zip(CHANGES[:-1], ROWS_TOLD)])
def test_what_was_changed_is_found_though_the_tables_agree(db, name, statements, told):
    change(db, *statements)
    ended = run("audit", db)
    *rows, last = ended.stderr.decode().splitlines()
    assert (ended.stdout, ended.status, last) == (b"", 1, f"roadlrs: Differs:{name}"), ended
    assert rows == [f"kept: {told[0]}", f"log:  {told[1]}"]


def test_a_row_too_many_is_told(db):
    change(db, "INSERT INTO link VALUES (9, 7)")
    ends(run("audit", db), b"", 1, b"kept: 9,7\nlog:  no row\nroadlrs: Differs:link\n")


def without_keys(rows):
    """The rows of each table; of the edits all but the keys."""
    return {**rows, "edit": [(number, line) for number, _, line in rows["edit"]]}


def test_no_single_bit_passes_that_changes_a_row(db, top):
    """Bits of a small and dense file: an audit passes only where the rows are the same, but for keys."""
    settle(db)
    before, whole = db.read_bytes(), without_keys(rows_of(db))
    drawn, passed = random.Random(19), 0
    for number in range(300):
        path = top / f"{number}.db"
        at, bit = drawn.randrange(len(before)), drawn.randrange(8)
        path.write_bytes(before[:at] + bytes([before[at] ^ 1 << bit]) + before[at + 1 :])
        ended = run("audit", path)
        if ended.status == 0:
            passed += 1
            assert without_keys(rows_of(path)) == whole, (at, bit)
        else:
            *_, last = ended.stderr.splitlines()
            status = 1 if last.startswith(b"roadlrs: Differs:") else 3
            assert (ended.stdout, ended.status) == (b"", status) and (status == 1 or last.startswith(b"roadlrs: fault ")), (at, bit, ended)
    assert passed < 300


def test_another_key_is_another_log(db):
    """A key is told by the log alone: it makes the same inventory with the other key."""
    change(db, *CHANGES[-1][1])
    ends(run("audit", db), SOUND, 0)
