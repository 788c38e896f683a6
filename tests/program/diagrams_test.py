"""Straight-line diagrams: each row of a route stands once on the band of its class and side, at its chainages scaled."""

import collections
import pathlib
import random
import subprocess
import tempfile
import xml.etree.ElementTree as tree

from program import PATIENCE, PROGRAM, TOP, ends, record, refuses_word, run, sheet_of
from serving import error, reply, request, serving

SVG = "{http://www.w3.org/2000/svg}"
PICTURES = TOP / "docs" / "pictures"

# the route of the pages: two links, marks, referents, and a few assets
EDITS = sheet_of(
    "s1,link,1,5000",
    "s2,link,2,3000",
    "s3,class,SPEED,exclusive",
    "s4,class,RAIL,stretch",
    "s5,class,SIGN,point",
    "s6,route,A1,1:0:5000:+ 2:0:3000:-,0:0 5000:6000 8000:9000",
    "s7,ref,KM2,A1,abs,3",
    "s8,ref,BRIDGE,A1,abs,6250",
)
SURVEY_HEADER = b"key,asset,class,route,side,method,from,to,value,offset\n"
SURVEY = SURVEY_HEADER + b"".join(
    record(text, 10)
    for text in [
        "e1,10,SPEED,A1,B,abs,3000,9000,80,0",
        "e2,11,SPEED,A1,L,abs,0,3000,50,0",
        "e3,20,RAIL,A1,R,abs,120,4800,STEEL,900",
        "e4,21,RAIL,A1,R,abs,3600,7000,WIRE,1500",
        "e5,30,SIGN,A1,L,abs,360,,STOP,2000",
        "e6,31,SIGN,A1,R,abs,9000,,END,2000",
    ]
)


def diagram(db, *words):
    """The picture that the program draws."""
    ended = run("diagram", str(db), *words)
    assert (ended.stderr, ended.status) == (b"", 0), ended
    return ended.stdout


def inventory(folder, edits=EDITS, survey=SURVEY):
    db = pathlib.Path(folder) / "roads.db"
    for word, sheet in [("edit", edits), ("survey", survey)]:
        ended = run(word, str(db), "stdin", given=sheet)
        assert ended.status == 0, ended
    return db


class Picture:
    """A diagram, read as any program would read it."""

    def __init__(self, drawn):
        self.root = tree.fromstring(drawn)
        self.low, self.high = (int(self.root.get(name)) for name in ["data-from", "data-to"])

    def classes(self):
        return [group.get("data-class") for group in self.root if group.get("data-class")]

    def bands(self):
        """For each class and side the shapes of its rows and its labels, in their order."""
        found = {}
        for group in self.root:
            if name := group.get("data-class"):
                parts = [part for part in group if part.tag == SVG + "g"]
                assert len(parts) == 4 and [text.text for text in group if text.tag == SVG + "text"] == [f"{name} L", f"{name} R"]
                found[name, "L"], found[name, "R"] = parts[:2], parts[2:]
        return found

    def rows(self):
        """How often each shape stands on the band of a class and side."""
        count = collections.Counter()
        for (name, side), (shapes, _) in self.bands().items():
            count.update((name, side, shape.get("d"), shape.find(SVG + "title").text) for shape in shapes)
        return count

    def x(self, chainage):
        return 1000 + (min(max(chainage, self.low), self.high) - self.low) * 10000 // (self.high - self.low)

    def shape(self, low, high, is_point):
        if is_point:
            return f"M{self.x(low)} -60v120"
        return f"M{self.x(low)} 0h{max(1, self.x(high) - self.x(low))}"

    def expects(self, rows):
        """These rows (class, side, from, to, asset, value, whether a point) stand here, and no other."""
        count = collections.Counter()
        for name, sides, low, high, asset, value, is_point in rows:
            if low < self.high and self.low < high:
                for side in {"B": "LR"}.get(sides, sides):
                    count[name, side, self.shape(low, high, is_point), f"{asset}: {value}"] += 1
        assert self.rows() == count

    def labels_stand_apart(self):
        lists = [labels for _, labels in self.bands().values()]
        axis = next(group for group in self.root if group.get("data-axis"))
        lists += [group for group in axis if group.tag == SVG + "g" and group.get("class") is None]
        for labels in lists:
            free = 0
            for label in labels:
                x = int(label.get("x"))
                assert free <= x, (free, x, label.text)
                free = x + 40 + 60 * len(label.text)
            assert free <= 12_000


def random_inventory(seed, assets):
    """A route of 20 km, and rows of three kinds of classes; chainages are measures."""
    chance = random.Random(seed)
    edits = sheet_of("s1,link,7,20000000", "s2,class,A,exclusive", "s3,class,B,stretch", "s4,class,C,point", "s5,route,R-1,7:0:20000000:+,0:0 20000000:20000000")
    records, rows, ends_of = [], [], 0
    for asset in range(1, assets + 1):
        name, side, value = chance.choice("ABC"), chance.choice("LRB"), chance.choice(["x", "80", "LONG.VALUE_1", "a-b"])
        low = ends_of if name == "A" else chance.randrange(0, 19_000_000)
        high = low + (1 if name == "C" else chance.choice([1, 900, 40_000, 900_000]))
        if name == "A":
            ends_of = high + chance.choice([0, 0, 5_000])
            if ends_of > 19_000_000:
                continue
        records.append(record(f"e{asset},{asset},{name},R-1,{side},abs,{low},{'' if name == 'C' else high},{value},0", 10))
        rows.append((name, side, low, high, asset, value, name == "C"))
    return edits, SURVEY_HEADER + b"".join(records), rows


def test_the_pictures_of_the_pages_are_the_programs():
    with tempfile.TemporaryDirectory() as folder:
        db = inventory(folder)
        assert diagram(db, "A1") == (PICTURES / "a1.svg").read_bytes()
        assert diagram(db, "A1", "SPEED", "--from", "2000", "--to", "6000") == (PICTURES / "a1_speed.svg").read_bytes()


def test_rows_of_the_worked_route():
    rows = [
        ("SPEED", "B", 2500, 8000, 10, "80", False),
        ("SPEED", "L", 0, 2500, 11, "50", False),
        ("RAIL", "R", 100, 4000, 20, "STEEL", False),
        ("RAIL", "R", 3000, 6000, 21, "WIRE", False),
        ("SIGN", "L", 300, 301, 30, "STOP", True),
        ("SIGN", "R", 7999, 8000, 31, "END", True),
    ]
    with tempfile.TemporaryDirectory() as folder:
        db = inventory(folder)
        picture = Picture(diagram(db, "A1"))
        assert (picture.low, picture.high, picture.classes()) == (0, 8000, ["RAIL", "SIGN", "SPEED"])
        picture.expects(rows)
        picture.labels_stand_apart()
        texts = [text.text for text in picture.root.iter(SVG + "text")]
        for shown in ["Route A1 from 0.000 m to 8.000 m", "1.000 m", "KM2", "BRIDGE", "0", "6000", "9000", "1 +", "2 -", "STEEL", "WIRE", "50", "STOP", "END"]:
            assert shown in texts, shown
        # the words name the classes, and their order is that of the words
        picture = Picture(diagram(db, "A1", "SPEED", "SIGN"))
        assert picture.classes() == ["SPEED", "SIGN"]
        picture.expects([row for row in rows if row[0] != "RAIL"])
        # a stretch has the rows with a millimetre of it
        picture = Picture(diagram(db, "A1", "--from", "301", "--to", "2500"))
        picture.expects([row for row in rows if row[4] in (11, 20)])
        picture = Picture(diagram(db, "A1", "--to", "301"))
        picture.expects([row for row in rows if row[4] in (11, 20, 30)])


def test_each_row_stands_once_on_the_band_of_its_class_and_side():
    for seed in range(3):
        edits, survey, rows = random_inventory(seed, 400)
        with tempfile.TemporaryDirectory() as folder:
            db = inventory(folder, edits, survey)
            for low, high in [(0, 20_000_000), (3_000_000, 3_000_001), (1_234_567, 9_876_543), (19_999_999, 20_000_000)]:
                picture = Picture(diagram(db, "R-1", "--from", str(low), "--to", str(high)))
                picture.expects(rows)
                picture.labels_stand_apart()


def test_a_picture_has_no_character_to_escape():
    with tempfile.TemporaryDirectory() as folder:
        drawn = diagram(inventory(folder), "A1")
    assert b"&" not in drawn and drawn.isascii() and drawn.startswith(b"<svg ") and drawn.endswith(b"</svg>\n")


def test_ten_thousand_rows_are_less_than_a_megabyte():
    edits, survey, rows = random_inventory(9, 14_000)
    with tempfile.TemporaryDirectory() as folder:
        drawn = diagram(inventory(folder, edits, survey), "R-1")
    shown = sum(Picture(drawn).rows().values())
    assert shown >= 10_000 and len(drawn) * 10_000 < 1_000_000 * shown, (shown, len(drawn))


def refuses(ended, cause):
    ends(ended, b"", 1, f"roadlrs: {cause}\n".encode())


def test_refusals():
    with tempfile.TemporaryDirectory() as folder:
        db = str(inventory(folder))
        refuses(run("diagram", db, "B1"), "NoRoute")
        refuses(run("diagram", db, "A1", "SPEED", "NONE", "NOTHING"), "NoClass:1")
        for words in [["--to", "8001"], ["--from", "8000"], ["--from", "5", "--to", "5"], ["--from", "6", "--to", "5"], ["--to", "0"]]:
            refuses(run("diagram", db, "A1", *words), "OffRoute")
        refuses(run("diagram", db, "A1", "NONE", "--from", "9000"), "NoClass:0")


def test_ends_by_positions():
    """A position at an end is the whole millimetre that is nearest, a half going up."""
    with tempfile.TemporaryDirectory() as folder:
        db = inventory(folder)
        for first, last, start, end in [("abs:3000", "abs:6000", 2500, 5000), ("int:1/3", "int:1/2", 2667, 4000), ("2500", "abs:8999", 2500, 7999), ("int:1/16000", "abs:9000", 1, 8000)]:
            by_positions, by_chainages = ["--from", first, "--to", last], ["--from", str(start), "--to", str(end)]
            assert diagram(db, "A1", *by_positions) == diagram(db, "A1", *by_chainages), by_positions
            told = [run("rows", str(db), "--route", "A1", *words) for words in (by_positions, by_chainages)]
            assert told[0].stdout == told[1].stdout and told[0].status == told[1].status == 0, told
        for words, cause in [(["--from", "abs:9001"], "OffRoute:from"), (["--to", "rel:NONE+5"], "NoRef:to"), (["--from", "rel:NONE+5", "--to", "abs:9001"], "NoRef:from")]:
            refuses(run("diagram", str(db), "A1", *words), cause)
            refuses(run("rows", str(db), "--route", "A1", *words), cause)
        refuses(run("rows", str(db), "--from", "abs:3000"), "NoRoute")


def test_words_that_cannot_be_read():
    for db in [":memory:", "/dev/null/db"]:
        for words, said in [
            (["a1"], "ROUTE is no route name"),
            (["A1", "speed"], "CLASS is no class name"),
            (["A1", "--from", "1.5"], "FROM is no place: millimetres, or abs:, rel: or int: before a position"),
            (["A1", "--to", "10000000001"], "TO is no place: millimetres, or abs:, rel: or int: before a position"),
            (["A1", "--from", "x", "--to", "y"], "FROM is no place: millimetres, or abs:, rel: or int: before a position"),
        ]:
            refuses_word(run("diagram", db, *words), said)


def test_over_http():
    with tempfile.TemporaryDirectory() as folder:
        db = inventory(folder)
        whole, part = diagram(db, "A1"), diagram(db, "A1", "SPEED", "SIGN", "--from", "100", "--to", "4000")
        rows = b'{"rows":[{"from":2500,"route":"A1","side":"B","to":8000}]}'
        table = [
            ("/v1/diagram?route=A1", reply(200, whole, "image/svg+xml")),
            ("/v1/diagram?to=4000&class=SPEED&route=A1&from=100&class=SIGN", reply(200, part, "image/svg+xml")),
            ("/v1/diagram?route=B1", error(404, "NoRoute")),
            ("/v1/diagram", error(400, "Malformed:route")),
            ("/v1/diagram?route=A1&class=speed&from=x", error(400, "Malformed:class")),
            ("/v1/diagram?route=A1&from=x&to=y", error(400, "Malformed:from")),
            ("/v1/diagram?route=A1&to=-1", error(400, "Malformed:to")),
            ("/v1/diagram?route=A1&class=SPEED&class=NONE", error(422, "NoClass:1")),
            ("/v1/diagram?route=A1&to=8001", error(422, "OffRoute")),
            ("/v1/routes", reply(200, b'{"routes":[{"length":8000,"name":"A1"}]}')),
            ("/v1/find?asset=10", reply(200, rows)),
            ("/v1/find?asset=12", error(422, "NoAsset")),
            ("/v1/find?asset=0", error(400, "Malformed:asset")),
            ("/v1/find", error(400, "Malformed:asset")),
        ]
        with serving(len(table) + 3, db) as server:
            for path, expected in table:
                server.answers(request(f"GET {path}"), expected)
            for path in ["diagram", "routes", "find"]:
                server.answers(request(f"POST /v1/{path}", b""), reply(405, allow="GET"))


def test_an_inventory_without_routes_lists_none():
    with serving(1) as server:
        server.answers(request("GET /v1/routes"), reply(200, b'{"routes":[]}'))


def test_what_a_reader_of_the_picture_finds():
    """The strip and the picture say the same of one class."""
    with tempfile.TemporaryDirectory() as folder:
        db = inventory(folder)
        strip = run("strip", str(db), "A1", "L", "SPEED").stdout.decode().split()[7:]
        titles = [title.text for title in Picture(diagram(db, "A1", "SPEED")).bands()["SPEED", "L"][0].iter(SVG + "title")]
        assert strip == ["0.000", "2.500", "50", "2.500", "8.000", "80"] and titles == ["11: 50", "10: 80"]


def test_a_pipe_that_is_closed():
    """A reader that has seen enough is a failed write, of which the status alone tells, as with every question."""
    edits, survey, _ = random_inventory(1, 6_000)
    with tempfile.TemporaryDirectory() as folder:
        db = inventory(folder, edits, survey)
        with subprocess.Popen([PROGRAM, "diagram", str(db), "R-1"], stdout=subprocess.PIPE, stderr=subprocess.PIPE) as child:
            child.stdout.read(10)
            child.stdout.close()
            assert (child.stderr.read(), child.wait(PATIENCE)) == (b"", 3)
