"""docs/SHEETS.md: its sheets run as it says, and it has each verb, each cause and each limit."""

import re

import pytest

from documents import follow, table
from program import HEADER, TOP, ends, lines, run, sheet_of

PAGE = TOP / "docs" / "SHEETS.md"
CRATES = TOP / "crates"
COLUMNS = [f"{letter}, {column}" for letter, column in zip("abcdefghi", "CDEFGHIJK")]


def section(heading):
    """The text under a verb's heading."""
    return re.search(rf"^### `{heading}`\n(.*?)(?=^##|\Z)", PAGE.read_text(), re.M | re.S)[1]


def verbs():
    """Each verb of the table of verbs, and how many fields it has."""
    text = (CRATES / "lrs_sheet_records" / "specs" / "Verbs.antt").read_text()
    columns = text.count("; shape = ")
    found = re.findall(r'name = codes "(\w+)"; shapes = (.*) \}$', text, re.M)
    return {name: columns if shapes == "new_asset_shapes" else shapes.count("∷") for name, shapes in found}


def test_the_sheets_of_the_page_run_as_it_says(tmp_path):
    follow(PAGE, tmp_path)


def test_there_are_fifteen_verbs():
    assert len(verbs()) == 15
    assert sorted(re.findall(r"^### `(\w+)`$", PAGE.read_text(), re.M)) == sorted(verbs())


@pytest.mark.parametrize("verb", verbs())
def test_a_verb_has_its_fields_and_an_example_that_is_accepted(verb):
    rows = table(section(verb), "Field")
    assert [row[1] for row in rows] == COLUMNS[: verbs()[verb]]
    sheet, replies = (text for _, text in re.findall(r"^```(\w*)\n(.*?)^```$", section(verb), re.M | re.S)[:2])
    keys = re.findall(rf"^([^,\n]+),{verb},", sheet, re.M)
    assert any(f"\n{key},done," in replies for key in keys), (verb, keys)


def test_the_page_has_each_cause_and_each_fault_of_a_sheet():
    text = (CRATES / "lrs_machine" / "specs" / "AnswerTexts.antt").read_text()
    causes = re.findall(r"^cause_text .*codes \"(\w+)", text, re.M)
    assert len(causes) == 25
    for name in [*causes, "roadlrs: fault BadHeader", "roadlrs: fault BadCsv", "TooMany:edits", "TooMany:assets", "TooMany:routes"]:
        assert f"`{name}" in PAGE.read_text(), name


def test_the_page_has_each_limit_of_what_a_sheet_can_say():
    text = (CRATES / "lrs_measure" / "src" / "limits.rt").read_text()
    for name, number in re.findall(r"^pub const (\w+): \w+ = ([0-9_]+);", text, re.M):
        if name not in ["FINEST", "FINEST_PROPORTION", "MOST_PAIRS"]:
            assert number.replace("_", ",") in PAGE.read_text(), name


LINK = b"k,link,101,5,,,,,,,\n"
MARK = b"\xef\xbb\xbf"

# the table of the file, by sheets of one link
FILES = [
    (HEADER + LINK, ""),
    (MARK + HEADER + LINK, ""),
    ((HEADER + LINK).replace(b"\n", b"\r\n"), ""),
    ((HEADER + LINK).replace(b"\n", b"\r"), ""),
    (HEADER + b"\n" + LINK.rstrip(), ""),
    (HEADER + LINK.replace(b"link", b'"link"'), ""),
    (HEADER.upper() + LINK, "BadHeader"),
    (HEADER.replace(b",", b";") + LINK, "BadHeader"),
    (HEADER.replace(b"key,", b"key, ") + LINK, "BadHeader"),
    (LINK, "BadHeader"),
    (HEADER + LINK.replace(b",\n", b"\n"), "BadCsv"),
    (HEADER + LINK.replace(b"\n", b",\n"), "BadCsv"),
    (HEADER + LINK.replace(b"101", b'"1,01"'), "Malformed:a"),
    (HEADER + LINK.replace(b"101", b" 101"), "Malformed:a"),
]


@pytest.mark.parametrize("sheet, cause", FILES)
def test_the_rules_of_the_file(sheet, cause):
    ended = run("edit", ":memory:", "stdin", given=sheet)
    if cause.startswith("Bad"):
        ends(ended, b"", 3, f"roadlrs: fault {cause}\n".encode())
    else:
        ends(ended, f"k,refused,{cause}\n".encode() if cause else b"k,done,1\n", 1 if cause else 0)


def longest(what):
    """How many bytes a name may have, as the page says."""
    rows = table(PAGE.read_text(), r"What \| It may hold")
    return next(int(re.match(r"1 to (\d+) of", holds)[1]) for name, holds, _ in rows if name == what)


# Where the names stand in a record, and bytes that they may have and may not have.
NAMES = {
    "key": ("{},link,101,5", "Aa0.:_-", " /,é+"),
    "route": ("k,close,{}", "AZ09-", "a_."),
    "class": ("k,class,{},point", "AZ09", "a-_."),
    "referent": ("k,unref,{}", "AZ09", "a-_."),
    "value": ("k,enter,1,SIGN,A1,L,abs,1,,{},0", "Aa0._-", " :+/"),
}


@pytest.mark.parametrize("what", NAMES)
def test_what_names_hold(what):
    record, good, bad = NAMES[what]
    texts = [(byte + "A", True) for byte in good if byte != "-" or what != "route"]
    texts += [("A" + byte, True) for byte in good] + [('"A' + byte + '"', False) for byte in bad]
    texts += [("A" * longest(what), True), ("A" * (longest(what) + 1), False), ("-", False), ("", False)]
    for text, is_read in texts:
        row = record.format(text) + "," * (10 - record.count(","))
        printed = run("edit", ":memory:", "stdin", given=HEADER + row.encode() + b"\n").stdout
        assert (b"Malformed" not in printed) == is_read, (text, printed)


# After the sheets of the page: long links, a route as long as one may be, and one with the greatest measures.
LONG = [f"{n}:0:1000000000:+" for n in range(201, 212)]
BEFORE = [
    *(f"l{n},link,{n},1000000000" for n in range(201, 212)),
    f"r1,route,LONG,{' '.join(LONG[:10])},0:0 10000000000:1",
    "r2,route,HIGH,211:0:10:+,0:0 10:100000000000",
    f"r3,route,PIECES,{' '.join(f'211:{2 * n}:{2 * n + 1}:+' for n in range(10, 1010))},0:0 1000:1000",
    f"r4,route,MARKS,211:3000:4000:+,{' '.join(f'{n}:{n}' for n in range(999))} 1000:1000",
]

# For each row of a verb's table of refusals a record that is refused so; it has faults that are looked at later, too.
ENTRIES = [
    ("1001,NONE,C1,L,rel,XX+0,,x,0", "AssetKnown"),
    ("9001,NONE,C1,L,rel,XX+0,,x,0", "NoClass"),
    ("9001,SPEED,C1,L,rel,XX+0,,x,0", "NoRoute"),
    ("9001,SPEED,A38,L,rel,XX+0,,x,0", "WrongKind"),
    ("9001,SPEED,A38,L,rel,XX+0,KM2-9000000,x,0", "NoRef"),
    ("9001,SPEED,A38,L,rel,KM2-9000000,XX+0,x,0", "OffRoute"),
    ("9001,SPEED,A38,L,rel,KM2+0,XX+0,x,0", "NoRef"),
    ("9001,SPEED,A38,L,rel,KM2+0,KM2-9000000,x,0", "OffRoute"),
    ("9001,SPEED,A38,L,abs,3000,2500,x,0", "Empty"),
]
REFUSED = {
    "link": [("101,7", "LinkKnown")],
    "class": [("SPEED,point", "ClassKnown")],
    "route": [
        ("A38,101:5:5:+ 999:0:1:+,0:0 1:1", "RouteKnown"),
        ("C1,101:5:5:+ 999:0:1:+,0:0 1:1", "NoLink"),
        ("C1,101:0:10:+ 101:0:10:+ 101:5:5:+,0:0 1:1", "BadPiece:2"),
        (f"C1,101:0:10:+ 101:0:10:+ {' '.join(LONG)},0:0 1:1", "Taken:1"),
        (f"C1,{' '.join(LONG)},0:0 1:1", "TooLong"),
        ("C1,101:0:10:+,0:0 1:1", "Taken:0"),
        ("C1,106:0:10:+,0:0 9:9", "BadMarks:1"),
    ],
    "ref": [
        ("KM2,C1,rel,XX+0", "RefKnown"),
        ("XX,C1,rel,YY+0", "NoRoute"),
        ("XX,A38,rel,YY+0", "NoRef"),
        ("XX,A38,abs,9201", "OffRoute"),
    ],
    "unref": [("XX", "NoRef")],
    "enter": [*ENTRIES, ("9001,SPEED,A38,L,abs,2500,3000,x,0", "Overlap:1001")],
    "retire": [
        ("9001,C1,rel,XX+0,", "NoAsset"),
        ("1001,C1,rel,XX+0,", "NoRoute"),
        ("1001,A38,rel,XX+0,", "WrongKind"),
        ("1001,A38,rel,XX+0,KM2-9000000", "NoRef"),
        ("1001,A38,rel,KM2-9000000,XX+0", "OffRoute"),
        ("1001,A38,rel,KM2+0,XX+0", "NoRef"),
        ("1001,A38,rel,KM2+0,KM2-9000000", "OffRoute"),
        ("1001,A38,abs,0,100", "Empty"),
    ],
    "supersede": ENTRIES,
    "split": [("C1,1,A38", "NoRoute"), ("A38,1,A38", "RouteKnown"), ("A38,1,C1", "NoMark")],
    "renumber": [("C1,A38", "NoRoute"), ("A38,A38", "RouteKnown")],
    "recalibrate": [("C1,0:0 1:1", "NoRoute"), ("A38,0:0 1:1", "BadMarks:1")],
    "join": [("C1,C2", "NoRoute"), ("A38,A38", "SameRoute"), ("HIGH,LONG", "TooLong"), ("HIGH,B4100", "MeasureRange")],
    "turn": [("C1", "NoRoute")],
    "realign": [
        ("C1,9,8,,0:0 1:1", "NoRoute"),
        ("A38,9200001,8,,0:0 1:1", "OffRoute"),
        ("A38,9,8,999:0:1:+,0:0 1:1", "Empty"),
        ("A38,0,9,101:5:5:+ 999:0:1:+,0:0 1:1", "NoLink"),
        ("A38,0,9,101:0:10:+ 101:0:10:+ 101:5:5:+,0:0 1:1", "BadPiece:2"),
        ("A38,0,9,101:0:10:+ 101:0:10:+,0:0 1:1", "Taken:1"),
        ("A38,0,9,101:0:10:+,0:0 1:1", "Taken:0"),
        ("LONG,0,0,106:0:10:+,0:0 1:1", "TooLong"),
        ("A38,0,9200000,,0:0 1:1", "NothingLeft"),
        ("A38,0,9,,0:0 1:1", "BadMarks:1"),
    ],
    "close": [("C1", "NoRoute")],
}
# what the same rows say, of another case
ALSO = [
    ("join,A38,C1", "NoRoute"),
    ("join,PIECES,B4100", "TooLong"),
    ("join,MARKS,B4100", "TooLong"),
    ("realign,A38,0,0,,0:0 1:1", "Empty"),
    ("realign,A38,0,9200001,,0:0 1:1", "OffRoute"),
    ("realign,PIECES,0,0,106:0:10:+,0:0 1:1", "TooLong"),
    ("retire,1001,A38,abs,3000,2500", "Empty"),
    ("retire,2004,A38,abs,2000,2100", "WrongKind"),
    ("enter,9001,SIGN,A38,L,abs,2000,2100,x,0", "WrongKind"),
    ("supersede,9001,BARRIER,A38,L,rel,XX+0,XX+1,x,0", "WrongKind"),
]


@pytest.mark.parametrize("verb", verbs())
def test_the_refusals_of_a_verb_are_those_of_its_table(verb):
    cells = [re.findall(r"`(\w+)(?::N)?`", row[0]) for row in table(section(verb), "Refused")]
    assert [cause for causes in cells for cause in causes] == [cause.split(":")[0] for _, cause in REFUSED[verb]]


def test_each_refusal_comes_in_its_order(tmp_path):
    follow(PAGE, tmp_path)
    first = run("edit", "roads.db", "stdin", given=sheet_of(*BEFORE), cwd=tmp_path)
    assert first.status == 0, first
    rows = [(f"{verb},{fields}", cause) for verb in verbs() for fields, cause in REFUSED[verb]] + ALSO
    sheet = sheet_of(*(f"k{n},{text}" for n, (text, _) in enumerate(rows)))
    replies = lines(*(f"k{n},refused,{cause}" for n, (_, cause) in enumerate(rows)))
    ends(run("edit", "roads.db", "stdin", given=sheet, cwd=tmp_path), replies, 1)
