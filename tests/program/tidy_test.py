"""roadlrs tidy: what spreadsheets write, made a sheet; what it says of that; and what it leaves alone."""

import pathlib

import pytest

from program import FIRST, TOP, ends, faults, run

EDITS = "key,verb,a,b,c,d,e,f,g,h,i"
SURVEY = "key,asset,class,route,side,method,from,to,value,offset"

# no-break spaces, quotation marks, a dash and a minus, as spreadsheets and their users write them
WIDE, NARROW, FIGURE = "\u00a0", "\u202f", "\u2007"
OPEN, CLOSE, LOW, LEFT, RIGHT = "\u201c", "\u201d", "\u201e", "\u00ab", "\u00bb"
DASH, MINUS = "\u2013", "\u2212"

BECAME = f"line 1: the header became {EDITS}"
SEMICOLONS = "semicolons between fields became commas"
TABS = "tabs between fields became commas"
RETURNS = "carriage returns at line ends were left out"


def text_of(*rows, header=EDITS):
    return "".join(row + "\n" for row in (header, *rows))


def padded(row, width=11):
    return row + "," * (width - 1 - row.count(","))


def semicolons(text):
    return text.replace(",", ";")


LINK = padded("s1,link,1,5000")
ROUTE = padded("s2,route,A1,1:0:5000:+,0:0 5000:5000")
MARKED = padded("s3,ref,KM2,A1,rel,KM1-12")
ENTRY = "q1,1,SIGN,A1,R,int,1/3,,STOP,1500"

# what is given, the sheet that it becomes, and what is said
EDIT_SHEETS = {
    "semicolons": (semicolons(text_of(LINK)), text_of(LINK), [SEMICOLONS]),
    "tabs": (text_of(LINK).replace(",", "\t"), text_of(LINK), [TABS]),
    "a line that names the separator": ("sep=;\n" + semicolons(text_of(LINK)), text_of(LINK), ["line 1: the line sep= was left out", SEMICOLONS]),
    "the same of commas": ("sep=,\n" + text_of(LINK), text_of(LINK), ["line 1: the line sep= was left out"]),
    "a separator that is named in quotes": ('"sep=|"\r\n' + text_of(LINK).replace(",", "|"), text_of(LINK), ["line 1: the line sep= was left out", "bars between fields became commas"]),
    "line ends of Windows": ("sep=;\r\n" + semicolons(text_of(LINK)).replace("\n", "\r\n"), text_of(LINK), ["line 1: the line sep= was left out", SEMICOLONS, RETURNS]),
    "a header in capitals": (text_of(LINK, header=EDITS.upper()), text_of(LINK), [BECAME]),
    "a header with spaces": (text_of(LINK, header=EDITS.replace(",", f"{WIDE}, ")), text_of(LINK), [BECAME]),
    "a header in quotation marks": (text_of(LINK, header=",".join(f"{OPEN}{name}{CLOSE}" for name in EDITS.split(","))), text_of(LINK), [BECAME]),
    "columns in another order": (text_of("link,s1,5000,1", header="verb,key,b,a"), text_of(LINK), [BECAME]),
    "last columns that are missing": (text_of("s1,link,1,5000", header="key,verb,a,b"), text_of(LINK), [BECAME]),
    "last fields that are missing": (text_of("s1,link,1,5000"), text_of(LINK), ["line 2: empty fields were added at the end: 7"]),
    "empty columns behind the last": (text_of(LINK + ",,", header=EDITS + ",,"), text_of(LINK), [BECAME]),
    "rows of empty cells": (
        text_of("," * 10, LINK, f" ,{WIDE}" + "," * 9, ",,"),
        text_of(LINK),
        [f"line {line}: a row of empty cells was left out" for line in (2, 4, 5)],
    ),
    "empty rows before the header": (",,,\n" + text_of("s1,link,1,5000", header="key,verb,a,b"), text_of(LINK), ["line 2: the header became " + EDITS]),
    "spaces around a cell": (
        text_of(padded(" s1,link ,\t1,  5000  ")),
        text_of(LINK),
        [
            'line 2, column A (key): " s1" became "s1"',
            'line 2, column B (verb): "link " became "link"',
            'line 2, column C (a): "\\x091" became "1"',
            'line 2, column D (b): "  5000  " became "5000"',
        ],
    ),
    "no-break spaces": (
        text_of(padded(f"s2,route,{WIDE}A1,1:0:5000:+{NARROW},0:0{FIGURE}5000:5000")),
        text_of(ROUTE),
        [
            'line 2, column C (a): "\\xc2\\xa0A1" became "A1"',
            'line 2, column D (b): "1:0:5000:+\\xe2\\x80\\xaf" became "1:0:5000:+"',
            'line 2, column E (c): "0:0\\xe2\\x80\\x875000:5000" became "0:0 5000:5000"',
        ],
    ),
    "a line end in a cell": (text_of(padded('s2,route,A1,1:0:5000:+,"0:0\n5000:5000"')), text_of(ROUTE), ['line 2, column E (c): "0:0\\x0a5000:5000" became "0:0 5000:5000"']),
    "quotation marks": (
        text_of(padded(f"{LEFT}s1{RIGHT},{LOW}link{OPEN},1,5000")),
        text_of(LINK),
        ['line 2, column A (key): "\\xc2\\xabs1\\xc2\\xbb" became "s1"', 'line 2, column B (verb): "\\xe2\\x80\\x9elink\\xe2\\x80\\x9c" became "link"'],
    ),
    "a minus and a dash": (
        text_of(padded(f"s3,ref,KM2,A1,rel,KM1{MINUS}12"), padded(f"s{DASH}4,close,A1{DASH}N")),
        text_of(MARKED, padded("s-4,close,A1-N")),
        [
            'line 2, column F (d): "KM1\\xe2\\x88\\x9212" became "KM1-12"',
            'line 3, column A (key): "s\\xe2\\x80\\x934" became "s-4"',
            'line 3, column C (a): "A1\\xe2\\x80\\x93N" became "A1-N"',
        ],
    ),
    "numbers that end in .0": (
        semicolons(text_of(padded("s1,link,1.0,5000.00"))).replace("5000.00", "5000,00"),
        text_of(LINK),
        [SEMICOLONS, 'line 2, column C (a): "1.0" became "1"', 'line 2, column D (b): "5000,00" became "5000"'],
    ),
    "a measure that ends in .0": (text_of(padded("s3,ref,KM2,A1,abs,12.0")), text_of(padded("s3,ref,KM2,A1,abs,12")), ['line 2, column F (d): "12.0" became "12"']),
    "a comma and a quote inside a cell": (semicolons(text_of(LINK)) + 's2;class;A,B;"5""";;;;;;;\n', text_of(LINK, padded('s2,class,"A,B","5"""').rstrip(",") + ",,,,,,,"), [SEMICOLONS]),
    "a verb that is not known": (semicolons(text_of(padded("s1,Link,1.5,5000"))), text_of(padded("s1,Link,1.5,5000")), [SEMICOLONS]),
    "a header alone": (semicolons(EDITS), EDITS + "\n", [SEMICOLONS]),
}

SURVEYS = {
    "semicolons": (semicolons(text_of(ENTRY, header=SURVEY)), text_of(ENTRY, header=SURVEY), [SEMICOLONS]),
    "columns in another order": (
        text_of("1500,1/3,,int,1,SIGN,A1,R,STOP,q1", header="offset,from,to,method,Asset,class,route,side,value,KEY"),
        text_of(ENTRY, header=SURVEY),
        [f"line 1: the header became {SURVEY}"],
    ),
    "numbers that end in .0": (
        text_of("q1,1.0,SIGN,A1,R,int,1/3,,3.50,1500.0", header=SURVEY),
        text_of("q1,1,SIGN,A1,R,int,1/3,,3.50,1500", header=SURVEY),
        ['line 2, column B (asset): "1.0" became "1"', 'line 2, column J (offset): "1500.0" became "1500"'],
    ),
    "a key that looks like a number and a date": (semicolons(text_of("1.234,1,SIGN,A1,R,int,1/3,,01.02.03,0", header=SURVEY)), text_of("1.234,1,SIGN,A1,R,int,1/3,,01.02.03,0", header=SURVEY), [SEMICOLONS]),
}

CASES = [pytest.param(given, sheet, said, [], id=f"an edit sheet with {name}") for name, (given, sheet, said) in EDIT_SHEETS.items()]
CASES += [pytest.param(given, sheet, said, ["--survey"], id=f"a survey with {name}") for name, (given, sheet, said) in SURVEYS.items()]


def tidied(given, *options):
    return run("tidy", "stdin", *options, given=given)


def is_tidied(ended, sheet, said):
    ends(ended, sheet.encode(), 0, "".join(line + "\n" for line in said).encode())


@pytest.mark.parametrize("given, sheet, said, options", CASES)
def test_a_sheet_is_made_and_each_change_is_said(given, sheet, said, options):
    is_tidied(tidied(given.encode(), *options), sheet, said)


@pytest.mark.parametrize("given, sheet, said, options", CASES)
def test_twice_is_once(given, sheet, said, options):
    is_tidied(tidied(sheet.encode(), *options), sheet, [])


@pytest.mark.parametrize("given, sheet, said, options", CASES)
def test_what_is_made_is_answered_as_a_sheet(given, sheet, said, options):
    ended = run("check", ":memory:", "stdin", *options, given=sheet.encode())
    records = sheet.count("\n") - 1
    assert ended.status in (0, 1) and len(ended.stdout.splitlines()) == records and b"fault" not in ended.stderr, ended


@pytest.mark.parametrize("encoding", ["utf-16-le", "utf-16-be"])
def test_utf_16_with_a_mark(encoding):
    given = "\ufeff" + text_of(LINK).replace(",", "\t").replace("\n", "\r\n")
    is_tidied(tidied(given.encode(encoding)), text_of(LINK), ["UTF-16 became UTF-8", TABS, RETURNS])
    given = "\ufeff" + text_of(padded(f"s1,link,1,{WIDE}5000"))
    said = ["UTF-16 became UTF-8", 'line 2, column D (b): "\\xc2\\xa05000" became "5000"']
    is_tidied(tidied(given.encode(encoding)), text_of(LINK), said)


def test_a_mark_before_utf_8():
    given = "\ufeff" + semicolons(text_of(LINK))
    is_tidied(tidied(given.encode()), text_of(LINK), ["the byte order mark was left out", SEMICOLONS])


# ---- what is right is left as it is


RIGHT_SHEETS = {
    "as it is mostly written": text_of(LINK, ROUTE, MARKED),
    "line ends of Windows": text_of(LINK, ROUTE).replace("\n", "\r\n"),
    "line ends of old": text_of(LINK, ROUTE).replace("\n", "\r"),
    "a byte order mark": "\ufeff" + text_of(LINK),
    "no last line end": text_of(LINK).rstrip("\n"),
    "quotes around fields": text_of('"s1","link","1",5000,,,,,,,""'),
    "empty lines": text_of("", LINK, "", ""),
    "leading noughts": text_of(padded("s1,link,0001,005000")),
    "records that will be refused": text_of(padded("s1,link,7,0"), padded("s1,class,speed,point"), padded("-,wish,A1")),
    "a header alone": EDITS,
}


@pytest.mark.parametrize("text", RIGHT_SHEETS.values(), ids=RIGHT_SHEETS)
def test_a_right_sheet_is_left_byte_for_byte(text):
    ends(tidied(text.encode()), text.encode(), 0)


EXAMPLES = sorted((TOP / "examples").glob("*.csv"))


@pytest.mark.parametrize("path", EXAMPLES, ids=lambda path: path.name)
def test_each_sheet_of_the_examples_is_left_byte_for_byte(path):
    options = ["--survey"] if path.name.startswith("survey") else []
    ends(run("tidy", str(path), *options), path.read_bytes(), 0)
    ends(tidied(path.read_bytes(), *options), path.read_bytes(), 0)


def test_the_log_is_left_byte_for_byte(tmp_path):
    assert run("edit", "roads.db", "stdin", given=FIRST, cwd=tmp_path).status == 0
    log = run("log", "roads.db", cwd=tmp_path).stdout
    ends(tidied(log), log, 0)


def test_what_was_taken_from_a_spreadsheet_makes_the_same_inventory(tmp_path):
    """The sheets of the examples, as a German spreadsheet saves them, are the examples again."""
    for path in EXAMPLES:
        options = ["--survey"] if path.name.startswith("survey") else []
        saved = tmp_path / path.name
        saved.write_bytes(path.read_text().replace(",", ";").replace("\n", "\r\n").encode())
        ended = run("tidy", str(saved), *options)
        assert (ended.stdout, ended.status) == (path.read_bytes(), 0), ended


# ---- what could be read in two ways is named


def named(place, text, why):
    return f'{place}: "{text}" {why}'


LENGTH = "a whole number of millimetres from 1 to 1000000000 is wanted"
PART = "a part of the route's length is wanted, as 1/3: two whole numbers up to 1000000, the first not above the second"
TWO = "can be read in two ways; "
DATE = "may be a date that was made of a proportion; "

LINES = {"edits": [], "survey": ["--survey"]}


@pytest.mark.parametrize("text", ["1.234", "1,5", "1,234", "5000.000", "1.234.567", "1.234,0", "1,234.0"])
def test_a_number_that_could_be_read_in_two_ways(text):
    given = semicolons(text_of(LINK)) + f"s2;link;2;{text}" + ";" * 7 + "\n"
    said = named("line 3, column D (b)", text, TWO + LENGTH) + "\nnothing is written\n"
    ends(tidied(given.encode()), b"", 1, said.encode())


@pytest.mark.parametrize("text", ["1.5", "12.25", "1 234", "5000 mm", "1E+05", "-5", "1'234", ".5", "x"])
def test_what_is_no_whole_number_and_can_be_read_in_one_way_is_left(text):
    """An edit refuses the record, and says why."""
    sheet = text_of(LINK, padded(f"s2,link,2,{text}"))
    ends(tidied(sheet.encode()), sheet.encode(), 0)
    is_tidied(tidied(semicolons(sheet).encode()), sheet, [SEMICOLONS])


@pytest.mark.parametrize("text", ["1/3/2025", "03.01.2026", "Jan 3", "01. Mrz", "2026-01-03", "45660", "3", "0.333"])
def test_a_date_that_was_made_of_a_proportion(text):
    given = text_of(f"q1,1,SIGN,A1,R,int,{text},,STOP,1500", header=SURVEY)
    said = named("line 2, column G (from)", text, DATE + PART) + "\nnothing is written\n"
    ends(tidied(given.encode(), "--survey"), b"", 1, said.encode())


def test_a_distance_with_a_point():
    given = text_of(padded("s3,ref,KM2,A1,rel,KM1+1.500"))
    wanted = "a referent, + or -, and a whole number of millimetres are wanted, as KM2+500"
    ends(tidied(given.encode()), b"", 1, f'line 2, column F (d): "KM1+1.500" {TWO}{wanted}\nnothing is written\n'.encode())


def test_each_doubt_is_named_and_no_change():
    """With the line and the column of the text that was given."""
    given = text_of("1500,1/3,,int,1.500,SIGN,A1,R,M\u00fcller,q1", "1.500,03.01.2026,,int, 2,SIGN,A1,R,STOP,q2", header="offset,from,to,method,asset,class,route,side,value,key")
    said = [
        'line 2, column E (asset): "1.500" can be read in two ways; a whole number from 1 to 1000000000000 is wanted',
        'line 2, column I (value): "M\\xc3\\xbcller" has a character that no sheet takes; 1 to 12 of A-Z, a-z, 0-9, ., _ and - are wanted, and not - alone',
        f'line 3, column B (from): "03.01.2026" {DATE}{PART}',
        'line 3, column A (offset): "1.500" can be read in two ways; a whole number of millimetres from 0 to 100000 is wanted',
        "nothing is written",
    ]
    ends(tidied(given.encode(), "--survey"), b"", 1, "".join(line + "\n" for line in said).encode())


def is_refused(given, *said, options=()):
    ends(tidied(given, *options), b"", 1, "".join(line + "\n" for line in [*said, "nothing is written"]).encode())


def test_headers_that_are_not_understood():
    wanted = f"; the header {EDITS} is wanted"
    survey = "; these are columns of a survey, which is tidied with --survey"
    is_refused(b"", "line 1: the sheet is empty")
    is_refused(b",,\n\n , ,\n", "line 1: the sheet is empty")
    is_refused(text_of(header="key,verb,a,c").encode(), f"line 1: no column is called b{wanted}")
    is_refused(text_of(header=EDITS + ",note").encode(), 'line 1, column L: "note" is no column of this kind of sheet')
    is_refused(text_of(header="key,verb,a,B,b").encode(), 'line 1, column E: "b" is the name of a column before it too')
    ended = tidied(text_of(ENTRY, header=SURVEY).encode())
    assert (ended.stdout, ended.status) == (b"", 1) and f"line 1: no column is called verb{wanted}{survey}\n".encode() in ended.stderr, ended
    ended = tidied(text_of(LINK).encode(), "--survey")
    assert (ended.stdout, ended.status) == (b"", 1) and b"which is tidied without --survey\n" in ended.stderr, ended


def test_a_cell_under_no_column():
    is_refused(text_of("s1,link,1,5000,x", header="key,verb,a,b").encode(), 'line 2, column E: "x" stands under no column of the sheet')
    is_refused(text_of(LINK + ",x").encode(), 'line 2, column L: "x" stands under no column of the sheet')


def test_texts_in_another_code():
    is_refused(text_of(LINK, padded("s2,class,M\u00fcLL,point")).encode("latin-1"), "line 3: this is not UTF-8: save it as CSV in UTF-8")
    is_refused(b"\xff\xfe" + text_of(LINK).encode("utf-16-le") + b"\n", "this is no UTF-16, though it begins so: save it as CSV in UTF-8")
    is_refused(b"\xff\xfe\x00\xd8" + text_of(LINK).encode("utf-16-le"), "this is no UTF-16, though it begins so: save it as CSV in UTF-8")


def test_lines_are_counted_over_cells_of_several_lines():
    given = text_of(padded('s2,route,A1,1:0:5000:+,"0:0\n5000:5000"'), padded("s3,link,3,1.500"))
    is_refused(given.encode(), f'line 4, column D (b): "1.500" {TWO}{LENGTH}')


@pytest.mark.parametrize("given", [b"\x00" * 1000, b"PK\x03\x04\x14\x00\xff", b'"' * 999, b"," * 5000, b"\xfe\xff"])
def test_hostile_texts_are_refused(given):
    ended = tidied(given)
    assert (ended.stdout, ended.status) == (b"", 1) and ended.stderr.endswith(b"nothing is written\n"), ended
    assert all(32 <= byte < 127 or byte == 10 for byte in ended.stderr), ended


# ---- the command


def test_files_that_are_not_read(tmp_path):
    faults(run("tidy", "none.csv", cwd=tmp_path), "Read")
    faults(run("tidy", ".", cwd=tmp_path), "Read")
    ends(run("tidy", "--", "-", cwd=tmp_path), b"", 3, b"hint: standard input is written stdin\nroadlrs: fault Read\n")
    said = run("tidy", "none.csv", "--explain", cwd=tmp_path)
    assert said.status == 3 and b"explain: none.csv: No such file" in said.stderr, said


def test_output_that_takes_nothing(tmp_path):
    (tmp_path / "saved.txt").write_text(semicolons(text_of(*[LINK] * 1000)))
    with open("/dev/full", "wb") as full:
        ended = run("tidy", "saved.txt", cwd=tmp_path, stdout=full)
    assert ended.status == 3 and ended.stderr.endswith(b"roadlrs: fault Write\n"), ended


@pytest.mark.parametrize("words", [[], ["a", "b"], ["--sums", "a"], ["--survey", "--survey", "a"]], ids=" ".join)
def test_words_that_are_not_understood(words):
    ended = run("tidy", *words)
    assert (ended.stdout, ended.status) == (b"", 2), ended
    assert b"Usage: roadlrs tidy <FILE>" in ended.stderr or b"Usage: roadlrs tidy [OPTIONS] <FILE>" in ended.stderr, ended


@pytest.mark.parametrize("command, header", [("edit", EDITS), ("survey", SURVEY)])
@pytest.mark.parametrize("options", [[], ["--all"]], ids=["one by one", "all"])
def test_who_gives_a_sheet_of_a_spreadsheet_is_pointed_to_it(tmp_path, command, header, options):
    option = " --survey" if command == "survey" else ""
    pointer = f"explain: roadlrs tidy saved.txt{option} > NEW.csv makes a sheet of it\n".encode()

    def said(text):
        (tmp_path / "saved.txt").write_bytes(text)
        ended = run(command, ":memory:", "saved.txt", "--explain", *options, cwd=tmp_path)
        assert ended.status == 3, ended
        return ended.stderr

    near = [semicolons(header), header.upper(), header.replace(",", " , "), "sep=,\n" + header, ",".join(reversed(header.split(","))), header.replace(",", "\t")]
    for text in near:
        assert pointer in said(text.encode() + b"\n"), text
    assert pointer in said((header + "\n").encode("utf-16"))
    # where a record has too few fields
    assert pointer in said(header.encode() + b"\nk1\n")
    for text in [b"a,b\n", b"PK\x03\x04", b"id;name\n".replace(b";", b"/")]:
        assert b"tidy" not in said(text), text


def test_no_sheet_of_questions_is_tidied(tmp_path):
    (tmp_path / "saved.txt").write_text("key;question;a;b;c;d\n")
    assert b"tidy" not in run("ask", ":memory:", "saved.txt", "--explain", cwd=tmp_path).stderr


def test_a_long_file(tmp_path):
    rows = [padded(f"k{n},link,{n},5") for n in range(1, 20_001)]
    path = pathlib.Path(tmp_path) / "saved.txt"
    path.write_text(semicolons(text_of(*rows)))
    is_tidied(run("tidy", str(path)), text_of(*rows), [SEMICOLONS])
