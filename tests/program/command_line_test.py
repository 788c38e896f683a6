"""The command line: words that are no text, paths of all kinds, and what is said of a misuse."""

import os
import pathlib
import re
import tempfile
import threading

import pytest

from program import BUILT, FIRST, FIRST_REPLIES, PROGRAM, TOP, ends, faults, refuses_word, run, with_files_up_to


def is_misused(ended):
    """The run wrote why on the standard error alone."""
    assert (ended.stdout, ended.status) == (b"", 2) and ended.stderr, ended


UNDERSTOOD = ["edit", ":memory:", "stdin"]


@pytest.mark.parametrize("words", [[b"\xff"], [*UNDERSTOOD, b"\xff"], ["edit", b"\xff", "stdin"], ["edit", ":memory:", b"\xff"]])
def test_words_that_are_no_text(words):
    ends(run(*words, given=FIRST), b"", 2, b"error: a word is not UTF-8\n")


def test_a_sheet_whose_path_is_no_text():
    with tempfile.TemporaryDirectory() as folder:
        path = os.fsencode(folder) + b"/sheet\xff"
        with open(path, "wb") as sheet:
            sheet.write(FIRST)
        ends(run("edit", ":memory:", path), b"", 2, b"error: a word is not UTF-8\n")
        # it can be read all the same
        with open(path, "rb") as sheet:
            ends(run("edit", ":memory:", "stdin", given=None, stdin=sheet), FIRST_REPLIES, 0)


NAMES = ["a sheet", " ", "a\nsheet", "\n", "a\tb", "a,b", "it's", '"sheet"', "$HOME", "*", "\\"]
NAMES += ["\u00e9\u9053", "stdin ", ":memory:", "edit"]


@pytest.mark.parametrize("name", NAMES)
def test_paths_of_all_kinds(name, tmp_path):
    (tmp_path / name).write_bytes(FIRST)
    ends(run("edit", ":memory:", f"{tmp_path}/{name}"), FIRST_REPLIES, 0)
    ends(run("edit", ":memory:", name, cwd=tmp_path), FIRST_REPLIES, 0)


@pytest.mark.parametrize("name", ["-", "--", "-h", "--help"])
def test_paths_that_begin_with_a_dash(name, tmp_path):
    (tmp_path / name).write_bytes(FIRST)
    ends(run("edit", ":memory:", "--", name, cwd=tmp_path), FIRST_REPLIES, 0)
    ends(run("edit", ":memory:", f"./{name}", cwd=tmp_path), FIRST_REPLIES, 0)


@pytest.mark.parametrize("job", ["edit", "survey", "check", "ask"])
def test_a_dash_is_no_name_for_the_standard_input(job, tmp_path):
    said = b"hint: standard input is written stdin\nroadlrs: fault Read\n"
    ends(run(job, ":memory:", "--", "-", given=FIRST, cwd=tmp_path), b"", 3, said)


@pytest.mark.parametrize("path", ["", "/", "/dev/null/sheet", "s" * 256, "s/" * 3000, "stdin\n"])
def test_sheets_that_lead_nowhere(path):
    faults(run("edit", ":memory:", path, given=FIRST), "Read")


@pytest.mark.parametrize("path", ["", "/", "/dev/null/db", "s" * 256])
def test_inventories_that_lead_nowhere(path):
    faults(run("edit", path, "stdin", given=FIRST), "Open")


def test_sheets_that_are_no_plain_files():
    ends(run("edit", ":memory:", "/dev/stdin", given=FIRST), FIRST_REPLIES, 0)
    ends(run("edit", ":memory:", "/dev/null", given=FIRST), b"", 0)
    with tempfile.TemporaryDirectory() as folder:
        pipe = pathlib.Path(folder) / "pipe"
        os.mkfifo(pipe)
        writer = threading.Thread(target=pipe.write_bytes, args=[FIRST], daemon=True)
        writer.start()
        ends(run("edit", ":memory:", str(pipe)), FIRST_REPLIES, 0)
        writer.join()


@pytest.mark.parametrize(
    "words",
    [
        [],
        [""],
        ["-"],
        ["--"],
        ["edits", *UNDERSTOOD[1:]],
        ["EDIT", *UNDERSTOOD[1:]],
        ["edit"],
        ["edit", ":memory:"],
        ["edit", "--fast", *UNDERSTOOD[1:]],
        [*UNDERSTOOD, "more"],
        [*UNDERSTOOD, ""],
        [*UNDERSTOOD, *["more"] * 10_000],
        ["edit", "nowhere/db", "stdin", "more"],
        ["e" * 100_000],
    ],
    ids=lambda words: f"{len(words)} words",
)
def test_words_that_are_not_understood(words):
    is_misused(run(*words, given=FIRST))


ASKED = [["--help"], ["-h"], ["help"], ["edit", "--help"], ["help", "edit"]]
BESIDE_MISUSE = [["edit", "--help", "more"], ["edit", ":memory:", "--help"], ["edit", ":memory:", "none", "-h"]]


@pytest.mark.parametrize("words", ASKED + BESIDE_MISUSE)
def test_help(words):
    ended = run(*words, given=FIRST)
    assert (ended.stderr, ended.status) == (b"", 0) and ended.stdout, ended


def with_sums(*words):
    """These words with the option before them, at each place between them, and after them."""
    return [[*words[:place], "--sums", *words[place:]] for place in range(len(words) + 1)]


@pytest.mark.parametrize("words", with_sums("roads.db", "stdin"))
def test_a_new_file_with_sums(words, tmp_path):
    ends(run("edit", *words, given=FIRST, cwd=tmp_path), FIRST_REPLIES, 0)
    # the file that is there then goes on as it was made, with the option and without it
    again = FIRST_REPLIES.replace(b",done,", b",again,")
    ends(run("edit", *words, given=FIRST, cwd=tmp_path), again, 0)
    ends(run("edit", "roads.db", "stdin", given=FIRST, cwd=tmp_path), again, 0)


@pytest.mark.parametrize("words", with_sums("roads.db", "stdin"))
def test_a_survey_with_sums(words, tmp_path):
    ends(run("survey", *words, given=b"", cwd=tmp_path), b"", 0)


@pytest.mark.parametrize("words", with_sums(":memory:", "8080", "many"))
def test_a_service_with_sums(words):
    # the words are understood, and the last of them is no number
    refuses_word(run("serve", *words), "MAX is no number of connections")


def test_sums_that_are_a_path(tmp_path):
    (tmp_path / "--sums").write_bytes(FIRST)
    ends(run("edit", ":memory:", "--", "--sums", cwd=tmp_path), FIRST_REPLIES, 0)


NO_SUMS = [
    ["--sums", *UNDERSTOOD],
    ["edit", "--sums", "--sums", *UNDERSTOOD[1:]],
    ["edit", "--sums", *UNDERSTOOD[1:], "--sums"],
    ["edit", "--sums=", *UNDERSTOOD[1:]],
    ["edit", "--sums=true", *UNDERSTOOD[1:]],
    ["edit", "--sum", *UNDERSTOOD[1:]],
    ["edit", "-sums", *UNDERSTOOD[1:]],
    ["edit", "-s", *UNDERSTOOD[1:]],
    ["edit", "--sums"],
    ["edit", "--sums", ":memory:"],
    ["survey", "--sums", "--sums", *UNDERSTOOD[1:]],
    ["serve", "--sums", "--sums", ":memory:", "8080", "0"],
    ["at", "--sums", ":memory:", "A1", "abs", "3000"],
    ["at", ":memory:", "A1", "abs", "3000", "--sums"],
    ["translate", "--sums", ":memory:", "A1", "abs", "3000", "int"],
    ["strip", "--sums", ":memory:", "A1", "R", "SPEED"],
    ["diagram", "--sums", ":memory:", "A1"],
    ["totals", "--sums", ":memory:"],
    ["find", "--sums", ":memory:", "10"],
    ["page", "--sums", "www"],
]


@pytest.mark.parametrize("words", NO_SUMS, ids=" ".join)
def test_sums_that_are_not_understood(words):
    is_misused(run(*words, given=FIRST))


NAMES_OF_JOBS = ["edit", "survey", "check", "tidy", "serve", "at", "where", "translate", "strip", "diagram", "totals", "lengths", "find", "route", "ask", "list", "rows", "overlay", "gone", "history", "log", "audit", "page"]


OPTIONS = {
    b"--sums": (b"Gives a new file checksums, so that damage is found", ["edit", "survey", "serve"]),
    b"--resume": (b"Goes on after the last record of the sheet that was accepted before", ["edit", "survey"]),
    b"--all": (b"Does the sheet only if no record of it is refused", ["edit", "survey"]),
    b"--whole": (b"Does the sheet only if its last line has an end", ["edit", "survey"]),
    b"--text": (b"Writes each cell as text, for a spreadsheet", ["lengths", "list", "rows", "overlay", "gone", "history", "log"]),
    b"--columns <NAMES>": (b"Only these columns, in this order: names of the header, a comma between two", ["lengths", "list", "rows", "overlay", "gone", "history"]),
    b"--gaps": (b"Only where a class has no value", ["overlay"]),
    b"--by <CLASSES>": (b"By combinations of values of these exclusive classes, a comma between two", ["lengths"]),
    b"--side <SIDE>": (b"On this side, seen along the route: L or R; else on both", ["overlay"]),
    b"--on-links": (b"Stretches of links, with sides seen along the link", ["rows"]),
    b"--since <N>": (b"By edits from this number on", ["gone"]),
    b"--survey": (b"The sheet is a survey", ["check", "tidy"]),
    b"--log": (b"Writes a line for each request on standard error, and a count at the end", ["serve"]),
    b"--end-on-fault": (b"Ends with status 3 once the inventory was not written", ["serve"]),
    b"--most-reply <BYTES>": (b"How many bytes a reply has at most, 67108864 unless said; a longer one is a 503", ["serve"]),
    b"--page": (b"Shows the web page at /; takes no sheet of a page from elsewhere", ["serve"]),
}


@pytest.mark.parametrize("option", OPTIONS)
def test_help_names_an_option_where_it_may_be_given(option):
    says, names = OPTIONS[option]
    line = re.compile(rb"^      " + option + rb" +" + re.escape(says) + rb"\n", re.M)
    said = {name: run(name, "--help").stdout for name in NAMES_OF_JOBS}
    assert [name for name, text in said.items() if line.search(text)] == names, said
    # an example may have it too
    others = [it for text in said.values() for it in line.sub(b"", text).splitlines() if b" roadlrs " not in f" {it.decode()}".encode()]
    assert option not in b"\n".join(others), said


USAGES = {"edit": b"<DB> <SHEET>", "survey": b"<DB> <SHEET>", "serve": b"<DB> <PORT> <MAX>"}


@pytest.mark.parametrize("name", USAGES)
def test_usage_names_the_words_alone(name):
    for words in [[name], [name, "--fast"], [name, ":memory:"], [name, "--sums", "--sums"], [name, *["more"] * 4]]:
        said = run(*words).stderr
        assert b"\nUsage: roadlrs %s %s\n" % (name.encode(), USAGES[name]) in said, (words, said)


def test_usage_says_roadlrs_whatever_the_file_is_called():
    with tempfile.TemporaryDirectory() as folder:
        link = pathlib.Path(folder) / "another name"
        link.symlink_to(BUILT)
        for program in [PROGRAM, BUILT, str(link)]:
            for words, stream in [(["edit"], "stderr"), (["edit", "--help"], "stdout")]:
                said = getattr(run(*words, executable=program), stream)
                assert b"Usage: roadlrs edit <DB> <SHEET>\n" in said, said


# ---- diagrams


VIEWS = [
    [],
    ["SPEED"],
    ["SPEED", "WIDTH", "SIGN"],
    ["--from", "0"],
    ["--to", "10000000000"],
    ["--from=5", "--to=9"],
    ["--to", "9", "--from", "5"],
    ["--from", "0005", "SPEED"],
    ["SPEED", "--to", "9"],
    ["SPEED", "--from", "5", "WIDTH", "--to=9", "SIGN"],
    ["--from", "5", "--", "SPEED"],
]


@pytest.mark.parametrize("view", VIEWS, ids=" ".join)
def test_a_diagram_of_a_route_that_is_not_there(view):
    ends(run("diagram", ":memory:", "A1", *view), b"", 1, b"roadlrs: NoRoute\n")


@pytest.mark.parametrize("words", [["--from", "5", ":memory:", "A1"], [":memory:", "--from", "5", "A1", "SPEED"], [":memory:", "--to=5", "A1"]])
def test_the_ends_of_a_diagram_stand_anywhere(words):
    ends(run("diagram", *words), b"", 1, b"roadlrs: NoRoute\n")


NO_PLACES = ["x", "+5", "1.0", " 5", "5 ", "1/3", "10000000001", "9" * 30, "\uff15", "abs:", "abs:1/3", "abs: 5", "rel:KM2", "rel:km2+5", "int:1", "int:3/2", "link:5", "ABS:5", ":5", "int/1/3"]

PLACES = ["abs:5", "abs:100000000000", "rel:KM2+500", "rel:KM2-0", "int:1/3", "int:0/1", "0", "007"]


@pytest.mark.parametrize("db", [":memory:", "/dev/null/db"])
@pytest.mark.parametrize("text", NO_PLACES + ["", "-5"])
def test_places_that_cannot_be_read(text, db):
    for name in ["from", "to"]:
        said = f"{name.upper()} is no place: millimetres, or abs:, rel: or int: before a position"
        refuses_word(run("diagram", db, "A1", f"--{name}={text}"), said)
        refuses_word(run("rows", db, "--route", "A1", f"--{name}={text}"), said)
        if text in NO_PLACES:
            refuses_word(run("diagram", db, "A1", f"--{name}", text, "SPEED"), said)


@pytest.mark.parametrize("text", PLACES)
def test_places_of_a_route_that_is_not_there(text):
    for words in [["diagram", ":memory:", "A1", "--from", text], ["rows", ":memory:", "--route", "A1", "--to", text], ["where", ":memory:", "A1", text]]:
        ends(run(*words), b"", 1, b"roadlrs: NoRoute\n")


# two options that are two questions, or an option that does not stand beside this list
NO_PAIRS = [
    (["rows", "--exact", "--on-links"], "--exact and --on-links are two forms"),
    (["list", "routes", "--route", "A1"], "--route stands only beside refs, marks and pieces"),
    (["list", "links", "--route", "A1", "--exact"], "--route stands only beside refs, marks and pieces"),
    (["list", "classes", "--exact"], "--exact stands only beside refs"),
    (["list", "marks", "--exact"], "--exact stands only beside refs"),
    (["list", "pieces", "--exact", "--route", "A1"], "--exact stands only beside refs"),
    (["list", "roads", "--route", "A1"], "WHAT is none of routes, links, classes, refs, marks and pieces"),
    (["list", "refs", "--route", "a1"], "ROUTE is no route name"),
    (["overlay", "speed"], "CLASS is no class name"),
    (["overlay", "SPEED", "--side", "B"], "SIDE is neither L nor R"),
    (["overlay", "SPEED", "--route", "a1"], "ROUTE is no route name"),
    (["overlay", "SPEED", "--from", "x"], "FROM is no place: millimetres, or abs:, rel: or int: before a position"),
    (["lengths", "--by", "SPEED,speed"], "CLASS is no class name"),
    (["lengths", "--by", "", "--columns", "none"], "CLASS is no class name"),
    (["lengths", "--by", "speed", "--route", "a1"], "ROUTE is no route name"),
    (["gone", "--edit", "0"], "EDIT is no number of an edit"),
    (["gone", "--since", "0"], "SINCE is no number of an edit"),
    (["gone", "--until", "x"], "UNTIL is no number of an edit"),
    (["gone", "--class", "speed"], "CLASS is no class name"),
    (["log", "--until", "0"], "UNTIL is no number of an edit"),
    (["log", "2", "--key", "k1", "--until", "3"], "FROM and --key KEY are two questions"),
    (["log", "--key", "k1", "--until", "3"], "--until and --key KEY are two questions"),
    (["log", "--sum", "--key", "k1", "--until", "3"], "--sum and --key KEY are two questions"),
    (["log", "3", "--sum", "--until", "3"], "--until and --sum are two questions"),
]


@pytest.mark.parametrize("words, said", NO_PAIRS)
def test_options_that_do_not_stand_beside_each_other(words, said):
    for db in [":memory:", "/dev/null/db"]:
        refuses_word(run(words[0], db, *words[1:]), said)


@pytest.mark.parametrize(
    "words, said",
    [
        (["a1", "speed", "--from", "x", "--to", "x"], "ROUTE is no route name"),
        (["A1", "SPEED", "speed", "--from", "x", "--to", "x"], "CLASS is no class name"),
        (["A1", "SPEED", "--to", "x", "--from", "x"], "FROM is no place: millimetres, or abs:, rel: or int: before a position"),
        (["A1", "SPEED", "--to", "x", "--from", "5"], "TO is no place: millimetres, or abs:, rel: or int: before a position"),
    ],
)
def test_the_first_word_of_a_diagram_that_cannot_be_read_is_named(words, said):
    refuses_word(run("diagram", ":memory:", *words), said)


NO_DIAGRAMS = [
    ["diagram"],
    ["diagram", ":memory:"],
    ["diagram", "--from", "5", ":memory:"],
    ["diagram", ":memory:", "A1", "--from"],
    ["diagram", ":memory:", "A1", "--from", "--to", "5"],
    ["diagram", ":memory:", "A1", "--from", "-5"],
    ["diagram", ":memory:", "A1", "--from", "5", "--from", "5"],
    ["diagram", ":memory:", "A1", "--to=5", "--to=6"],
    ["diagram", ":memory:", "A1", "--fro", "5"],
    ["diagram", ":memory:", "A1", "-f", "5"],
    ["diagram", ":memory:", "A1", "SPEED", "--fast"],
]


@pytest.mark.parametrize("words", NO_DIAGRAMS, ids=" ".join)
def test_diagrams_that_are_not_understood(words):
    is_misused(run(*words))


def test_help_on_diagrams():
    said = run("diagram", "--help").stdout
    for line in [
        b"Draws a straight-line diagram of a route as SVG\n\nUsage: roadlrs diagram <DB> <ROUTE> [CLASS]...\n",
        b"\n  [CLASS]...  The names of classes; all where none is named\n",
        b"\n      --from <PLACE>  From this place: 3000 (mm), abs:3000, rel:KM2+500 or int:1/3\n",
        b"\n      --to <PLACE>    To this place; else to the end\n",
        b"\nExample: roadlrs diagram roads.db A1 SPEED > a1.svg\n",
    ]:
        assert line in said, (line, said)


# ---- reports


MISUSED_REPORTS = [
    ["check", ":memory:"],
    ["check", ":memory:", "stdin", "more"],
    ["check", ":memory:", "stdin", "--sums"],
    ["list", ":memory:"],
    ["list", ":memory:", "roads"],
    ["rows"],
    ["rows", ":memory:", "A1"],
    ["rows", ":memory:", "--route"],
    ["rows", ":memory:", "--route", "a1"],
    ["rows", ":memory:", "--from", "-1"],
    ["rows", ":memory:", "--to", "10000000001"],
    ["rows", ":memory:", "--class", "speed"],
    ["rows", ":memory:", "--asset", "0"],
    ["rows", ":memory:", "--asset", "1", "--asset", "2"],
    ["overlay", ":memory:"],
    ["overlay", ":memory:", "SPEED", "--side"],
    ["overlay", ":memory:", "SPEED", "--gaps", "--gaps"],
    ["lengths", ":memory:", "--by"],
    ["lengths", ":memory:", "SPEED"],
    ["lengths", ":memory:", "--by", "SPEED", "--by", "SURFACE"],
    ["totals", ":memory:", "--by", "SPEED"],
    ["rows", ":memory:", "--columns"],
    ["rows", ":memory:", "--columns", "route", "--columns", "from"],
    ["gone", ":memory:", "--edit", "0"],
    ["gone", ":memory:", "1"],
    ["gone", ":memory:", "--since"],
    ["gone", ":memory:", "--until", "1", "--until", "2"],
    ["history", ":memory:"],
    ["history", ":memory:", "0"],
    ["history", ":memory:", "1", "2"],
    ["rows", ":memory:", "--exact", "--exact"],
    ["list", ":memory:", "refs", "--route"],
    ["log", ":memory:", "0"],
    ["log", ":memory:", "--key", "a key"],
    ["log", ":memory:", "1", "--key", "k1"],
    ["audit"],
    ["audit", ":memory:", "more"],
]


@pytest.mark.parametrize("words", MISUSED_REPORTS, ids=" ".join)
def test_misused_reports(words):
    is_misused(run(*words, given=FIRST))


def test_help_tells_the_fields_of_each_verb():
    said = run("edit", "--help").stdout.decode()
    for verb in "link class route ref unref enter supersede retire split join renumber recalibrate turn realign close".split():
        assert re.search(rf"^  {verb} ", said, re.M), (verb, said)
    assert all(len(line) < 80 for line in said.partition("A record has")[2].splitlines()), said


# ---- the web page


PAGE = TOP / "page" / "index.html"


def has_page(folder):
    assert [path.name for path in folder.iterdir()] == ["index.html"]
    assert (folder / "index.html").read_bytes() == PAGE.read_bytes()


@pytest.mark.parametrize("name", ["www", "www/", "./www", "a folder", "\u00e9\u9053"])
def test_the_page_in_a_folder_that_is_made(name, tmp_path):
    for _ in range(2):
        ends(run("page", name, cwd=tmp_path), b"", 0)
        has_page(tmp_path / name)


def test_the_page_in_a_folder_that_is_there(tmp_path):
    (tmp_path / "index.html").write_text("an older and longer page" * 10_000)
    for name in [".", str(tmp_path), f"{tmp_path}/"]:
        ends(run("page", name, cwd=tmp_path), b"", 0)
        has_page(tmp_path)


def test_folders_that_cannot_have_the_page(tmp_path):
    (tmp_path / "file").write_text("")
    (tmp_path / "taken" / "index.html").mkdir(parents=True)
    for name in ["", "file", "file/www", "none/www", "taken", "/dev/null", "/proc/www", "s" * 256]:
        faults(run("page", name, cwd=tmp_path), "Write")
    assert sorted(path.name for path in tmp_path.iterdir()) == ["file", "taken"]


def test_a_disk_without_room_for_the_page(tmp_path):
    """The page that stood there stays, and nothing is left beside it."""
    (tmp_path / "index.html").write_text("an older page")
    faults(run("page", ".", cwd=tmp_path, **with_files_up_to(1000)), "Write")
    assert [path.name for path in tmp_path.iterdir()] == ["index.html"]
    assert (tmp_path / "index.html").read_text() == "an older page"


def test_a_page_that_is_being_served_is_never_a_part(tmp_path):
    """Who has the old page open goes on reading it."""
    (tmp_path / "index.html").write_text("an older page")
    with open(tmp_path / "index.html") as old:
        ends(run("page", ".", cwd=tmp_path), b"", 0)
        assert old.read() == "an older page"
    has_page(tmp_path)


@pytest.mark.parametrize("words", [["page"], ["page", "www", "more"], ["page", "--from", "5", "www"], ["page", "--", "www", "more"]], ids=" ".join)
def test_pages_that_are_not_understood(words, tmp_path):
    is_misused(run(*words, cwd=tmp_path))
    assert not list(tmp_path.iterdir())


def test_help_on_the_page():
    said = run("page", "--help").stdout
    for line in [
        b"Writes a web page for a served inventory\n\nUsage: roadlrs page <DIR>\n",
        b"\n  <DIR>  The folder that gets index.html; made where it is missing\n",
        b"\nExample: roadlrs page www\n",
    ]:
        assert line in said, (line, said)
