"""Questions: their words, what is said of words that cannot be read, and what an inventory without entries answers."""

import re

from program import TOP, ends, faults, refuses_word, run

# each question with words that can be read, behind the inventory
QUESTIONS = {
    "at": ["A1", "abs", "3000"],
    "translate": ["A1", "int", "1/3", "abs"],
    "strip": ["A1", "R", "SPEED"],
    "diagram": ["A1"],
    "totals": [],
    "find": ["10"],
    "route": ["A1"],
}

# the example of each command, with its status over an inventory without entries, and the cause or the fault that it names there
EXAMPLES = {
    "edit": ("edit roads.db first.csv", 3, "fault Read"),
    "survey": ("survey roads.db found.csv", 3, "fault Read"),
    "check": ("check roads.db first.csv", 3, "fault Read"),
    "tidy": ("tidy first.txt > first.csv", 3, "fault Read"),
    "at": ("at roads.db A1 abs 3000", 1, "NoRoute"),
    "where": ("where roads.db A1 3000", 1, "NoRoute"),
    "translate": ("translate roads.db A1 int 1/3 abs", 1, "NoRoute"),
    "strip": ("strip roads.db A1 R SPEED WIDTH", 1, "NoRoute"),
    "diagram": ("diagram roads.db A1 SPEED > a1.svg", 1, "NoRoute"),
    "totals": ("totals roads.db", 0, None),
    "lengths": ("lengths roads.db --route A1", 1, "NoRoute"),
    "find": ("find roads.db 10", 1, "NoAsset"),
    "route": ("route roads.db A1 > a1.csv", 1, "NoRoute"),
    "ask": ("ask roads.db questions.csv", 3, "fault Read"),
    "list": ("list roads.db routes", 0, None),
    "rows": ("rows roads.db --route A1 --class SPEED", 1, "NoRoute"),
    "overlay": ("overlay roads.db SPEED SURFACE --route A1", 1, "NoRoute"),
    "gone": ("gone roads.db --edit 17", 1, "NoEdit"),
    "history": ("history roads.db 10", 1, "NoAsset"),
    "log": ("log roads.db > log.csv", 0, None),
    "diff": ("diff old.db new.db", 3, "fault Open"),
    "draft": ("draft split roads.db A1 3000 A1N > split.csv", 1, "no sheet is drafted"),
    "audit": ("audit roads.db", 0, None),
}


def ask(name, *words, db=":memory:"):
    return run(name, db, *words)


def refuses(ended, cause):
    """The question was refused for this cause, and nothing was answered."""
    ends(ended, b"", 1, f"roadlrs: {cause}\n".encode())


def is_unreadable(name, words, said):
    """The program says so of these words, and ends before it opens an inventory."""
    for db in [":memory:", "/dev/null/db"]:
        refuses_word(ask(name, *words, db=db), said)


def test_an_inventory_without_entries():
    ends(ask("totals"), b"", 0)
    refuses(ask("find", "10"), "NoAsset")
    refuses(ask("at", "A1", "abs", "3000"), "NoRoute")
    for to in ["abs", "int", "rel:KM2", "link"]:
        refuses(ask("translate", "A1", "rel", "KM2+500", to), "NoRoute")
    for side in "LRB":
        refuses(ask("strip", "A1", side, "SPEED", "WIDTH", "SPEED"), "NoRoute")


def test_an_inventory_that_cannot_be_opened():
    for name, words in QUESTIONS.items():
        for db in ["", "/", "/dev/null/db", "s" * 256]:
            faults(ask(name, *words, db=db), "Open")


def test_routes_that_cannot_be_read():
    for text in ["", "a1", "A_1", "A 1", "A1\n", "ABCDEFGHIJKLM", "\u00c4", "A1,"]:
        for name in ["at", "translate", "strip", "diagram", "route"]:
            is_unreadable(name, [text, *QUESTIONS[name][1:]], "ROUTE is no route name")
    for text in ["A", "0-9", "ABCDEFGHIJKL", "A-"]:
        refuses(ask("at", text, "abs", "0"), "NoRoute")


def test_methods_that_cannot_be_read():
    for text in ["", "ABS", "abs ", "foot", "link", "a"]:
        is_unreadable("at", ["A1", text, "3000"], "METHOD is none of abs, rel and int")
        is_unreadable("translate", ["A1", text, "3000", "abs"], "METHOD is none of abs, rel and int")


def test_positions_that_cannot_be_read():
    unreadable = {
        "abs": ["", "x", "+3", "3.0", "9600/7", "1/3", "KM2+5", "100000000001", " 3", "3 "],
        "rel": ["", "3000", "KM2", "KM2+", "+5", "km2+5", "km2+1", "KM2+1/2", "KM2++1", "KM2+10000000001", "KM2*5", "ABCDEFGHIJKLM+1"],
        "int": ["", "1", "1/", "/3", "1/0", "3/2", "4/3", "1/1000001", "1000001/1000001", "1/3/1"],
    }
    for method, texts in unreadable.items():
        for text in texts:
            is_unreadable("at", ["A1", method, text], "POS is no position by this method")
            is_unreadable("translate", ["A1", method, text, "abs"], "POS is no position by this method")
    readable = [("abs", "0"), ("abs", "100000000000"), ("abs", "007"), ("rel", "KM2+0"), ("rel", "KM2-0"), ("rel", "KM2-10000000000"), ("int", "0/1"), ("int", "0000001/2"), ("int", "1000000/1000000")]
    for method, text in readable:
        refuses(ask("at", "A1", method, text), "NoRoute")


def test_destinations_that_cannot_be_read():
    for text in ["", "rel", "rel:", "rel:km2", "rel:ABCDEFGHIJKLM", "links", "LINK", "abs:KM2", "foot"]:
        is_unreadable("translate", ["A1", "abs", "3000", text], "TO is none of abs, int, rel:NAME and link")


def test_sides_that_cannot_be_read():
    for text in ["", "l", "LR", "left", "L "]:
        is_unreadable("strip", ["A1", text, "SPEED"], "SIDE is neither L nor R")


def test_classes_that_cannot_be_read():
    for text in ["", "speed", "SPEED-1", "ABCDEFGHI", "SPEED,WIDTH", "A B"]:
        for classes in [[text], ["SPEED", text], [text, "SPEED"], ["SPEED"] * 40 + [text]]:
            is_unreadable("strip", ["A1", "R", *classes], "CLASS is no class name")
            is_unreadable("diagram", ["A1", *classes], "CLASS is no class name")
    refuses(ask("strip", "A1", "R", *["ABCDEFGH"] * 1_000), "NoRoute")


def test_assets_that_cannot_be_read():
    for text in ["", "0", "000", "x", "1.0", "+1", " 1", "1 ", "1000000000001", "9" * 30, "\uff11"]:
        for name in ["find", "history"]:
            is_unreadable(name, [text], "ASSET is no asset number")
    for text in ["1", "0010", "1000000000000"]:
        refuses(ask("find", text), "NoAsset")


def test_the_first_word_that_cannot_be_read_is_named():
    is_unreadable("at", ["a1", "foot", "x"], "ROUTE is no route name")
    is_unreadable("at", ["A1", "foot", "x"], "METHOD is none of abs, rel and int")
    is_unreadable("translate", ["A1", "abs", "x", "foot"], "POS is no position by this method")
    is_unreadable("strip", ["a1", "x", "speed"], "ROUTE is no route name")
    is_unreadable("strip", ["A1", "x", "speed"], "SIDE is neither L nor R")


def test_words_that_are_too_few_or_too_many():
    for name, words in QUESTIONS.items():
        too_few = [[name], [name, ":memory:", *words][:-1]]
        too_many = [] if name in ["strip", "diagram"] else [[name, ":memory:", *words, "more"]]
        for given in too_few + too_many:
            ended = run(*given)
            assert (ended.stdout, ended.status) == (b"", 2) and b"Usage: roadlrs " in ended.stderr, (given, ended)


def test_each_command_shows_an_example_that_is_understood():
    for name, (example, status, named) in EXAMPLES.items():
        # help on the word route is on the verb of edit sheets
        for words in [[name, "--help"], ["help", name]][: 1 if name == "route" else 2]:
            ended = run(*words)
            assert (ended.stderr, ended.status) == (b"", 0), ended
            assert re.search(rf"^Examples?: roadlrs {re.escape(example)}$", ended.stdout.decode(), re.M), ended
        words = example.partition(" > ")[0].replace("roads.db", ":memory:").split()
        ended = run(*words)
        # why no sheet is drafted is said before
        said = ended.stderr.splitlines(keepends=True)[-1] if name == "draft" else ended.stderr
        assert (said, ended.status) == (f"roadlrs: {named}\n".encode() if named else b"", status), (example, ended)


def test_help_names_each_command():
    said = run("--help").stdout.decode()
    assert re.findall(r"^  (\w+)  ", said, re.M) == [*EXAMPLES, "serve", "page", "help"], said


def test_the_version_names_the_kit_that_proved_it():
    kit = re.search(r"Proved with the kit `([^`]+)`", (TOP / "README.md").read_text()).group(1)
    for word in ["--version", "-V"]:
        ends(run(word), f"roadlrs 0.8.20, proved by {kit}\n".encode(), 0)
