"""What two inventories differ in (`diff`, `check --diff`), compared with a reference that goes millimetre by millimetre; what a check says
would change; and sheets that wait for a yes (`--ask`)."""

import pathlib
import re
import shutil
import tempfile

import pytest

from differences import difference
from drawn_inventories import BEGUN, Drawn
from program import FIRST, HEADER, ends, faults, lines, on_terminal, record, run, sheet_of
from stores import MORE, as_first, digest, edit, look, make, make_full, rows_of, settle

SURVEY_HEADER = b"key,asset,class,route,side,method,from,to,value,offset\n"


@pytest.fixture
def top():
    with tempfile.TemporaryDirectory() as folder:
        yield pathlib.Path(folder)


def test_differences_are_those_of_the_reference(top):
    told = 0
    for seed in range(60):
        drawn = Drawn(seed)
        before, after = top / f"{seed}.db", top / f"{seed}-after.db"
        edit(before, BEGUN)
        edit(before, drawn.sheet(25))
        settle(before)
        shutil.copy(before, after)
        count = len(rows_of(before)["edit"])
        sheet = drawn.sheet(18)
        as_tried = run("check", str(before), "stdin", "--diff", given=sheet)
        assert edit(after, sheet).status == as_tried.status
        wanted = difference(before, after)
        assert as_tried.stdout == wanted, (seed, as_tried, wanted)
        ends(run("diff", str(before), str(after)), wanted, 0)
        ends(run("diff", str(after), str(before)), difference(after, before), 0)
        ends(run("diff", str(after), "--since", str(count + 1)), wanted, 0)
        (top / "log.csv").write_bytes(run("log", str(after)).stdout)
        ends(run("diff", str(before), ":log", str(top / "log.csv")), wanted, 0)
        ends(run("diff", ":log", str(top / "log.csv"), str(before)), difference(after, before), 0)
        ends(run("diff", str(after), ":log", str(top / "log.csv")), b"", 0)
        told += len(wanted.splitlines())
    assert told > 200


def test_each_kind_of_line(top):
    one, other = top / "one.db", top / "other.db"
    make_full(one)
    settle(one)
    shutil.copy(one, other)
    edit(other, sheet_of("n1,link,7,9", "n2,class,LAMP,point", "n3,recalibrate,A2,0:6000 3000:9500", "n4,unref,KM2", "n5,enter,13,SIGN,A1,L,abs,100,,GIVEWAY,7", "n6,retire,10,A1,abs,4000,5000"))
    wanted = difference(one, other)
    assert wanted == lines(
        "+,link,7,9",
        "+,class,LAMP,point",
        "-,route,A2,2:0:3000:-,0:6000 3000:9000",
        "+,route,A2,2:0:3000:-,0:6000 3000:9500",
        "-,ref,KM2,1,1666",
        "+,asset,13,SIGN,GIVEWAY,7",
        "-,holds,10,SPEED,80,0,1,3333,4167,B",
        "+,holds,13,SIGN,GIVEWAY,7,1,83,84,L",
    )
    ends(run("diff", str(one), str(other)), wanted, 0)
    ends(run("diff", str(one), str(one)), b"", 0)
    ends(run("diff", ":memory:", ":memory:"), b"", 0)
    # against nothing, all that an inventory has is added
    against = run("diff", ":memory:", str(one))
    (top / "log.csv").write_bytes(run("log", str(one)).stdout)
    ends(run("diff", ":memory:", ":log", str(top / "log.csv")), against.stdout, 0)
    assert against.stdout.count(b"\n+") > 10 and b"\n-" not in against.stdout, against


def test_edits_of_routes_tell_nothing_of_assets(top):
    db = top / "roads.db"
    make_full(db)
    sheet = sheet_of("n1,recalibrate,A1,0:0 2500:3000 5000:6000", "n2,split,A1,2500,A3", "n3,turn,A3", "n4,renumber,A2,A9", "n5,turn,A3", "n6,join,A1,A3")
    ended = run("check", str(db), "stdin", "--diff", given=sheet)
    assert ended.status == 0 and ended.stdout and {line.split(b",")[1] for line in ended.stdout.splitlines()} == {b"route"}, ended


def test_a_survey_and_what_it_would_change(top):
    db = top / "roads.db"
    make(db)
    survey = SURVEY_HEADER + b"a1,10,SPEED,A1,L,abs,10,20,50,0\na2,11,SPEED,A1,L,abs,15,20,50,0\n"
    ended = run("check", str(db), "stdin", "--survey", "--diff", given=survey)
    assert (ended.stdout, ended.status) == (b"+,asset,10,SPEED,50,0\n+,holds,10,SPEED,50,0,1,8,17,L\n", 1), ended
    assert b"record a2" in ended.stderr or b"a2" in ended.stderr, ended


def test_a_difference_touches_no_file(top):
    db, other = top / "roads.db", top / "other.db"
    make_full(db)
    make(other)
    settle(db), settle(other)
    before = digest(db), digest(other), sorted(top.iterdir())
    assert run("diff", str(db), str(other)).status == 0
    assert run("diff", str(db), "--since", "3").status == 0
    assert run("check", str(db), "stdin", "--diff", given=sheet_of("n1,close,A1")).status == 0
    assert (digest(db), digest(other), sorted(top.iterdir())) == before
    faults(run("diff", str(db), str(top / "none.db")), "Open")
    faults(run("diff", str(top / "none.db"), str(db)), "Open")
    faults(run("diff", str(top / "none.db"), "--since", "1"), "Open")
    assert sorted(top.iterdir()) == before[2]


def test_files_that_a_look_does_not_take(top):
    """A file of the first version is opened as for edits, whichever of the two it is, or both."""
    one, other = top / "one.db", top / "other.db"
    make_full(one)
    settle(one)
    shutil.copy(one, other)
    edit(other, sheet_of("n1,link,7,9", "n2,retire,10,A1,abs,4000,5000"))
    settle(other)
    wanted, back = difference(one, other), difference(other, one)
    assert wanted and back
    for first_versions in ([one], [other], [one, other]):
        for before, after, told in ((one, other, wanted), (other, one, back)):
            for path in first_versions:
                as_first(path)
            ends(run("diff", str(before), str(after)), told, 0)
            assert [look(path, "SELECT v FROM version") for path in (one, other)] == [[[(2,)]], [[(2,)]]]


def test_words_of_a_difference(top):
    db = top / "roads.db"
    make(db)
    for words in ([str(db)], [str(db), str(db), str(db)], [str(db), ":log"], [str(db), str(db), "--since", "3"], [":log", str(db)]):
        ended = run("diff", *words)
        assert ended.status == 2 and ended.stdout == b"" and b"error: diff takes two inventories, or one and --since N\n" in ended.stderr, (words, ended)
    ended = run("diff", str(db), "--since", "0")
    assert ended.status == 2 and ended.stderr.endswith(b"error: SINCE is no number of an edit\n"), ended
    # nothing is done by edits that are still to come
    ends(run("diff", str(db), "--since", "8"), b"", 0)
    ends(run("diff", str(db), "--since", "1"), run("diff", ":memory:", str(db)).stdout, 0)


def test_a_log_that_is_none(top):
    db, log = top / "roads.db", top / "log.csv"
    make(db)
    log.write_bytes(FIRST + record("x1,close,NONE"))
    ended = run("diff", str(db), ":log", str(log))
    assert (ended.stdout, ended.status) == (b"", 1) and b"refused" in ended.stderr, ended
    log.write_bytes(b"a,b\n")
    faults(run("diff", str(db), ":log", str(log)), "BadHeader")
    ended = run("diff", str(db), ":log", str(top / "none.csv"))
    assert (ended.stdout, ended.status) == (b"", 3) and ended.stderr.endswith(b"roadlrs: fault Read\n"), ended


def changes_of(db, *texts):
    """The line of a check that says what a sheet would change."""
    ended = run("check", str(db), "stdin", given=sheet_of(*texts))
    told = [line for line in ended.stderr.decode().splitlines() if line.startswith("changes")]
    assert len(told) <= 1, ended
    return told[0] if told else ""


def test_a_check_sums_up(top):
    db = top / "roads.db"
    make_full(db)
    said = changes_of(db, "n1,realign,A1,1000,4000,3:0:2000:+,0:0 4000:6000")
    assert said.startswith("changes: takes 2 assets in part, ") and "removes referent KM2" in said and "routes: 1 shorter" in said, said
    said = changes_of(db, "n1,close,A2")
    assert said.startswith("changes: takes 1 asset wholly and 1 in part, ") and said.endswith("routes: 1 closed"), said
    said = changes_of(db, "n1,enter,20,SIGN,A1,L,abs,10,,STOP,0", "n2,link,9,5", "n3,class,LAMP,point")
    assert "enters 1 asset" in said and "adds 1 link" in said and "adds 1 class" in said, said
    assert changes_of(db, "n1,turn,A1").startswith("changes"), changes_of(db, "n1,turn,A1")
    assert changes_of(db, "n1,close,NONE") == ""


def test_retired_and_abandoned_are_told_apart(top):
    db = top / "roads.db"
    make_full(db)
    said = changes_of(db, "n1,retire,12,A2,int,1/1", "n2,close,A1")
    assert "1 retired" in said and "abandoned" in said, said


@pytest.mark.parametrize("verb", ["edit", "survey"])
def test_a_sheet_waits_for_yes(top, verb):
    db, sheet = top / "roads.db", top / "sheet.csv"
    make(db)
    sheet.write_bytes(sheet_of("n1,link,9,5") if verb == "edit" else SURVEY_HEADER + b"n1,10,SPEED,A1,L,abs,10,20,50,0\n")
    before = rows_of(db)
    for answer in (b"no\n", b"", b"y\n", b"yes please\n", b"\nyes\n", b"YES\n"):
        ended = run(verb, str(db), str(sheet), "--ask", given=answer)
        assert (ended.stdout, ended.status) == (b"", 1) and ended.stderr.endswith(b"roadlrs: nothing is done\n"), (answer, ended)
        assert rows_of(db) == before
    ended = run(verb, str(db), str(sheet), "--ask", given=b"yes\n")
    assert (ended.stdout, ended.status) == (b"n1,done,8\n", 0) and b"changes" in ended.stderr, ended
    assert rows_of(db) != before


def test_asking_and_other_ways_of_doing_a_sheet(top):
    db, sheet = top / "roads.db", top / "sheet.csv"
    make(db)
    sheet.write_bytes(sheet_of("n1,link,9,5", "n2,close,NONE"))
    ended = run("edit", str(db), str(sheet), "--ask", "--all", given=b"yes\n")
    assert (ended.stdout, ended.status) == (b"", 1), ended
    ended = run("edit", str(db), str(sheet), "--ask", given=b"yes\r\n")
    assert (ended.stdout, ended.status) == (b"n1,done,8\nn2,refused,NoRoute\n", 1), ended
    ended = run("edit", str(db), str(sheet), "--ask", "--resume", given=b"yes")
    assert (ended.stdout, ended.status) == (b"n2,refused,NoRoute\n", 1), ended
    ended = run("edit", str(db), "stdin", "--ask", given=sheet_of("n3,link,10,5"))
    assert ended.status == 2 and ended.stderr.endswith(b"error: --ask reads the standard input, so that SHEET is a file\n"), ended
    new = top / "new.db"
    ended = run("edit", str(new), str(sheet), "--ask", given=b"no\n")
    assert ended.status == 1 and not new.exists(), ended


def test_asking_on_a_terminal(top):
    db, sheet = top / "roads.db", top / "sheet.csv"
    make(db)
    sheet.write_bytes(sheet_of("n1,link,9,5"))
    ended, shown = on_terminal(["stderr"], "edit", str(db), str(sheet), "--ask", given=b"yes\n")
    assert (ended.stdout, ended.status) == (b"n1,done,8\n", 0), ended
    assert re.search(rb"adds 1 link.*do it\? yes or no", shown, re.S), shown


def test_the_identity_that_is_expected(top):
    db, other = top / "roads.db", top / "other.db"
    make(db)
    make(other, *MORE)
    identity = run("log", str(db), "--sum").stdout.split()
    found = re.search(rb"[0-9a-f]{16}", b" ".join(identity))
    assert found, identity
    ended = run("diff", str(db), str(other), "--expect", "0" * 16)
    assert ended.status == 3 and ended.stdout == b"", ended
