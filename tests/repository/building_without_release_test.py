"""./roadlrs where there is no release of its sources: what it proves and builds, when, and what it says of that."""

import os
import pathlib
import re
import shutil
import tempfile
import time

from program import BUILT, FIRST, FIRST_REPLIES, ends
from trees import BASIC, in_tree, only

# What rt finds where it is called: what a check of the program's crates reads, and what the program is run on.
COPIED = [
    "./HANDLES",
    *(f"./crates/{crate}/{path}" for crate in ["low", "lrs_cli", "middle"] for path in ["proofs/deep/Proof.antt", "specs/Lib.antt"]),
    "./crates/low/src/lib.rt",
    "./crates/lrs_cli/src/main.rt",
    "./crates/lrs_cli/stdin",
    "./crates/middle/src/lib.rt",
    "./crates.txt",
]

OUTPUT = b"a \nb\ngiven\n"


def is_built_and_run(ended):
    """The program was built before it was run; both are said, each where it belongs."""
    said = ended.stderr.decode().splitlines()
    assert (ended.stdout, ended.status) == (OUTPUT, 0), ended
    first = r"roadlrs: there is no release: proving the 3 crates that the program stands on, about \d+ min on \d+ cores, less where rt has kept some"
    assert re.fullmatch(first, said[0]), said
    for number, layer, line in [(2, "Low things", said[1]), (3, "The program, and its words", said[2])]:
        assert re.fullmatch(rf"roadlrs: {number} of 3 crates are proved; through: {layer} \(after \d+ min \d+ s\)", line), said
    assert re.fullmatch(r"roadlrs: built in \d+ min \d+ s", said[3]) and len(said) == 4, said


def test_the_first_run_builds_what_the_program_stands_on():
    def test(tree):
        is_built_and_run(tree.run("a ", "b"))
        assert tree.calls() == ["ci"], tree.calls()
        assert sorted(tree.notes.with_suffix(".files").read_text().splitlines()) == sorted(COPIED)

    in_tree(test)


def test_what_was_proved_before_counts():
    def test(tree):
        ended = tree.run("a ", "b", kept="low")
        is_built_and_run(ended)

    in_tree(test)


def test_a_later_run_starts_at_once():
    def test(tree):
        tree.run()
        ends(tree.run("a ", "b"), OUTPUT, 0)
        assert tree.calls() == ["ci"], tree.calls()

    in_tree(test)


def test_what_was_edited_is_built_again():
    def test(tree):
        tree.run()
        for edited in ["crates/low/src/lib.rt", "crates/middle/specs/Numbers.antt", "crates.txt"]:
            file = tree.top / edited
            file.parent.mkdir(exist_ok=True)
            file.touch()
            built = time.time() - 60
            os.utime(tree.built, (built, built))
            before = len(tree.calls())
            is_built_and_run(tree.run("a ", "b"))
            assert tree.calls()[before:] == ["ci"], tree.calls()

    in_tree(test)


def test_what_was_edited_and_set_back_is_built_again():
    def test(tree):
        time.sleep(2.1)
        tree.run()
        source = tree.top / "crates" / "low" / "src" / "lib.rt"
        before = source.stat()
        for text in ["# two\n", "# three\n"]:
            source.write_text(text)
            os.utime(source, ns=(before.st_atime_ns, before.st_mtime_ns))
            is_built_and_run(tree.run("a ", "b"))
        assert tree.calls() == ["ci"] * 3, tree.calls()

    in_tree(test)


def test_what_is_not_proved_is_not_run():
    def test(tree):
        tree.run()
        (tree.top / "crates.txt").touch()
        os.utime(tree.built, (1, 1))
        for refused in ["low", "lrs_cli"]:
            ended = tree.run(refused=refused)
            assert (ended.stdout, ended.status) == (b"", 70), ended
            assert ended.stderr.endswith(b"\nwhy it is refused\nroadlrs: the program was not built\n"), ended

    in_tree(test)


def test_nothing_is_left_of_a_build():
    def test(tree):
        rooms = tree.folder / "rooms"
        rooms.mkdir()
        for refused in ["low", ""]:
            tree.run(refused=refused, env={"TMPDIR": str(rooms)})
            assert not list(rooms.iterdir())
            # what it notes of sources that are some seconds old is for the next run
            assert {path.name for path in (tree.top / "out" / "release").iterdir()} in (set(), {"names", "states"})

    in_tree(test)


def test_the_toolchain_is_not_there():
    def test(tree):
        said = b"roadlrs: there is no release, and the toolchain's command rt is not on the path to build the program\n"
        ends(tree.run(env=only(tree.folder / "few", *BASIC)), b"", 70, said)

    in_tree(test)


def test_the_program_is_called_from_anywhere():
    def test(tree):
        with tempfile.TemporaryDirectory() as folder:
            link = pathlib.Path(folder) / "a link"
            link.symlink_to(tree.top / "roadlrs")
            is_built_and_run(tree.run("a ", "b", program=link, cwd=folder))
            ends(tree.run("a ", "b", program=link, cwd="/"), OUTPUT, 0)
            ends(tree.run("a ", "b", program="./roadlrs", cwd=tree.top), OUTPUT, 0)
            ends(tree.run("a ", "b", program=f"{tree.top.name}/roadlrs", cwd=tree.folder), OUTPUT, 0)

    for name in ["tree", "a tree", "a\ntree", "*"]:
        in_tree(test, name)


def test_the_path_of_the_repository_may_be_no_text():
    def test(tree):
        tree.built.parent.mkdir(exist_ok=True)
        shutil.copy(BUILT, tree.built)
        (tree.top / "sheet").write_bytes(FIRST)
        ends(tree.run("edit", ":memory:", "sheet", cwd=tree.top), FIRST_REPLIES, 0)

    in_tree(test, os.fsdecode(b"\xff"))
