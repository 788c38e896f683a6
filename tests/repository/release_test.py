"""The release: that it is what is built from these sources, that nothing else is run in its place, and what the scripts do with it."""

import hashlib
import lzma
import os
import pathlib
import re
import resource
import shutil
import subprocess
import tempfile
import time
import warnings

import pytest

from documents import first_sheet
from program import BUILT, FIRST, FIRST_REPLIES, PATIENCE, TOP, Ended, ends, record
from trees import BASIC, KIT, OTHER_COMMANDS, in_tree, only
from worked_replies import WORKED_ROWS

OUTPUT = b"a b\n\n*\ngiven\n"
WORDS = ["a b", "", "*"]
NOT_THOSE = b"roadlrs: the sources are not those of the release, and the toolchain's command rt is not on the path to build the program\n"

ANNOUNCED = b"roadlrs: release 7.0.1, proved when it was made; ./verify proves it here\r\n"


def told(top, words):
    """What a line of shell, under tools/release.bash, says of the repository there."""
    line = f". tools/release.bash; top=$PWD me=test; find_sources; {words}"
    done = subprocess.run(["bash", "-c", line], cwd=top, capture_output=True, text=True, timeout=PATIENCE)
    return done.stdout.strip()


def sum_of_sources(top):
    found = told(top, 'sum_of "${sources[@]}"')
    assert re.fullmatch(r"[0-9a-f]{64}", found), found
    return found


def facts(top):
    """The facts of a manifest, each under its first word; of those under one word, the last."""
    lines = (top / "released" / "manifest").read_text().splitlines()
    return dict(line.split(" ", 1) for line in lines if not line.startswith("#"))


def change(path):
    """Changes a byte of a file, and sets its times back; what changes it back."""
    was, text = path.stat(), path.read_bytes()

    def write(changed):
        path.write_bytes(changed)
        os.utime(path, ns=(was.st_atime_ns, was.st_mtime_ns))

    write(text[:-1] + b" ")
    return lambda: write(text)


# the release of this repository

AGAIN = "the release is not that of these sources: run tools/release, and commit what it writes"


def test_the_release_is_of_these_sources():
    """Otherwise the first command of a newcomer would prove for half an hour."""
    assert (TOP / "released" / "manifest").exists(), AGAIN
    assert facts(TOP)["sources"] == sum_of_sources(TOP), AGAIN


def test_what_is_built_is_what_is_released(tmp_path):
    assert (TOP / "released" / "manifest").exists(), AGAIN
    kit = told(TOP, "rt version")
    released = lzma.decompress((TOP / "released" / "roadlrs.xz").read_bytes())
    assert hashlib.sha256(released).hexdigest() == facts(TOP)["program"], AGAIN
    if facts(TOP)["kit"] == kit:
        assert released == pathlib.Path(BUILT).read_bytes(), AGAIN
    else:
        warnings.warn(f"the release is of another kit ({facts(TOP)['kit']}) than the one here ({kit}), so answers are compared, and no bytes")
        answers_are_equal(released, tmp_path)


def answers_are_equal(released, folder):
    """What is built and what is released answer each worked row alike."""
    program = folder / "released"
    program.write_bytes(released)
    program.chmod(0o755)
    for name, rows in WORKED_ROWS.items():
        sheet = FIRST + b"".join(record(text) for text, _ in rows)
        told = [Ended(subprocess.run([it, "edit", ":memory:", "stdin"], input=sheet, capture_output=True, timeout=PATIENCE)) for it in [program, BUILT]]
        ends(told[1], told[0].stdout, told[0].status, told[0].stderr)
        assert told[0].stdout.startswith(FIRST_REPLIES), name


@pytest.fixture(scope="module")
def clone():
    """What a fresh clone has."""
    with tempfile.TemporaryDirectory() as folder:
        yield shutil.copytree(TOP, pathlib.Path(folder) / "clone", ignore=shutil.ignore_patterns("out", ".git", "__pycache__"))


def test_a_fresh_clone_answers_within_seconds(clone):
    sheet, replies = first_sheet()
    (clone / "first.csv").write_text(sheet)
    command = ["./roadlrs", "edit", ":memory:", "first.csv"]
    before = resource.getrusage(resource.RUSAGE_CHILDREN)
    done = subprocess.run(command, cwd=clone, env={"PATH": OTHER_COMMANDS}, capture_output=True, timeout=PATIENCE)
    after = resource.getrusage(resource.RUSAGE_CHILDREN)
    # seconds of a processor: how long a crowded machine keeps it waiting says nothing of the clone
    assert after.ru_utime + after.ru_stime - before.ru_utime - before.ru_stime < 5
    assert (done.stdout, done.stderr, done.returncode) == (replies.encode(), b"", 1)


def test_a_byte_of_any_source_makes_it_other_sources(clone):
    before = sum_of_sources(TOP)
    assert before == sum_of_sources(clone)
    sources = [clone / "crates.txt", clone / "HANDLES"]
    for crate in ["lrs_measure", "lrs_cli_jobs"]:
        for part in ["src", "specs", "proofs"]:
            sources += sorted((clone / "crates" / crate / part).rglob("*.*t"))[-1:]
    assert {path.name for path in sources} > {"crates.txt", "HANDLES"} and len(sources) > 6, sources
    for path in sources:
        change_back = change(path)
        assert sum_of_sources(clone) != before, path
        change_back()
    assert sum_of_sources(clone) == before


# releases of a small repository


def in_release(test, **settings):
    def of_tree(tree):
        tree.make_release()
        test(tree)

    in_tree(of_tree, **settings)


def test_the_released_program_is_run_as_it_is():
    def test(tree):
        for _ in range(2):
            ends(tree.run(*WORDS), OUTPUT, 0)
            ends(tree.run("status", "7"), b"", 7)

    for name in ["tree", "a\n tree", "*"]:
        in_release(test, name=name)


def test_its_first_run_says_so_on_a_terminal():
    def test(tree):
        assert tree.run_on_terminal(*WORDS) == ANNOUNCED
        assert tree.run_on_terminal(*WORDS) == b""

    in_release(test)


def test_what_is_built_here_goes_first():
    def test(tree):
        tree.run()
        tree.build_by_hand("built by hand")
        ends(tree.run(), b"built by hand\n", 0)

    in_release(test)


def sources_of(tree):
    crates = ["low", "middle", "lrs_cli"]
    found = [path for crate in crates for part in ["src", "specs", "proofs"] for path in (tree.top / "crates" / crate / part).rglob("*.*t")]
    assert len(found) == 9
    return [tree.top / "crates.txt", tree.top / "HANDLES", *found]


def test_a_byte_of_any_source_refuses_the_release():
    def test(tree):
        for path in sources_of(tree):
            change_back = change(path)
            ends(tree.run(), b"", 70, NOT_THOSE)
            change_back()
            ends(tree.run(*WORDS), OUTPUT, 0)

    in_release(test)


def refuses_once_noted(spoil):
    """Once the release has been run, and is run at once, this is seen all the same."""

    def test(tree):
        time.sleep(2.1)
        tree.run()
        assert (tree.unpacked.parent / "names").exists()
        ends(tree.run(*WORDS), OUTPUT, 0)
        spoil(tree)
        ends(tree.run(), b"", 70, NOT_THOSE)

    in_release(test)


@pytest.mark.parametrize("number", [0, 5, 10])
def test_a_source_that_is_changed_later_is_seen(number):
    refuses_once_noted(lambda tree: change(sources_of(tree)[number]))


def test_a_source_that_comes_or_goes_later_is_seen():
    refuses_once_noted(lambda tree: tree.write("crates/low/proofs/deep/More.antt", ""))
    refuses_once_noted(lambda tree: tree.write("crates/low/c/more.c", ""))
    refuses_once_noted(lambda tree: (tree.top / "crates" / "low" / "specs" / "Lib.antt").unlink())


def test_a_folder_in_the_place_of_another_is_seen():
    def exchange(tree):
        crate = tree.top / "crates" / "low"
        crate.rename(tree.folder / "low")
        (tree.top / "crates" / "beside").rename(crate)

    refuses_once_noted(exchange)


def test_a_link_among_the_sources_refuses_the_release():
    def link(tree):
        source = tree.top / "crates" / "low" / "src" / "lib.rt"
        source.rename(tree.folder / "lib.rt")
        source.symlink_to(tree.folder / "lib.rt")

    refuses_once_noted(link)


def test_what_the_program_does_not_stand_on_may_change():
    def test(tree):
        tree.run()
        for path in ["crates/beside/src/lib.rt", "crates/low/must-fail/wrong.edit", "crates/lrs_cli/stdin", "README.md"]:
            (tree.top / path).write_text("other\n")
        ends(tree.run(*WORDS), OUTPUT, 0)

    in_release(test)


def spoiled(path, text):
    """A damaged release is not run, on the first call or later."""

    def test(tree):
        file = tree.top / "released" / path
        whole = file.read_bytes()
        for has_run in [False, True]:
            file.write_bytes(text(whole))
            ended = tree.run()
            assert (ended.stdout, ended.status) == (b"", 70), ended
            assert ended.stderr.startswith(b"roadlrs: ") and b"rt is not on the path" in ended.stderr, ended
            assert tree.call("verify").status == 1
            file.write_bytes(whole)
            if not has_run:
                ends(tree.run(*WORDS), OUTPUT, 0)
                tree.unpacked.unlink()

    in_release(test)


def test_a_damaged_program_is_not_run():
    spoiled("roadlrs.xz", lambda text: text[:60] + bytes([text[60] ^ 1]) + text[61:])
    spoiled("roadlrs.xz", lambda text: text[:-30])
    spoiled("roadlrs.xz", lambda text: b"")
    spoiled("roadlrs.xz", lambda text: lzma.compress(b"#!/bin/sh\necho other\n"))


def test_a_program_of_another_manifest_is_not_run():
    for word in [b"program", b"sources", b"version"]:
        spoiled("manifest", lambda text: re.sub(rb"(?m)^(%s .*).$" % word, rb"\1-", text))
    spoiled("manifest", lambda text: b"")


def test_what_was_unpacked_is_unpacked_again_where_it_changes():
    def test(tree):
        time.sleep(2.1)
        tree.run()
        for _ in range(2):
            tree.unpacked.write_text("#!/bin/sh\necho other\n")
            assert b"out/release/roadlrs is not the released one" in tree.call("verify").stdout
            ends(tree.run(*WORDS), OUTPUT, 0)

    in_release(test)


@pytest.mark.parametrize("unpacker", ["xz", "python3"])
def test_either_of_two_commands_unpacks_it(unpacker):
    def test(tree):
        ends(tree.run(*WORDS, env=only(tree.folder / "few", *BASIC, unpacker)), OUTPUT, 0)

    in_release(test)


def test_the_repository_may_be_one_that_nobody_can_write():
    """As another user, whose home has room, or else the folder of temporary files."""

    def test(tree):
        settings = {"user": "nobody", "group": "nogroup", "extra_groups": []} if os.geteuid() == 0 else {}
        tree.folder.chmod(0o755)
        tree.home.chmod(0o777)
        rooms = tree.folder / "rooms"
        rooms.mkdir()
        rooms.chmod(0o1777)
        tree.top.chmod(0o555)
        for env in [{"TMPDIR": "/nowhere"}, {"HOME": "/nowhere", "TMPDIR": str(rooms)}]:
            for program, cwd in [("./roadlrs", tree.top), ("../tree/roadlrs", tree.top), (tree.top / "roadlrs", "/")]:
                ends(tree.run(*WORDS, program=program, cwd=cwd, env=env, **settings), OUTPUT, 0)
        assert not (tree.top / "out").exists()
        assert len(list(tree.home.rglob("roadlrs"))) == 2 and len(list(rooms.rglob("roadlrs"))) == 1
        tree.top.chmod(0o755)

    in_release(test)


# how a release is made


def test_what_the_manifest_says():
    def test(tree):
        tree.build()
        program = tree.built.read_bytes()
        assert tree.call("tools/release", kept="middle").status == 0
        lines = (tree.top / "released" / "manifest").read_text().splitlines()[1:]
        digest = r"[0-9a-f]{64}"
        kept = "kept: an earlier run on the same machine proved the same files over the same libraries"
        wanted = [
            "version 7.0.1",
            r"made \d{4}-\d\d-\d\d",
            f"kit {KIT}",
            f"sources {sum_of_sources(tree.top)}",
            f"program {hashlib.sha256(program).hexdigest()}",
            "machine Linux on x86-64-v2, with glibc 2.34 or later",
            "gate 3 passed, 0 failed",
            rf"proved low {digest} logic=proved functions=2 sum=1",
            rf"proved middle {digest} {kept}",
            rf"proved lrs_cli {digest} logic=proved functions=2 sum=1",
        ]
        assert len(lines) == len(wanted)
        for line, pattern in zip(lines, wanted):
            assert re.fullmatch(pattern, line), line
        assert lzma.decompress((tree.top / "released" / "roadlrs.xz").read_bytes()) == program

    in_tree(test)


def said_of_middle(tree, *logs):
    assert tree.call("tools/release", *logs, kept="middle").status == 0
    return facts(tree.top)["proved"] and told(tree.top, 'fact "proved middle $(sum_of_crate middle)"')


def test_what_was_said_before_of_the_same_sources():
    def test(tree):
        tree.build()
        log = tree.folder / "log"
        said = "== middle\nlogic=proved functions=3 sum=1\nrt: middle proved\n== middle: its tests\nlogic=proved functions=4\n"
        log.write_text(said)
        os.utime(log, (1, 1))
        assert said_of_middle(tree, log).startswith("kept: ")
        log.write_text(said + "rt: note: what this run proved of low middle is not kept, as files of theirs changed while it ran\n")
        assert said_of_middle(tree, log).startswith("kept: ")
        log.write_text(said)
        assert said_of_middle(tree, log) == "logic=proved functions=3 sum=1"
        assert said_of_middle(tree) == "logic=proved functions=3 sum=1"
        tree.write("crates/middle/src/lib.rt", "# other\n")
        tree.build()
        assert said_of_middle(tree, log).startswith("kept: ")

    in_tree(test)


def test_no_release_is_made_of_what_is_not_proved_or_not_built():
    def test(tree):
        ended = tree.call("tools/release")
        assert ended.status == 70 and b"run rt ci" in ended.stderr, ended
        tree.build()
        ended = tree.call("tools/release", refused="middle")
        assert ended.status == 70 and ended.stderr.endswith(b"why it is refused\nrelease: not every crate is proved\n"), ended
        tree.build_by_hand("other")
        ended = tree.call("tools/release")
        assert ended.status == 70 and b"is not what is built from these sources" in ended.stderr, ended
        tree.build()
        (tree.top / "crates" / "low" / "src" / "lib.rt").write_text("# edited\n")
        ended = tree.call("tools/release")
        assert ended.status == 70 and b"older than its sources" in ended.stderr, ended
        assert not (tree.top / "released").exists()

    in_tree(test)


def log_of_a_build(tree):
    """What rt ci says as it builds the program here, in a file that is begun before."""
    log = tree.folder / "gate"
    with open(log, "w") as file:
        file.write(tree.build())
    return log


def test_where_a_kit_keeps_nothing_a_log_stands_for_the_proofs():
    def test(tree):
        log = log_of_a_build(tree)
        ended = tree.call("tools/release", log, keeps=False)
        assert ended.status == 0 and f"release: {log} stands for the proofs, as nobody has edited it".encode() in ended.stderr, ended
        assert tree.calls() == ["ci"], "nothing is proved again"
        assert facts(tree.top)["gate"] == "3 passed, 0 failed"
        for crate in ["low", "middle", "lrs_cli"]:
            assert told(tree.top, f'fact "proved {crate} $(sum_of_crate {crate})"') == "logic=proved functions=2 sum=1"
        assert tree.call("verify").status == 0
        # without a log, and wherever it is asked for, all is proved again; and so it is where the kit may have kept it
        for words, keeps in [([], False), (["--anew", log], False), ([log], True)]:
            before = len(tree.calls())
            assert tree.call("tools/release", *words, keeps=keeps).status == 0
            assert tree.calls()[before:] == ["ci"], words

    in_tree(test)


def test_a_log_that_does_not_say_it_stands_for_no_proof():
    def test(tree):
        def refuses(lack):
            ended = tree.call("tools/release", log, keeps=False)
            assert (ended.stdout, ended.status) == (b"", 70), ended
            assert ended.stderr == f"release: {log} stands for no proof of these sources: {lack}\n".encode(), ended

        log = log_of_a_build(tree)
        said = log.read_text()
        for last in ["2 passed, 1 failed", "0 passed, 0 failed", "3 passed, 0 failed (middle alone: not the gate)", "3 passed, 0 failed\nmore"]:
            log.write_text(said.replace("3 passed, 0 failed", last))
            refuses("its last line is not 'N passed, 0 failed'")
        for line in ["rt: middle NOT PROVED", "rt: middle: its tests are proved", "so rt: middle proved", "rt: middle is kept: an earlier run proved it"]:
            log.write_text(said.replace("rt: middle proved", line))
            refuses("it does not say that middle is proved")
        log.write_text(said)
        tree.build_by_hand("other")
        refuses("crates/lrs_cli/out/lrs_cli is younger")
        tree.write("crates/middle/proofs/deep/Proof.antt", "-- edited\n")
        tree.build()
        refuses("a source was changed since it was begun")
        log.write_text(said)
        if subprocess.run(["stat", "-c", "%W", log], capture_output=True, check=True).stdout != b"0\n":
            # (where it is known when the log was begun)
            refuses("a source was changed since it was begun")
        assert not (tree.top / "released").exists()
        assert tree.calls() == ["ci", "ci"]

    in_tree(test)


# how a release is verified


def test_sums_are_verified():
    def test(tree):
        ended = tree.call("verify")
        assert ended.status == 0 and ended.stdout.count(b"same ") == 2, ended
        tree.run()
        ended = tree.call("verify")
        assert ended.status == 0 and ended.stdout.count(b"same ") == 3, ended
        change_back = change(tree.top / "crates" / "middle" / "src" / "lib.rt")
        ended = tree.call("verify")
        assert ended.status == 1 and b"crates that differ: middle\n" in ended.stdout, ended
        change_back()
        tree.build_by_hand("other")
        ended = tree.call("verify")
        assert ended.status == 1 and b"crates/lrs_cli/out/lrs_cli is not the released one" in ended.stdout, ended

    in_release(test)


def test_everything_is_verified():
    def test(tree):
        tree.build()
        tree.call("tools/release")
        ended = tree.call("verify", "--prove")
        said = ended.stdout.decode().splitlines()
        assert ended.status == 0 and tree.calls()[-1] == "ci --anew", ended
        assert said[-4] == "shown    8 functions of 4 crates are safe, return, and keep their contracts; 5 wrong edits are refused"
        assert said[-3] == "shown    the program that was built from them is byte for byte the released one"
        assert [line.split()[0] for line in said[-2:]] == ["trusted", "trusted"]
        assert b"4 of 4 crates are proved; through: The program, and its words" in ended.stderr, ended
        ended = tree.call("verify", "--prove", refused="beside")
        assert ended.status == 1 and b"DIFFERS  proofs: not every crate is proved\n" in ended.stdout, ended
        assert b"shown" not in ended.stdout
        ended = tree.call("verify", "--prove", kit="another kit")
        assert ended.status == 0 and b"was not compared" in ended.stdout, ended

    in_tree(test)


def test_the_release_of_other_bytes_is_not_verified():
    """A program that another text of the same sum would give, as a compiler that is not what it was."""

    def test(tree):
        tree.build()
        tree.call("tools/release")
        shutil.rmtree(tree.built.parent)
        (tree.folder / "program").write_text("echo another compiler made this\n")
        ended = tree.call("verify", "--prove")
        assert ended.status == 1 and b"DIFFERS  program: what was built is not the released one" in ended.stdout, ended

    in_tree(test)


# how a release is packed


def test_only_a_release_of_these_sources_is_packed():
    def test(tree):
        change(tree.top / "crates.txt")
        ends(tree.call("tools/package"), b"", 70, b"package: the sources are not those of a release: run tools/release first\n")
        assert not (tree.top / "out").exists()

    in_release(test)
