"""./test and .ci/run: the gate counts what was proved and what was tested, and it can fail."""

import os
import pathlib
import re
import shutil
import subprocess
import sys
import tempfile

import pytest

from program import TOP


def black_box_tests(folder, **files):
    """Makes a copy of the black-box tests' settings beside these files of tests, in which nothing is to be built."""
    for path in ["pytest.ini", "tests/conftest.py", "tests/lib/program.py"]:
        (folder / path).parent.mkdir(exist_ok=True)
        shutil.copy(TOP / path, folder / path)
    for number, (name, text) in enumerate(files.items()):
        (folder / "tests" / f"folder{number}").mkdir()
        (folder / "tests" / f"folder{number}" / f"{name}_test.py").write_text(text)


NOTHING_BUILT = {"ROADLRS": "/bin/true"}

# what ./test calls beside rt and Python
BASIC = "bash cat dirname find mktemp nproc rm sort tail tee xargs".split()
TWO_TESTS = "def test_a(): pass\ndef test_b(): pass\n"


def command(path, body):
    path.write_text(f"#!/bin/sh\n{body}\n")
    path.chmod(0o755)


def run_gate(rt, tests=TWO_TESTS, others=(), **environment):
    """The last line and the status of a copy of ./test, over these black-box tests, with an rt that does this or is not there, and with
    other commands that do what is given."""
    with tempfile.TemporaryDirectory() as folder:
        copy, commands = pathlib.Path(folder), pathlib.Path(folder) / "commands"
        commands.mkdir()
        for name in BASIC:
            (commands / name).symlink_to(shutil.which(name))
        command(commands / "python3", f'exec {sys.executable} "$@"')
        if rt is not None:
            command(commands / "rt", rt)
        for name, body in others:
            (commands / name).unlink()
            command(commands / name, body)
        command(copy / "roadlrs", "exit 0")
        shutil.copy(TOP / "test", copy)
        black_box_tests(copy, **({"a": tests} if isinstance(tests, str) else tests))
        env = {"PATH": str(commands), "HOME": folder, **environment}
        done = subprocess.run(["bash", str(copy / "test")], env=env, capture_output=True, text=True, timeout=600)
        return done.stdout.splitlines()[-1], done.returncode


# what rt does, and what the gate then counts, with the two black-box tests that pass
GATES = {
    "all passed": ("echo '5 passed, 0 failed'", "7 passed, 0 failed"),
    "a proof failed": ("echo '4 passed, 1 failed'; exit 1", "6 passed, 1 failed"),
    "a failure is counted, and the status is good": ("echo '4 passed, 1 failed'", "6 passed, 1 failed"),
    "no failure is counted, and the status is bad": ("echo '5 passed, 0 failed'; exit 2", "7 passed, 1 failed"),
    "the prover stops without a count": ("echo 'out of memory'; exit 2", "2 passed, 1 failed"),
    "the prover says nothing": ("exit 0", "2 passed, 1 failed"),
    "another line comes after the count": ("echo '5 passed, 0 failed'; echo 'out of memory'", "2 passed, 1 failed"),
    "an empty line comes after the count": ("echo '5 passed, 0 failed'; echo", "2 passed, 1 failed"),
    "the count is of a part": ("echo '5 passed, 0 failed (lrs_web alone: not the gate)'", "2 passed, 1 failed"),
    "the count stands behind other words": ("echo 'so far 5 passed, 0 failed'", "2 passed, 1 failed"),
    "nothing was counted": ("echo '0 passed, 0 failed'", "2 passed, 1 failed"),
    "the prover is not there": (None, "2 passed, 1 failed"),
}


@pytest.mark.parametrize("rt, counted", GATES.values(), ids=GATES)
def test_the_gate_counts_what_was_proved(rt, counted):
    assert run_gate(rt) == (counted, 0 if counted.endswith(" 0 failed") else 1)


@pytest.mark.parametrize(
    "tests, counted",
    [
        (TWO_TESTS + "def test_c(): assert False\n", "7 passed, 1 failed"),
        ("def other(): pass\n", "5 passed, 1 failed"),
        ("no Python\n", "5 passed, 1 failed"),
        (TWO_TESTS + "import atexit\natexit.register(print, 'more')\n", "5 passed, 1 failed"),
        (TWO_TESTS + "import os\ndef test_c(): os._exit(0)\n", "5 passed, 1 failed"),
    ],
    ids=["one fails", "there is none", "they cannot be loaded", "another line comes after the count", "they end before the count"],
)
def test_the_gate_counts_the_black_box_tests(tests, counted):
    assert run_gate("echo '5 passed, 0 failed'", tests) == (counted, 1)


def test_the_gate_counts_each_file_of_tests():
    """Whichever runs first, side by side with others, or alone."""
    tests = {"a": TWO_TESTS, "replies_in_time": TWO_TESTS, "refused_system_calls": "def test_c(): assert False\n", "z": TWO_TESTS}
    assert run_gate("echo '5 passed, 0 failed'", tests) == ("11 passed, 1 failed", 1)


def test_a_file_of_tests_that_did_not_run_has_failed():
    """As where a run is killed, and those behind it are not begun."""
    tests = {"a": TWO_TESTS, "replies_in_time": TWO_TESTS, "z": TWO_TESTS}
    assert run_gate("echo '5 passed, 0 failed'", tests, others=[("xargs", "exit 125")]) == ("7 passed, 2 failed", 1)


def test_a_gate_without_files_of_tests_fails():
    assert run_gate("echo '5 passed, 0 failed'", {}) == ("5 passed, 1 failed", 1)


def test_the_files_that_the_gate_names_are_there():
    """Those that take longest, and those that run alone."""
    text = (TOP / "test").read_text()
    named = [name for names in re.findall(r"^(?:dearest|alone)=\((.*?)\)$", text, re.M | re.S) for name in names.split()]
    assert len(named) == len(set(named)) > 10
    for name in named:
        assert len(list((TOP / "tests").rglob(f"{name}_test.py"))) == 1, name


def test_files_of_tests_and_what_they_share_have_names_of_their_own():
    """pytest takes files of one name for one module, whatever folder they are in."""
    names = [path.name for path in (TOP / "tests").rglob("*.py")]
    assert len(names) == len(set(names)), sorted(names)


def test_the_gate_tests_no_other_program():
    """Whatever the environment names: here a program that always fails."""
    tests = "from program import PROGRAM, TOP\ndef test_a(): assert PROGRAM == str(TOP / 'roadlrs')\n"
    assert run_gate("echo '5 passed, 0 failed'", tests, ROADLRS="/bin/false") == ("6 passed, 0 failed", 0)


def has_memory(gigabytes):
    """Whether so much memory is free here."""
    lines = pathlib.Path("/proc/meminfo").read_text().splitlines()
    return any(line.startswith("MemAvailable:") and int(line.split()[1]) >= 1_000_000 * gigabytes for line in lines)


def test_the_gate_uses_all_processors_that_have_memory_for_a_check():
    """Those of two are left to rt, which knows no other bound there; and so is a number that the environment gives."""
    rt = "echo \"$((5 + ${RT_JOBS:-0})) passed, 0 failed\""
    for processors in ("2", "1000"):
        assert run_gate(rt, others=[("nproc", f"echo {processors}")]) == ("7 passed, 0 failed", 0), processors
    # (what is free may pass the bound while the gate runs)
    before, told, after = has_memory(15), run_gate(rt, others=[("nproc", "echo 3")]), has_memory(15)
    assert told in [(f"{10 if found else 7} passed, 0 failed", 0) for found in (before, after)], told
    assert run_gate(rt, others=[("nproc", "echo 3")], RT_JOBS="1") == ("8 passed, 0 failed", 0)


# what .ci/run looks for, and the packages that have it; others it finds by their paths
BY_PATH = ("nginx-light", "haproxy", "postgresql")
INSTALLED = {
    "cc": "gcc libc6-dev",
    "sqlite3": "sqlite3",
    "curl": "curl",
    "xz": "xz-utils",
    "systemd-analyze": "systemd",
    "chromium": "chromium fonts-dejavu-core",
    "chromedriver": "chromium-driver",
}


def installs(folder, without):
    """What .ci/run asks apt-get to install where this command is there and does not work, or is not there; and then it runs ./test."""
    copy, commands, asked = folder / without, folder / without / "commands", folder / without / "asked"
    (copy / ".ci").mkdir(parents=True)
    commands.mkdir()
    shutil.copy(TOP / ".ci" / "run", copy / ".ci")
    for name in ["bash", "dirname"]:
        (commands / name).symlink_to(shutil.which(name))
    for name in ["python3", *INSTALLED]:
        command(commands / name, "exit 0")
    command(commands / "apt-get", f'echo "$@" >>"{asked}"')
    command(copy / "test", "echo tested")
    if without == "cc":
        command(commands / "cc", "exit 1")
    else:
        (commands / without).unlink()
    done = subprocess.run(["bash", copy / ".ci" / "run"], env={"PATH": str(commands)}, capture_output=True, text=True, timeout=60)
    assert (done.stdout, done.returncode) == ("tested\n", 0), done
    return asked.read_text()


@pytest.mark.parametrize("without, packages", INSTALLED.items())
def test_what_the_tests_need_is_installed_where_it_is_missing(tmp_path, without, packages):
    asked = installs(tmp_path, without).splitlines()
    assert asked[0].split()[0] == "update" and asked[1].startswith("install ") and len(asked) == 2, asked
    assert [name for name in asked[1].split()[1:] if name not in BY_PATH and not name.startswith("-")] == packages.split()


def test_the_readme_and_the_page_of_the_gate_name_what_the_tests_need():
    for page in [TOP / "README.md", TOP / "docs" / "GATE.md"]:
        for packages in [*INSTALLED.values(), "python3-pytest", *BY_PATH]:
            for package in set(packages.split()) - {"chromium", "fonts-dejavu-core"}:
                assert package in page.read_text(), (page.name, package)


def run_black_box_tests(*words, **files):
    """The last line and the status of a run of these files of tests."""
    with tempfile.TemporaryDirectory() as folder:
        black_box_tests(pathlib.Path(folder), **files)
        called = [sys.executable, "-B", "-m", "pytest", *words]
        settings = {"capture_output": True, "text": True, "timeout": 600, "env": {**os.environ, **NOTHING_BUILT}}
        done = subprocess.run(called, cwd=folder, **settings)
        return done.stdout.splitlines()[-1], done.returncode


def test_the_black_box_tests_are_counted():
    given = {"a": "def test_a(): pass\ndef other(): assert False\n", "b": "def test_b(): assert 1 + 1 == 2\n"}
    for words in [[], ["-q"], ["-v"], ["-q", "tests"]]:
        assert run_black_box_tests(*words, **given) == ("2 passed, 0 failed", 0)


@pytest.mark.parametrize(
    "bad, left_out",
    [
        ("def test_b(): assert False\n", False),
        ("def test_b(missing): pass\n", False),
        ("import pytest\ndef test_b(): pytest.skip()\n", True),
        ("import pytest\n@pytest.mark.xfail\ndef test_b(): pass\n", True),
    ],
)
def test_a_black_box_test_that_fails_or_is_left_out_fails_the_run(bad, left_out):
    """What was left out has no bad status of its own, so that the line alone tells of it."""
    line, status = run_black_box_tests(a="def test_a(): pass\n", b=bad + "def test_c(): pass\n")
    assert (line, status) == ("2 passed, 1 failed", 0 if left_out else 1)


@pytest.mark.parametrize("text", ["no Python\n", "import no_such_module\n"])
def test_black_box_tests_that_cannot_be_loaded_fail_the_run(text):
    line, status = run_black_box_tests(a="def test_a(): pass\n", b=text)
    assert (line, status) == ("0 passed, 1 failed", 2)


def test_a_run_of_no_black_box_test_fails():
    assert run_black_box_tests(a="def other(): pass\n") == ("0 passed, 0 failed", 5)


def test_no_black_box_test_passes_where_the_program_cannot_be_built():
    with tempfile.TemporaryDirectory() as folder:
        black_box_tests(pathlib.Path(folder), a="def test_a(): pass\ndef test_b(): pass\n")
        called = [sys.executable, "-B", "-m", "pytest"]
        done = subprocess.run(called, cwd=folder, capture_output=True, text=True, timeout=600, env={**os.environ, "ROADLRS": "/bin/false"})
        assert done.stdout.splitlines()[-1] == "0 passed, 2 failed" and done.returncode == 1, done
