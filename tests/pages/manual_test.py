"""The manual page and the completions name the commands and options that the program has."""

import re
import subprocess

import pytest

from program import TOP, run

PAGE = (TOP / "docs" / "roadlrs.1").read_text()
COMPLETIONS = TOP / "docs" / "roadlrs.bash"


def commands():
    """Each command of the program with its line of help."""
    listed = run("--help").stdout.decode().partition("Commands:\n")[2].partition("\n\n")[0]
    return {name: says for name, says in re.findall(r"^  (\w+) +(.*)$", listed, re.M) if name != "help"}


def options(command):
    """The long options of a command, and whether each takes a value."""
    said = run(command, "--help").stdout.decode()
    found = re.findall(r"^ +(?:-\w, )?--([\w-]+)( <\w+>)?  ", said, re.M)
    return {name: bool(value) for name, value in found if name != "help"}


# the options that go with every command
GENERAL = ["--existing", "--explain", "--wait", "--expect"]


def words(command):
    """The usage of a command names its words."""
    usage = re.search(rf"^Usage: roadlrs {command}(.*)$", run(command, "--help").stdout.decode(), re.M).group(1)
    return re.findall(r"[<\[](\w+)[>\]]", usage.replace("[OPTIONS]", ""))


def table(name):
    """A table of the completions."""
    shown = f'source {COMPLETIONS}; for key in "${{!{name}[@]}}"; do echo "$key=${{{name}[$key]}}"; done'
    listed = subprocess.run(["bash", "-c", shown], capture_output=True, text=True, check=True, timeout=60)
    assert listed.stderr == ""
    return dict(line.split("=", 1) for line in listed.stdout.splitlines())


def test_the_page_describes_each_command_with_its_words():
    plain = re.sub(r"\\f[BIR]", "", PAGE).replace("\\-", "-")
    synopsis = plain.partition(".SH SYNOPSIS")[2].partition(".SH DESCRIPTION")[0]
    described = re.findall(r'^\.BI (\w+) " (?:DB|DIR|FILE|WHAT)', plain.partition(".SH COMMANDS")[2].partition(".SH OPTIONS")[0], re.M)
    assert sorted(described) == sorted(commands())
    for command in commands():
        line = re.search(rf"^roadlrs {command} ((?:.*)(?:\n +.*)?)$", synopsis, re.M)
        assert line, command
        for option, _ in options(command).items():
            assert f"--{option}" in line.group(1), (command, option)


def test_the_page_has_each_option():
    shown = PAGE.partition(".SH OPTIONS")[2].partition(".SH EXIT STATUS")[0].replace("\\-", "-")
    for command in commands():
        for option in options(command):
            assert re.search(rf"--{option}\b", shown), (command, option)
    for option in GENERAL:
        assert re.search(rf"^\.BI? {option}\b", shown, re.M), option
    for option in GENERAL:
        assert option in run("--help").stdout.decode(), option


def test_the_page_uses_the_macros_of_manual_pages_alone():
    known = set("TH SH PP TP RS RE EX EE B I R BI BR IB IR RB RI nf fi".split())
    used = set(re.findall(r"^\.(\w+)", PAGE, re.M))
    assert used <= known, used - known
    assert PAGE.count("\n.EX") == PAGE.count("\n.EE") and PAGE.count("\n.RS") == PAGE.count("\n.RE") and PAGE.isascii()


def test_the_completions_have_each_command_and_its_options():
    kinds = table("_roadlrs_words")
    assert sorted(kinds) == sorted([*commands(), "help"])
    offered = table("_roadlrs_options")
    for command in commands():
        wanted = " ".join(f"--{name}{'=' if value else ''}" for name, value in options(command).items())
        assert offered.get(command, "") == wanted, command


def completed(line):
    """What bash offers behind a line."""
    shown = f"source {COMPLETIONS}; COMP_LINE='{line}'; COMP_POINT={len(line)}; COMP_WORDBREAKS=' '; _roadlrs; printf '%s\\n' \"${{COMPREPLY[@]}}\""
    done = subprocess.run(["bash", "-c", shown], capture_output=True, text=True, timeout=60)
    return done.stdout.split()


@pytest.mark.parametrize(
    "line, offered",
    [
        ("roadlrs ch", ["check"]),
        ("roadlrs list roads.db r", ["routes", "refs"]),
        ("roadlrs at roads.db A1 ", ["abs", "rel", "int"]),
        ("roadlrs rows roads.db --c", ["--class", "--columns"]),
        ("roadlrs edit roads.db first.csv --", ["--sums", "--resume", "--all", "--whole", "--ask", *GENERAL, "--help"]),
        ("roadlrs edit :m", [":memory:"]),
        ("roadlrs where roads.db l", ["link"]),
        ("roadlrs draft re", ["retire", "replace"]),
        ("roadlrs diff roads.db :m", [":memory:"]),
        ("roadlrs help re", ["ref", "retire", "renumber", "recalibrate", "realign"]),
        ("roadlrs serve roads.db 8080 5 --e", ["--end-on-fault", "--existing", "--explain", "--expect"]),
        ("roadlrs --wait 5 ch", ["check"]),
        ("roadlrs list --wait ", []),
        ("roadlrs list --wait=5 roads.db l", ["links"]),
    ],
)
def test_what_is_completed(line, offered):
    assert completed(line) == offered, line
