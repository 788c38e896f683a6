"""What the pages of this repository show: blocks, tables, and commands with what they print."""

import pathlib
import re
import subprocess

from program import PATIENCE, PROGRAM, TOP


def blocks(page):
    """The blocks of a page in their order: the language of each, and its text."""
    return re.findall(r"^```(\w*)\n(.*?)^```$", page.read_text(), re.M | re.S)


def typed(text):
    """The commands that a block shows, each with the lines that follow it."""
    return re.findall(r"^\$ (.*)\n((?:(?!\$ ).*\n)*)", text, re.M)


def do_command(folder, command):
    """A command in a folder that has the program: what it writes on both outputs, and its status."""
    settings = {"cwd": folder, "stdout": subprocess.PIPE, "stderr": subprocess.STDOUT, "stdin": subprocess.DEVNULL}
    done = subprocess.run(["bash", "-c", command], timeout=PATIENCE, text=True, **settings)
    return done.stdout, done.returncode


def follow(page, folder):
    """Types what a page shows, each sheet into the file that the next command names; hands back what was typed."""
    (folder / "roadlrs").symlink_to(pathlib.Path(PROGRAM).resolve())
    sheet, seen = None, []
    for language, text in blocks(page):
        if language == "csv":
            assert sheet is None, sheet
            sheet = text
            continue
        for command, expected in typed(text):
            if sheet is not None:
                (folder / re.search(r"\S+\.csv", text)[0]).write_text(sheet)
                sheet = None
            assert do_command(folder, command) == (expected, 1 if ",refused," in expected else 0), command
            seen.append((command, expected))
    assert sheet is None and seen, sheet
    return seen


def table(text, heading):
    """The rows of a table whose first cell of the head is this."""
    rows = re.search(rf"^\| {heading} \|.*\n\|[-|]+\|\n((?:\|.*\n)+)", text, re.M)[1]
    return [[cell.strip() for cell in row.split("|")[1:-1]] for row in rows.splitlines()]


def blocks_of_the_readme():
    return re.findall(r"```\n(.*?)```", (TOP / "README.md").read_text(), re.S)


def first_sheet():
    """The first sheet of the readme, and the replies that it shows."""
    typed = r"\$ cat first\.csv\n(.*)\$ \./roadlrs edit :memory: first\.csv\n(.*)"
    return re.fullmatch(typed, blocks_of_the_readme()[1], re.S).groups()
