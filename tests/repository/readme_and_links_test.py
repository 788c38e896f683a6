"""What a newcomer types first: the commands and the example of the readme, and the links of the pages."""

import os
import pathlib
import re
import tempfile

from documents import blocks_of_the_readme, first_sheet
from program import TOP, ends, run


def test_handles_are_those_allowed():
    assert (TOP / "HANDLES").read_text() == "Handles allowed: Net.\n"


def test_the_commands_of_the_readme_are_there():
    commands = [line.split()[0] for line in blocks_of_the_readme()[0].splitlines()]
    assert commands[:3] == ["./roadlrs", "./verify", "./test"], commands
    for command in commands:
        assert os.access(TOP / command, os.X_OK), command


def test_the_example_of_the_readme():
    """A new user who types it sees what the readme shows."""
    sheet, replies = first_sheet()
    with tempfile.TemporaryDirectory() as folder:
        (pathlib.Path(folder) / "first.csv").write_text(sheet)
        ends(run("edit", ":memory:", "first.csv", cwd=folder), replies.encode(), 1)


PAGES = [TOP / "README.md", *sorted((TOP / "docs").glob("**/*.md")), *sorted((TOP / "crates").glob("*/README.md"))]


def test_links_of_the_documents_lead_somewhere():
    for page in PAGES:
        for target in re.findall(r"\]\(([^)#\s]+)\)", page.read_text()):
            if not target.startswith("http"):
                assert (page.parent / target).exists(), f"{page.relative_to(TOP)}: {target}"


def test_the_tests_and_tools_that_the_documents_name_are_there():
    named = {(page, path) for page in PAGES for path in re.findall(r"(?<![\w/.-])(?:tests|bench|tools)/[\w/-]+(?:\.\w+)?", page.read_text())}
    assert len(named) > 10
    assert [f"{page.relative_to(TOP)}: {path}" for page, path in sorted(named) if not (TOP / path).exists()] == []
