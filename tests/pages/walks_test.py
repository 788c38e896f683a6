"""docs/WALKS.md: each command of its walks prints what the page shows."""

import pathlib
import re
import subprocess

from documents import blocks, typed
from program import PROGRAM, TOP
from serving import free_port

PAGE = TOP / "docs" / "WALKS.md"


def test_the_walks(tmp_path):
    """Both walks in one shell and folder: the service on a port that is free, and a sheet is there before it is sent."""
    (tmp_path / "examples").symlink_to(TOP / "examples")
    (tmp_path / "roadlrs").symlink_to(pathlib.Path(PROGRAM).resolve())
    sheets = [text for language, text in blocks(PAGE) if language == "csv"]
    (tmp_path / "two.csv").write_text(sheets[0])
    port = str(free_port())
    service, seen = None, 0
    try:
        for command, expected in [pair for language, text in blocks(PAGE) if not language for pair in typed(text)]:
            command, expected = command.replace("8080", port), expected.replace("8080", port)
            if command.endswith(" &"):
                words = command[:-2].split()
                service = subprocess.Popen(words, cwd=tmp_path, stdout=subprocess.PIPE, text=True)
                assert service.stdout.readline() == expected
                continue
            done = subprocess.run(["bash", "-c", command], cwd=tmp_path, stdout=subprocess.PIPE, stderr=subprocess.STDOUT, text=True, timeout=120)
            assert done.stdout.rstrip("\n") == expected.rstrip("\n"), command
            seen += 1
    finally:
        if service:
            service.kill()
            service.communicate()
    assert seen > 15 and len(re.findall(r"^## ", PAGE.read_text(), re.M)) == 2
