"""What pytest does here beside its own: the program is built before the first test, and the run ends in a line 'N passed, M failed'."""

import subprocess

import pytest

pytest.register_assert_rewrite("documents", "program", "refusing", "worked_examples_over_files")

from program import PROGRAM


@pytest.fixture(scope="session", autouse=True)
def the_program_is_built():
    """However long that takes. Where it cannot be built, no test passes."""
    subprocess.run([PROGRAM, "--help"], stdin=subprocess.DEVNULL, stdout=subprocess.DEVNULL, check=True)


def pytest_unconfigure(config):
    """The last line, which ./test counts. What could not be loaded or set up has failed, and so has what was left out."""
    reporter = config.pluginmanager.get_plugin("terminalreporter")
    if reporter is not None:
        counts = {outcome: len(reports) for outcome, reports in reporter.stats.items()}
        failed = sum(counts.get(outcome, 0) for outcome in ["failed", "error", "skipped", "xfailed", "xpassed"])
        reporter.write_line(f"{counts.get('passed', 0)} passed, {failed} failed")
