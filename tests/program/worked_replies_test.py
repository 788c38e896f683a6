"""Worked rows through the program."""

import pytest

from program import after_first
from worked_replies import WORKED_ROWS


@pytest.mark.parametrize("name", WORKED_ROWS)
def test_a_worked_row(name):
    after_first(*WORKED_ROWS[name])
