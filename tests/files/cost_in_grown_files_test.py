"""What a command over a file costs does not grow with the inventory that stands beside its routes."""

import sys

from memory import most_of
from program import BUILT, TOP
from stores import edit

sys.path.insert(0, str(TOP / "bench"))
import reports
import verbs

MANY = 60_000
TIMES = 3
PAGES = 10_000_000


def test_no_verb_costs_more_beside_sixty_times_the_assets(tmp_path):
    few = verbs.costs(BUILT, str(tmp_path / "few.db"), 1_000)
    many = verbs.costs(BUILT, str(tmp_path / "many.db"), MANY)
    assert set(few) == set(verbs.VERBS) and len(few) == 15
    dear = {verb: (few[verb], many[verb]) for verb in few if many[verb] > TIMES * few[verb]}
    assert dear == {}, "microseconds of a processor a command, beside few and beside many assets"


def test_a_question_of_a_file_has_the_rows_of_a_step_in_memory(tmp_path):
    """The rows of all tables together take five times the bytes of their file, beside the pages that the store keeps."""
    db, out = tmp_path / "many.db", tmp_path / "out"
    assert edit(db, "".join(reports.sheet(MANY, 600)).encode()).status == 0
    assert most_of(db, out, "at", "R1", "abs", "5") < 4 * db.stat().st_size + PAGES
    assert out.read_bytes().count(b"\n") > 1
