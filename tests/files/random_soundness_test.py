"""Random small inventories in files, sound or with one fault, beside a judge that looks at each
row, each two rows and each millimetre (soundness.py). The program opens those that are sound, and of
the others it names the first unsound table. Rows that sqlite does not take are not drawn.
"""

import collections
import concurrent.futures
import os
import random

from drawn_rows import damaged, empty_store, sound_store, write
from program import HEADER, run
from soundness import first_unsound
from stores import TABLES, folder

STORES = 1_200

# How many of them are opened at a time.
SIDE_BY_SIDE = min(os.cpu_count() or 2, 4)

# By a connection, which tests the file by SQLite's rules; and without one, for questions.
OPENINGS = ["check DB stdin", "totals DB"]


def is_answered(path, opening, table, number):
    """The opening names the table and leaves the file as it is, or, of none, does what is asked."""
    before = path.read_bytes()
    ended = run(*(str(path) if word == "DB" else word for word in opening.split()), given=HEADER)
    if table is None:
        assert ended.status == 0, (number, opening, ended)
    else:
        said = (b"", f"roadlrs: fault Unsound:{table}\n".encode(), 3)
        assert (ended.stdout, ended.stderr, ended.status) == said, (number, opening, ended)
        assert path.read_bytes() == before, (number, opening)


def drawn_store(drawn, number):
    """A sound store, and in most cases one with a fault."""
    store = sound_store(drawn)
    assert first_unsound(store) is None, number
    return store if drawn.randrange(8) == 0 else damaged(drawn, store)


def answer_to(empty, number):
    """Opens the store of this number; the answer, by the judge, and the program says so too."""
    drawn = random.Random(number)
    store = drawn_store(drawn, number)
    table = first_unsound(store)
    with folder() as path:
        write(path, empty, drawn, store)
        is_answered(path, OPENINGS[number % 2], table, number)
    return table


def test_the_first_unsound_table_of_random_rows_is_named():
    empty = empty_store()
    with concurrent.futures.ThreadPoolExecutor(SIDE_BY_SIDE) as pool:
        answers = pool.map(lambda number: answer_to(empty, number), range(STORES))
        counts = collections.Counter(answers)
    # each answer came often
    assert all(counts[answer] >= 20 for answer in [None, *TABLES]), counts
