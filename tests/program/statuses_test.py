"""Exit statuses, and the name of each fault that an inventory in memory can end in."""

import os
import resource

import pytest

from program import FIRST, FIRST_REPLIES, HEADER, ends, faults, lines, long_sheet, record, run, run_sheet

COUNTS = [1, 100, 101, 255, 256, 257, 511, 512, 65_535, 65_536, 65_537]


@pytest.mark.parametrize("count", COUNTS)
def test_any_number_of_refusals_is_one_status(count):
    sheet = HEADER + record("k,link,1,5") + b"".join(record(f"r{n},link,1,6") for n in range(count))
    expected = lines("k,done,1", *(f"r{n},refused,LinkKnown" for n in range(count)))
    ends(run_sheet(sheet), expected, 1)


@pytest.mark.parametrize("count", COUNTS)
def test_any_number_of_malformed_records_is_one_status(count):
    sheet = HEADER + b"".join(record(f"r{n},link,0,6") for n in range(count))
    ends(run_sheet(sheet), lines(*(f"r{n},refused,Malformed:a" for n in range(count))), 1)
    ends(run_sheet(HEADER + record(",,") * count), lines("-,refused,Malformed:key") * count, 1)


@pytest.mark.parametrize("row, cause", [("x,link,0,5", "Malformed:a"), ("x,link,5,5", "LinkKnown"), ("k9,link,9,6", "KeyUsed:9")])
def test_a_refusal_among_many_that_are_done(row, cause):
    sheet, replies = long_sheet(1_000)
    line = f"{row.split(',')[0]},refused,{cause}"
    ends(run_sheet(sheet + record(row)), replies + lines(line), 1)


@pytest.mark.parametrize("count", [1, 256, 1_000])
def test_a_fault_after_refusals_is_a_fault(count):
    refused, answered = record("r,link,0,6") * count, lines("r,refused,Malformed:a") * count
    faults(run_sheet(FIRST + refused + b"of one field\n"), "BadCsv", FIRST_REPLIES + answered)


def test_a_sheet_that_is_sent_again():
    rows = FIRST[len(HEADER) :]
    again = FIRST_REPLIES.replace(b",done,", b",again,")
    ends(run_sheet(FIRST + rows + rows), FIRST_REPLIES + again + again, 0)


@pytest.mark.parametrize("count", [60_001, 65_535, 65_536, 65_537])
def test_numbers_of_long_sheets(count):
    sheet, expected = long_sheet(count)
    ends(run_sheet(sheet), expected, 0)


def in_little_memory(sheet, megabytes=64):
    room = megabytes * 2**20
    limit = lambda: resource.setrlimit(resource.RLIMIT_AS, (room, room))
    return run("edit", ":memory:", "stdin", given=sheet, preexec_fn=limit, env={**os.environ, "LC_ALL": "C"})


def test_an_inventory_that_outgrows_memory():
    """Every line that is written is whole, and says what was done."""
    sheet, expected = long_sheet(300_000)
    ended = in_little_memory(sheet)
    faults(ended, "Memory", ended.stdout)
    assert ended.stdout.endswith(b"\n") and expected.startswith(ended.stdout), ended.stdout[-100:]


def test_a_field_that_outgrows_memory():
    sheet = FIRST + b"k,link," + b"9" * (80 * 2**20) + b",5,,,,,,,\n"
    faults(in_little_memory(sheet), "Memory", FIRST_REPLIES)
    ends(run_sheet(sheet), FIRST_REPLIES + lines("k,refused,Malformed:a"), 1)


def test_malformed_and_known_records_take_no_memory():
    known, malformed = record("s1,link,1,5000") * 400_000, record("r,link,0,6") * 400_000
    expected = FIRST_REPLIES + lines("s1,again,1") * 400_000 + lines("r,refused,Malformed:a") * 400_000
    ends(in_little_memory(FIRST + known + malformed, 32), expected, 1)
