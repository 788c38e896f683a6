"""Sheets from hostile hands: after each one the replies or the fault are exact, and nothing else was changed."""

import pytest

from program import FIRST, FIRST_REPLIES, HEADER, ends, faults, lines, record, run, run_sheet

SURVEY_HEADER = b"key,asset,class,route,side,method,from,to,value,offset\n"

# a record that is done after any number of refused ones, and its reply: nothing was changed before it
PROBE = record("probe,link,1,5000")
PROBED = b"probe,done,1\n"

MEGABYTE = 1_000_000


def survives(given, *replied):
    """These records get these replies, and a link is then the first edit."""
    ends(run_sheet(HEADER + given + PROBE), lines(*replied) + PROBED, 1 if replied else 0)


def test_fields_of_a_megabyte():
    long = b"1" * MEGABYTE
    survives(long + b",link,1,5000,,,,,,,\n", "-,refused,Malformed:key")
    survives(b"k," + long + b",1,5000,,,,,,,\n", "k,refused,Malformed:verb")
    for place, letter in enumerate("abcdefghi"):
        fields = [b""] * 9
        fields[0], fields[1] = b"1", b"5000"
        fields[place] = long
        survives(b"k,link," + b",".join(fields) + b"\n", f"k,refused,Malformed:{letter}")
    survives(b"k,route,A1,%s,0:0 1:1,,,,,,\n" % (b"1:0:1:+ " * (MEGABYTE // 8)), "k,refused,Malformed:b")
    survives(b"k,route,A1,1:0:1:+,%s,,,,,,\n" % (b"0:0 " * (MEGABYTE // 4)), "k,refused,Malformed:c")
    survives(b"k,route,A1,%s,0:0 1:1,,,,,,\n" % (b":" * MEGABYTE), "k,refused,Malformed:b")
    survives(b"k,route,A1,%s,0:0 1:1,,,,,,\n" % (b" " * MEGABYTE), "k,refused,Malformed:b")


def test_a_header_of_a_megabyte():
    faults(run_sheet(b"k" * MEGABYTE), "BadHeader")
    faults(run_sheet(b"k" * MEGABYTE + HEADER + PROBE), "BadHeader")


def test_records_of_a_million_fields():
    faults(run_sheet(b"," * (MEGABYTE - 1) + b"\n" + PROBE), "BadHeader")
    faults(run_sheet(HEADER + PROBE + b"," * (MEGABYTE - 1) + b"\n" + PROBE), "BadCsv", PROBED)
    faults(run("survey", ":memory:", "stdin", given=SURVEY_HEADER + b"," * (MEGABYTE - 1) + b"\n"), "BadCsv")


def test_numbers_of_a_thousand_digits():
    zeros = "0" * 999
    survives(record(f"k,link,{'9' * 1000},1"), "k,refused,Malformed:a")
    survives(record(f"k,link,1,1{zeros}"), "k,refused,Malformed:b")
    survives(record(f"k,split,A1,1{zeros},A2"), "k,refused,Malformed:b")
    survives(record(f"k,enter,10,SPEED,A1,B,abs,1{zeros},2,80,0"), "k,refused,Malformed:f")
    survives(record(f"k,enter,10,SPEED,A1,B,int,1{zeros}/1{zeros},,80,0"), "k,refused,Malformed:f")
    survives(record(f"k,enter,10,SPEED,A1,B,rel,KM2+1{zeros},,80,0"), "k,refused,Malformed:f")
    survives(record(f"k,enter,10,SPEED,A1,B,abs,1,2,80,1{zeros}"), "k,refused,Malformed:i")
    survives(record(f"k,route,A1,1:0:1{zeros}:+,0:0 1:1"), "k,refused,Malformed:b")
    survives(record(f"k,route,A1,1:0:1:+,0:0 1:1{zeros}"), "k,refused,Malformed:c")
    ends(run_sheet(HEADER + record(f"k,link,{zeros}1,{zeros}5000") + record("k,link,1,5000")), lines("k,done,1", "k,again,1"), 0)


@pytest.mark.parametrize("byte", [b"\0", b"\x80", b"\xff", b"\xc3\x28", b"\xed\xa0\x80", b"\xf8\x88\x80\x80\x80", b"\x1b", b"\x7f"])
def test_bytes_that_are_no_text(byte):
    survives(b"k" + byte + b",link,1,5000,,,,,,,\n", "-,refused,Malformed:key")
    survives(b"k,link" + byte + b",1,5000,,,,,,,\n", "k,refused,Malformed:verb")
    survives(b"k,link,1" + byte + b",5000,,,,,,,\n", "k,refused,Malformed:a")
    survives(b"k,link,1,5000,,,,,,," + byte + b"\n", "k,refused,Malformed:i")
    survives(b"k,class,S" + byte + b",point,,,,,,,\n", "k,refused,Malformed:a")
    survives(b"k,enter,10,SPEED,A1,B,abs,1,2,8" + byte + b",0\n", "k,refused,Malformed:h")
    faults(run_sheet(byte + HEADER + PROBE), "BadHeader")


def test_bytes_of_all_values():
    for value in range(256):
        byte = bytes([value])
        if byte not in [b"\n", b"\r", b",", b'"']:
            word = b"k" + byte
            good = byte.isalnum() or byte in [b".", b":", b"_", b"-"]
            # A key of this byte is well formed, or it is named.
            ends(
                run_sheet(HEADER + word + b",link,1,0,,,,,,,\n" + PROBE),
                (word + b",refused,Malformed:b\n" if good else b"-,refused,Malformed:key\n") + PROBED,
                1,
            )


def test_a_quote_in_every_place():
    """A quote at the start of a field opens it; elsewhere it is a byte like any other, which no field but a quoted one may have."""
    line = b"k,link,1,5000,,,,,,,"
    starts = {0} | {at + 1 for at in range(len(line)) if line[at : at + 1] == b","}
    for at in range(len(line) + 1):
        sheet = HEADER + PROBE + line[:at] + b'"' + line[at:] + b"\n"
        ended = run_sheet(sheet)
        fields = line.count(b",", 0, at)
        if at in starts:
            # The quoted field goes on to the end of the sheet.
            if fields < 10:
                faults(ended, "BadCsv", PROBED)
            else:
                ends(ended, PROBED + b"k,refused,Malformed:i\n", 1)
        else:
            cause = ["-,refused,Malformed:key", "k,refused,Malformed:verb", "k,refused,Malformed:a", "k,refused,Malformed:b"][fields]
            ends(ended, PROBED + lines(cause), 1)


def test_empty_lines_and_carriage_returns():
    ends(run_sheet(b"\n" * 1000 + FIRST + b"\n" * 1000), FIRST_REPLIES, 0)
    ends(run_sheet(b"\r" * 1000 + FIRST.replace(b"\n", b"\r") + b"\r" * 1000), FIRST_REPLIES, 0)
    ends(run_sheet(b"\r\n" * 1000 + FIRST.replace(b"\n", b"\r\n" * 1000)), FIRST_REPLIES, 0)
    ends(run_sheet(b"\r"), b"", 0)
    ends(run_sheet(b"\n" * 1000), b"", 0)
    faults(run_sheet(HEADER + b" \n" * 1000), "BadCsv")


def test_the_sheet_ends_anywhere_in_a_megabyte_field():
    faults(run_sheet(HEADER + PROBE + b'k,"' + b"x" * MEGABYTE), "BadCsv", PROBED)
    faults(run_sheet(HEADER + PROBE + b'"' * MEGABYTE), "BadCsv", PROBED)
