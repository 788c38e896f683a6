"""How fast edit sheets are done, and in how much memory, beside Python's csv module reading the same sheets.

    python3 bench/sheets.py [RECORDS]

A line has records, seconds, processor time, records a second and the most memory. Times are the least of three runs;
those of one command are processor time, the least of seven. Nothing but Python is needed. The program is built first,
by ./roadlrs; ROADLRS in the environment names another program to measure in its place.
"""

import os
import pathlib
import random
import subprocess
import sys
import tempfile
import time

TOP = pathlib.Path(__file__).resolve().parent.parent
BUILT = TOP / "crates" / "lrs_cli" / "out" / "lrs_cli"
HEADER = b"key,verb,a,b,c,d,e,f,g,h,i\n"
READ_BY_PYTHON = "import csv, sys\nfor row in csv.reader(open(sys.argv[1], newline='')): pass\n"
MOST_LINKS = 999_999
MOST_ROUTES = 10_000
FEW_AND_MANY = (1_000, 300_000)


def link(n):
    return b"k%d,link,%d,5000,,,,,,,\n" % (n, n)


def route(n):
    """The n-th of routes of 10 mm, a thousand on each stretch of the first thousand links."""
    number, start = 1 + n % 1_000, n // 1_000 * 10
    return b"r%d,route,R%d,%d:%d:%d:+,0:0 10:10,,,,,,\n" % (n, n, number, start, start + 10)


def write(path, records):
    with open(path, "wb") as sheet:
        sheet.write(HEADER)
        sheet.writelines(records)


def start(words):
    return subprocess.Popen(words, stdout=subprocess.DEVNULL)


def seconds_of(words, runs=3):
    """The least seconds that pass, and the least of processor time, of some runs."""
    passed, used = [], []
    for _ in range(runs):
        started = time.monotonic()
        child = start(words)
        _, status, usage = os.wait4(child.pid, 0)
        passed.append(time.monotonic() - started)
        used.append(usage.ru_utime + usage.ru_stime)
        if os.waitstatus_to_exitcode(status) not in (0, 1):
            sys.exit(f"{words[0]} ended with {os.waitstatus_to_exitcode(status)}")
    return min(passed), min(used)


def peak_of(words):
    """The most kilobytes that a run holds, as its status file says all the time that it runs."""
    child = start(words)
    peak = 0
    while child.poll() is None:
        try:
            status = pathlib.Path(f"/proc/{child.pid}/status").read_text()
        except OSError:
            break
        peak = max([peak, *(int(line.split()[1]) for line in status.splitlines() if line.startswith("VmHWM"))])
        time.sleep(0.002)
    child.wait()
    return peak


def compare(program, what, path, records):
    python = [sys.executable, "-c", READ_BY_PYTHON, path]
    for name, words in [(what, [program, "edit", ":memory:", path]), ("  read by Python's csv", python)]:
        passed, used = seconds_of(words)
        memory = peak_of(words) / 1024
        print(f"{name:<32}{records:>10,}{passed:>8.2f} s{used:>8.2f} s{records / passed:>12,.0f}/s{memory:>8.1f} MB", flush=True)


def cost(program, path, known, more):
    """The processor time of one more command where so many links are known."""
    before = [link(n) for n in range(1, known + 1)]
    write(path, before)
    _, base = seconds_of([program, "edit", ":memory:", path], runs=7)
    write(path, before + more)
    _, whole = seconds_of([program, "edit", ":memory:", path], runs=7)
    return (whole - base) / len(more)


def verbs_of(program, folder):
    """The verbs that the program has, of those that are measured."""
    path = str(folder / "verbs")
    write(path, [link(1), route(0)])
    done = subprocess.run([program, "edit", ":memory:", path], capture_output=True, check=False)
    return ["link", "route"] if b"r0,done,2" in done.stdout else ["link"]


def main():
    records = int(sys.argv[1]) if len(sys.argv) > 1 else 1_000_000
    program = os.environ.get("ROADLRS", str(BUILT))
    if program == str(BUILT):
        subprocess.run([str(TOP / "roadlrs"), "--help"], stdout=subprocess.DEVNULL, check=True)
    with tempfile.TemporaryDirectory() as name:
        folder = pathlib.Path(name)
        path = str(folder / "sheet")
        write(path, [link(n) if n <= MOST_LINKS else link(1) for n in range(1, records + 1)])
        compare(program, "links", path, records)
        mixed = [link(n) for n in range(1, min(records, MOST_LINKS) + 1)]
        random.Random(1).shuffle(mixed)
        write(path, mixed)
        compare(program, "links, their numbers in no order", path, len(mixed))
        write(path, [b"k%d,link,0,5000,,,,,,,\n" % n for n in range(1, records + 1)])
        compare(program, "malformed records", path, records)
        write(path, [link(1) for _ in range(records)])
        compare(program, "one link again and again", path, records)
        for verb in verbs_of(program, folder):
            costs = []
            for known in FEW_AND_MANY:
                more = [link(known + n) for n in range(1, 100_001)] if verb == "link" else [route(n) for n in range(MOST_ROUTES)]
                costs.append(cost(program, path, known, more))
            few, many = (f"{microseconds * 1e6:.2f} µs" for microseconds in costs)
            print(f"one {verb}: {few} beside 1,000 links, {many} beside 300,000, {costs[1] / costs[0]:.2f} times as much", flush=True)


if __name__ == "__main__":
    main()
