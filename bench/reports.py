"""How long reports take beside the opening of the file, and a check beside an edit over memory.

    python3 bench/reports.py PROGRAM [ASSETS [ROUTES]]

Makes an inventory of so many assets (1,000,000) on so many routes (1,000) in a temporary folder, runs each report once and
prints its time, its time as a multiple of that of `at`, which is mostly the opening, and the bytes that it printed."""

import pathlib
import subprocess
import sys
import tempfile
import time

LENGTH = 10_000_000


def sheet(assets, routes):
    """Links, routes over them, and assets of three classes: one exclusive, one of stretches, one of points."""
    yield "key,verb,a,b,c,d,e,f,g,h,i\n"
    for number, (name, kind) in enumerate([("SPEED", "exclusive"), ("RAIL", "stretch"), ("SIGN", "point")]):
        yield f"c{number},class,{name},{kind},,,,,,,\n"
    for number in range(1, routes + 1):
        yield f"l{number},link,{number},{LENGTH},,,,,,,\n"
        yield f"r{number},route,R{number},{number}:0:{LENGTH}:+,0:0 {LENGTH}:{LENGTH},,,,,,\n"
    step = LENGTH * routes // assets
    for number in range(assets):
        route, at = number % routes + 1, number // routes * step
        if number // routes % 3 == 0:
            place = f"SPEED,R{route},B,abs,{at},{at + step},{50 + number % 5 * 10}"
        elif number // routes % 3 == 1:
            place = f"RAIL,R{route},{'LR'[number % 2]},abs,{at},{min(at + 2 * step, LENGTH)},steel"
        else:
            place = f"SIGN,R{route},R,abs,{at},,STOP"
        yield f"a{number},enter,{number + 1},{place},0\n"


def timed(*words):
    """The seconds of a run, and the bytes that it printed."""
    begun = time.monotonic()
    process = subprocess.Popen(words, stdout=subprocess.PIPE, stderr=subprocess.DEVNULL)
    size = sum(len(piece) for piece in iter(lambda: process.stdout.read(1 << 20), b""))
    process.wait()
    return time.monotonic() - begun, size


def main(program, assets=1_000_000, routes=1_000):
    with tempfile.TemporaryDirectory() as folder:
        top = pathlib.Path(folder)
        big, db = top / "big.csv", top / "big.db"
        with big.open("w") as out:
            out.writelines(sheet(assets, routes))
        taken, _ = timed(program, "edit", db, big)
        print(f"edit big.db big.csv: {taken:.1f} s, {db.stat().st_size} bytes", flush=True)
        opening, _ = timed(program, "at", db, "R1", "abs", "5")
        jobs = [["at", db, "R1", "abs", "5"], ["log", db], ["rows", db], ["rows", db, "--route", "R7"], ["list", db, "routes"], ["gone", db]]
        jobs += [["lengths", db], ["lengths", db, "--route", "R7"], ["where", db, "R7", "5000"], ["where", db, "link", "7", "5000"], ["audit", db]]
        for job in jobs:
            taken, size = timed(program, *job)
            shown = " ".join("big.db" if word is db else str(word) for word in job)
            print(f"{shown}: {taken:.2f} s, {taken / opening:.2f} of at, {size} bytes", flush=True)
        edit, _ = timed(program, "edit", ":memory:", big)
        check, _ = timed(program, "check", ":memory:", big)
        print(f"edit :memory: {edit:.2f} s, check :memory: {check:.2f} s, {check / edit:.2f} of edit", flush=True)


if __name__ == "__main__":
    main(sys.argv[1], *map(int, sys.argv[2:]))
