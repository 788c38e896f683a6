"""What the opening of a file costs: a question and an audit by each program, in turn, at growing sizes.

    python3 bench/opening.py PROGRAM.. [--assets N,N,..] [--runs N]

Makes inventories of 10,000, 100,000 and 1,000,000 assets (or of so many) on 1,000 routes by the first program, as
bench/reports.py does, and has each program answer `at`, `totals` and `audit`. A line has the least of the runs: seconds of the processor,
and the most memory; and where valgrind is there and the file is small, the instructions of one `at`."""

import argparse
import os
import pathlib
import re
import shutil
import subprocess
import sys
import tempfile

sys.path.insert(0, str(pathlib.Path(__file__).resolve().parent))

from reports import sheet

JOBS = [["at", "DB", "R1", "abs", "5"], ["totals", "DB"], ["audit", "DB"]]


def spent(words):
    """The processor seconds of a run, and the most megabytes that it held."""
    child = subprocess.Popen(words, stdout=subprocess.DEVNULL)
    _, status, used = os.wait4(child.pid, 0)
    if os.waitstatus_to_exitcode(status) != 0:
        sys.exit(f"{words} ended with {status}")
    return used.ru_utime + used.ru_stime, used.ru_maxrss / 1000


def instructions(words):
    done = subprocess.run(["valgrind", "--tool=callgrind", "--callgrind-out-file=/dev/null", *words], stdout=subprocess.DEVNULL, stderr=subprocess.PIPE, text=True, check=True)
    return int(re.search(r"Collected : (\d+)", done.stderr)[1])


def main():
    reader = argparse.ArgumentParser(description=__doc__.splitlines()[0])
    reader.add_argument("programs", nargs="+")
    reader.add_argument("--assets", default="10000,100000,1000000")
    reader.add_argument("--runs", type=int, default=3)
    given = reader.parse_args()
    for assets in map(int, given.assets.split(",")):
        with tempfile.TemporaryDirectory() as folder:
            db, big = f"{folder}/big.db", f"{folder}/big.csv"
            with open(big, "w") as out:
                out.writelines(sheet(assets, min(1_000, assets // 10)))
            subprocess.run([given.programs[0], "edit", db, big], stdout=subprocess.DEVNULL, check=True)
            print(f"{assets:,} assets, {os.stat(db).st_size / 1e6:.1f} MB", flush=True)
            for job in JOBS:
                found = {program: [] for program in given.programs}
                for _ in range(given.runs):
                    for program in given.programs:
                        found[program].append(spent([program, *(db if word == "DB" else word for word in job)]))
                for program, runs in found.items():
                    seconds, memory = min(runs)[0], min(run[1] for run in runs)
                    print(f"  {job[0]:<8}{program:<40}{seconds:>9.2f} s{memory:>9.0f} MB", flush=True)
            if assets <= 10_000 and shutil.which("valgrind"):
                for program in given.programs:
                    count = instructions([program, "at", db, "R1", "abs", "5"])
                    print(f"  at      {program:<40}{count / 1e6:>9.1f} million instructions", flush=True)


if __name__ == "__main__":
    main()
