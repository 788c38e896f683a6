"""Questions in a sheet, as bench/country/country.py measures them beside a script of psql."""

import itertools
import sys
import time

from runs import Run

ASKED = 200_000
SIDES = "LRB"


def call_of(kind, words):
    """A question as the call of a prepared statement."""
    given = words.split()[2:]
    if kind in ("at", "translate"):
        route, method, position = given[:3]
        if method == "abs":
            return f"EXECUTE {kind}_abs('{route}', {position})"
        name, sign, distance = position.replace("+", " + ").replace("-", " - ").split()
        return f"EXECUTE {kind}_rel('{route}', '{name}', {sign}{distance})"
    if kind == "find":
        return f"EXECUTE find({given[0]})"
    if kind == "totals":
        return "EXECUTE totals"
    return f"EXECUTE {kind}('{given[0]}', {SIDES.index(given[1])}::smallint, '{{{','.join(given[2:])}}}')"


def record_of(key, words):
    """The record of a sheet of questions that asks what a command line does."""
    name, _, *given = words.split()
    if name == "strip":
        name, given = "segments", [*given[:2], " ".join(given[2:])]
    return ",".join([key, name, *given, "", "", ""][:6]) + "\n"


def lines_of(key, kind, it):
    """The lines of a sheet's answer to a question that was answered so over HTTP."""
    if kind == "at":
        at, link, mm, hits = it
        return [[key, "place", at, link, mm, len(hits)], *([key, "hit", *hit] for hit in hits)]
    if kind == "translate":
        return [[key, "position", it]]
    if kind == "find":
        return [[key, "found", len(it)], *([key, "row", *row] for row in it)]
    return [[key, "segments", len(it)], *([key, "segment", low, high, *values] for low, high, values in it)]


def shown(line):
    """A line of a sheet's answer with what lines_of has of it."""
    key, what, *rest = line.split(",")
    kept = {"place": [1, 2, 3, 5], "position": [2], "segments": [2]}.get(what, range(len(rest)))
    return [key, what, *(rest[n] for n in kept)]


def by_a_sheet(program, database, questions, answers, table):
    """The questions of the day as one sheet, with all answers compared; and so many for places, less the opening of the file."""
    sheet, header = database.parent / "questions.csv", "key,question,a,b,c,d\n"

    def asked(records):
        sheet.write_text(header + "".join(records))
        run = Run([program, "ask", database, sheet], database.parent / "replies")
        if run.status != 0:
            sys.exit(f"a sheet of questions: status {run.status}")
        return run

    day = [(f"q{n}", kind, words, answer) for n, ((kind, _, words), answer) in enumerate(zip(questions, answers)) if kind != "totals"]
    run = asked(record_of(key, words) for key, _, words, _ in day)
    expected = [list(map(str, line)) for key, kind, _, answer in day for line in lines_of(key, kind, answer)]
    found = [shown(line) for line in run.replies.decode().splitlines()]
    if sorted(expected) != sorted(found):
        sys.exit("a sheet of questions is answered otherwise than over HTTP")
    opening, places = asked([]), [words for kind, _, words in questions if kind == "at"]
    run = asked(record_of(f"q{n}", words) for n, words in zip(range(ASKED), itertools.cycle(places)))
    table.put(f"{ASKED:,} at of a sheet, a second", "roadlrs", ASKED / (run.clock - opening.clock), "/s", less=False)
    table.put(f"{ASKED:,} at of a sheet, of a processor", "roadlrs", run.processor - opening.processor)


def by_a_script(cluster, database, whose, prepared, questions, table):
    """So many questions for places by one script of psql, which writes the answers away."""
    calls = [call_of(kind, words) for kind, _, words in questions if kind == "at"]
    script = prepared + "\\o /dev/null\n" + "".join(f"{call};\n" for call in itertools.islice(itertools.cycle(calls), ASKED))
    started, before = time.monotonic(), cluster.processor()
    cluster.psql(database, script)
    table.put(f"{ASKED:,} at of a sheet, a second", whose, ASKED / (time.monotonic() - started), "/s", less=False)
    table.put(f"{ASKED:,} at of a sheet, of a processor", whose, cluster.processor() - before)
