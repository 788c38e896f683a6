"""docs/recipes/postgresql.md: what follow.py writes into PostgreSQL is at each moment one state of each inventory, whatever is killed,
and whatever edits come meanwhile; and its HAProxy before two inventories."""

import contextlib
import csv
import fractions
import hashlib
import http.client
import http.server
import importlib.util
import io
import json
import os
import random
import re
import select
import signal
import subprocess
import sys
import threading
import time

import pytest

from clusters import RECIPE, SOON, cluster
from documents import blocks
from program import FIRST, HEADER, TOP, ends, run, sheet_of
from proxies import HAPROXY, proxy, put
from serving import HOST, free_port, started

FOLLOW = RECIPE / "follow.py"
PAGE = TOP / "docs" / "recipes" / "postgresql.md"
KILLS = 20


@pytest.fixture(scope="module")
def postgres():
    with cluster() as found:
        yield found


# ---- what is asked and sent


def got(port, target, body=None, kind="text/csv"):
    connection = http.client.HTTPConnection(HOST, port, timeout=SOON)
    with contextlib.closing(connection):
        connection.request("GET" if body is None else "POST", target, body, {} if body is None else {"Content-Type": kind})
        reply = connection.getresponse()
        return reply.status, reply.read()


def asked(port, target):
    status, body = got(port, target)
    assert status == 200, (target, status, body)
    return json.loads(body)


def sent(port, *texts):
    """The replies to these records, which follow their keys."""
    status, body = got(port, "/v1/edits", sheet_of(*texts))
    assert status == 200, body
    return [line.partition(",")[2] for line in body.decode().splitlines()]


def log_of(port):
    status, body = got(port, "/v1/log")
    assert status == 200
    return body.decode().splitlines()[1:]


# ---- edits of all kinds

BASE = ["b1,class,SPEED,exclusive", "b2,class,RAIL,stretch", "b3,class,SIGN,point", "b4,class,LANES,exclusive"]


def commands(drawn, n, port):
    """One command, or two: most of them are accepted. All the numbers that they need anew are n."""
    names = [entry["name"] for entry in asked(port, "/v1/routes")["routes"]]
    new = [f"link,{n},10000", f"route,N{n},{n}:0:9000:+,0:0 4000:{n} 9000:{n + 7000}"]
    if len(names) < 3:
        return new
    name, other = drawn.sample(names, 2)
    known, (low, high) = asked(port, f"/v1/route/{name}"), sorted(drawn.sample(range(21), 2))
    length, marks = known["length"], known["marks"]
    asset = drawn.choice(asked(port, f"/v1/rows?route={name}")["rows"] or [{"asset": n, "class": "SPEED"}])
    kinds = {
        "new": (1, new),
        "class": (1, [f"class,C{n % 50},stretch"]),
        "ref": (3, [f"ref,KM{n},{name},int,{low}/20"]),
        "unref": (1, [f"unref,{drawn.choice(known['refs'] or [{'name': 'NONE'}])['name']}"]),
        "enter": (6, [f"enter,{n},{drawn.choice(['RAIL', 'SPEED'])},{name},{drawn.choice('LRB')},int,{low}/20,{high}/20,v{n},{n % 900}"]),
        "sign": (4, [f"enter,{n},SIGN,{name},{drawn.choice('LRB')},int,{low}/20,,STOP,0"]),
        "supersede": (3, [f"supersede,{n},{drawn.choice(['SPEED', 'LANES'])},{name},{drawn.choice('LRB')},int,{low}/20,{high}/20,v{n},0"]),
        "retire": (3, [f"retire,{asset['asset']},{name},int,0/1,{drawn.choice(['1/2', '1/1'])}"]),
        "split": (2, [f"split,{name},{drawn.choice(marks)[0]},S{n}"]),
        "join": (6 if len(names) > 8 else 1, [f"join,{name},{other}"]),
        "renumber": (2, [f"renumber,{name},R{n}"]),
        "recalibrate": (2, [f"recalibrate,{name},0:{n} {length // 3}:{n + 13} {length}:{n + length % 999 + 100}"]),
        "turn": (2, [f"turn,{name}"]),
        "realign": (2, [f"link,{n},500", f"realign,{name},{length // 4},{length // 2},{n}:0:500:-,0:0 {length - length // 2 + length // 4 + 500}:5000"]),
        "close": (2 if len(names) > 4 else 1, [f"close,{name}"]),
    }
    return drawn.choices([given for _, given in kinds.values()], [weight for weight, _ in kinds.values()])[0]


class Editor(threading.Thread):
    """Sends edits to an inventory until it is told to stop."""

    def __init__(self, port, seed):
        super().__init__(daemon=True)
        self.port, self.drawn, self.over, self.failed = port, random.Random(seed), threading.Event(), None
        assert sent(port, *BASE) == [f"done,{n}" for n in range(1, 5)]

    def run(self):
        n = 0
        try:
            while not self.over.is_set():
                n += 1
                since = time.monotonic()
                sent(self.port, *(f"k{n}-{part},{text}" for part, text in enumerate(commands(self.drawn, n, self.port))))
                # on a busy machine the loader is as slow as this
                self.over.wait(self.drawn.uniform(0, 5) * (time.monotonic() - since))
        except Exception as error:
            self.failed = error

    def stop(self):
        self.over.set()
        self.join(SOON)
        assert not self.is_alive() and self.failed is None, self.failed


# ---- the loader


def words_of(database, inventories, *options):
    return [sys.executable, str(FOLLOW), *options, database, *(f"{name}={url}" for name, url in inventories.items())]


def urls(**ports):
    return {name: f"http://{HOST}:{port}" for name, port in ports.items()}


def follow(postgres, database, inventories, *options, **environment):
    """What a run of the loader prints on standard error, and its status."""
    words = words_of(database, inventories, "--once", *options)
    done = subprocess.run(words, env={**postgres.environment, **environment}, capture_output=True, text=True, timeout=SOON)
    return done.stderr, done.returncode


@contextlib.contextmanager
def following(postgres, database, inventories):
    """A loader that goes on until it is killed."""
    words = words_of(database, inventories, "--every", "0.02")
    child = subprocess.Popen(words, env=postgres.environment, stdout=subprocess.PIPE, stderr=subprocess.PIPE, bufsize=0)
    try:
        yield child
    finally:
        child.send_signal(signal.SIGKILL)
        child.communicate(timeout=SOON)


# ---- what PostgreSQL has, and what it ought to have

# each list of the program, with its members, and the same of PostgreSQL
LISTS = {
    "rows": (
        "route from to from_measure to_measure side asset class value offset entry",
        "route, from_mm, to_mm, from_measure, to_measure, side, asset, class, value, offset_mm, entry FROM roadlrs.rows",
    ),
    "routes": ("name length", "route, length FROM roadlrs.routes"),
    "links": ("link length", "link, length FROM roadlrs.links"),
    "classes": ("class kind", "class, kind FROM roadlrs.classes"),
    "refs": ("ref route chainage measure", "referent, route, chainage, measure FROM roadlrs.referents"),
    "marks": ("route chainage measure", "route, chainage, measure FROM roadlrs.marks"),
}
PIECES = "SELECT sum(to_mm - from_mm) FROM roadlrs.pieces WHERE (inventory, route) = (routes.inventory, routes.route)"
WRONG_PIECES = f"SELECT count(*) FROM roadlrs.routes WHERE length IS DISTINCT FROM ({PIECES})"


def snapshot(postgres, database, name):
    """How many edits PostgreSQL has of an inventory, their sum, and its lists."""
    script = f"BEGIN ISOLATION LEVEL REPEATABLE READ;\nSELECT edits, sum FROM roadlrs.followed WHERE inventory = '{name}';\n"
    for _, columns in LISTS.values():
        script += f"\\echo --\nCOPY (SELECT {columns} WHERE inventory = '{name}') TO STDOUT (FORMAT csv);\n"
    found, *lists = postgres.sql(f"{script}\\echo --\n{WRONG_PIECES};\nCOMMIT;\n", database).split("--\n")
    edits, total = found.strip().split("|") if found.strip() else ("0", "0" * 64)
    assert lists.pop() == "0\n"
    return int(edits), total, [sorted(text.splitlines()) for text in lists]


def lists_of(port):
    """The same lists, of a program."""
    found = []
    for name, (members, _) in LISTS.items():
        entries = asked(port, f"/v1/{name}")[name]
        found.append(sorted(",".join(str(entry[member]) for member in members.split()) for entry in entries))
    return found


def printed_rows(path):
    """The rows of a file, as a command prints them."""
    ended = run("rows", str(path), "--exact")
    assert (ended.stderr, ended.status) == (b"", 0)
    return sorted(ended.stdout.decode().splitlines()[1:])


def sums_of(log):
    """The sum up to each edit."""
    total = "0" * 64
    yield total
    for number, line in enumerate(log, 1):
        total = hashlib.sha256(f"{total},{number},{line}\n".encode("ascii")).hexdigest()
        yield total


def are_states(snapshots, log):
    """Each snapshot is the state that the first edits of the log make, so many as it says."""
    done, totals = 0, list(sums_of(log))
    with started() as server:
        for edits, total, lists in sorted(snapshots, key=lambda it: it[0]):
            for first in range(done, edits, 5_000):
                body = "".join(line + "\n" for line in log[first : min(first + 5_000, edits)]).encode()
                assert got(server.port, "/v1/edits", HEADER + body)[0] == 200
            done = edits
            assert (total, asked(server.port, "/health")) == (totals[edits], {"edits": edits})
            for name, found, expected in zip(LISTS, lists, lists_of(server.port)):
                assert found == expected, (edits, name, sorted(set(found) ^ set(expected))[:10])


def pieces_of(postgres, database, name):
    """The pieces of each route, as a sheet would have them."""
    piece = "string_agg(concat_ws(':', link, from_mm, to_mm, direction), ' ' ORDER BY start)"
    printed = postgres.sql(f"SELECT route, {piece} FROM roadlrs.pieces WHERE inventory = '{name}' GROUP BY route", database)
    return dict(line.split("|") for line in printed.splitlines())


# ---- the tests


def test_all_that_is_committed_is_a_state_whenever_the_loader_is_killed(postgres, tmp_path):
    """Two inventories are edited all the time; the loader is killed and started again. What PostgreSQL has is looked at after each kill."""
    database, drawn, snapshots = postgres.fresh("killed"), random.Random(), {"north": [], "south": []}
    with started(db=tmp_path / "north.db") as north, started(db=tmp_path / "south.db") as south:
        inventories = urls(north=north.port, south=south.port)
        editors = [Editor(north.port, 1), Editor(south.port, 2)]
        for editor in editors:
            editor.start()
        for _ in range(KILLS):
            with following(postgres, database, inventories) as child:
                commits = drawn.randrange(3)
                for _ in range(commits):
                    assert select.select([child.stdout], [], [], SOON)[0] and child.stdout.readline()
                time.sleep(drawn.uniform(0, 0.1 if commits else 0.4))
            for name, seen in snapshots.items():
                seen.append(snapshot(postgres, database, name))
        verbs, until = set(loader().VERBS), time.monotonic() + SOON
        while any({line.split(",")[1] for line in log_of(server.port)} != verbs for server in (north, south)):
            assert time.monotonic() < until, "each verb is done"
            time.sleep(0.1)
        for editor in editors:
            editor.stop()
        assert follow(postgres, database, inventories) == ("", 0)
        # the loader got on between two kills
        assert sum(len({edits for edits, _, _ in seen}) for seen in snapshots.values()) >= 8
        for name, server in [("north", north), ("south", south)]:
            seen, log = snapshots[name], log_of(server.port)
            last = snapshot(postgres, database, name)
            assert last[0] == len(log)
            are_states([*seen, last], log)
            routes = [asked(server.port, f"/v1/route/{entry['name']}") for entry in asked(server.port, "/v1/routes")["routes"]]
            assert pieces_of(postgres, database, name) == {route["name"]: " ".join(route["pieces"]) for route in routes}
            server.stop()
            # every row, once more, with those of the inventory's own file
            assert last[2][0] == printed_rows(tmp_path / f"{name}.db") != []
    numbers_and_view(postgres, database)
    examples_of_the_page(postgres, database)


def numbers_and_view(postgres, database):
    """The measures as numbers are those of the fractions, and each row is in the view."""
    printed = postgres.sql("COPY (SELECT from_measure, from_number, to_measure, to_number FROM roadlrs.rows) TO STDOUT (FORMAT csv)", database)
    for a, b, c, d in csv.reader(io.StringIO(printed)):
        for exact, number in [(a, b), (c, d)]:
            assert abs(fractions.Fraction(exact) - fractions.Fraction(number)) < fractions.Fraction(1, 10**9)
    assert "/" in printed
    assert postgres.sql("SELECT (SELECT count(*) FROM roadlrs.rows) = (SELECT count(*) FROM roadlrs.stretches)", database) == "t\n"


def examples_of_the_page(postgres, database):
    """Each statement that the page shows is done."""
    shown = statements_of_the_page()
    assert len(shown) > 2
    for text in shown:
        postgres.sql(f"BEGIN;\n{text}\nROLLBACK;\n", database)


def statements_of_the_page():
    return [text for language, text in blocks(PAGE) if language == "sql"]


def loader():
    """The loader as a module."""
    spec = importlib.util.spec_from_file_location("follow", FOLLOW)
    module = importlib.util.module_from_spec(spec)
    spec.loader.exec_module(module)
    return module


class Between(http.server.ThreadingHTTPServer):
    """Stands before a program, as a proxy would, and is told of each question before it is asked. The log may be changed on its way."""

    def __init__(self, port, before=lambda target: None, log=lambda body: body):
        super().__init__((HOST, 0), Handed)
        self.program, self.before, self.log, self.asked = port, before, log, []

    def url(self):
        return f"http://{HOST}:{self.server_port}"

    def __enter__(self):
        threading.Thread(target=self.serve_forever, daemon=True).start()
        return super().__enter__()

    def __exit__(self, *args):
        self.shutdown()
        super().__exit__(*args)


class Handed(http.server.BaseHTTPRequestHandler):
    def do_GET(self):
        self.server.asked.append(self.path)
        self.server.before(self.path)
        status, body = got(self.server.program, self.path)
        body = self.server.log(body) if self.path.startswith("/v1/log") else body
        self.send_response(status)
        self.send_header("Content-Length", str(len(body)))
        self.end_headers()
        self.wfile.write(body)

    def log_message(self, *_):
        pass


def edited(port, count, seed=3):
    """Edits of many kinds, so many."""
    drawn = random.Random(seed)
    first = len(log_of(port))
    for n in range(first, first + count):
        sent(port, *(f"e{n}-{part},{text}" for part, text in enumerate(commands(drawn, n + 1, port))))


@pytest.fixture
def inventory():
    """A program with a hundred edits and more."""
    with started() as server:
        sent(server.port, *BASE)
        edited(server.port, 100)
        yield server


def held(port):
    """What an inventory has: the rows of each route, the length, pieces and marks of each, its referents, links and classes."""
    rows, names = {}, [entry["name"] for entry in asked(port, "/v1/routes")["routes"]]
    for row in asked(port, "/v1/rows")["rows"]:
        rows.setdefault(row["route"], []).append(row)
    routes = {name: [asked(port, f"/v1/route/{name}")[member] for member in ("length", "pieces", "marks")] for name in names}
    links = {entry["link"]: entry["length"] for entry in asked(port, "/v1/links")["links"]}
    classes = {entry["class"]: entry["kind"] for entry in asked(port, "/v1/classes")["classes"]}
    return rows, routes, asked(port, "/v1/refs"), links, classes


def changed(before, after):
    return {name for name in before.keys() | after.keys() if before.get(name) != after.get(name)}


def test_an_edit_changes_nothing_but_what_is_asked_about_again():
    """Of each verb alone: whose rows and routes it changes, whether referents are others, and which links and classes are new."""
    module, drawn, seen = loader(), random.Random(5), set()
    with started() as server:
        sent(server.port, *BASE)
        before = held(server.port)
        for n in range(1, 150):
            for part, text in enumerate(commands(drawn, n, server.port)):
                (reply,) = sent(server.port, f"t{n}-{part},{text}")
                if not reply.startswith("done,"):
                    continue
                seen.add(text.split(",")[0])
                (record,) = got(server.port, f"/v1/log?from={reply[5:]}")[1].decode().splitlines()[1:]
                touched, after = module.Touched([record]), held(server.port)
                assert changed(before[0], after[0]) <= touched.rows, record
                assert changed(before[1], after[1]) <= touched.routes, record
                assert before[2] == after[2] or touched.referents, record
                assert ({**before[3], **touched.links}, {**before[4], **touched.classes}) == after[3:], record
                assert not touched.everything
                before = after
    assert seen | {"class"} == set(module.VERBS)


def test_edits_that_come_between_two_questions(postgres, inventory):
    """One before each of the first questions: what is committed has all the edits up to the last one, or none of them."""
    database, left, known = postgres.fresh("between"), [0], len(log_of(inventory.port))

    def before(target):
        if left[0]:
            left[0] -= 1
            edited(inventory.port, 1, seed=left[0])

    with Between(inventory.port, before) as between:
        seen = []
        for times in [40, 20, 1, 2, 3, 0]:
            left[0] = times
            edited(inventory.port, 2, seed=times + 100)
            assert follow(postgres, database, {"north": between.url()}) == ("", 0)
            seen.append(snapshot(postgres, database, "north"))
        log = log_of(inventory.port)
        assert seen[0][0] > known + 10 and seen[-1][0] == len(log)
        are_states(seen, log)


def test_what_psql_got_in_part_changes_nothing(postgres, inventory, tmp_path):
    """psql loses what follows the first bytes, as where the loader is killed."""
    database, url = postgres.fresh("parts"), {"north": f"http://{HOST}:{inventory.port}"}
    assert follow(postgres, database, url) == ("", 0)
    before = snapshot(postgres, database, "north")
    edited(inventory.port, 30)
    real = postgres.environment["PATH"].split(":")[0]
    tools = tmp_path / "tools"
    tools.mkdir()
    # the whole is kept beside it, to know how long it is
    (tools / "psql").write_text(f'#!/bin/sh\ncase "$*" in *" -c "*) exec {real}/psql "$@";; esac\ntee {tmp_path}/whole | head -c "$MOST" | {real}/psql "$@"\n')
    (tools / "psql").chmod(0o755)
    settings = {"PATH": f"{tools}:{postgres.environment['PATH']}", "MOST": "10"}
    assert follow(postgres, database, url, **settings)[1] == 3
    assert snapshot(postgres, database, "north") == before
    whole, drawn = (tmp_path / "whole").read_bytes(), random.Random()
    body, end, _ = whole.rpartition(b"COMMIT;\n")
    assert len(body) > 1_000 and end
    for most in [*(drawn.randrange(len(body)) for _ in range(5)), len(body), len(body) + 5]:
        assert follow(postgres, database, url, **{**settings, "MOST": str(most)})[1] == 3
        assert snapshot(postgres, database, "north") == before, most
    # what comes behind is told as a fault, and all is there
    assert follow(postgres, database, url, **{**settings, "MOST": str(len(body + end) + 3)})[1] == 3
    after = snapshot(postgres, database, "north")
    assert after != before and follow(postgres, database, url) == ("", 0) and snapshot(postgres, database, "north") == after
    are_states([before, after], log_of(inventory.port))


def test_what_does_not_answer_is_told_and_tried_again(postgres, inventory, tmp_path):
    """Neither changes anything: no program, another server's path, no PostgreSQL, no psql."""
    database, url = postgres.fresh("silent"), urls(north=inventory.port)
    for name, given, environment in [
        ("Inventory", (database, urls(north=free_port())), {}),
        ("Inventory", (database, {"north": f"{url['north']}/east"}), {}),
        ("Database", (database.replace("dbname=", "dbname=no"), url), {}),
        ("Database", (database, url), {"PATH": str(tmp_path)}),
    ]:
        said, status = follow(postgres, *given, **environment)
        assert status == 3 and said.startswith(f"follow: north: fault {name}: ") and said.count("\n") == 1, said
    assert snapshot(postgres, database, "north")[0] == 0
    assert follow(postgres, database, url) == ("", 0)


@contextlib.contextmanager
def inventory_of(records):
    """A program that has done these records."""
    with started() as server:
        status, body = got(server.port, "/v1/edits", HEADER + "".join(record + "\n" for record in records).encode())
        assert status == 200 and body.count(b",done,") == len(records), body
        yield server


def test_an_inventory_that_is_another_one(postgres, inventory):
    """It has fewer edits, or others: nothing of it is changed, and the one beside it is followed on."""
    database, log = postgres.fresh("others"), log_of(inventory.port)
    others = [f"z{n},class,Z{n},point,,,,,,," for n in range(3)]
    with started() as south:
        assert follow(postgres, database, urls(north=inventory.port, south=south.port)) == ("", 0)
        before = snapshot(postgres, database, "north")
        assert before[0] == len(log) > 100
        for known, (fault, records, *options) in enumerate(
            [
                ("Shorter", log[:-1]),
                ("Shorter", [], "--quick"),
                # another key, and the same state
                ("Other", ["z" + log[0], *log[1:]]),
                ("Other", [*log[:-1], *others[:1]]),
                ("Other", [*log[:-1], *others], "--quick"),
            ]
        ):
            sent(south.port, f"s{known},class,C{known},point")
            with inventory_of(records) as north:
                said, status = follow(postgres, database, urls(north=north.port, south=south.port), *options)
            assert status == 3 and said.startswith(f"follow: north: fault {fault}: ") and said.count("\n") == 1, (fault, said)
            assert snapshot(postgres, database, "north") == before
            assert snapshot(postgres, database, "south")[0] == known + 1


def test_a_loader_finds_an_inventory_that_was_put_back_while_it_runs(postgres, inventory):
    """Its port has another program for a while: the loader goes on as long as that has the same log, and ends where it has not."""
    database, log = postgres.fresh("back"), log_of(inventory.port)
    port = free_port()
    with contextlib.ExitStack() as programs, following(postgres, database, urls(north=port)) as child:
        for records, more in [(log, 5), (None, 0), (log[:-1], 0)]:
            programs.close()
            if records is None:
                time.sleep(0.3)
                continue
            server = programs.enter_context(started(port=port))
            body = HEADER + "".join(record + "\n" for record in records).encode()
            assert got(port, "/v1/edits", body)[0] == 200
            edited(port, more)
            if more:
                until = time.monotonic() + SOON
                while snapshot(postgres, database, "north")[0] < len(log_of(server.port)):
                    assert time.monotonic() < until
                    time.sleep(0.05)
                before = snapshot(postgres, database, "north")
        _, said = child.communicate(timeout=SOON)
        assert child.returncode == 3 and b"fault Inventory" in said and said.splitlines()[-1].startswith(b"follow: north: fault Shorter: "), said
    assert snapshot(postgres, database, "north") == before


def test_two_loaders_of_one_inventory_do_not_mix(postgres, inventory):
    database, url = postgres.fresh("two"), urls(north=inventory.port)
    with following(postgres, database, url), following(postgres, database, url):
        edited(inventory.port, 60)
    assert follow(postgres, database, url) == ("", 0)
    are_states([snapshot(postgres, database, "north")], log_of(inventory.port))


def test_after_a_verb_that_it_does_not_know_it_asks_for_all(postgres, inventory):
    """Here the log tells of each edit behind the first ones by such a verb."""
    database, known = postgres.fresh("verbs"), len(log_of(inventory.port))
    url = urls(north=inventory.port)
    assert follow(postgres, database, url) == ("", 0)
    edited(inventory.port, 30)

    def told(body):
        return re.sub(rb"^(e(\d+)-\d),\w+,", lambda found: found[1] + b",shift," if int(found[2]) >= known else found[0], body, flags=re.M)

    with Between(inventory.port, log=told) as between:
        assert follow(postgres, database, {"north": between.url()}, "--quick") == ("", 0)
        rows = [path for path in between.asked if path.startswith("/v1/rows")]
        assert len(rows) == len(asked(inventory.port, "/v1/routes")["routes"])
    edits, _, lists = snapshot(postgres, database, "north")
    assert edits == len(log_of(inventory.port)) > known
    assert lists == lists_of(inventory.port)


# ---- HAProxy before two inventories


def by_path(folder, **ports):
    """HAProxy with the lines of the page: only ports and folders are those of a test."""
    (lines,) = [text for language, text in blocks(PAGE) if language == "haproxy"]
    port, settings = free_port(), folder / "haproxy.cfg"
    lines = put(lines, "bind :80\n", f"bind {HOST}:{port}\n")
    lines = put(lines, "/srv/roads/page/", f"{folder}/")
    lines = put(lines, "    user haproxy\n    group haproxy\n", "")
    lines = put(lines, "inter 5s fastinter 1s", "inter 1s fastinter 300ms")
    for name, known in [("reader", "8090"), ("north", "8080"), ("south", "8081")]:
        lines = re.sub(rf"\b127\.0\.0\.1:{known}\b", f"{HOST}:{ports[name]}", lines)
    settings.write_text(lines)
    return proxy([HAPROXY, "-f", str(settings)], port)


def test_two_inventories_by_path(postgres, tmp_path):
    """Each path leads to its inventory; sheets of one that has a reader go to the program that takes them, and questions to the reader."""
    database = postgres.fresh("paths")
    (tmp_path / "index.html").write_text("<p>\n")
    with started() as north, started() as reader, started() as south, contextlib.ExitStack() as last:
        port = last.enter_context(by_path(tmp_path, north=north.port, reader=reader.port, south=south.port))
        assert got(port, "/north/v1/edits", FIRST)[1].count(b",done,") == 7
        assert got(port, "/south/v1/surveys", b"key,asset,class,route,side,method,from,to,value,offset\n") == (200, b"")
        assert got(port, "/south/v1/edits", sheet_of("s1,link,7,70")) == (200, b"s1,done,1\n")
        # nobody has told the reader yet
        assert [asked(each.port, "/health")["edits"] for each in (north, reader, south)] == [7, 0, 1]
        assert asked(port, "/north/health") == {"edits": 0} and asked(port, "/south/health") == {"edits": 1}
        assert got(reader.port, "/v1/edits", got(north.port, "/v1/log")[1])[0] == 200
        for target in ["/v1/routes", "/v1/log?from=3", "/v1/route/A1", "/v1/at?route=A1&method=abs&pos=3000", "/v1/find?asset=9"]:
            assert got(port, f"/north{target}") == got(north.port, target), target
            assert got(port, f"/south{target}") == got(south.port, target), target
        questions = b"key,question,a,b,c,d\nq1,at,A1,abs,3000,\n"
        assert got(port, "/north/v1/questions", questions) == got(reader.port, "/v1/questions", questions)
        for target in ["/", "/v1/routes", "/east/v1/routes", "/north", "/north/roads.db", "/none/v1/routes", "/north-sheets/v1/routes"]:
            assert got(port, target)[0] == 404, target
        for name in ["north", "south"]:
            assert got(port, f"/{name}/") == (200, b"<p>\n")
            assert got(port, f"/{name}/v1/edits", FIRST, kind="text/plain")[0] == 415
        # PostgreSQL follows an inventory that has one program by its path, for a user that may not do more than that
        postgres.sql(next(text for text in statements_of_the_page() if "GRANT" in text), database)
        assert follow(postgres, put(database, "user=roads", "user=follower"), {"south": f"http://{HOST}:{port}/south"}) == ("", 0)
        assert snapshot(postgres, database, "south")[2] == lists_of(south.port)
        # without the reader, its inventory's only program answers
        reader.stop()
        assert got(port, "/north/v1/edits", sheet_of("s8,class,LAST,point")) == (200, b"s8,done,8\n")
        assert asked(port, "/north/health") == {"edits": 8}
