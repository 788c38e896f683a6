"""What bench/country/country.py measures of a country that it wrote: the program, PostgreSQL and PostGIS, in one table.

The program is the one that ROADLRS names. It fails if a record of links.csv, routes.csv or the assets is refused, if fewer than 95 in
100 of the route edits are done, if PostgreSQL answers a question of the day otherwise, after the loading and before any route edit, and
if its totals are others after the single edits. The table is printed also then, with what was measured so far.

HTTP is asked by a client in Python, over one connection, or a new one for each request where the server closes it; PostgreSQL by psql over
one connection, with prepared statements, timed by psql itself. PostgreSQL is loaded by COPY, with keys and indexes after it, and tests
nothing but these; its totals are sums over the ledgers, and its `join` does not make one of two rows of an asset at the seam. In PostGIS
each route is a line with measures, and each asset a point or a line that was located on it, with an index in space. A single edit is
sent once the one before it is answered, so that each is a transaction of its own; the sheet of edits has up to 256 in one.
"""

import datetime
import itertools
import json
import os
import pathlib
import shutil
import signal
import socket
import subprocess
import sys
import tempfile
import time

from asked import by_a_script, by_a_sheet, call_of
from files import BUILT, HEADER, Postgres, sync_of
from runs import Run, of_process
from table import Table, put_latencies

LOADED, MIXED = ("links.csv", "routes.csv", "assets.csv"), ("links.csv", "routes.csv", "assets-mixed.csv")
SINGLE = 100
SIDES = "LRB"
SETTINGS = {"shared_buffers": "512MB", "maintenance_work_mem": "256MB", "max_wal_size": "4GB", "max_parallel_workers_per_gather": "0", "max_parallel_maintenance_workers": "0"}
TABLES = {
    "link": "number bigint, length bigint",
    "class": "name text, kind smallint",
    "asset": "number bigint, class text, value text, away integer",
    "piece": "route text, n integer, link bigint, a bigint, b bigint, dir smallint, start bigint",
    "mark": "route text, n integer, chainage bigint, measure bigint",
    "ref": "name text, route text, place bigint",
    "span": "asset bigint, route text, lo bigint, hi bigint, side smallint",
    "entered": "edit bigint, asset bigint, link bigint, lo bigint, hi bigint, side smallint",
    "edit": "number bigint, token text, line text",
    "origin": "asset bigint, edit bigint",
}
KEYS = """
CREATE TABLE gone (edit bigint, cause smallint, asset bigint, link bigint, lo bigint, hi bigint, side smallint, PRIMARY KEY (edit, cause, asset, link, lo, side));
ALTER TABLE link ADD PRIMARY KEY (number);
ALTER TABLE class ADD PRIMARY KEY (name);
ALTER TABLE asset ADD PRIMARY KEY (number);
ALTER TABLE piece ADD PRIMARY KEY (route, n);
ALTER TABLE mark ADD PRIMARY KEY (route, n);
ALTER TABLE ref ADD PRIMARY KEY (name);
ALTER TABLE span ADD PRIMARY KEY (asset, route, lo);
CREATE INDEX span_place ON span (route, lo);
CREATE INDEX ref_route ON ref (route);
ALTER TABLE entered ADD PRIMARY KEY (edit, asset, link, lo, side);
ALTER TABLE edit ADD PRIMARY KEY (number), ADD UNIQUE (token);
ALTER TABLE origin ADD PRIMARY KEY (asset);
ANALYZE;
"""
BY_MEASURE = """
b AS (SELECT chainage c, measure m, lead(chainage) OVER w d, lead(measure) OVER w n, max(chainage) OVER () - 1 AS top FROM mark WHERE route = $1 WINDOW w AS (ORDER BY n)),
p AS (SELECT least(c + ($2 - m) * (d - c) / (n - m), top) AS mm, c * (n - m) + ($2 - m) * (d - c) AS over, n - m AS under FROM b WHERE m <= $2 AND $2 <= n ORDER BY m LIMIT 1)"""
BY_REFERENT = "p AS (SELECT place + $3 AS mm, place + $3 AS over, 1::bigint AS under FROM ref WHERE name = $2 AND route = $1)"
ON_LINK = "i.link, CASE i.dir WHEN 0 THEN i.a + p.mm - i.start ELSE i.b - 1 - (p.mm - i.start) END"
PIECE = "JOIN piece i ON i.route = $1 AND i.start <= p.mm AND i.start + i.b - i.a > p.mm"
HITS = """SELECT p.mm, {on_link}, s.asset, s.class, s.side, s.away, s.value, s.edit FROM p {piece} LEFT JOIN LATERAL (
  SELECT s.asset, a.class, s.side, a.away, a.value, o.edit FROM span s JOIN asset a ON a.number = s.asset JOIN origin o ON o.asset = s.asset
  WHERE s.route = $1 AND s.lo <= p.mm AND s.hi > p.mm) s ON true ORDER BY s.asset""".format(on_link=ON_LINK, piece=PIECE)
EXACT = f"""SELECT i.link, x.over / gcd(x.over, p.under) || CASE WHEN p.under = gcd(x.over, p.under) THEN '' ELSE '/' || p.under / gcd(x.over, p.under) END FROM p {PIECE}
  CROSS JOIN LATERAL (SELECT CASE i.dir WHEN 0 THEN (i.a - i.start) * p.under + p.over ELSE (i.b + i.start) * p.under - p.over END AS over) x"""
SEGMENTS = """
WITH s AS MATERIALIZED (SELECT lo, hi, class, value FROM span JOIN asset ON number = asset WHERE route = $1 AND side IN ($2, 2) AND class = ANY($3)),
q AS (SELECT 0::bigint AS p UNION SELECT lo FROM s UNION SELECT hi FROM s UNION (SELECT chainage FROM mark WHERE route = $1 ORDER BY n DESC LIMIT 1)),
z AS (SELECT p AS a, lead(p) OVER (ORDER BY p) AS b FROM q)
SELECT z.a, z.b, {values} FROM z {joins} WHERE z.b IS NOT NULL ORDER BY z.a"""
TOTALS = """
SELECT c.name, coalesce(e.n, 0), coalesce(r.n, 0), coalesce(g.n, 0), coalesce(e.n, 0) - coalesce(r.n, 0) - coalesce(g.n, 0) FROM class c
LEFT JOIN (SELECT class, sum(hi - lo) AS n FROM entered JOIN asset ON number = asset GROUP BY class) e ON e.class = c.name
LEFT JOIN (SELECT class, sum(hi - lo) AS n FROM gone JOIN asset ON number = asset WHERE cause = 0 GROUP BY class) r ON r.class = c.name
LEFT JOIN (SELECT class, sum(hi - lo) AS n FROM gone JOIN asset ON number = asset WHERE cause = 1 GROUP BY class) g ON g.class = c.name ORDER BY c.name COLLATE "C"
"""


def segments_of(many):
    values = ", ".join(f"coalesce(s{n}.value, '-')" for n in range(1, many + 1))
    return SEGMENTS.format(values=values, joins=" ".join(f"LEFT JOIN s s{n} ON s{n}.class = $3[{n}] AND s{n}.lo <= z.a AND s{n}.hi > z.a" for n in range(1, many + 1)))


PREPARED = f"""
PREPARE at_abs (text, bigint) AS WITH {BY_MEASURE} {HITS};
PREPARE at_rel (text, text, bigint) AS WITH {BY_REFERENT} {HITS};
PREPARE translate_abs (text, bigint) AS WITH {BY_MEASURE} {EXACT};
PREPARE translate_rel (text, text, bigint) AS WITH {BY_REFERENT} {EXACT};
PREPARE find (bigint) AS SELECT route, lo, hi, side FROM span WHERE asset = $1 ORDER BY route COLLATE "C", lo;
PREPARE segments (text, smallint, text[]) AS {segments_of(1)};
PREPARE strip (text, smallint, text[]) AS {segments_of(4)};
PREPARE totals AS {TOTALS};
"""
CHANGES = """
CREATE FUNCTION note(key text, line text) RETURNS bigint LANGUAGE sql AS $$ INSERT INTO edit VALUES ((SELECT max(number) + 1 FROM edit), $1, $2) RETURNING number $$;
CREATE FUNCTION renumber(key text, old text, new text) RETURNS bigint LANGUAGE plpgsql AS $$ BEGIN
  UPDATE piece SET route = new WHERE route = old;
  UPDATE mark SET route = new WHERE route = old;
  UPDATE ref SET route = new WHERE route = old;
  UPDATE span SET route = new WHERE route = old;
  RETURN note(key, 'renumber,' || old || ',' || new);
END $$;
CREATE FUNCTION joined(key text, one text, two text) RETURNS bigint LANGUAGE plpgsql AS $$
DECLARE many integer; marks integer; along bigint; more bigint; BEGIN
  SELECT count(*) INTO many FROM piece WHERE route = one;
  SELECT n, chainage, measure INTO marks, along, more FROM mark WHERE route = one ORDER BY n DESC LIMIT 1;
  SELECT more - measure INTO more FROM mark WHERE route = two AND n = 0;
  DELETE FROM mark WHERE route = two AND n = 0;
  UPDATE mark SET route = one, n = n + marks, chainage = chainage + along, measure = measure + more WHERE route = two;
  UPDATE piece SET route = one, n = n + many, start = start + along WHERE route = two;
  UPDATE ref SET route = one, place = place + along WHERE route = two;
  UPDATE span SET route = one, lo = lo + along, hi = hi + along WHERE route = two;
  RETURN note(key, 'join,' || one || ',' || two);
END $$;
CREATE FUNCTION closed(key text, old text) RETURNS bigint LANGUAGE plpgsql AS $$ DECLARE me bigint; BEGIN
  me := note(key, 'close,' || old);
  INSERT INTO gone SELECT me, 1, s.asset, p.link, CASE p.dir WHEN 0 THEN p.a + f - p.start ELSE p.b - (t - p.start) END, CASE p.dir WHEN 0 THEN p.a + t - p.start ELSE p.b - (f - p.start) END,
    CASE p.dir WHEN 0 THEN e ELSE 1 - e END
    FROM span s JOIN piece p ON p.route = old AND p.start < s.hi AND p.start + p.b - p.a > s.lo CROSS JOIN LATERAL (SELECT greatest(s.lo, p.start) f, least(s.hi, p.start + p.b - p.a) t) x
    JOIN (VALUES (0), (1)) sides (e) ON s.side IN (e, 2) WHERE s.route = old;
  DELETE FROM span WHERE route = old;
  DELETE FROM piece WHERE route = old;
  DELETE FROM mark WHERE route = old;
  DELETE FROM ref WHERE route = old;
  RETURN me;
END $$;
"""
ROADS = """
CREATE EXTENSION postgis;
CREATE TABLE road (name text, length bigint, line geometry);
CREATE TABLE ref (name text, route text, place bigint);
CREATE UNLOGGED TABLE raw_asset (number bigint, class text, value text, away integer);
CREATE UNLOGGED TABLE raw_span (asset bigint, route text, lo bigint, hi bigint, side smallint);
"""
LOCATED = """
ALTER TABLE road ADD PRIMARY KEY (name);
ALTER TABLE ref ADD PRIMARY KEY (name);
CREATE TABLE thing AS SELECT a.number, a.class, a.value, a.away, s.side, s.route, s.lo, s.hi,
  CASE WHEN s.hi - s.lo = 1 THEN ST_LineInterpolatePoint(r.line, s.lo::float8 / r.length) ELSE ST_LineSubstring(r.line, s.lo::float8 / r.length, s.hi::float8 / r.length) END AS shape
  FROM raw_span s JOIN raw_asset a ON a.number = s.asset JOIN road r ON r.name = s.route;
DROP TABLE raw_span, raw_asset;
ALTER TABLE thing ADD PRIMARY KEY (number);
CREATE INDEX thing_shape ON thing USING gist (shape);
ANALYZE;
"""
NEAR = "SELECT t.number, t.class, t.side, t.away, t.value FROM p JOIN thing t ON ST_DWithin(t.shape, p.g, 0.0005) AND t.route = $1 ORDER BY t.number"
ON_MAP = f"""
PREPARE at_abs (text, float8) AS WITH p AS MATERIALIZED (SELECT ST_LocateAlong(line, $2) AS g FROM road WHERE name = $1) {NEAR};
PREPARE at_rel (text, text, bigint) AS WITH p AS MATERIALIZED (SELECT ST_LineInterpolatePoint(line, (place + $3)::float8 / length) AS g FROM road JOIN ref ON route = $1 AND ref.name = $2 WHERE road.name = $1) {NEAR};
"""


def load(program, folder, database, sheets, what, table):
    """Does sheets of which no record may be refused."""
    runs = [Run([program, "edit", database, folder / sheet], database.parent / "replies") for sheet in sheets]
    whole = 0
    for sheet, run in zip(sheets, runs):
        with open(folder / sheet, "rb") as it:
            records = sum(1 for _ in it) - 1
        whole += records
        if run.status != 0 or run.replies.count(b",done,") != records:
            sys.exit(f"{sheet}: status {run.status}, {run.replies.count(b',done,'):,} of {records:,} records done")
        print(f"{what}: {sheet}: {records:,} records done in {run.clock:.1f} s, {run.processor:.1f} s of a processor", flush=True)
    table.put(f"load {what}", "roadlrs", sum(run.clock for run in runs))
    table.put(f"load {what}, of a processor", "roadlrs", sum(run.processor for run in runs))
    table.put(f"load {what}, records a second", "roadlrs", whole / sum(run.clock for run in runs), "/s", less=False)
    table.put(f"load {what}, most memory", "roadlrs", max(run.memory for run in runs), "MB")
    table.put(f"load {what}, written", "roadlrs", sum(run.written for run in runs), "MB")


def route_edits(program, folder, database, most, table):
    """Does the sheet of route edits, or so many of its records."""
    sheet = database.parent / "edits.csv"
    with open(folder / "edits.csv") as whole, open(sheet, "w") as some:
        some.writelines(itertools.islice(whole, most and most + 1))
    run = Run([program, "edit", database, sheet], database.parent / "replies")
    done, records = run.replies.count(b",done,"), run.replies.count(b"\n")
    causes = {line.split(b",")[2].split(b":")[0].decode() for line in run.replies.splitlines() if b",refused," in line}
    print(f"route edits: {done:,} of {records:,} done; refused by: {', '.join(sorted(causes)) or 'none'}", flush=True)
    if run.status not in (0, 1) or done * 100 < records * 95:
        sys.exit(f"route edits: status {run.status}, fewer than 95 in 100 were done")
    table.put(f"{records:,} route edits", "roadlrs", run.clock)
    table.put("route edits, of a processor", "roadlrs", run.processor)
    table.put("route edits a second", "roadlrs", records / run.clock, "/s", less=False)
    table.put("route edits, most memory", "roadlrs", run.memory, "MB")
    table.put("route edits, written", "roadlrs", run.written, "MB")


class Client:
    """A client over one connection, or a new one for each request where the server closes it."""

    def __init__(self, port):
        self.port, self.connection, self.opened = port, None, 0

    def ask(self, path):
        """The body of a reply, and the seconds from the connection, where there is none yet, to its last byte."""
        started = time.perf_counter()
        if self.connection is None:
            self.connection, self.opened = socket.create_connection(("127.0.0.1", self.port)), self.opened + 1
            self.connection.setsockopt(socket.IPPROTO_TCP, socket.TCP_NODELAY, 1)
        self.connection.sendall(f"GET {path} HTTP/1.1\r\nHost: x\r\n\r\n".encode())
        head, _, body = self.until(lambda it: b"\r\n\r\n" in it).partition(b"\r\n\r\n")
        length = next(int(line.split(b":")[1]) for line in head.split(b"\r\n") if line.lower().startswith(b"content-length:"))
        body += self.until(lambda it: len(it) >= length, body)[len(body) :]
        spent = time.perf_counter() - started
        if not head.startswith(b"HTTP/1.1 200"):
            sys.exit(f"{path}: {head.decode()} {body.decode()}")
        if b"connection: close" in head.lower():
            self.connection.close()
            self.connection = None
        return body, spent

    def until(self, is_whole, reply=b""):
        while not is_whole(reply):
            more = self.connection.recv(1 << 20)
            if not more:
                sys.exit(f"a reply ended early: {reply!r}")
            reply += more
        return reply


def questions_of(folder):
    return [line.rstrip("\n").split("\t") for line in open(folder / "questions.txt")]


def served(program, database, questions, table):
    """The answers of the server to all questions of the day, as values that can be compared."""
    with socket.socket() as it:
        it.bind(("127.0.0.1", 0))
        port = it.getsockname()[1]
    started = time.monotonic()
    server = subprocess.Popen([program, "serve", database, str(port), "1000000"], stdout=subprocess.PIPE, text=True)
    try:
        server.stdout.readline()
        table.put("serve, until it listens", "roadlrs", time.monotonic() - started)
        client, answers, spent = Client(port), [], {}
        for kind, path, _ in questions:
            body, seconds = client.ask(path)
            spent.setdefault(kind, []).append(seconds)
            answers.append(of_ours(kind, json.loads(body)))
        for kind, seconds in spent.items():
            put_latencies(table, kind, "roadlrs", seconds)
        table.put("memory of the server after a day", "roadlrs", of_process(server.pid, "status", "VmRSS") / 1_000, "MB")
        print(f"http: {len(answers):,} questions over {client.opened:,} connections ({'each closed by the server' if client.opened > 1 else 'kept'})", flush=True)
    finally:
        server.send_signal(signal.SIGTERM)
        server.wait()
    return answers


def of_ours(kind, it):
    if kind == "at":
        hits = [(hit["asset"], hit["class"], hit["side"], hit["offset"], hit["value"], hit["entry"]) for hit in it["hits"]]
        return it["at"], it["link"], it["mm"], sorted(hits)
    if kind == "translate":
        return it["pos"]
    if kind == "find":
        return [(row["route"], row["from"], row["to"], row["side"]) for row in it["rows"]]
    if kind == "totals":
        return [(row["class"], row["entered"], row["retired"], row["abandoned"], row["present"]) for row in it["totals"]]
    return [(row["from"], row["to"], tuple(row["values"])) for row in it["segments"]]


def of_theirs(kind, rows):
    """The same of the rows that psql printed. Neighbouring segments with the same values, which SQL leaves apart, are one."""
    if kind == "at":
        hits = [(int(row[3]), row[4], SIDES[int(row[5])], int(row[6]), row[7], int(row[8])) for row in rows if row[3]]
        return (*map(int, rows[0][:3]), sorted(hits)) if rows else None
    if kind == "translate":
        return ":".join(rows[0]) if rows else None
    if kind == "find":
        return [(row[0], int(row[1]), int(row[2]), SIDES[int(row[3])]) for row in rows]
    if kind == "totals":
        return [(row[0], *map(int, row[1:])) for row in rows]
    found = []
    for low, high, *values in rows:
        if found and found[-1][2] == tuple(values):
            found[-1] = (found[-1][0], int(high), tuple(values))
        else:
            found.append((int(low), int(high), tuple(values)))
    return found


class Cluster(Postgres):
    """A PostgreSQL of its own in a folder, with settings for this much data."""

    def __init__(self, folder):
        super().__init__(folder)
        self.statements("postgres", "".join(f"ALTER SYSTEM SET {name} = '{value}';\n" for name, value in SETTINGS.items()).encode())
        self.call("pg_ctl", "-D", self.room / "data", "-w", "-l", self.room / "log", "restart")

    def main_process(self):
        return int((self.room / "data" / "postmaster.pid").read_text().split()[0])

    def children(self):
        main = self.main_process()
        return list(map(int, pathlib.Path(f"/proc/{main}/task/{main}/children").read_text().split()))

    def has_client(self):
        """Whether a process that served a client is not quite gone."""
        return any("[local]" in command_of(pid) for pid in self.children())

    def processor(self):
        """Seconds of a processor that it has used once no client is connected, with those of processes that ended."""
        while self.has_client():
            time.sleep(0.02)
        main, ticks = self.main_process(), 0
        for pid in [main, *self.children()]:
            try:
                fields = pathlib.Path(f"/proc/{pid}/stat").read_text().rsplit(")", 1)[1].split()
            except OSError:
                continue
            ticks += sum(map(int, fields[11:15] if pid == main else fields[11:13]))
        return ticks / os.sysconf("SC_CLK_TCK")

    def memory(self):
        """A command of psql that writes what all processes have, while its own is there; what they share is counted once."""
        main = self.main_process()
        return f"\\! for p in {main} $(cat /proc/{main}/task/{main}/children); do cat /proc/$p/smaps_rollup; done 2>/dev/null | grep ^Pss: > {self.room}/memory\n"

    def megabytes(self):
        return sum(int(line.split()[1]) for line in (self.room / "memory").read_text().splitlines()) / 1_000

    def psql(self, database, script):
        """What psql prints of a script, with the time of each statement."""
        words = [str(self.home / "psql"), "-h", str(self.room), "-U", "postgres", "-X", "-q", "-A", "-t", "-v", "ON_ERROR_STOP=1", "-d", database]
        done = subprocess.run(words, input=script, stdout=subprocess.PIPE, text=True, check=False)
        if done.returncode != 0:
            sys.exit(f"psql ended with {done.returncode}: {script[:200]}")
        return done.stdout

    def load(self, database, script, whose, folder, table):
        """Makes a database and loads it by a script."""
        self.call("createdb", "-h", self.room, "-U", "postgres", database)
        started, before = time.monotonic(), self.processor()
        self.psql(database, script)
        spent = time.monotonic() - started
        with open(folder / "peers" / "edit", "rb") as it:
            records = sum(1 for _ in it)
        table.put("load in order", whose, spent)
        table.put("load in order, of a processor", whose, self.processor() - before)
        table.put("load in order, records a second", whose, records / spent, "/s", less=False)
        table.put("size of the file", whose, int(self.psql(database, f"SELECT pg_database_size('{database}')")) / 1e6, "MB")

    def ask(self, database, prepared, calls):
        """For each call of a prepared statement the rows, and the seconds that psql says."""
        script = prepared + "\\timing on\n" + "".join(f"\\echo ?\n{call};\n" for call in calls) + self.memory()
        for text in self.psql(database, script).split("?\n")[1:]:
            *rows, timing = text.strip().split("\n")
            yield [row.split("|") for row in rows], float(timing.split()[1]) / 1_000


def command_of(pid):
    try:
        return pathlib.Path(f"/proc/{pid}/cmdline").read_text()
    except OSError:
        return ""


def copied(folder, table, name=None):
    return f"\\copy {name or table} from '{folder}/peers/{table}'\n"


def one_of_each(questions):
    return {kind: words for kind, _, words in reversed(questions)}


def by_commands(program, database, questions, replies, table):
    """One question of each kind by the command line, over the file, the opening of which it includes."""
    memory = 0
    for kind, words in one_of_each(questions).items():
        run = Run([program, *(database if word == "DB" else word for word in words.split())], replies)
        if run.status != 0:
            sys.exit(f"{words}: status {run.status}")
        table.put(f"one {kind} by a command", "roadlrs", run.clock)
        memory = max(memory, run.memory)
    table.put("one question by a command, most memory", "roadlrs", memory, "MB")


def ask_postgres(cluster, questions, answers, table):
    """Asks PostgreSQL what the server was asked, and compares all the answers."""
    spent, wrong = {}, 0
    calls = [call_of(kind, words) for kind, _, words in questions]
    for (kind, path, _), ours, (rows, seconds) in zip(questions, answers, cluster.ask("roads", PREPARED, calls), strict=True):
        spent.setdefault(kind, []).append(seconds)
        if of_theirs(kind, rows) != ours:
            wrong += 1
            print(f"PostgreSQL answers otherwise: {path}\n  {of_theirs(kind, rows)}\n  {ours}", flush=True)
    if wrong:
        sys.exit(f"PostgreSQL answers {wrong:,} of {len(answers):,} questions otherwise")
    table.put("memory of the server after a day", "PostgreSQL", cluster.megabytes(), "MB")
    print(f"PostgreSQL answers all {len(answers):,} questions as the program does", flush=True)
    for kind, seconds in spent.items():
        put_latencies(table, kind, "PostgreSQL", seconds)
    for kind, words in one_of_each(questions).items():
        started = time.monotonic()
        cluster.psql("roads", PREPARED + call_of(kind, words) + ";\n")
        table.put(f"one {kind} by a command", "PostgreSQL", time.monotonic() - started)


def ask_postgis(cluster, questions, answers, table):
    """Asks PostGIS who holds a place, and counts how often it says others than the program, since its places are not of whole millimetres."""
    asked = [(call_of(kind, words), ours) for (kind, _, words), ours in zip(questions, answers) if kind == "at"]
    spent, others = [], 0
    for (_, ours), (rows, seconds) in zip(asked, cluster.ask("map", ON_MAP, [call for call, _ in asked]), strict=True):
        spent.append(seconds)
        others += {int(row[0]) for row in rows if row[0]} != {hit[0] for hit in ours[3]}
    print(f"PostGIS finds other assets than the program in {others:,} of {len(asked):,} places", flush=True)
    put_latencies(table, "at", "PostGIS", spent)
    table.put("memory of the server after a day", "PostGIS", cluster.megabytes(), "MB")


def single_edits(folder):
    """Route edits that are sent one by one, by verbs: each of a route or two of the loaded ones, that no other of them names."""
    names = [line.split(",")[2] for line in open(folder / "routes.csv") if ",route," in line]
    many = min(SINGLE, len(names) // 5)
    return {
        "join": list(zip(names[:many], names[many : 2 * many])),
        "renumber": [(name, f"NEW-{n}") for n, name in enumerate(names[2 * many : 3 * many])],
        "close": [(name,) for name in names[3 * many : 4 * many]],
    }


def put_single(table, verb, whose, seconds, processor):
    put_latencies(table, f"one {verb}, on the disk", whose, seconds)
    table.put(f"one {verb}, of a processor", whose, processor / len(seconds) * 1_000, "ms")


def single_edits_of_ours(program, folder, database, table):
    """Each is sent to a program over a pipe, once the one before it is answered."""
    child = subprocess.Popen([program, "edit", database, "stdin"], stdin=subprocess.PIPE, stdout=subprocess.PIPE)

    def done(*fields):
        child.stdin.write(",".join([*fields, *[""] * (11 - len(fields))]).encode() + b"\n")
        child.stdin.flush()
        if b",done," not in child.stdout.readline():
            sys.exit(f"{fields} was not done")

    child.stdin.write(HEADER)
    done("ONE", "link", "999999", "1000")
    for verb, edits in single_edits(folder).items():
        spent, used = [], nanoseconds(child.pid)
        for n, fields in enumerate(edits):
            started = time.perf_counter()
            done(f"ONE-{verb}-{n}", verb, *fields)
            spent.append(time.perf_counter() - started)
        put_single(table, verb, "roadlrs", spent, (nanoseconds(child.pid) - used) / 1e9)
    child.stdin.close()
    child.wait()


def nanoseconds(pid):
    return int(pathlib.Path(f"/proc/{pid}/schedstat").read_text().split()[0])


def single_edits_of_theirs(cluster, folder, table):
    cluster.psql("roads", CHANGES)
    names = {"join": "joined", "renumber": "renumber", "close": "closed"}
    for verb, edits in single_edits(folder).items():
        call = f"EXECUTE one('ONE-{verb}-%d', %s)"
        prepared = f"PREPARE one (text{', text' * len(edits[0])}) AS SELECT {names[verb]}({', '.join(f'${n + 1}' for n in range(len(edits[0]) + 1))});\n"
        used = cluster.processor()
        asked = list(cluster.ask("roads", prepared, [call % (n, ", ".join(f"'{field}'" for field in fields)) for n, fields in enumerate(edits)]))
        put_single(table, verb, "PostgreSQL", [seconds for _, seconds in asked], cluster.processor() - used)


def compare_totals(cluster, program, database, replies):
    """Fails unless both have the same totals after the single edits."""
    ours = Run([program, "totals", database], replies).replies.decode().split("\n")[:-1]
    ((rows, _),) = cluster.ask("roads", PREPARED, ["EXECUTE totals"])
    if [" ".join(row) for row in rows] != ours:
        sys.exit(f"after the single edits PostgreSQL has other totals: {rows}, {ours}")
    print("PostgreSQL has the same totals after the single edits", flush=True)


def measure_peers(folder, room, program, questions, answers, table):
    cluster = Cluster(room)
    try:
        print(f"{cluster.name}: {', '.join(f'{name} {value}' for name, value in SETTINGS.items())}", flush=True)
        made = "".join(f"CREATE TABLE {name} ({columns});\n" for name, columns in TABLES.items())
        cluster.load("roads", made + "".join(copied(folder, name) for name in TABLES) + KEYS, "PostgreSQL", folder, table)
        ask_postgres(cluster, questions, answers, table)
        by_a_script(cluster, "roads", "PostgreSQL", PREPARED, questions, table)
        single_edits_of_theirs(cluster, folder, table)
        compare_totals(cluster, program, room / "mixed.db", room / "replies")
        raw = copied(folder, "road") + copied(folder, "ref") + copied(folder, "asset", "raw_asset") + copied(folder, "span", "raw_span")
        cluster.load("map", ROADS + raw + LOCATED, "PostGIS", folder, table)
        ask_postgis(cluster, questions, answers, table)
        by_a_script(cluster, "map", "PostGIS", ON_MAP, questions, table)
    finally:
        cluster.stop()


def machine():
    model = next((line.split(":")[1].strip() for line in open("/proc/cpuinfo") if line.startswith("model name")), "?")
    return f"{datetime.datetime.now():%Y-%m-%d %H:%M}, {os.cpu_count()} cores of {model}, {os.sysconf('SC_PHYS_PAGES') * os.sysconf('SC_PAGE_SIZE') / 1e9:.0f} GB, load {os.getloadavg()[0]:.1f}"


def install_postgis():
    if not list(pathlib.Path("/usr/share/postgresql").glob("*/extension/postgis.control")):
        subprocess.run(["apt-get", "update", "-qq"], check=True)
        words = ["apt-get", "install", "-y", "-qq", "postgresql", "postgresql-postgis"]
        subprocess.run(words, check=True, stdout=subprocess.DEVNULL, env={**os.environ, "DEBIAN_FRONTEND": "noninteractive"})


def measure(folder, without_postgres, edits=None):
    """Measures all over the sheets of a folder, and prints the table, also where something fails on the way."""
    folder, program, table = folder.resolve(), os.environ.get("ROADLRS", str(BUILT)), Table()
    said = subprocess.run([program, "--version"], capture_output=True, text=True, check=True).stdout.strip()
    print(f"{machine()}; {said}; one fdatasync of 4 KB {sync_of(folder):.0f} µs", flush=True)
    try:
        with tempfile.TemporaryDirectory(prefix="country-measured-", dir=folder) as room:
            measure_in(pathlib.Path(room), folder, program, without_postgres, edits, table)
    finally:
        print(f"{machine()}; {said}")
        table.show()


def measure_in(room, folder, program, without_postgres, edits, table):
    questions, database, other = questions_of(folder), room / "roads.db", room / "mixed.db"
    load(program, folder, database, LOADED, "in order", table)
    load(program, folder, other, MIXED, "mixed", table)
    other.unlink()
    table.put("size of the file", "roadlrs", database.stat().st_size / 1e6, "MB")
    by_commands(program, database, questions, room / "replies", table)
    answers = served(program, database, questions, table)
    by_a_sheet(program, database, questions, answers, table)
    shutil.copy(database, other)
    single_edits_of_ours(program, folder, other, table)
    if not without_postgres:
        install_postgis()
        room.chmod(0o755)
        measure_peers(folder, room, program, questions, answers, table)
    route_edits(program, folder, database, edits, table)
