"""docs/SERVICE.md: its nginx and its HAProxy before the program, and its script, taken out of the page itself; and the service and the
backup of the package (tools/debian).

A client that says nothing, or little at a time, or takes no reply, costs the proxy a connection, and the next client nothing.
"""

import concurrent.futures
import contextlib
import http.client
import json
import os
import select
import signal
import socket
import subprocess
import threading
import time

import pytest

from program import FIRST, FIRST_REPLIES, HEADER, PATIENCE, PROGRAM, TOP, ends, lines, long_sheet, record, run, sheet_of, with_files_up_to
from proxies import balancer, blocks_of_the_document, put, web_server
from serving import HOST, LONG_QUESTION, SURVEY, TABLE, connect, free_port, long_question, request, started
from stores import edit, rows_of

# Seconds that a good client may wait at worst, on a machine with much beside it; the program itself takes a few milliseconds.
WAIT = 1.0

# A body of so many bytes is the longest.
LONGEST = 1_048_576


@pytest.fixture(params=[web_server, balancer], ids=["nginx", "HAProxy"])
def proxy(request, tmp_path):
    """What puts a proxy before the program: nginx, and then HAProxy. The half of one that is not on the machine fails."""
    (tmp_path / "index.html").write_text("<p>\n")
    return lambda program_port, **settings: request.param(tmp_path, program_port, **settings)


def asked(port, method, target, body=None, **fields):
    """Status, type and body of a reply."""
    connection = http.client.HTTPConnection(HOST, port, timeout=PATIENCE)
    with contextlib.closing(connection):
        connection.request(method, target, body, {"Content-Type": "text/csv", **fields} if method == "POST" else fields)
        got = connection.getresponse()
        return got.status, got.getheader("Content-Type"), got.read()


def posted(port, sheet, target="/v1/edits"):
    status, _, body = asked(port, "POST", target, sheet)
    return status, body


def totals(port):
    status, _, body = asked(port, "GET", "/v1/totals")
    return status, body


# ---- the replies

MORE = ["GET /v1/log", "GET /v1/log?from=9", "GET /v1/diagram?route=A1", "GET /v1/routes", "GET /v1/find?asset=10", "GET /v1/find?asset=99"]


def test_replies_are_those_of_the_program(proxy):
    """One program is asked itself, and another one through the proxy: each status, type and body is the same."""
    sheet, _, _, _ = long_question()
    asks = [(text, body) for text, body, _ in TABLE] + [(text, None) for text in MORE]
    asks += [("POST /v1/edits", sheet), (LONG_QUESTION.decode().partition(" HTTP")[0], None), ("POST /v1/edits", b"of one field\n"), ("POST /v1/edits", b"")]
    with started() as alone, started() as behind, proxy(behind.port) as port:
        for text, body in asks:
            expected = asked(alone.port, *text.split(" "), body)
            assert asked(port, *text.split(" "), body) == expected, text[:100]


# ---- clients that dawdle

HEAD = request("GET /v1/totals", None, "Host: x", "Content-Type: text/csv")
SENT_LATE = 40


def long_body(size):
    """An edit sheet of so many bytes, with one record."""
    last = record("z2,link,10,5")
    return HEADER + b"\n" * (size - len(HEADER) - len(last)) + last


def dawdlers():
    """What a client has sent at once, and what it sends now and then: nothing at all, a head, or the end of a long body."""
    long = request("POST /v1/edits", long_body(LONGEST), "Host: x", "Content-Type: text/csv")
    return [(b"", b""), (b"", HEAD[:SENT_LATE]), (b"", b""), (long[:-SENT_LATE], long[-SENT_LATE:-1])]


def trickle(streams, over):
    """A byte to each of these now and then."""
    for at in range(SENT_LATE - 1):
        if over.wait(0.2):
            return
        for stream, late in streams:
            stream.sendall(late[at : at + 1])


@contextlib.contextmanager
def dawdling(port, count):
    """So many clients, every second of which says nothing, and the others a byte now and then. All are there to the end."""
    over = threading.Event()
    streams = []
    for _ in range(count // 4):
        for at_once, late in dawdlers():
            streams.append((connect(port), late))
            streams[-1][0].sendall(at_once)
    thread = threading.Thread(target=trickle, args=[streams, over])
    thread.start()
    try:
        yield
        ended, _, _ = select.select([stream for stream, _ in streams], [], [], 0)
        assert not ended
    finally:
        over.set()
        thread.join()
        for stream, _ in streams:
            stream.close()


def taking_nothing(port, question):
    """A client that asks, and takes no byte of its reply, which has begun to come."""
    stream = socket.socket()
    stream.setsockopt(socket.SOL_SOCKET, socket.SO_RCVBUF, 4_096)
    stream.connect((HOST, port))
    stream.sendall(question)
    ready, _, _ = select.select([stream], [], [], PATIENCE)
    assert ready
    return stream


def waits(port, times):
    """How many seconds good clients wait for their totals, and for their sheets, one after the other."""
    found = []
    for n in range(times):
        since = time.monotonic()
        got = posted(port, FIRST) if n % 2 else totals(port)
        found.append(time.monotonic() - since)
        assert got[0] == 200 and (n % 2 == 0 or got[1].count(b",again,") == 7), got
    return found


def test_a_hundred_clients_that_dawdle_hold_nobody_up(proxy):
    with started() as server, proxy(server.port) as port:
        assert posted(port, FIRST) == (200, FIRST_REPLIES)
        with dawdling(port, 100):
            time.sleep(0.5)
            waited = waits(port, 20)
        assert max(waited) <= WAIT, waited


def question_of(classes):
    """A question with a long reply: 600 stretches, each with the values of so many classes."""
    return request(f"GET /v1/segments?route=L1&side=R{'&class=V' * classes}", None, "Host: x")


def test_clients_that_take_no_reply_hold_nobody_up(proxy, request):
    """nginx takes in a reply of any length, here 8 MB, and HAProxy one of 1 MiB."""
    sheet, done, _, _ = long_question()
    question = question_of(980 if "nginx" in request.node.name else 100)
    with started() as server, proxy(server.port) as port, contextlib.ExitStack() as streams:
        assert posted(port, sheet) == (200, done)
        posted(port, FIRST)
        for _ in range(4):
            streams.enter_context(taking_nothing(port, question))
            waited = waits(port, 4)
            assert max(waited) <= WAIT, waited


# ---- how a proxy shields, whatever the program itself does about such clients


def listening():
    """A port that stands in for the program's."""
    return contextlib.closing(socket.create_server((HOST, 0)))


def taken(listener):
    """The next connection of a proxy, once its request is read."""
    stream, _ = listener.accept()
    stream.settimeout(PATIENCE)
    got = b""
    while not got.endswith(b"\r\n\r\n"):
        got += stream.recv(65_536)
    return stream


def test_a_proxy_connects_once_a_request_is_whole(proxy):
    with listening() as listener, proxy(listener.getsockname()[1], health=False) as port:
        with dawdling(port, 100):
            ready, _, _ = select.select([listener], [], [], 1)
            assert not ready
        with connect(port) as stream:
            stream.sendall(HEAD)
            taken(listener).close()


def test_nginx_takes_a_whole_reply_at_once(tmp_path):
    """Far more than the sockets in between hold, while the client takes next to nothing."""
    body = b"x" * 40_000_000
    with listening() as listener, web_server(tmp_path, listener.getsockname()[1]) as port, contextlib.ExitStack() as streams:
        client = streams.enter_context(socket.socket())
        client.setsockopt(socket.SOL_SOCKET, socket.SO_RCVBUF, 4_096)
        client.connect((HOST, port))
        client.sendall(HEAD)
        stream = streams.enter_context(taken(listener))
        stream.settimeout(3)
        stream.sendall(b"HTTP/1.1 200 OK\r\nContent-Length: %d\r\nConnection: close\r\n\r\n" % len(body) + body)
        stream.close()
        client.settimeout(PATIENCE)
        got = client.recv(4_096)
        assert got.startswith(b"HTTP/1.1 200 OK\r\n")


# ---- what does not go through


def chunked(body):
    return iter([body[:100], body[100:]])


def test_a_body_that_is_too_long_is_told_by_the_proxy(proxy):
    with started() as server, proxy(server.port) as port:
        for body in [long_body(LONGEST + 1), chunked(long_body(LONGEST + 100))]:
            status, kind, page = asked(port, "POST", "/v1/edits", body)
            # the program's own reply would have no body
            assert (status, kind) == (413, "text/html") and page
        assert posted(port, long_body(LONGEST)) == (200, b"z2,done,1\n")


def test_what_else_does_not_go_through(proxy, tmp_path):
    page = (tmp_path / "index.html").read_bytes()
    with started() as server, proxy(server.port) as port:
        for kind in ["text/plain", "application/x-www-form-urlencoded"]:
            assert asked(port, "POST", "/v1/edits", FIRST, **{"Content-Type": kind})[0] == 415
        for target in ["/index.html", "/v2/totals", "/healthy", "/roads.db"]:
            assert asked(port, "GET", target)[0] == 404, target
        assert asked(port, "GET", "/") == (200, "text/html", page)
        # without its cookies this head is not too long
        assert asked(port, "GET", "/v1/totals", None, Cookie="x" * 8_000, Accept="x" * 500) == (200, "application/json", b'{"totals":[]}')


# ---- the program ends, and is started again


def test_nginx_tells_that_the_program_does_not_run(tmp_path):
    with started() as server, web_server(tmp_path, server.port) as port:
        assert posted(port, FIRST) == (200, FIRST_REPLIES)
        server.stop()
        assert totals(port)[0] == 502
        with started(port=server.port):
            assert totals(port) == (200, b'{"totals":[]}')


def test_clients_of_haproxy_do_not_notice_a_start(tmp_path):
    (tmp_path / "index.html").write_text("<p>\n")
    with started() as server, balancer(tmp_path, server.port) as port:
        assert posted(port, FIRST) == (200, FIRST_REPLIES)
        server.stop()
        got = []
        asking = threading.Thread(target=lambda: got.append(totals(port)))
        asking.start()
        time.sleep(1)
        with started(port=server.port):
            asking.join()
            assert got == [(200, b'{"totals":[]}')]


DEBIAN = TOP / "tools" / "debian"


def unit():
    """The settings of the unit, each under its name."""
    return dict(line.split("=", 1) for line in (DEBIAN / "roadlrs@.service").read_text().splitlines() if "=" in line)


def words_of_the_unit(db, port, most):
    """What the unit runs, with the file, the port and the number of connections of a test."""
    told = unit()["ExecStart"]
    for variable, word in [("$OPTIONS ", ""), ("/var/lib/roadlrs/%i/roads.db", str(db)), ("${PORT}", str(port)), ("${MAX}", str(most))]:
        told = put(told, variable, word)
    program, *words = told.split()
    assert program == "/usr/bin/roadlrs"
    return [PROGRAM, *words]


@contextlib.contextmanager
def supervised(words, first=""):
    """Starts the program again whenever it ends, as the unit has it; what stands first is done before the first start alone."""
    assert unit()["Restart"] == "always" and unit()["StartLimitIntervalSec"] == "0"
    loop = f'({first} exec "$@"); while sleep {unit()["RestartSec"]}; do "$@"; done'
    streams = {"stdin": subprocess.DEVNULL, "stdout": subprocess.DEVNULL, "stderr": subprocess.DEVNULL}
    child = subprocess.Popen(["bash", "-c", loop, "supervisor", *words], start_new_session=True, **streams)
    try:
        yield
    finally:
        os.killpg(child.pid, signal.SIGKILL)
        child.wait(timeout=PATIENCE)


def once_it_runs(port, sheet, target="/v1/edits"):
    """What a sheet is answered that is sent again as long as the program does not run."""
    limit = time.monotonic() + 60
    while (got := posted(port, sheet, target))[0] == 502:
        assert time.monotonic() < limit
        time.sleep(0.1)
    return got


def test_it_comes_back_after_its_last_connection(tmp_path):
    program_port, db = free_port(), tmp_path / "roads.db"
    ends(edit(db, HEADER), b"", 0)
    with supervised(words_of_the_unit(db, program_port, 3)), web_server(tmp_path, program_port) as port:
        for n in range(1, 8):
            assert once_it_runs(port, sheet_of(f"k{n},link,{n},5")) == (200, b"k%d,done,%d\n" % (n, n))


def test_it_comes_back_after_a_commit_that_failed(tmp_path):
    program_port, db = free_port(), tmp_path / "roads.db"
    sheet, done = long_sheet(30_000)
    ends(edit(db, sheet_of("k0,class,LAST,point")), b"k0,done,1\n", 0)
    with supervised(words_of_the_unit(db, program_port, 1_000), "ulimit -f 300; trap '' XFSZ;"), web_server(tmp_path, program_port) as port:
        assert once_it_runs(port, sheet)[0] == 503
        status, body = once_it_runs(port, sheet, "/v1/edits?resume=1")
        assert status == 200 and body.splitlines()[-1] == b"k30000,done,30001", (status, body[-100:])
    assert len(rows_of(db)["link"]) == len(done.splitlines())


def test_who_asks_haproxy_gets_no_answer_that_broke_off(tmp_path):
    """The program ends and is started again while several ask: what it has not answered is asked again."""
    program_port, db = free_port(), tmp_path / "roads.db"
    (tmp_path / "index.html").write_text("<p>\n")
    ends(edit(db, HEADER), b"", 0)
    with supervised(words_of_the_unit(db, program_port, 60)), balancer(tmp_path, program_port) as port:
        once_it_runs(port, sheet_of("k1,link,1,5"))

        def ask(_):
            got = totals(port)
            # while HAProxy has no server it says so at once, again and again
            time.sleep(0.3 if got[0] == 503 else 0)
            return got

        with concurrent.futures.ThreadPoolExecutor(6) as pool:
            got = list(pool.map(ask, range(240)))
        # once it is up again, an answer comes
        until = time.monotonic() + 10
        while (last := totals(port))[0] == 503 and time.monotonic() < until:
            time.sleep(0.1)
    # where the program is not up again in time, HAProxy has no server; but it hands on no answer that broke off
    answered = (200, b'{"totals":[]}')
    assert all(answer == answered or answer[0] == 503 for answer in got), got
    assert got.count(answered) >= 120 and last == answered, (got.count(answered), last)


# ---- health, and a line for each request


def test_health_is_told_through_a_proxy(proxy):
    with started() as server, proxy(server.port) as port:
        for edits in [0, 7]:
            status, _, body = asked(port, "GET", "/health")
            assert (status, json.loads(body)) == (200, {"edits": edits})
            posted(port, FIRST)


def test_health_is_bad_after_a_commit_that_failed(tmp_path):
    db = tmp_path / "roads.db"
    with started(db=db, **with_files_up_to(300_000)) as server, web_server(tmp_path, server.port) as port:
        assert posted(port, long_sheet(30_000)[0])[0] == 503
        assert asked(port, "GET", "/health")[0] == 503


def test_each_request_has_a_line(tmp_path):
    port, log = free_port(), tmp_path / "log"
    with log.open("wb") as errors, subprocess.Popen([PROGRAM, "serve", ":memory:", str(port), "2", "--log"], stdout=subprocess.PIPE, stderr=errors) as child:
        assert child.stdout.readline() == b"listening %d\n" % port
        assert (totals(port)[0], asked(port, "POST", "/v1/edits", FIRST)[0]) == (200, 200)
    first, second, end = log.read_text().splitlines()
    assert end == "served 2 in full, 0 cut off"
    for line, words in [(first, ["GET", "/v1/totals", "200"]), (second, ["POST", "/v1/edits", "200"])]:
        assert set(words) <= set(line.split()), line


# ---- the script, and the backup


def script(port):
    """What sends a large sheet."""
    (text,) = blocks_of_the_document("bash")
    return put(text, "https://roads.example.org/", f"http://{HOST}:{port}/").replace("curl ", "curl -q --noproxy '*' ")


def sends(port, folder):
    return subprocess.run(["bash", "-c", script(port)], cwd=folder, capture_output=True, timeout=PATIENCE)


def test_a_large_sheet_goes_in_parts(tmp_path):
    sheet, done = long_sheet(60_000)
    with started() as server, web_server(tmp_path, server.port) as port:
        (tmp_path / "year.csv").write_bytes(sheet)
        ended = sends(port, tmp_path)
        assert (ended.stderr, (tmp_path / "replies.csv").read_bytes()) == (b"", done)
        parts = sorted(tmp_path.glob("part-*"))
        assert len(parts) == 2 and all(part.stat().st_size <= LONGEST for part in parts)


def test_a_large_sheet_stops_at_the_part_that_was_not_done(tmp_path):
    rows = long_sheet(100_000)[0].splitlines(keepends=True)
    rows[60_000] = b"of one field\n"
    with started() as server, web_server(tmp_path, server.port) as port:
        (tmp_path / "year.csv").write_bytes(b"".join(rows))
        ended = sends(port, tmp_path)
        assert ended.stderr.splitlines()[-1] == b"stopped at part-0001", ended
        assert (tmp_path / "replies.csv").read_bytes().splitlines()[-2:] == [b"k59999,done,59999", b"-,fault,BadCsv"]
        # mended, and sent again from there on
        part = (tmp_path / "part-0001").read_bytes().replace(b"of one field\n", b"k60000,link,60000,5,,,,,,,\n")
        status, body = posted(port, part, "/v1/edits?resume=1")
        assert status == 200 and body.startswith(b"k60000,done,60000\n")


@pytest.fixture
def logs(tmp_path):
    """The folder of the files that the backup keeps."""
    folder = tmp_path / "logs"
    folder.mkdir()
    return folder


def backs_up(port, logs, **env):
    """What the backup writes and ends with, and the names of the files that are kept then."""
    env = {"PATH": os.environ["PATH"], "PORT": str(port), **env}
    done = subprocess.run([DEBIAN / "backup"], cwd=logs, env=env, capture_output=True, timeout=PATIENCE)
    return done.stdout + done.stderr, done.returncode, sorted(path.name for path in logs.iterdir())


def test_the_log_is_kept_and_makes_the_same_inventory(tmp_path, logs):
    db = tmp_path / "roads.db"
    with started(db=db) as server:
        assert backs_up(server.port, logs) == (b"", 0, [])
        assert posted(server.port, FIRST) == (200, FIRST_REPLIES)
        assert backs_up(server.port, logs) == (b"", 0, ["edits-00000007.csv"])
        assert posted(server.port, SURVEY, "/v1/surveys") == (200, b"e1,done,8\n")
        for _ in range(2):
            assert backs_up(server.port, logs) == (b"", 0, ["edits-00000007.csv", "edits-00000008.csv"])
    log = logs / "edits-00000008.csv"
    ends(run("log", str(db)), log.read_bytes(), 0)
    ended = run("edit", str(tmp_path / "new.db"), str(log), "--all")
    ends(ended, FIRST_REPLIES + lines("e1,done,8"), 0)
    ends(run("audit", str(tmp_path / "new.db")), lines("sound, and as its log says"), 0)
    assert rows_of(tmp_path / "new.db") == rows_of(db)


def test_the_last_of_the_logs_are_kept(logs):
    with started() as server:
        for n in range(1, 11):
            assert posted(server.port, sheet_of(f"k{n},link,{n},5"))[0] == 200
            assert backs_up(server.port, logs, KEEP="2")[:2] == (b"", 0)
        assert backs_up(server.port, logs, KEEP="2") == (b"", 0, ["edits-00000009.csv", "edits-00000010.csv"])
        assert (logs / "edits-00000010.csv").read_bytes() == asked(server.port, "GET", "/v1/log")[2]
        for word in ["0", "-1", "many", ""]:
            ended = backs_up(server.port, logs, KEEP=word)
            assert ended[2] == ["edits-00000009.csv", "edits-00000010.csv"] and (ended[1] == 0) == (word == ""), (word, ended)


def test_a_backup_stops_where_the_inventory_is_another_one(tmp_path, logs):
    db = tmp_path / "roads.db"
    with started(db=db) as server:
        assert posted(server.port, FIRST) == (200, FIRST_REPLIES)
        assert backs_up(server.port, logs) == (b"", 0, ["edits-00000007.csv"])
    (kept,) = [path.read_bytes() for path in logs.iterdir()]
    older = sheet_of("o1,link,1,5000", *(f"o{n},link,{n},5" for n in range(2, 9)))
    for copy, sheet in [("fewer.db", sheet_of("o1,link,1,5000")), ("other.db", older)]:
        ends(edit(tmp_path / copy, sheet), edit(":memory:", sheet).stdout, 0)
        with started(db=tmp_path / copy) as server:
            said, status, _ = backs_up(server.port, logs)
            assert (said, status) == (b"roadlrs-backup: edit 7 is not the one that was kept in edits-00000007.csv\n", 1)
            assert [path.read_bytes() for path in logs.glob("*.csv")] == [kept]


def test_what_a_killed_backup_left_is_not_taken(logs):
    with started() as server:
        assert posted(server.port, sheet_of("k1,link,1,5")) == (200, b"k1,done,1\n")
        (logs / "more.new").write_text("half a li")
        (logs / "longer.new").write_text("half a li")
        assert backs_up(server.port, logs) == (b"", 0, ["edits-00000001.csv"])
        assert (logs / "edits-00000001.csv").read_bytes() == sheet_of("k1,link,1,5")
