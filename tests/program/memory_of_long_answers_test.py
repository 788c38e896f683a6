"""The memory of long answers: segments are made one by one, so an answer takes hardly more than its own bytes."""

import pytest

from memory import bytes_of, most_of
from program import sheet_of
from serving import answer, request, started
from stores import edit, folder

ASSETS = 4_000
REPEATS = 300
LENGTH = 10 * ASSETS
SIDE_BY_SIDE = [f"e{n},enter,{n + 1},SPEED,A1,B,abs,{10 * n},{10 * n + 10},v{n % 2},0" for n in range(ASSETS)]
ROAD = sheet_of("c,class,SPEED,exclusive", f"l,link,1,{LENGTH}", f"r,route,A1,1:0:{LENGTH}:+,0:0 {LENGTH}:{LENGTH}", *SIDE_BY_SIDE)

# What a run takes of memory otherwise is not the same each time.
SLACK = 2_000_000


@pytest.fixture(scope="module")
def road():
    with folder() as path:
        assert edit(path, ROAD).status == 0
        yield path


def test_segments_over_http_take_little_more_than_their_bytes(road):
    with started(db=road) as server:
        asked = request(f"GET /v1/segments?route=A1&side=L{'&class=SPEED' * REPEATS}")
        answer(server.port, request("GET /v1/segments?route=A1&side=L&class=SPEED"))
        before = bytes_of(server.child.pid, "VmHWM")
        got = answer(server.port, asked)
        assert got.startswith(b"HTTP/1.1 200 OK\r\n") and got.count(b'"from"') == ASSETS
        assert got.count(b'"v0"') == got.count(b'"v1"') == ASSETS * REPEATS // 2
        assert bytes_of(server.child.pid, "VmHWM") - before < 2 * len(got) + SLACK
        answer(server.port, request("GET /v1/totals"))
        assert bytes_of(server.child.pid, "VmRSS") - before < SLACK


@pytest.mark.parametrize("words, given", [
    (("strip", "A1", "L"), b""),
    (("ask", "stdin"), b"key,question,a,b,c,d\nq,segments,A1,L,%s,\n"),
], ids=["strip", "ask"])
def test_printed_segments_take_no_memory_for_their_values(road, tmp_path, words, given):
    few, many = tmp_path / "few", tmp_path / "many"
    sizes = []
    for out, repeats in [(few, 1), (many, REPEATS)]:
        classes = ["SPEED"] * repeats
        asked = words if given else (*words, *classes)
        sizes.append(most_of(road, out, *asked, given=given.replace(b"%s", " ".join(classes).encode())))
    assert many.read_bytes().count(b"v0") == ASSETS * REPEATS // 2
    assert len(many.read_bytes().splitlines()) == len(few.read_bytes().splitlines()) >= ASSETS + 1
    assert sizes[1] - sizes[0] < SLACK
