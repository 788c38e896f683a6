"""Many routes in one sheet: ground that is taken, names and links in no order, and the order of the replies."""

import random

from program import replies


def links(numbers, length=1000):
    """Rows that make these links, the first edits of a sheet."""
    return [(f"link{n},link,{n},{length}", f"link{n},done,{place}") for place, n in enumerate(numbers, 1)]


def route(key, name, pieces, millimetres):
    return f"{key},route,{name},{pieces},0:0 {millimetres}:{millimetres}"


def test_ground_that_the_third_route_takes():
    replies(
        *links([1, 2]),
        (route("a", "A", "1:0:10:+", 10), "a,done,3"),
        (route("b", "B", "1:10:20:-", 10), "b,done,4"),
        (route("c1", "C", "1:5:15:+", 10), "c1,refused,Taken:0"),
        (route("c2", "C", "2:0:5:+ 1:19:21:-", 7), "c2,refused,Taken:1"),
        (route("c3", "C", "2:0:5:+ 2:5:9:- 1:9:10:+", 10), "c3,refused,Taken:2"),
        (route("c4", "C", "1:20:21:+ 2:0:5:+", 6), "c4,done,5"),
        (route("d1", "D", "2:4:5:-", 1), "d1,refused,Taken:0"),
        (route("d2", "D", "2:5:6:- 1:21:22:+ 1:20:21:-", 3), "d2,refused,Taken:2"),
        (route("d3", "D", "2:5:6:- 1:21:22:+", 2), "d3,done,6"),
    )


def test_the_least_piece_that_is_taken_is_named():
    """Whichever route has its ground: the last one that was made, or the first."""
    replies(
        *links([3, 2, 1]),
        (route("z", "Z", "1:0:10:+", 10), "z,done,4"),
        (route("m", "M", "2:0:10:+", 10), "m,done,5"),
        (route("a", "A", "3:0:10:+", 10), "a,done,6"),
        (route("n1", "N", "3:9:20:+ 2:9:20:+ 1:9:20:+", 33), "n1,refused,Taken:0"),
        (route("n2", "N", "1:9:20:+ 2:9:20:+ 3:9:20:+", 33), "n2,refused,Taken:0"),
        (route("n3", "N", "3:10:20:+ 1:10:20:+ 2:9:20:+", 31), "n3,refused,Taken:2"),
        (route("n4", "N", "3:10:20:+ 1:10:20:+ 2:10:20:+", 30), "n4,done,7"),
    )


def test_links_whose_numbers_fall():
    numbers = list(range(999_999, 0, -2_000))
    known = [(f"again{n},link,{n},7", f"again{n},refused,LinkKnown") for n in reversed(numbers)]
    replies(*links(numbers), *known, ("new,link,2,5", f"new,done,{len(numbers) + 1}"))


def test_links_and_names_in_no_order():
    numbers, names = list(range(1, 401)), [f"{letter}{n}" for letter in "AZM09K" for n in range(20)]
    chance = random.Random(1)
    chance.shuffle(numbers)
    chance.shuffle(names)
    rows = links(numbers)
    for place, name in enumerate(names):
        pieces = f"{numbers[place]}:10:20:+ {numbers[-1 - place]}:30:40:-"
        rows.append((route(f"r{name}", name, pieces, 20), f"r{name},done,{401 + place}"))
    for name in sorted(names):
        rows.append((route(f"s{name}", name, "1:500:510:+", 10), f"s{name},refused,RouteKnown"))
    on_routes, edits = {*numbers[:120], *numbers[-120:]}, 520
    for n in range(1, 401):
        edits += n not in on_routes
        outcome = "refused,Taken:0" if n in on_routes else f"done,{edits}"
        rows.append((route(f"t{n}", f"NEW{n}", f"{n}:19:31:+", 12), f"t{n},{outcome}"))
    replies(*rows)


def test_names_that_begin_alike():
    """The first eight bytes of a name say where to look among many: here they are the same in all."""
    places = list(range(400))
    random.Random(3).shuffle(places)
    rows = links([1], 1_000_000)
    rows += [(route(f"r{n}", f"MOTORWAY{n}", f"1:{n}:{n + 1}:+", 1), f"r{n},done,{at}") for at, n in enumerate(places, 2)]
    rows += [(f"m{n},renumber,MOTORWAY{n},MOTORWAY{n}X", f"m{n},done,{at}") for at, n in enumerate(places[::2], 402)]
    for n in range(400):
        gone = n in places[::2]
        known = f"MOTORWAY{n}X" if gone else f"MOTORWAY{n}"
        rows.append((route(f"s{n}", known, "1:500000:500001:+", 1), f"s{n},refused,RouteKnown"))
        if gone:
            rows.append((f"t{n},renumber,MOTORWAY{n},B", f"t{n},refused,NoRoute"))
    replies(*rows)


def test_classes_in_no_order():
    names = [f"{letter}{n}" for letter in "QA7ZB" for n in range(60)]
    random.Random(2).shuffle(names)
    made = [(f"c{name},class,{name},point", f"c{name},done,{n}") for n, name in enumerate(names, 1)]
    known = [(f"d{name},class,{name},stretch", f"d{name},refused,ClassKnown") for name in sorted(names)]
    replies(*made, *known)


def test_several_hundred_routes():
    """Each third route asks for ground of the one before it; numbers count what is done, and replies keep the order."""
    rows, edits = links(range(1, 8), 10_000), 7
    for n in range(900):
        link, start = 1 + n // 3 % 7, n // 21 * 100 + n % 3 * 10
        if n % 3 == 2:
            pieces = f"{link}:{start}:{start + 10}:+ {link}:{start - 1}:{start}:-"
            rows.append((route(f"k{n}", f"R{n}", pieces, 11), f"k{n},refused,Taken:1"))
        else:
            edits += 1
            rows.append((route(f"k{n}", f"R{n}", f"{link}:{start}:{start + 10}:-", 10), f"k{n},done,{edits}"))
    replies(*rows, *((text, reply.replace(",done,", ",again,")) for text, reply in rows))


def test_as_many_routes_as_there_may_be():
    rows = links([1], 1_000_000)
    rows += [(route(f"k{n}", f"R{n}", f"1:{n}:{n + 1}:+", 1), f"k{n},done,{n + 2}") for n in range(10_000)]
    replies(
        *rows,
        (route("l1", "NEW", "1:10000:10001:+", 1), "l1,refused,TooMany:routes"),
        (route("l2", "R0", "1:10000:10001:+", 1), "l2,refused,TooMany:routes"),
        (route("l3", "NEW", "9:0:0:+", 1), "l3,refused,TooMany:routes"),
        (route("l4", "NEW", "9:0:0", 1), "l4,refused,Malformed:b"),
        (route("k0", "R0", "1:0:1:+", 1), "k0,again,2"),
        (route("k0", "R0", "1:0:1:-", 1), "k0,refused,KeyUsed:2"),
        ("l5,link,2,5", "l5,done,10002"),
        ("l6,class,A,point", "l6,done,10003"),
    )
