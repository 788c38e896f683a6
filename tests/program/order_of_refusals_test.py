"""Records with two faults at once: the check that comes first answers. For each verb each two neighbouring checks that one record
can fail together; a key that is known comes before all of them."""

from program import after_first, lines, record, run_sheet, FIRST, FIRST_REPLIES

BILLION = 1_000_000_000


def long_links(first, end):
    return " ".join(f"{n}:0:{BILLION}:+" for n in range(first, end))


# A2 on link 3, long routes L1 and L2 on eleven links of 1,000 km, and five such links that no route runs over
LAID = [f"i{n},link,{n},{BILLION}" for n in range(101, 117)] + [
    "w1,route,A2,3:0:500:+,0:0 500:500",
    f"w2,route,L1,{long_links(101, 107)},0:0 {6 * BILLION}:{100 * BILLION}",
    f"w3,route,L2,{long_links(107, 112)},0:0 {5 * BILLION}:5",
    "w4,ref,KM1,A1,abs,6500",
    "w5,enter,10,SPEED,A1,B,abs,6500,9000,80,0",
    "w6,enter,20,SIGN,A1,L,abs,6000,,STOP,0",
]

ENTRIES = [
    # asset known, and no such class
    ("10,NONE,A1,B,abs,6000,6100,80,0", "AssetKnown"),
    # no such class, and no such route
    ("30,NONE,A9,B,abs,6000,6100,80,0", "NoClass"),
    # no such route, and a stretch that ends nowhere
    ("30,SPEED,A9,B,abs,6000,,80,0", "NoRoute"),
    # a stretch that ends nowhere, and a referent that is nowhere
    ("30,SPEED,A1,B,rel,KM9+0,,80,0", "WrongKind"),
    # where it begins counts from a referent that is nowhere, and where it ends is off the route
    ("30,SPEED,A1,B,rel,KM9+0,KM1+9000,80,0", "NoRef"),
    # where it begins is off the route, and where it ends counts from a referent that is nowhere
    ("30,SPEED,A1,B,rel,KM1-9000,KM9+0,80,0", "OffRoute"),
]

PIECES = [
    # no such link, and behind a piece that is longer than its link
    ("3:0:5000:+ 99:0:1:+", "NoLink"),
    # longer than its link, and behind a piece that stands twice
    ("3:1500:1600:+ 3:1500:1600:+ 3:0:5000:+", "BadPiece:2"),
]

# what is asked, and the cause that answers: of two faults the first
FAULTS = {
    "route": [
        ("A1,99:0:1:+,0:0 1:1", "RouteKnown"),
        *((f"A3,{pieces},0:0 1:1", cause) for pieces, cause in PIECES),
        # a piece that stands twice, and too long
        (f"A3,{long_links(101, 112)} 101:0:1:+,0:0 1:1", "Taken:11"),
        # too long, and of another route
        (f"A3,{long_links(101, 112)},0:0 1:1", "TooLong"),
        # of another route, and marks that do not end with the route
        ("A3,1:0:100:+,0:0 1:1", "Taken:0"),
    ],
    "ref": [
        ("KM1,A9,abs,6000", "RefKnown"),
        ("KM2,A9,rel,KM9+0", "NoRoute"),
    ],
    "enter": ENTRIES,
    "supersede": [
        *ENTRIES,
        # no exclusive class, and a referent that is nowhere
        ("30,RAIL,A1,B,rel,KM9+0,KM9+1,80,0", "WrongKind"),
        # no such route, and no exclusive class
        ("30,RAIL,A9,B,abs,6000,6100,80,0", "NoRoute"),
    ],
    "retire": [
        ("99,A9,abs,6000,9000", "NoAsset"),
        ("20,A9,abs,6000,9000", "NoRoute"),
        ("20,A1,rel,KM9+0,KM9+1", "WrongKind"),
        ("10,A1,rel,KM9+0,KM1+9000", "NoRef"),
        ("10,A1,rel,KM1-9000,KM9+0", "OffRoute"),
    ],
    "split": [
        ("A9,5000,A2", "NoRoute"),
        ("A1,5001,A2", "RouteKnown"),
    ],
    "join": [
        ("A9,A9", "NoRoute"),
        ("L1,L1", "SameRoute"),
        ("L1,L2", "TooLong"),
    ],
    "renumber": [("A9,A1", "NoRoute")],
    "recalibrate": [("A9,0:0 1:1", "NoRoute")],
    "realign": [
        ("A9,0,8001,,0:0 1:1", "NoRoute"),
        # off the route, and the end before the beginning
        ("A1,9000,8001,,0:0 1:1", "OffRoute"),
        # the end before the beginning, and no such link
        ("A1,5000,4000,99:0:1:+,0:0 1:1", "Empty"),
        *((f"A1,0,10,{pieces},0:0 1:1", cause) for pieces, cause in PIECES),
        # a piece that stands twice, and behind it one of a route
        ("A1,0,10,3:1500:1600:+ 3:1500:1600:+ 1:0:1:+,0:0 1:1", "Taken:1"),
        # of a route, and too long
        (f"L1,0,0,{long_links(107, 112)},0:0 1:1", "Taken:0"),
        # too long, and marks that do not end with the route
        (f"L1,0,0,{long_links(112, 117)},0:0 1:1", "TooLong"),
        # nothing left, and marks for something
        ("A2,0,500,,0:0 1:1", "NothingLeft"),
    ],
}

# a refused command of each verb, for a key that is known
REFUSED = {
    "link": "1,5000",
    "class": "SPEED,exclusive",
    "unref": "KM9",
    "close": "A9",
    "turn": "A9",
    **{verb: asked[0][0] for verb, asked in FAULTS.items()},
}


def test_two_faults_at_once():
    """The numbers of edits go on at 8, and what is refused changes nothing, so the rows laid first are done again as the same edits."""
    rows = [(text, f"{text.split(',')[0]},done,{8 + n}") for n, text in enumerate(LAID)]
    for verb, asked in FAULTS.items():
        rows += [(f"{verb}{n},{verb},{text}", f"{verb}{n},refused,{cause}") for n, (text, cause) in enumerate(asked)]
    rows += [(text, f"{text.split(',')[0]},again,{8 + n}") for n, text in enumerate(LAID)]
    after_first(*rows)


def test_a_key_that_is_known_comes_first():
    rows = [(f"s1,{verb},{text}", "s1,refused,KeyUsed:1") for verb, text in REFUSED.items() if verb != "link"]
    after_first(*rows, ("s4,link,1,5000", "s4,refused,KeyUsed:4"))


def test_what_is_malformed_comes_before_a_known_key():
    """The fields of a record are read before its key is looked up."""
    given = FIRST + record("s1,link,0,5000") + record("s1,lnk,1,5000") + record("s1,close,")
    ended = run_sheet(given)
    assert ended.stdout == FIRST_REPLIES + lines("s1,refused,Malformed:a", "s1,refused,Malformed:verb", "s1,refused,Malformed:a"), ended
