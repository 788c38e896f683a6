"""Sheets that several files of tests send: one in which records are refused between others that are done, one whose cells are no
numbers, dates and formulas, and drawn records."""

from program import lines, sheet_of

# x1 is refused where it stands, and would pass behind s8: sent again as a whole, the sheet would do it
ROWS = [
    ("k1,link,1,5000", "k1,done,1"),
    ("k2,route,A1,1:0:5000:+,0:0 5000:5000", "k2,done,2"),
    ("x1,route,B1,1:0:10:+,0:0 10:10", "x1,refused,Taken:0"),
    ("k3,close,A1", "k3,done,3"),
    ("x2,link,1,7", "x2,refused,LinkKnown"),
    ("bad,link,0,7", "bad,refused,Malformed:a"),
    ("k4,link,2,7", "k4,done,4"),
    ("x3,close,A1", "x3,refused,NoRoute"),
]
SHEET = sheet_of(*(text for text, _ in ROWS))
REPLIES = lines(*(reply for _, reply in ROWS))


def random_record(random, number):
    """Of a small inventory, so that many are refused and some not."""
    link, route, other = random.randint(1, 4), random.choice("ABC"), random.choice("ABC")
    kinds = [
        f"link,{link},{random.choice([500, 1000])}",
        f"class,{random.choice(['SPEED', 'RAIL', 'SIGN'])},{random.choice(['exclusive', 'stretch', 'point'])}",
        f"route,{route},{link}:0:{random.choice([400, 500])}:+,0:0 {random.choice([400, 500])}:{random.choice([400, 500])}",
        f"enter,{random.randint(1, 9)},{random.choice(['SPEED', 'RAIL'])},{route},{random.choice('LRB')},abs,{random.randint(0, 300)},{random.randint(0, 500)},80,0",
        f"join,{route},{other}",
        f"turn,{route}",
        f"close,{route}",
        f"renumber,{route},{other}",
        "link,0,5",
        "nothing",
    ]
    return f"k{number if random.random() < 0.9 else random.randint(1, number)},{random.choice(kinds)}"


# names, keys and values that spreadsheets take for formulas, dates, times and numbers
MISTAKEN = sheet_of(
    "1-2,link,1,5000",
    "1:2,link,2,3000",
    "-A1,class,1E5,exclusive",
    "-1,class,MAR1,point",
    "s5,route,1-2,1:0:5000:+ 2:0:3000:-,0:0 5000:6000 8000:9000",
    "007,ref,MAR1,1-2,int,1/3",
    "x1,enter,7,1E5,1-2,B,int,1/7,1/3,-A1,0",
    "x2,enter,8,1E5,1-2,B,abs,4000,5000,1-2,0",
    "x3,enter,9,MAR1,1-2,L,rel,MAR1-1,,007,5",
    "x4,retire,9,1-2,rel,MAR1-1",
)
