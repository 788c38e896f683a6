"""Running totals: what a server answers after each command, whether it has counted since the first one or an opening counts anew.

The first sheet's route A1 runs forwards over link 1 (5,000 mm) and then backwards over link 2 (3,000 mm); its measures go from 0 to 6,000 over
the first 5,000 mm, and from there to 9,000 over 3,000 mm.
"""

from program import FIRST, FIRST_REPLIES, ends, lines, run, sheet_of
from serving import ASK, reply, serving, totals_of
from stores import folder

NOTHING = (0, 0, 0, 0)

# records, one after the other, with their replies, and the totals that change: entered, retired, abandoned, present
STEPS = [
    ("l1,class,LAMP,point", "done,8", {"LAMP": NOTHING}),
    ("l2,enter,10,SPEED,A1,B,abs,3000,9000,80,0", "done,9", {"SPEED": (11000, 0, 0, 11000)}),
    ("l3,enter,11,RAIL,A1,R,int,0/1,1/4,x,0", "done,10", {"RAIL": (2000, 0, 0, 2000)}),
    ("l4,enter,12,LAMP,A1,L,abs,9000,,x,0", "done,11", {"LAMP": (1, 0, 0, 1)}),
    ("l5,retire,10,A1,abs,5000,6000", "done,12", {"SPEED": (11000, 1666, 0, 9334)}),
    ("l6,supersede,13,SPEED,A1,L,abs,3000,6000,50,0", "done,13", {"SPEED": (13500, 3333, 0, 10167)}),
    ("l6,supersede,13,SPEED,A1,L,abs,3000,6000,50,0", "again,13", {}),
    ("l2,retire,10,A1,abs,3000,9000", "refused,KeyUsed:9", {}),
    ("l7,enter,14,SPEED,B1,B,abs,0,1,80,0", "refused,NoRoute", {}),
    ("l8,class,RAIL,point", "refused,ClassKnown", {}),
    ("l9,split,A1,5000,A2", "done,14", {}),
    ("m1,join,A1,A2", "done,15", {}),
    ("m2,recalibrate,A1,0:0 8000:8000", "done,16", {}),
    ("m3,realign,A1,4000,6000,3:0:2000:+,0:0 8000:8000", "done,17", {"SPEED": (13500, 3333, 3167, 7000)}),
    ("m4,turn,A1", "done,18", {}),
    ("m5,class,SAND,stretch", "done,19", {"SAND": NOTHING}),
    ("m6,close,A1", "done,20", {"LAMP": (1, 0, 1, 0), "RAIL": (2000, 0, 2000, 0), "SPEED": (13500, 3333, 10167, 0)}),
]
FIRST_TOTALS = {"RAIL": NOTHING, "SIGN": NOTHING, "SPEED": NOTHING}


def says(server, totals):
    text = '{"abandoned":%d,"class":"%s","entered":%d,"present":%d,"retired":%d}'
    shown = [text % (abandoned, name, entered, present, retired) for name, (entered, retired, abandoned, present) in sorted(totals.items())]
    server.answers(ASK, reply(200, totals_of(*(each.encode() for each in shown))))


def does(server, text, replied):
    server.does("edits", sheet_of(text), lines(f"{text.split(',')[0]},{replied}"))


def is_printed(path, totals):
    ends(run("totals", str(path)), lines(*(" ".join([name, *map(str, of_class)]) for name, of_class in sorted(totals.items()))), 0)


def test_totals_after_each_command():
    totals = dict(FIRST_TOTALS)
    with folder() as path:
        with serving(2 + 2 * len(STEPS), path) as server:
            server.does("edits", FIRST, FIRST_REPLIES)
            says(server, totals)
            for text, replied, changed in STEPS:
                does(server, text, replied)
                totals.update(changed)
                says(server, totals)
        is_printed(path, totals)


def test_totals_after_an_opening_are_those_before_it():
    totals = dict(FIRST_TOTALS)
    with folder() as path:
        with serving(1, path) as server:
            server.does("edits", FIRST, FIRST_REPLIES)
        for text, replied, changed in STEPS:
            with serving(3, path) as server:
                says(server, totals)
                does(server, text, replied)
                totals.update(changed)
                says(server, totals)
            is_printed(path, totals)


def test_totals_after_all_commands_at_once():
    """Of an inventory in memory, too."""
    totals = {name: of_class for _, _, changed in [("", "", FIRST_TOTALS), *STEPS] for name, of_class in changed.items()}
    replied = lines(*(f"{text.split(',')[0]},{replied}" for text, replied, _ in STEPS))
    with serving(3) as server:
        server.does("edits", FIRST, FIRST_REPLIES)
        server.does("edits", sheet_of(*(text for text, _, _ in STEPS)), replied)
        says(server, totals)
