"""Sheets of a small inventory, drawn: of every verb, and so many of their records done that assets are moved about."""

import random

from program import sheet_of


class Drawn:
    """Records of a small inventory, drawn: of every verb, and so many of them done that assets are moved about."""

    def __init__(self, seed):
        self.random, self.count = random.Random(seed), 0

    def marks(self, length):
        inner = sorted(self.random.sample(range(1, length), self.random.randint(0, 2))) if length > 3 else []
        measures = sorted(self.random.sample(range(0, 500), len(inner) + 2))
        return " ".join(f"{chainage}:{measure}" for chainage, measure in zip([0, *inner, length], measures))

    def place(self):
        return self.random.choice([f"abs,{self.random.randint(0, 400)}", f"int,{self.random.randint(0, 8)}/8", f"rel,R{self.random.randint(1, 3)}+{self.random.randint(0, 9)}"])

    def stretch(self):
        if self.random.random() < 0.5:
            low, high = sorted((self.random.randint(0, 8), self.random.randint(0, 8)))
            return f"int,{low}/8,{high}/8"
        return f"abs,{self.random.randint(0, 250)},{self.random.randint(200, 500)}"

    def text(self):
        pick, route, other = self.random.choice, self.random.choice("ABC"), self.random.choice("ABC")
        link, asset, length = self.random.randint(1, 4), self.random.randint(1, 12), self.random.choice([12, 20, 20, 32])
        piece = f"{link}:{pick([0, 0, 3])}:{pick([9, 12, 15])}:{pick('+-')}"
        return pick([
            f"link,{link},{length}",
            f"class,{pick(['SPEED', 'RAIL', 'SIGN'])},{pick(['exclusive', 'stretch', 'point'])}",
            f"route,{route},{link}:0:12:+,{self.marks(12)}",
            f"route,{route},{link}:0:{length}:{pick('+-')},{self.marks(length)}",
            f"enter,{asset},{pick(['SPEED', 'RAIL'])},{route},{pick('LRB')},{self.stretch()},{pick(['80', '50'])},0",
            f"enter,{asset},SIGN,{route},{pick('LRB')},{self.place()},,STOP,{pick(['0', '7'])}",
            f"supersede,{asset},SPEED,{route},{pick('LRB')},{self.stretch()},30,0",
            f"retire,{asset},{route},{self.stretch()}",
            f"ref,R{self.random.randint(1, 3)},{route},{self.place()}",
            f"unref,R{self.random.randint(1, 3)}",
            f"split,{route},{pick([4, 6, 12])},{other}",
            f"join,{route},{other}",
            f"renumber,{route},{other}",
            f"recalibrate,{route},{self.marks(pick([12, 20, 24, 32]))}",
            f"realign,{route},{pick([0, 4])},{pick([6, 12])},{piece},{self.marks(pick([12, 14, 18, 20]))}",
            f"turn,{route}",
            f"close,{route}",
        ])

    def sheet(self, count):
        texts = []
        for _ in range(count):
            self.count += 1
            texts.append(f"k{self.count},{self.text()}")
        return sheet_of(*texts)


BEGUN = sheet_of(
    "b1,link,1,20",
    "b2,link,2,20",
    "b3,link,3,32",
    "b4,class,SPEED,exclusive",
    "b5,class,RAIL,stretch",
    "b6,class,SIGN,point",
    "b7,route,A,1:0:20:+ 2:0:12:-,0:0 32:400",
    "b8,route,B,3:0:32:-,0:0 16:100 32:300",
    "b9,ref,R1,A,int,1/4",
)
