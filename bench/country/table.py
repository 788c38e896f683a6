"""The table in which bench/country/country.py shows what it measured."""


class Table:
    """Figures by what they are of and whose they are, each of which is better if it is less, or if it is more."""

    def __init__(self):
        self.rows = {}

    def put(self, what, whose, value, unit="s", less=True):
        self.rows.setdefault(what, {"unit": unit, "less": less})[whose] = value

    def ratio(self, row, whose):
        if whose not in row or "roadlrs" not in row:
            return "", ""
        times = row[whose] / max(row["roadlrs"], 1e-9) if row["less"] else row["roadlrs"] / max(row[whose], 1e-9)
        digits = 3 if times < 0.1 else 2 if times < 100 else 0
        return f"{times:,.{digits}f}", "" if times >= 1 else f"  {whose} is better"

    def show(self):
        print(f"{'':44}{'unit':>6}" + "".join(f"{name:>13}" for name in ("roadlrs", "PostgreSQL", "ratio", "PostGIS", "ratio")))
        for what, row in self.rows.items():
            ours, one, two = (number(row[whose]) if whose in row else "-" for whose in ("roadlrs", "PostgreSQL", "PostGIS"))
            (ratio, mark), (other_ratio, other_mark) = self.ratio(row, "PostgreSQL"), self.ratio(row, "PostGIS")
            print(f"{what:<44}{row['unit']:>6}{ours:>13}{one:>13}{ratio:>13}{two:>13}{other_ratio:>13}{mark}{other_mark}".rstrip())
        print("A ratio is above 1 where roadlrs is better.", flush=True)


def number(value):
    return f"{value:,.{0 if value >= 1_000 else 1 if value >= 10 else 3}f}"


def part(values, share):
    """The value below which so many in 100 lie."""
    values = sorted(values)
    return values[min(len(values) - 1, int(len(values) * share / 100))]


def put_latencies(table, kind, whose, seconds):
    for share in (50, 99):
        table.put(f"{kind}, p{share}", whose, part(seconds, share) * 1_000, "ms")
