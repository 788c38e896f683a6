"""The sheets of a country and the tables of its peers, as bench/country/country.py writes them."""

from files import HEADER


def row(*fields):
    return ",".join([str(field) for field in fields] + [""] * (11 - len(fields))) + "\n"


class Sheets:
    """The sheets and tables of a country, as they are written. All records of the first three will be done, so that record n of them is edit n."""

    def __init__(self, folder):
        self.folder, self.edits, self.open = folder, 0, {}
        (folder / "peers").mkdir(parents=True, exist_ok=True)

    def file(self, name):
        if name not in self.open:
            self.open[name] = open(self.folder / name, "w", buffering=1 << 20)
            if name.endswith(".csv"):
                self.open[name].write(HEADER.decode())
        return self.open[name]

    def peer(self, table, *fields):
        self.file(f"peers/{table}").write("\t".join(map(str, fields)) + "\n")

    def record(self, sheet, key, *fields):
        self.edits += 1
        line = row(key, *fields)
        self.file(sheet).write(line)
        self.peer("edit", self.edits, key, ",".join(map(str, fields)))
        return line

    def close(self):
        for file in self.open.values():
            file.close()
