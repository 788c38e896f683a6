#!/usr/bin/env python3
"""tools/believed.py --list | --write | --check: which definitions must be believed for each headline.

A headline is a function whose contract this project promises. To judge its contract a reader needs the definitions that the contract
uses, and those that they use in turn, as far as they are definitions of this repository. They are followed name by name: a page is
listed only where one of its definitions is reached.

--list prints the pages of each headline in the order in which to read them, --write writes the tables of docs/MAP.md between their
markers, and --check fails where --write would change the map.
"""

import functools
import itertools
import pathlib
import re
import sys

TOP = pathlib.Path(__file__).resolve().parent.parent
CRATES = TOP / "crates"
MAP = TOP / "docs" / "MAP.md"

# The calls: a letter, the crate, the module, the function, and what it does.
CALLS = [
    ("J", "lrs_cli_jobs", "jobs", "do_job", "does what the words of the program ask for"),
    ("P", "lrs_promises", "call_list", "headline", "does a list of sheets, surveys and requests, mixed"),
    ("D", "lrs_promises", "safe", "act", "does a command, and says what each answer leaves"),
    ("R", "lrs_promises", "canonical_rows", "rows", "says what the rows of an inventory are"),
    ("B", "lrs_promises", "translation", "round_trip", "translates a position, and back"),
    ("K", "lrs_promises", "stop", "stops", "says what runs that stop leave"),
    ("Z", "lrs_store", "restart", "close_and_open", "closes files and opens them again"),
    ("E", "lrs_sheet", "run", "run_edits", "runs an edit sheet"),
    ("E", "lrs_sheet", "run", "run_survey", "runs a survey"),
    ("H", "lrs_web", "request", "serve_one", "serves one HTTP request"),
    ("C", "lrs_web", "door", "serve_all", "serves HTTP connections one after another"),
    ("A", "lrs_desk", "desk", "Desk::act", "does a command under its key"),
    ("G", "lrs_desk", "desk", "Desk::act_on_first", "does several commands by one commit"),
    ("O", "lrs_desk", "desk", "Desk::open", "opens a desk over a keeper"),
    ("F", "lrs_store", "files", "open_file", "opens the keeper of a file"),
]

# The laws by group: a letter, the modules, and what they speak of.
GROUPS = [
    ("M", [("lrs_machine", "laws")], "all states and runs of the ground machine"),
    ("T", [("lrs_machine", "stops/laws"), ("lrs_machine", "stops/examples"), ("lrs_promises", "steps")], "runs that stop"),
    ("L", None, "images, rows, plans, records, stores and paths"),
]

# Modules of laws whose name does not say so.
LAWS = [("lrs_promises", "determinism"), ("lrs_promises", "log"), ("lrs_events", "rows/inverses")]


# Layers, crates and modules.


def layers():
    """The layers of crates.txt, each with its heading and its crates."""
    found = []
    for line in (TOP / "crates.txt").read_text().splitlines()[1:]:
        if line.startswith("# "):
            found.append((line[2:], []))
        elif line.strip():
            found[-1][1].append(line.split(":")[0])
    return found


def crates():
    return [crate for _, named in layers() for crate in named]


def modules(crate):
    """The modules of a crate but for its root, by their paths in src/."""
    folder = CRATES / crate / "src"
    return sorted(str(path.relative_to(folder).with_suffix("")) for path in folder.rglob("*.rt") if path.name != "lib.rt")


# Words. A target is a crate, a page and a name on it; the name is None for a page as a whole, under its alias.

USE = re.compile(r"use Rattle\.(lrs_\w+)\.specs\.(?!declared\b)(\w+(?:\.\w+)*)(?:\.\{([^}]*)\}| as (\w+))?")


def imported(text):
    """The targets of the words that the `use` lines of a text import, by word."""
    found = {}
    for crate, path, names, alias in USE.findall(text):
        page = path.replace(".", "/")
        for name in filter(None, (name.strip() for name in names.split(","))):
            original, _, word = name.partition(" as ")
            found[word or original] = crate, page, original
        if not names:
            found[alias or path.rpartition(".")[2]] = crate, page, None
    return found


def words(text):
    """The words of a text but for the labels of records; a block under `do` stands for the operators that it is short for."""
    for match in re.finditer(r"[^\s(){}\[\];,]+", text):
        before, after = text[: match.start()].rstrip()[-1:], text[match.end() : match.end() + 3]
        if before in ("{", ";") and re.match(r" =\s", after):
            continue
        yield from ["◌>>=◌", "◌>>◌"] if match[0] == "do" else [match[0], f"◌{match[0]}◌"]


def cited(text, names):
    """The definitions that a text cites by its imported words."""
    for word in words(text):
        first, _, rest = word.partition(".")
        if first in names:
            crate, page, name = names[first]
            name = name or rest.split(".")[0]
            if name and (found := page_of(crate, page).find(name)):
                yield found


# Pages of definitions.

HEAD = re.compile(r"(?:(?:abbrev |unfoldable )?pub (?:record |data )?|infixl \d+ |(?=\S+ : ))(?!use )([^\s(){}]+)")


class Page:
    """A page of definitions: the first sentence about it, the words that it imports, and the text of each of its definitions."""

    def __init__(self, crate, name):
        self.crate, self.name = crate, name
        text = (CRATES / crate / "specs" / f"{name}.antt").read_text()
        about = re.match(r"-- (.*?)(?:\. |\.?\n)", text)[1].removeprefix(f"{name}: ")
        self.about = about[0].upper() + about[1:]
        self.names = imported(text)
        self.types = set(", ".join(re.findall(r"^(?:\w+ )*use [\w.]+\.declared\.[\w.]+\.\{([^}]*)\}", text, re.M)).split(", "))
        self.texts, self.owners = {}, {}
        self.divide(re.sub(r'(?m)"[^"\n]*"|(?:^|(?<=\s))--.*$', "", text))
        self.names.update({own: (crate, name, own) for own in [*self.owners, *self.texts]})

    def divide(self, text):
        """Divides a text into its definitions. Those of a `module` block are indented, and all of them have its parameters."""
        current, block = None, ""
        for line in filter(str.strip, text.splitlines()):
            if line.startswith("module "):
                current, block = None, line
                continue
            if block and not line.startswith("  "):
                block = ""
            line = line[2:] if block else line
            if head := HEAD.match(line):
                current = head[1]
                self.texts.setdefault(current, block)
                is_data = line.startswith("pub data ")
            elif re.match(r"(?:\w+ )*use |unfolding ", line):
                current = None
            if current:
                self.texts[current] += line + "\n"
                if is_data and (part := re.match(r"  (\S+) : ", line)):
                    self.owners[part[1]] = current

    def find(self, name):
        """The definition of a name that this page defines or passes on; None for a type of the program, which no page defines."""
        name = self.owners.get(name, name)
        if name in self.texts:
            return self.crate, self.name, name
        if name in self.names:
            crate, page, original = self.names[name]
            return page_of(crate, page).find(original)
        return None if name in self.types else sys.exit(f"tools/believed.py: {self.crate} has no definition {self.name}.{name}")


@functools.cache
def passed_on(crate):
    """The pages of other crates that a crate passes on under their names, by these names."""
    listing = CRATES / crate / "specs" / "Lib.antt"
    lines = re.findall(r"^pub use Rattle\.(lrs_\w+)\.specs\.(\w+)$", listing.read_text(), re.M) if listing.exists() else []
    return {name: other for other, name in lines}


@functools.cache
def page_of(crate, name):
    """A page of a crate: its own, or one that it passes on."""
    other = passed_on(crate).get(name)
    return page_of(other, name) if other else Page(crate, name)


@functools.cache
def pages():
    """All pages in reading order: by the layers of the crates, and in a crate as it and its folders list them."""
    return [(crate, page) for crate in crates() for page in listed(CRATES / crate / "specs", "Lib.antt", "")]


def listed(folder, listing, above):
    """The pages that a page of names lists, and those in the folders that it names."""
    if not (folder / listing).exists():
        return
    for name in re.findall(r"^pub mod (\w+)", (folder / listing).read_text(), re.M):
        if (folder / above / name).is_dir():
            yield from listed(folder, f"{above}{name}.antt", f"{above}{name}/")
        else:
            yield f"{above}{name}"


@functools.cache
def cited_by(target):
    page = page_of(target[0], target[1])
    return frozenset(cited(page.texts[target[2]], page.names))


def pages_reached(targets):
    """The pages with a definition that is reached from these, in reading order."""
    reached, waiting = set(), list(targets)
    while waiting:
        target = waiting.pop()
        if target not in reached:
            reached.add(target)
            waiting += cited_by(target)
    return [page for page in pages() if page in {target[:2] for target in reached}]


# Code with contracts.


def end_of(text, start):
    """The place behind the bracket that closes the one at a place."""
    depth = 0
    for place in range(start, len(text)):
        depth += (text[place] == "{") - (text[place] == "}")
        if depth == 0:
            return place + 1
    sys.exit(f"no end of {text[start : start + 60]!r}")


def tree(text, above=()):
    """The paths that a `use` of Rust imports, by their last words."""
    opened = re.fullmatch(r"\s*((?:\w+::)*)\{(.*)\}\s*", text, re.S)
    if not opened:
        path, _, alias = text.strip().partition(" as ")
        path = [*above, *path.split("::")]
        return {alias or path[-1]: path}
    depth, parts = 0, [""]
    for mark in opened[2]:
        depth += (mark == "{") - (mark == "}")
        if mark == "," and depth == 0:
            parts.append("")
        else:
            parts[-1] += mark
    found = {}
    for part in filter(str.strip, parts):
        found.update(tree(part, [*above, *opened[1].split("::")[:-1]]))
    return found


class Function:
    """A function: its signature, the clauses of its contract, and its body, which is None in a trait."""

    def __init__(self, name, text, start):
        self.name, self.clauses, self.body = name, [], None
        place, depth, ends = start, 0, None
        for match in re.finditer(r"[(\[]|[)\]]|\b(?:requires|ensures)\b[^{]*\{|[{;]", text[start:]):
            at = start + match.start()
            if at < place:
                continue
            depth += (match[0] in "([") - (match[0] in ")]")
            if depth or match[0] in "()[]":
                continue
            ends = ends or at
            if match[0] in "{;":
                self.body = text[at:] if match[0] == "{" else None
                break
            place = end_of(text, start + match.end() - 1)
            self.clauses.append(text[start + match.end() : place - 1])
        self.signature = text[start:ends]

    def works(self):
        """Whether it has a body that does something."""
        return self.body is not None and not re.match(r"\{\s*\}", self.body)


class Block:
    """An `impl` or a `trait`: of what, its head and its text; or a whole module as the block of its free functions."""

    def __init__(self, head, text, above):
        self.head, self.text = head, text
        self.names = {**above, **imported("\n".join(re.findall(r"^ +ghost (use [^;]+);", text, re.M)))}
        self.trait, self.type = None, None
        if named := re.match(r"trait (\w+)", head):
            self.trait = named[1]
        elif head:
            *traits, of = re.sub(r"<[^<>]*(?:<[^<>]*>[^<>]*)*>", "", head[4:]).split(" for ")
            self.type = re.sub(r".*::|\W", "", of.split(" where ")[0])
            self.trait = re.sub(r".*::|\W", "", traits[0]) if traits else None

    def functions(self):
        indent = "    " if self.head else ""
        for match in re.finditer(rf"^{indent}(?:pub(?:\(\w+\))? )?(?:const )?fn (\w+)", self.text, re.M):
            yield Function(match[1], self.text, match.end())

    def ghosts(self):
        """What is said of the block for proofs: views and invariants, and what a trait asks."""
        for match in re.finditer(r"^ +ghost (?!use )\w+\s*[:=]\s*(?=\{)", self.text, re.M):
            end = end_of(self.text, match.end())
            if given := re.match(r"\s*=\s*(?=\{)", self.text[end:]):
                end = end_of(self.text, end + given.end())
            yield self.text[match.end() : end]

    def contracts(self):
        return [clause for function in self.functions() for clause in function.clauses]


class Module:
    """A module of Rust: what it imports, its types, and its blocks."""

    def __init__(self, crate, path):
        self.crate, self.path = crate, path
        text = re.sub(r"//.*", "", (CRATES / crate / "src" / f"{path}.rt").read_text())
        self.imports = {}
        for used in re.findall(r"^(?:pub(?:\(\w+\))? )?use ([^;]+);", text, re.M):
            self.imports.update(tree(used))
        names = imported("\n".join(re.findall(r"^ghost (use [^;]+);", text, re.M)))
        self.types = set(re.findall(r"^(?:pub(?:\(\w+\))? )?(?:struct|enum) (\w+)", text, re.M))
        self.free = Block("", text, names)
        parts = re.findall(r"^(?:pub(?:\(\w+\))? )?((?:impl|trait)\b[^{]*)\{\n(.*?)^\}", text, re.M | re.S)
        self.blocks = [Block(head.strip(), inner, names) for head, inner in parts]

    def has(self, name):
        return name in self.types or any(block.trait == name and not block.type for block in self.blocks)


@functools.cache
def module_of(crate, path):
    return Module(crate, path)


def all_modules(crate):
    root = ["lib"] if (CRATES / crate / "src" / "lib.rt").exists() else []
    return [module_of(crate, path) for path in root + modules(crate)]


def home(module, name):
    """The crate of this repository that has the type or the trait that a module names so, and its name there."""
    if module.has(name):
        return module.crate, name
    path = module.imports.get(name)
    if not path or not (path[0] in ("crate", "super") or path[0].startswith("lrs_")):
        return None
    crate = path[0] if path[0].startswith("lrs_") else module.crate
    if any(other.has(path[-1]) for other in all_modules(crate)):
        return crate, path[-1]
    root = module_of(crate, "lib")
    return home(root, path[-1]) if root is not module else None


def cited_by_types(module, signature):
    """What the models of the types of a signature cite, what these types give of traits, and the clauses of the traits in it."""
    homes = {home(module, name) for name in re.findall(r"\b[A-Z]\w*", signature)} - {None}
    for crate, name in sorted(homes):
        for other in all_modules(crate):
            for block in other.blocks:
                if block.trait == name and not block.type:
                    texts = [*block.ghosts(), *block.contracts()]
                elif block.type == name and block.trait and (block.trait == "Model" or home(other, block.trait)):
                    texts = block.ghosts()
                else:
                    continue
                for text in texts:
                    yield from cited(text, block.names)


# Headlines.


class Headline:
    """A function whose contract is promised, with the pages that must be believed for it."""

    def __init__(self, letter, crate, path, name):
        self.letter, self.crate, self.path = letter, crate, path
        self.call = name if letter in {call[0] for call in CALLS} else None
        module = module_of(crate, path)
        of, _, function_name = name.rpartition("::")
        blocks = [block for block in module.blocks if (block.type, block.trait) == (of, None)] if of else [module.free]
        found = [(block, function) for block in blocks for function in block.functions() if function.name == function_name]
        if not found:
            sys.exit(f"tools/believed.py: {crate}/src/{path}.rt has no function {name}")
        block, function = found[0]
        targets = set(cited_by_types(module, block.head + function.signature))
        for clause in function.clauses:
            targets |= set(cited(clause, block.names))
        self.pages = pages_reached(targets)


def states(crate, path):
    """Whether the functions of a module state laws."""
    return "laws" in path or (crate, path) in LAWS or any((crate, path) in (members or []) for _, members, _ in GROUPS)


def group_of(crate, path):
    return next(letter for letter, members, _ in GROUPS if members is None or (crate, path) in members)


@functools.cache
def headlines():
    """The calls, and all laws by group: the public functions of the modules of laws."""
    calls = [Headline(*call[:4]) for call in CALLS]
    laws = []
    for crate in crates():
        for path in modules(crate):
            if states(crate, path):
                names = re.findall(r"^pub fn (\w+)", module_of(crate, path).free.text, re.M)
                laws += [Headline(group_of(crate, path), crate, path, name) for name in names]
    return calls + sorted(laws, key=lambda law: [group[0] for group in GROUPS].index(law.letter))


def joined(given):
    """The pages of some headlines, in reading order."""
    reached = {page for headline in given for page in headline.pages}
    return [page for page in pages() if page in reached]


# What is printed.


def listing():
    """The pages of each headline, the laws module by module."""
    lines = []
    for (letter, crate, path, call), group in itertools.groupby(headlines(), lambda it: (it.letter, it.crate, it.path, it.call)):
        group = list(group)
        found = joined(group)
        what = call or f"{len(group)} {'law' if len(group) == 1 else 'laws'}"
        lines.append(f"{letter}  {crate}/src/{path}.rt: {what}: {len(found)} pages")
        for owner, of_crate in itertools.groupby(found, lambda page: page[0]):
            lines.append(f"     {owner}: {', '.join(page for _, page in of_crate)}")
    return "\n".join(lines)


def shortened(about, room=64):
    """The first part of what a page is about, so that it fits into a cell: what stands behind a mere title, if it says enough."""
    title, colon, behind = re.sub(r" \([^()]*\)(?=$|,)", "", about).partition(": ")
    for text in [behind, title] if colon and len(title) < 16 else [title]:
        text = text.partition("; ")[0]
        while len(text) > room and (shorter := re.match(r"(.*)(?:,(?![^()]*\))| where| over which)\s", text)):
            text = shorter[1]
        if len(text) >= 15:
            break
    return text[0].upper() + text[1:]


def believed():
    """The tables of the headlines and of the pages that must be believed, but for those that laws alone need."""
    shown = [it for it in headlines() if it.letter != GROUPS[-1][0]]
    lines = ["| Letter | Headline | Pages |", "|---|---|---|"]
    for letter, crate, path, name, does in CALLS:
        count = len(joined(it for it in shown if it.letter == letter))
        lines.append(f"| {letter} | [`{name}`](../crates/{crate}/src/{path}.rt) {does} | {count} |")
    for letter, members, about in GROUPS:
        group = [it for it in headlines() if it.letter == letter]
        places = ", ".join(f"`{crate}::{path.replace('/', '::')}`" for crate, path in members or []) or "all other modules of laws"
        lines.append(f"| {letter} | {len(group)} laws of {about}: {places} | {len(joined(group))} |")
    lines += ["", "| Page | What it defines | For |", "|---|---|---|"]
    letters = {}
    for headline in shown:
        for page in headline.pages:
            letters.setdefault(page, {})[headline.letter] = None
    every = len({it.letter for it in shown})
    for crate, of_crate in itertools.groupby(joined(shown), lambda page: page[0]):
        lines.append(f"| **{crate}** | | |")
        for page in of_crate:
            of_page = "all" if len(letters[page]) == every else "".join(letters[page])
            lines.append(f"| {page[1]} | {shortened(page_of(*page).about)} | {of_page} |")
    return "\n".join(lines)


def with_tables(text):
    """The map with its tables as they are computed."""
    begin, end = "<!-- begin believed: tools/believed.py --write -->\n", "<!-- end believed -->"
    before, found, after = text.partition(begin)
    _, closed, after = after.partition(end)
    if not (found and closed):
        sys.exit("docs/MAP.md has no markers")
    return f"{before}{begin}\n{believed()}\n\n{end}{after}"


def main(options):
    if options == ["--list"]:
        print(listing())
    elif options == ["--write"]:
        MAP.write_text(with_tables(MAP.read_text()))
    elif options == ["--check"]:
        if with_tables(MAP.read_text()) != MAP.read_text():
            sys.exit("docs/MAP.md is not as tools/believed.py --write makes it")
    else:
        sys.exit(__doc__.splitlines()[0])


if __name__ == "__main__":
    main(sys.argv[1:])
