"""Puts the page together, and writes it into the program.

page/src/index.html is a page with its style sheets and modules beside it. `python3 tools/embed.py` puts them into the one file
page/index.html, and that in two parts into crates/lrs_cli_tasks/src/page_file/front.rt and back.rt. With `--check` nothing is
written, and the status is 1 where one of the three differs.

A module is plain JavaScript. Its imports stand each on a line, of names of another module; what it exports, it exports where it is
declared. In the page all modules are one script, each behind those that it imports, so no two declare one name.
"""

import base64
import hashlib
import pathlib
import re
import sys

TOP = pathlib.Path(__file__).resolve().parent.parent
SOURCE = TOP / "page" / "src"
PAGE = TOP / "page" / "index.html"
MODULES = TOP / "crates" / "lrs_cli_tasks" / "src" / "page_file"

# A text that is put together of others takes literals alone, so each part is a macro: that of the front hands its text to that of the back.
FRONT = '''//! The front of the web page, page/index.html: tools/embed.py writes this file.

macro_rules! page_front {
    ($back:ident) => {
        $back!(r##"%s"##)
    };
}

pub(super) use page_front;
'''
BACK = '''//! The back of the web page, page/index.html: tools/embed.py writes this file.

macro_rules! page_back {
    ($front:literal) => {
        concat!($front, r##"%s"##)
    };
}

pub(super) use page_back;
'''

# What a raw text of the source cannot have.
FORBIDDEN = {'"##': "the end of a raw text", "\t": "a tabulator", "\r": "a carriage return", " \n": "a blank at the end of a line"}

IMPORT = re.compile(r'import \{ ([\w$, ]+) \} from "\./(\w+\.js)";')
DECLARED = re.compile(r"^(?:export )?(?:async )?(?:(?:function\*?|class) ([\w$]+)|(?:const|let) ([\w$]+)(.*))", re.M)
# A line that ends so goes on, or is whole: the next one can stand beside it.
WHOLE = {"js": (";", "{", ",", "("), "css": (";", "{", "}", ",")}
WIDTH = 240


def refuse(told):
    raise SystemExit(f"tools/embed.py: {told}")


def joined(name, lines):
    """The lines of a source without what only a reader needs, several on one line."""
    kind, put = name.rpartition(".")[2], []
    for line in map(str.strip, lines):
        if not line or line.startswith("//") or (line.startswith("/*") and line.endswith("*/")):
            continue
        if kind == "js" and (re.search(r"\s//|/\*", line) or line.count("`") % 2):
            refuse(f"{name} has a comment behind code, or a text over several lines: {line}")
        if kind == "css":
            line = re.sub(r"(?<=[{};,:]) | (?=\{)", "", line)
        if put and put[-1].endswith(WHOLE[kind]) and len(put[-1]) + len(line) <= WIDTH:
            put[-1] += line
        else:
            put.append(line)
    return put


def exports_of(text):
    """The names that a module exports."""
    return {found[1] or found[2] for found in DECLARED.finditer(text) if found[0].startswith("export ")}


class Script:
    """The modules in one script."""

    def __init__(self, folder):
        self.folder, self.lines, self.done, self.declared, self.imported = folder, [], {}, {}, set()

    def takes(self, name, above=()):
        """Takes in a module behind those that it imports."""
        if name in above:
            refuse(f"{name} imports itself, by {above[-1]}")
        if name in self.done:
            return
        text = (self.folder / name).read_text()
        for names, other in IMPORT.findall(text):
            self.takes(other, (*above, name))
            self.checks(name, text, names.split(", "), other)
        self.done[name] = exports_of(text)
        for found in DECLARED.finditer(text):
            for word in [found[1] or found[2], *re.findall(r", ([\w$]+)(?= =|,|;)", found[3] or "")]:
                if self.declared.setdefault(word, name) != name:
                    refuse(f"{name} and {self.declared[word]} both declare {word}")
        lines = [re.sub("^export ", "", line) for line in text.splitlines() if not IMPORT.fullmatch(line)]
        for line in lines:
            if re.match(r"\s*(import|export)\b", line):
                refuse(f"{name} has an import or export of another form: {line}")
        self.lines += joined(name, lines)

    def checks(self, name, text, names, other):
        """Each name that is imported is there, and used."""
        text = IMPORT.sub("", text)
        for word in names:
            if word not in self.done[other]:
                refuse(f"{name} imports {word}, which {other} does not export")
            if not re.search(rf"(?<![\w$])(?:(?<!\.)|(?<=\.\.\.)){re.escape(word)}(?![\w$])", text):
                refuse(f"{name} imports {word} and does not use it")
        self.imported.update(names)

    def not_imported(self):
        return sorted(set().union(*self.done.values()) - self.imported)


def page_of(folder):
    """The one file: the page of the folder with its style sheets and modules in it."""
    text, script, styles = (folder / "index.html").read_text(), Script(folder), []
    for name in re.findall(r'<link rel="stylesheet" href="(\w+\.css)">\n', text):
        styles += joined(name, (folder / name).read_text().splitlines())
    for name in re.findall(r'<script type="module" src="(\w+\.js)"></script>', text):
        script.takes(name)
    for unused in sorted({path.name for path in folder.glob("*.js")} - set(script.done)) + script.not_imported():
        refuse(f"nothing imports {unused}")
    code = '\n"use strict";\n' + "\n".join(script.lines) + "\n"
    if "</" in code:
        refuse("a module has an end of a tag")
    allowed = base64.b64encode(hashlib.sha256(code.encode()).digest()).decode()
    text = re.sub(r'(<link rel="stylesheet" href="\w+\.css">\n)+', lambda _: "<style>\n" + "\n".join(styles) + "\n</style>\n", text)
    text = re.sub(r'<script type="module" src="\w+\.js"></script>', lambda _: f"<script>{code}</script>", text)
    return text.replace("style-src 'self' ", "style-src ").replace("script-src 'self'", f"script-src 'sha256-{allowed}'").encode()


def modules_of(page):
    """The modules that have this page, cut at the end of the line in its middle; each with its bytes."""
    text = page.decode("utf-8")
    for part, what in FORBIDDEN.items():
        if part in text:
            refuse(f"line {text[: text.index(part)].count(chr(10)) + 1} of the page has {what}")
    cut = text.index("\n", len(text) // 2) + 1
    return {MODULES / "front.rt": (FRONT % text[:cut]).encode(), MODULES / "back.rt": (BACK % text[cut:]).encode()}


def main(words):
    page = page_of(SOURCE)
    written = {PAGE: page, **modules_of(page)}
    if words == ["--check"]:
        for path, content in written.items():
            if not path.exists() or path.read_bytes() != content:
                raise SystemExit(f"{path.relative_to(TOP)} is not made from page/src: run python3 tools/embed.py")
    elif words:
        raise SystemExit("usage: python3 tools/embed.py [--check]")
    else:
        for path, content in written.items():
            path.write_bytes(content)


if __name__ == "__main__":
    main(sys.argv[1:])
