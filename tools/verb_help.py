"""Makes the texts of `roadlrs help VERB` of docs/SHEETS.md: crates/lrs_cli_help/src/verbs.rt.

Without a word it says whether they agree, and `--write` writes them."""

import pathlib
import re
import sys
import textwrap

TOP = pathlib.Path(__file__).resolve().parent.parent
TARGET = TOP / "crates" / "lrs_cli_help" / "src" / "verbs.rt"
WIDTH = 79
LONGEST = 100


def plain(text):
    """Text of the page without its marks."""
    text = re.sub(r"\[([^\]]*)\]\([^)]*\)", r"\1", text)
    return text.replace("`", "").replace("./roadlrs", "roadlrs").strip()


def rows(section, first):
    """The rows of the table whose header begins so."""
    lines = section.splitlines()
    start = next((i for i, line in enumerate(lines) if line.startswith(f"| {first} |")), None)
    if start is None:
        return []
    found = []
    for line in lines[start + 2:]:
        if not line.startswith("|"):
            break
        found.append([plain(cell) for cell in line.strip("|").split("|")])
    return found


def hung(left, text):
    """Text behind what stands at the left, further lines below it."""
    return textwrap.wrap(text, WIDTH, initial_indent=left, subsequent_indent=" " * len(left), break_long_words=False, break_on_hyphens=False)


def help_of(verb, section):
    """What is printed for a verb."""
    about = plain(next(part for part in section.split("\n\n")[1:] if part and part[0].isupper()))
    fields = rows(section, "Field")
    # a blank stands behind the longest name
    wide = max(9, *(len(name) + 1 for name, _, _ in fields))
    lines = [*textwrap.wrap(f"{verb}: {about}", WIDTH), "", f"{'Field':<{wide}}Column  It may hold"]
    for name, column, holds in fields:
        lines += hung(f"{name:<{wide}}{column:<8}", holds)
    record = re.search(rf"^[^,\n]+,{verb},.*$", section, re.M).group(0)
    lines += ["", "Example:", record, "", "Refused, in this order:"]
    for cause, when, what in rows(section, "Refused"):
        lines += hung(f"{cause:<14}  ", f"{when}: {what}")
    lines += ["", "docs/SHEETS.md has more, and what every record may be refused for."]
    return "\n".join(line.rstrip() for line in lines) + "\n"


def verbs(page):
    """Each verb of the page with its help."""
    parts = re.split(r"^### `(\w+)`$", page, flags=re.M)
    return {verb: help_of(verb, re.split(r"^## ", section, flags=re.M)[0]) for verb, section in zip(parts[1::2], parts[2::2])}


def source(texts):
    """The source of the crate."""
    out = ["//! What `roadlrs help VERB` prints. Made of docs/SHEETS.md by tools/verb_help.py.", "",
           "ghost use Rattle.std.specs.Prelude.{◌↔◌, IsSome, IsTrue};", "ghost use Rattle.lrs_cli_help.specs.Verbs.{is_verb};", ""]
    for verb, text in texts.items():
        assert '"' not in text and "\\" not in text, verb
        head = f'static {verb.upper()}: &str ='
        # as the layout of sources has it: a first line that is too long begins below
        between = " " if len(head) + len(text.partition("\n")[0]) + 2 <= LONGEST else "\n    "
        out.append(f'{head}{between}"{text}";\n')
    out += ["/// The help on a verb of edit sheets: none where there is no such verb.", "pub fn verb_help(verb: &str) -> Option<&'static str>",
            "    ensures { IsSome result ↔ IsTrue (is_verb verb.now) }", "{", "    match verb {"]
    out += [f'        "{verb}" => Some({verb.upper()}),' for verb in texts]
    out += ["        _ => None,", "    }", "}", ""]
    return "\n".join(out)


def main():
    made = source(verbs((TOP / "docs" / "SHEETS.md").read_text()))
    if "--write" in sys.argv[1:]:
        TARGET.write_text(made)
        return 0
    if TARGET.read_text() != made:
        print("crates/lrs_cli_help/src/verbs.rt is not what docs/SHEETS.md says: python3 -B tools/verb_help.py --write")
        return 1
    return 0


if __name__ == "__main__":
    sys.exit(main())
