"""What the pages of forms and of wrong bodies say of the sources: each name that they give is one of theirs."""

import re

from program import TOP

PAGE = TOP / "docs" / "FORMS.md"
WRONG_BODIES = TOP / "docs" / "WRONG_BODIES.md"
CRATES = TOP / "crates"
HEAD = ["Call", "As it was asked for", "As it stands, and why"]


def rows():
    """The cells of each row of the tables, their heads too."""
    for line in PAGE.read_text().splitlines():
        if line.startswith("|"):
            yield [cell.strip() for cell in re.split(r"(?<!\\)\|", line)[1:-1]]


def words(text):
    return set(re.findall(r"[A-Za-z_]\w*", text))


def sources():
    """The text of each file of code and of definitions."""
    paths = [path for folder in ("src", "specs") for path in CRATES.glob(f"*/{folder}/**/*") if path.suffix in (".rt", ".antt")]
    assert len(paths) > 500
    return [path.read_text() for path in sorted(paths)]


def standing():
    """Each text in backquotes of the column that says how things stand."""
    return [text for _, _, stands in rows() for text in re.findall(r"`([^`]+)`", stands)]


def test_each_table_has_three_columns_and_says_something_in_each():
    heads = [row for row in rows() if row == HEAD]
    assert len(heads) == PAGE.read_text().count("\n## ")
    for row in rows():
        assert len(row) == 3 and all(row), row


def test_no_call_has_two_rows():
    calls = [row[0] for row in rows() if row != HEAD and set(row[0]) != {"-"}]
    assert len(calls) > 50
    assert sorted(set(calls)) == sorted(calls)


def test_each_name_that_stands_is_in_the_sources():
    """An option or a path stands there as it is written; of any other text each word does, and of `Type::name` both in one file."""
    texts = sources()
    known = [words(text) for text in texts]
    everywhere = set().union(*known)
    for named in standing():
        if named.startswith(("-", "/")) and not named.startswith("->"):
            assert any(named in text for text in texts), named
            continue
        assert words(named) <= everywhere, (named, words(named) - everywhere)
        for owner, member in re.findall(r"\b([A-Z]\w*)(?:::|\.)([A-Za-z_]\w*)", named):
            assert any({owner, member} <= names for names in known), named


def test_each_wrong_body_that_is_named_stands():
    """By its crate and its name, as `lrs_measure/floor_goes_up`."""
    named = re.findall(r"`(lrs_\w+)/(\w+)`", WRONG_BODIES.read_text())
    assert named
    for crate, name in named:
        assert [path for path in CRATES.glob(f"{crate}/*/{name}.edit") if path.parent.name in ("must-fail", "wrong-bodies")], (crate, name)
