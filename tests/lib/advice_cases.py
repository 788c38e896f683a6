"""The cases of advice of tests/program/advice_cases.txt, and the inventory that they are tried at."""

import re

from program import HEADER, TOP, sheet_of
from serving import SURVEY_HEADER
from stores import edit

CASES = TOP / "tests" / "program" / "advice_cases.txt"


def bytes_of(text):
    """The bytes of a text, in which \\n is a line feed and \\r a carriage return."""
    return text.replace("\\n", "\n").replace("\\r", "\r").encode()


def cases():
    """Each case: its kind, its sheet, the reply or the name of its fault, and the lines of advice."""
    for block in CASES.read_text().split("\n\n"):
        lines = [line for line in block.splitlines() if line and not line.startswith("#")]
        said = [line.partition(": ")[::2] for line in lines if ": " in line or line.endswith(":")]
        facts = {name: text for name, text in said if name != "advice"}
        if not facts:
            continue
        sheet = bytes_of(facts["sheet"]) if "sheet" in facts else (SURVEY_HEADER if facts["kind"] == "survey" else HEADER) + bytes_of(facts["record"].lstrip()) + b"\n"
        if "record" in facts and facts["record"].startswith(" "):
            sheet = HEADER + bytes_of(facts["record"]) + b"\n"
        replies = bytes_of(facts["replies"]) if "replies" in facts else (facts["reply"] + "\n").encode() if "reply" in facts else b""
        yield facts["kind"], sheet, replies, facts.get("fault"), [text for name, text in said if name == "advice"]


def make_begun(path):
    """Makes the inventory that the cases are tried at."""
    begun = [line.lstrip("# ") for line in CASES.read_text().splitlines() if re.match(r"#   b\d,", line)]
    assert len(begun) == 9
    assert edit(path, sheet_of(*begun)).status == 0
