"""What holds of the crates, their modules and the pages about them: how many there are, one table of layers, one map, and names that say what
a module has."""

import re
import subprocess
import sys

from program import TOP

sys.path.insert(0, str(TOP / "tools"))

import believed

CRATES = TOP / "crates"
README = TOP / "README.md"
MAP = TOP / "docs" / "MAP.md"
ARCHITECTURE = TOP / "docs" / "ARCHITECTURE.md"

# rt's bookkeeping walks each way down from each crate to those that it stands on, so a crate more costs all that stand above it.
MOST_CRATES = 42
MOST_WAYS = 95_000

# How many wrong bodies of a crate the gate tries; those of wrong-bodies/ are tried by whoever changes the crate.
MOST_TRIED = 15

# Crates of laws, of examples and of tests: their functions state what holds, and most of them have no body.
STATING = re.compile(r"lrs_\w+_laws|lrs_\w+_tests|lrs_machine|lrs_examples")

# Names of modules that end in -ing and are words of the field, and what they mean there.
FIELD_TERMS = {"framing": "HTTP message framing: where the body of a request ends (RFC 9112, section 6)"}

# Words that say what became of something, and not what a module has.
PARTICIPLES = {"said", "filled", "known", "taken", "held", "kept", "named", "tested", "written", "drawn"}


def sources():
    return sorted(path for path in CRATES.glob("*/src/**/*.rt"))


def layers_of_the_architecture():
    """The rows of its table of layers: each layer with the crates that the second cell names."""
    table = re.search(r"^\| Layer \| Crates \|.*\n\|[-| ]+\|\n((?:\|.*\n)+)", ARCHITECTURE.read_text(), re.M | re.I)[1]
    for row in table.splitlines():
        layer, crates = row.split("|")[1:3]
        yield layer.strip(" *"), re.findall(r"\blrs_\w+", re.sub(r"\]\([^)]*\)", "]", crates))


def test_the_layers_are_those_of_the_list_of_crates():
    assert list(layers_of_the_architecture()) == believed.layers()


def crates_used():
    """Each crate of the list, with those that it names."""
    lines = (TOP / "crates.txt").read_text().splitlines()
    pairs = [line.split(":") for line in lines if line.strip() and not line.startswith("#")]
    return {name.strip(): used.split() for name, used in pairs}


def test_each_crate_stands_on_crates_that_are_listed_before_it():
    uses = crates_used()
    listed = list(uses)
    assert listed == believed.crates()
    for name, used in uses.items():
        for other in used:
            assert other not in listed or listed.index(other) < listed.index(name), (name, other)


def ways():
    """How many ways lead down from each crate: one to itself, and those of each crate of the repository that it names."""
    found = {}
    for name, used in crates_used().items():
        found[name] = 1 + sum(found.get(other, 0) for other in used)
    return found


def test_there_are_few_ways_from_crate_to_crate():
    assert sum(ways().values()) <= MOST_WAYS, sorted(ways().items(), key=lambda pair: -pair[1])[:5]


def test_each_path_in_the_steps_of_a_verb_is_there():
    steps = re.findall(r"^\d\. (lrs_\w+): (.*)$", MAP.read_text(), re.M)
    assert len(steps) == 5
    for crate, step in steps:
        for path in re.findall(r"`((?:src|proofs)/[^`]*)`", step):
            assert (CRATES / crate / path.replace("NAME", "enter")).exists(), (crate, path)


def test_the_tables_of_the_map_are_as_they_are_computed():
    done = subprocess.run([sys.executable, "-B", "tools/believed.py", "--check"], cwd=TOP, capture_output=True, text=True, timeout=600)
    assert (done.returncode, done.stderr) == (0, "")


def test_each_imported_word_is_found():
    """What tools/believed.py follows is all there: no page or module imports a word whose definition it overlooks."""
    scopes = [believed.page_of(*page).names for page in believed.pages()]
    for crate in believed.crates():
        for module in believed.all_modules(crate):
            scopes += [block.names for block in [module.free, *module.blocks]]
    for crate, page, name in {target for names in scopes for target in names.values()}:
        assert believed.page_of(crate, page)
        if name:
            believed.page_of(crate, page).find(name)


def works(crate):
    """Whether a crate has a function with a body that does something."""
    modules = believed.all_modules(crate)
    return any(function.works() for module in modules for block in [module.free, *module.blocks] for function in block.functions())


def test_each_crate_works_but_those_that_state_what_holds():
    for crate in believed.crates():
        assert STATING.fullmatch(crate) or works(crate), f"no function of {crate} has a body that does something"


def test_there_are_few_crates_and_all_are_listed():
    listed = believed.crates()
    assert len(listed) <= MOST_CRATES
    assert sorted(listed) == sorted(folder.name for folder in CRATES.iterdir())


def test_each_crate_has_a_root_with_tactics_and_a_line_on_what_it_is():
    for name in believed.crates():
        roots = [path for path in (CRATES / name / "src" / "lib.rt", CRATES / name / "src" / "main.rt") if path.exists()]
        assert len(roots) == 1, name
        text = roots[0].read_text()
        assert text.startswith("//! "), name
        assert "#![tactic(auto)]" in text, name


def definition_pages():
    """The pages of definitions, without those that only name the pages of a folder."""
    pages = sorted(CRATES.glob("*/specs/**/*.antt"))
    return [path for path in pages if path.stem != "Lib" and not path.with_suffix("").is_dir()]


def test_each_definition_page_says_first_what_it_defines():
    assert len(definition_pages()) > 100
    for path in definition_pages():
        assert path.read_text().startswith("-- "), path


def wrong_bodies(crate, folder):
    return sorted((CRATES / crate / folder).glob("*.edit"))


def test_the_gate_tries_few_wrong_bodies_of_a_crate():
    for crate in believed.crates():
        tried, others = wrong_bodies(crate, "must-fail"), wrong_bodies(crate, "wrong-bodies")
        assert len(tried) <= MOST_TRIED, (crate, len(tried))
        assert len({edit.name for edit in [*tried, *others]}) == len(tried) + len(others), crate


def test_each_wrong_body_still_stands_in_its_crate():
    for crate in believed.crates():
        for edit in wrong_bodies(crate, "must-fail") + wrong_bodies(crate, "wrong-bodies"):
            text = ""
            for line in edit.read_text().splitlines():
                word, _, rest = line.partition(": ")
                if word == "file":
                    text = (CRATES / crate / rest).read_text()
                elif word == "old":
                    assert text.count(rest) == 1, (edit, rest)


def test_no_file_is_too_long():
    for path in [*CRATES.rglob("*.rt"), *CRATES.rglob("*.antt")]:
        if "out" not in path.relative_to(CRATES).parts:
            assert len(path.read_text().splitlines()) <= 600, path


def test_the_readme_is_short_and_leads_to_the_architecture():
    assert README.stat().st_size <= 8 * 1024
    assert any("](docs/ARCHITECTURE.md)" in line for line in README.read_text().splitlines()[:10])


def test_the_pages_stay_short():
    for pages, most in [("docs/*.md", 160), ("docs/recipes/*.md", 68), ("crates/*/README.md", 110)]:
        assert sum(page.stat().st_size for page in TOP.glob(pages)) <= most * 1024, pages


def test_few_clauses_are_longer_than_a_line():
    clauses = [line for path in sources() for line in path.read_text().splitlines() if re.match(r" *(requires|ensures)\b", line)]
    long = [line for line in clauses if len(line) > 100]
    assert len(long) * 100 <= len(clauses) * 8, f"{len(long)} of {len(clauses)} lines"


def test_modules_are_named_by_nouns():
    for path in sources():
        for word in path.relative_to(CRATES).with_suffix("").parts[2:]:
            assert not word.endswith("ing") or word in FIELD_TERMS, path
            assert word not in PARTICIPLES, path
