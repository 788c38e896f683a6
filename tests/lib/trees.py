"""A small repository with the scripts of this one, crates of no content, and a stand-in for rt, which proves nothing."""

import os
import pathlib
import pty
import shutil
import subprocess
import tempfile

from program import PATIENCE, TOP, Ended, shown_on

CRATES = """# Each crate and the crates that it stands on

# Low things
low:
middle: low
beside: low

# The program, and its words
lrs_cli: low middle csv
"""

SCRIPTS = ["roadlrs", "verify", "tools/release", "tools/package", "tools/release.bash"]

# It notes each call and what lies where it was called, and builds a program that prints its words and then its standard input.
RT = """#!/bin/sh
case $1 in
    version) echo "$KIT"; exit ;;
    help) [ "$KEEPS" = no ] || echo 'rt ci --anew'; exit ;;
esac
echo "$*" >>"$NOTES"
if [ "$KEEPS $2" = 'no --anew' ]; then echo 'no such word'; exit 2; fi
find . -type f | LC_ALL=C sort >"$NOTES.files"
cat
for crate in $(sed -n '/^#/d; s/:.*//p' crates.txt); do
    echo "== $crate"
    if [ "$crate" = "$REFUSED" ]; then echo 'why it is refused'; exit 1; fi
    if [ "$crate" = "$KEPT" ]; then
        echo "rt: $crate is kept: an earlier run on this machine proved the same files"
    else
        echo 'logic=proved functions=2 sum=1'
        echo "rt: $crate proved"
    fi
done
mkdir -p crates/lrs_cli/out && { echo '#!/bin/sh'; cat "$PROGRAM"; cat crates/low/src/lib.rt; } >crates/lrs_cli/out/lrs_cli
chmod +x crates/lrs_cli/out/lrs_cli
echo 'rt: ok; must-fail edits: 5 refused; done in this run: all'
echo '3 passed, 0 failed'
"""

PROGRAM = """# GLIBC_2.34
case $1 in
    --version) echo 'roadlrs 7.0.1, proved by a kit'; exit ;;
    status) exit "$2" ;;
esac
printf '%s\\n' "$@"
cat
"""

KIT = "kit of the tests"
OTHER_COMMANDS = "/usr/bin:/bin"


class Tree:
    """The repository, in a folder of this name, and what was asked of rt there."""

    def __init__(self, folder, name="tree"):
        self.folder, self.top = pathlib.Path(folder), pathlib.Path(folder) / name
        self.home = self.folder / "home"
        self.commands = self.folder / "commands"
        self.notes = self.folder / "notes"
        self.built = self.top / "crates" / "lrs_cli" / "out" / "lrs_cli"
        self.unpacked = self.top / "out" / "release" / "roadlrs"
        for crate, root in {"low": "lib", "middle": "lib", "beside": "lib", "lrs_cli": "main"}.items():
            self.write(f"crates/{crate}/src/{root}.rt", f"# {crate}\n")
            self.write(f"crates/{crate}/specs/Lib.antt", f"-- {crate}\n")
            self.write(f"crates/{crate}/proofs/deep/Proof.antt", f"-- {crate}\n")
            self.write(f"crates/{crate}/must-fail/wrong.edit", "\n")
            self.write(f"crates/{crate}/wrong-bodies/wrong.edit", "\n")
            self.write(f"crates/{crate}/out/left", "\n")
        self.write("crates/lrs_cli/stdin", "\n")
        self.write("crates.txt", CRATES)
        self.write("HANDLES", "Handles allowed: Net.\n")
        self.write("README.md", "\n")
        (self.top / "tools").mkdir()
        for script in SCRIPTS:
            shutil.copy(TOP / script, self.top / script)
        self.commands.mkdir()
        self.home.mkdir()
        self.write(self.commands / "rt", RT)
        (self.commands / "rt").chmod(0o755)
        self.write(self.folder / "program", PROGRAM)
        self.notes.touch()

    def write(self, path, text):
        path = self.top / path
        path.parent.mkdir(parents=True, exist_ok=True)
        path.write_text(text)

    def settings(self, refused="", kept="", kit=KIT, keeps=True):
        """The environment of a call: rt is to refuse one crate, or to say that it kept what it proved of one; or it keeps nothing ever."""
        env = {"PATH": f"{self.commands}:{OTHER_COMMANDS}", "HOME": str(self.home), "NOTES": str(self.notes)}
        return {**env, "REFUSED": refused, "KEPT": kept, "KEEPS": "yes" if keeps else "no", "KIT": kit, "PROGRAM": str(self.folder / "program")}

    def call(self, script, *words, given=b"given\n", program=None, env=None, refused="", kept="", kit=KIT, keeps=True, **settings):
        """Calls one of the scripts, and catches what it writes."""
        env = {**self.settings(refused, kept, kit, keeps), **(env or {})}
        settings = {"input": given, "capture_output": True, "timeout": PATIENCE, **settings}
        return Ended(subprocess.run([program or self.top / script, *words], env=env, **settings))

    def run(self, *words, **settings):
        return self.call("roadlrs", *words, **settings)

    def run_on_terminal(self, *words):
        """What a run of the program shows on a terminal that is its standard error."""
        outer, inner = pty.openpty()
        reader, seen = shown_on(outer)
        try:
            self.call("roadlrs", *words, capture_output=False, stdout=subprocess.PIPE, stderr=inner)
        finally:
            os.close(inner)
            reader.join()
            os.close(outer)
        return b"".join(seen)

    def calls(self):
        return self.notes.read_text().splitlines()

    def forget_rt(self):
        (self.commands / "rt").unlink()

    def build(self):
        """What rt ci does here, and what it says."""
        done = subprocess.run(["rt", "ci"], cwd=self.top, env=self.settings(), stdin=subprocess.DEVNULL, capture_output=True, timeout=PATIENCE)
        assert done.returncode == 0, done
        return done.stdout.decode()

    def build_by_hand(self, words):
        """Puts a program there that is newer than all sources."""
        self.write(self.built, f"#!/bin/sh\necho {words}\n")
        self.built.chmod(0o755)

    def make_release(self):
        """Builds the program, releases it, and leaves what a fresh clone has, and no rt."""
        self.build()
        ended = self.call("tools/release")
        assert ended.status == 0, ended
        shutil.rmtree(self.built.parent)
        self.forget_rt()


def only(folder, *commands):
    """A folder with these commands alone."""
    folder.mkdir()
    for command in commands:
        (folder / command).symlink_to(shutil.which(command, path=OTHER_COMMANDS))
    return {"PATH": str(folder)}


BASIC = "bash sh cat readlink find xargs stat cmp mktemp mkdir rm mv chmod touch awk sed sort sha256sum cut".split()


def in_tree(test, name="tree"):
    with tempfile.TemporaryDirectory() as folder:
        test(Tree(folder, name))
