"""The Debian package: what it has, that one release makes the same bytes, and what an operator does with it on a clean machine."""

import contextlib
import gzip
import io
import os
import pathlib
import re
import shutil
import subprocess
import tarfile

import pytest

from clean_machine import ENVIRONMENT, booted, set_up, unbooted
from documents import first_sheet
from program import FIRST, FIRST_REPLIES, PATIENCE, TOP, run
from proxies import blocks_of_the_document, put
from serving import answer, free_port, reply, request, sheet_reply
from trees import OTHER_COMMANDS

UNITS = "usr/lib/systemd/system"
EXAMPLES = "usr/share/doc/roadlrs/examples"
EXECUTABLE = {"usr/bin/roadlrs", "usr/lib/roadlrs/backup"}


def clone_of(folder):
    """What a fresh clone has."""
    return shutil.copytree(TOP, folder, ignore=shutil.ignore_patterns("out", ".git", "__pycache__"))


def made_in(clone, **settings):
    """The archive and the package that tools/package makes there."""
    env = {"PATH": OTHER_COMMANDS, **settings.pop("env", {})}
    done = subprocess.run(["tools/package"], cwd=clone, env=env, capture_output=True, text=True, timeout=PATIENCE, **settings)
    assert done.returncode == 0, done
    return [clone / name for name in done.stdout.split()]


@pytest.fixture(scope="module")
def made(tmp_path_factory):
    return made_in(clone_of(tmp_path_factory.mktemp("made") / "clone"))


@pytest.fixture(scope="module")
def package(made):
    return made[1]


@pytest.fixture(scope="module")
def files(package, tmp_path_factory):
    """A folder with the package's files, and those that dpkg reads in DEBIAN."""
    folder = tmp_path_factory.mktemp("files") / "package"
    subprocess.run(["dpkg-deb", "-R", package, folder], check=True)
    return folder


# what is in it


def test_one_release_makes_the_same_bytes(made, tmp_path):
    """By another user, at another time, in another place, from files with other times and rights."""
    clone = clone_of(tmp_path / "another place")
    subprocess.run(["chmod", "-R", "go-rwx", clone], check=True)
    for path in clone.rglob("*"):
        os.utime(path, (1, 1))
    again = made_in(clone, env={"TZ": "Asia/Tokyo", "LC_ALL": "C.UTF-8"}, umask=0o077)
    for path, other in zip(made, again):
        assert path.name == other.name and path.read_bytes() == other.read_bytes(), path.name


def test_the_archive_has_the_files_of_the_package(made, files, tmp_path):
    subprocess.run(["tar", "-C", tmp_path, "-xf", made[0]], check=True)
    (top,) = tmp_path.iterdir()
    assert made[0].name == f"{top.name}-x86_64-linux.tar.xz"
    found = {str(path.relative_to(top)): path.read_bytes() for path in top.rglob("*") if path.is_file()}
    assert found == {str(path.relative_to(files / "usr")): path.read_bytes() for path in (files / "usr").rglob("*") if path.is_file()}


def members(package):
    listed = subprocess.run(["dpkg-deb", "--fsys-tarfile", package], capture_output=True, check=True).stdout
    with tarfile.open(fileobj=io.BytesIO(listed)) as archive:
        return {member.name.removeprefix("./"): member for member in archive if member.name != "."}


def test_rights_and_owners(package):
    """All is root's and nobody else's to write; there are no links, and what is executed is executable."""
    for name, member in members(package).items():
        assert (member.uid, member.gid) == (0, 0) and (member.isdir() or member.isfile()), name
        assert member.mode == (0o755 if member.isdir() or name in EXECUTABLE else 0o644), (name, oct(member.mode))


def test_an_operator_finds_everything(package, files):
    names = members(package)
    units = [f"{UNITS}/{name}" for name in ["roadlrs@.service", "roadlrs-backup@.service", "roadlrs-backup@.timer"]]
    examples = [f"{EXAMPLES}/{name}" for name in ["roadlrs.conf", "nginx.conf", "haproxy.cfg", *os.listdir(TOP / "examples")]]
    manual = [f"usr/share/man/man1/{name}.1.gz" for name in ["roadlrs", *(f"roadlrs-{command}" for command in commands(files))]]
    pages = [path for pattern in ["*.md", "openapi.json", "pictures/*", "recipes/**/*"] for path in (TOP / "docs").glob(pattern)]
    docs = [str(path.relative_to(TOP)) for path in pages if path.is_file()]
    doc = [f"usr/share/doc/roadlrs/{name}" for name in ["README.md", "manifest", "copyright", "changelog.gz", *docs]]
    completions = ["usr/share/bash-completion/completions/roadlrs"]
    wanted = {*EXECUTABLE, *units, *examples, *manual, *doc, *completions}
    assert {name for name, member in names.items() if member.isfile()} == wanted
    assert "etc/roadlrs" in names


def test_the_proxies_lines_are_those_of_the_page(files):
    assert (files / EXAMPLES / "nginx.conf").read_text() == blocks_of_the_document("nginx")[0]
    assert [(files / EXAMPLES / "haproxy.cfg").read_text()] == blocks_of_the_document("haproxy")


def test_dpkg_can_verify_what_is_installed(files):
    listed = (files / "DEBIAN" / "md5sums").read_text().splitlines()
    assert sorted(line[34:] for line in listed) == sorted(str(path.relative_to(files)) for path in (files / "usr").rglob("*") if path.is_file())
    subprocess.run(["md5sum", "--quiet", "-c", "DEBIAN/md5sums"], cwd=files, check=True)


def help_of(files, *command):
    return subprocess.run([files / "usr" / "bin" / "roadlrs", *command, "--help"], capture_output=True, text=True, check=True).stdout


def commands(files):
    """The commands that the help names, but for help itself."""
    found = [name for name in re.findall(r"^  (\w+) +\S", help_of(files), re.M) if name != "help"]
    assert len(found) >= 19
    return found


def words_of(text):
    return {word.strip("<>[].") for word in text.split()}


def test_each_word_of_a_help_is_in_the_manual(files):
    """And the pages use macros of manual pages alone."""
    for command in commands(files):
        page = gzip.decompress((files / "usr" / "share" / "man" / "man1" / f"roadlrs-{command}.1.gz").read_bytes()).decode()
        said = help_of(files, command)
        plain = re.sub(r"\\f[BIR]", "", page).replace("\\-", "-")
        assert f"\n.SH NAME\nroadlrs-{command} - {said.splitlines()[0]}\n" in plain
        headings = {"Usage:", "Arguments:", "Options:", "Example:", "Examples:", ""}
        assert words_of(said) - headings <= words_of(plain), command
        assert set(re.findall(r"^\.(\w+)", page, re.M)) <= {"TH", "SH", "TP", "nf", "fi", "EX", "EE", "BR", "PP"}, command
        assert "\\" not in plain and page.isascii(), command


def test_an_unpacked_package_runs(files):
    sheet, replies = first_sheet()
    done = subprocess.run([files / "usr" / "bin" / "roadlrs", "edit", ":memory:", "stdin"], input=sheet, capture_output=True, text=True)
    assert (done.stdout, done.stderr, done.returncode) == (replies, "", 1)


# on a clean machine


@pytest.fixture(scope="module")
def clean(tmp_path_factory):
    root = tmp_path_factory.mktemp("clean") / "root"
    set_up(root)
    yield root
    remove(root)


def remove(root):
    """What is mounted there is not the test's to remove."""
    subprocess.run(["rm", "-rf", "--one-file-system", root], check=True)


def as_version(files, version, path):
    """The package of a release of this number."""
    folder = path.with_suffix("")
    shutil.copytree(files, folder)
    control = folder / "DEBIAN" / "control"
    control.write_text(re.sub(r"(?m)^Version: .*$", f"Version: {version}", control.read_text()))
    subprocess.run(["dpkg-deb", "--root-owner-group", "-Znone", "-b", folder, path], check=True, capture_output=True)
    shutil.rmtree(folder)


@pytest.fixture
def root(clean, package, files, tmp_path):
    """A clean machine's folder, with the package, and one of the release before."""
    folder = tmp_path / "root"
    subprocess.run(["cp", "-a", clean, folder], check=True)
    shutil.copy(package, folder / "package.deb")
    as_version(files, "0.0.1", folder / "before.deb")
    yield folder
    remove(folder)


def test_the_units_are_hardened_and_read_without_a_word(root):
    machine = unbooted(root)
    machine.does("dpkg", "-i", "/package.deb")
    for unit in ["roadlrs@.service", "roadlrs-backup@.service"]:
        machine.does("systemd-analyze", "security", "--offline=yes", "--threshold=20", f"/{UNITS}/{unit}")
    for unit in ["roadlrs@north.service", "roadlrs-backup@north.service", "roadlrs-backup@north.timer"]:
        done = machine.calls("systemd-analyze", "verify", "--man=no", unit)
        assert (done.stdout, "roadlrs" in done.stderr, done.returncode) == ("", False, 0), done


def settings_of(machine, name):
    """The settings of a unit: each name with its last value, and its environment."""
    lines = (machine.root / UNITS / name).read_text().replace("%i", "north").splitlines()
    settings = dict(line.split("=", 1) for line in lines if "=" in line)
    environment = dict(word.split("=", 1) for word in settings["Environment"].split())
    file = machine.root / settings["EnvironmentFile"].removeprefix("-/")
    lines = file.read_text().splitlines() if file.exists() else []
    return settings, environment | dict(line.split("=", 1) for line in lines if line and not line.startswith("#"))


def started(machine, name):
    """What a unit starts, as systemd does in what a folder allows: as its user, in its folder, with its words and environment."""
    settings, environment = settings_of(machine, name)
    user, folder = settings["User"], f"/var/lib/{settings['StateDirectory']}"
    machine.does("install", "-d", "-o", user, "-g", user, "-m", settings["StateDirectoryMode"], folder)
    words = [re.sub(r"\$\{?(\w+)\}?", lambda found: environment.get(found[1], ""), word) for word in settings["ExecStart"].split()]
    called = ["chroot", f"--userspec={user}:{user}", machine.root, "env", "-C", folder, *filter(None, words)]
    streams = {"stdin": subprocess.DEVNULL, "stdout": subprocess.PIPE, "stderr": subprocess.PIPE}
    return subprocess.Popen(called, env={**ENVIRONMENT, **environment}, umask=int(settings["UMask"], 8), **streams)


@contextlib.contextmanager
def service(machine):
    """The service of the inventory, once it listens."""
    with started(machine, "roadlrs@.service") as child:
        try:
            line = child.stdout.readline()
            assert line.startswith(b"listening "), (line, child.stderr.read() if not line else b"")
            yield int(line.split()[1])
        finally:
            child.kill()


def backs_up(machine):
    with started(machine, "roadlrs-backup@.service") as child:
        written = child.communicate(timeout=PATIENCE)
        assert (*written, child.returncode) == (b"", b"", 0), written


def backup_of(machine):
    """The name and the text of the one file that is kept."""
    (log,) = (machine.root / "var" / "lib" / "roadlrs-backups" / "north").iterdir()
    return log.name, log.read_bytes()


def configure(machine, port):
    """As the page says: the example is copied, and gets another port."""
    example = (machine.root / EXAMPLES / "roadlrs.conf").read_text()
    (machine.root / "etc" / "roadlrs" / "north.conf").write_text(put(example, "PORT=8080\n", f"PORT={port}\n"))


def kept_of(folder):
    return {path.name: (path.read_bytes(), path.stat().st_uid, path.stat().st_mode) for path in folder.iterdir()}


def test_an_inventory_outlives_an_upgrade_and_a_removal(root):
    machine = unbooted(root)
    inventory = root / "var" / "lib" / "roadlrs" / "north"
    wanted = root / "etc" / "systemd" / "system"
    machine.does("dpkg", "-i", "/before.deb")
    machine.does("systemctl", "enable", "roadlrs@north", "roadlrs-backup@north.timer")
    configure(machine, free_port())
    with service(machine) as port:
        assert answer(port, request("POST /v1/edits", FIRST)) == sheet_reply(FIRST_REPLIES)
        backs_up(machine)
    log = run("log", str(inventory / "roads.db")).stdout
    assert backup_of(machine) == ("edits-00000007.csv", log)
    kept = kept_of(inventory)
    owner = int(machine.does("id", "-u", "roadlrs"))
    assert {(uid, mode & 0o777) for _, uid, mode in kept.values()} == {(owner, 0o640)} and owner < 1000
    # an upgrade
    machine.does("dpkg", "-i", "/package.deb")
    assert kept_of(inventory) == kept
    with service(machine) as port:
        assert answer(port, request("GET /health")) == reply(200, b'{"edits":7}')
    kept = kept_of(inventory)
    # a removal, and a purge
    for word in ["-r", "-P"]:
        assert len(list(wanted.glob("*/roadlrs*"))) == 2
        machine.does("dpkg", word, "roadlrs")
        assert kept_of(inventory) == kept and backup_of(machine) == ("edits-00000007.csv", log)
        assert (root / "etc" / "roadlrs" / "north.conf").exists() and int(machine.does("id", "-u", "roadlrs")) == owner
        assert not (root / "usr" / "bin" / "roadlrs").exists() and not (root / "usr" / "lib" / "roadlrs").exists()
    assert not list(wanted.glob("*/roadlrs*"))
    # and again
    machine.does("dpkg", "-i", "/package.deb")
    with service(machine) as port:
        assert answer(port, request("GET /health")) == reply(200, b'{"edits":7}')


def test_it_is_installed_into_a_folder_that_has_no_commands(package, tmp_path):
    """As who makes the image of a machine does it: the user is made there, and not here."""
    for folder in ["var/lib/dpkg/updates", "var/lib/dpkg/info", "etc"]:
        (tmp_path / folder).mkdir(parents=True)
    for file in ["var/lib/dpkg/status", "etc/passwd", "etc/group", "etc/shadow", "etc/gshadow"]:
        (tmp_path / file).touch()
    here = pathlib.Path("/etc/passwd").read_bytes()
    forced = ["--force-depends", "--force-not-root", "--force-bad-path", "--force-script-chrootless"]
    done = subprocess.run(["dpkg", f"--root={tmp_path}", *forced, "--log=/dev/null", "-i", package], capture_output=True, text=True, timeout=PATIENCE)
    assert done.returncode == 0, done
    assert (tmp_path / "etc" / "passwd").read_text().startswith("roadlrs:") and pathlib.Path("/etc/passwd").read_bytes() == here


# with systemd


ASKING = ["curl", "-sS", "--fail", "--retry", "60", "--retry-delay", "1", "--retry-all-errors"]


def test_systemd_keeps_an_inventory_served(root):
    """What the page says, from the installation to the removal, each command as an operator types it."""
    (root / "network.csv").write_bytes(FIRST)
    with booted(root) as machine:
        if machine is None:
            return
        health = lambda port=8080: machine.does(*ASKING, f"http://127.0.0.1:{port}/health")
        process = lambda: machine.does("systemctl", "show", "-P", "MainPID", "roadlrs@north")
        is_active = lambda unit: machine.calls("systemctl", "is-active", unit).stdout.strip()
        machine.does("dpkg", "-i", "/before.deb")
        machine.does("systemctl", "enable", "--now", "roadlrs@north", "roadlrs-backup@north.timer")
        assert health() == '{"edits":0}'
        assert machine.does(*ASKING, "--data-binary", "@/network.csv", "http://127.0.0.1:8080/v1/edits").encode() == FIRST_REPLIES
        machine.does("systemctl", "start", "roadlrs-backup@north")
        assert machine.does("ls", "/var/lib/roadlrs-backups/north") == "edits-00000007.csv\n"
        status = machine.does("cat", f"/proc/{process().strip()}/status").splitlines()
        assert {"NoNewPrivs:\t1", "Seccomp:\t2", f"CapEff:\t{0:016}", f"CapBnd:\t{0:016}"} <= set(status), status
        assert machine.does("journalctl", "-q", "-p", "warning", "-u", "roadlrs@north", "-u", "roadlrs-backup@north") == ""
        # it is killed
        machine.does("systemctl", "kill", "-s", "KILL", "roadlrs@north")
        assert health() == '{"edits":7}'
        # a second inventory
        (root / "etc" / "roadlrs" / "south.conf").write_text("PORT=8081\nMAX=2\nOPTIONS=--sums --most-reply 100000\n")
        machine.does("systemctl", "enable", "--now", "roadlrs@south")
        for _ in range(3):
            assert health(8081) == '{"edits":0}'
        assert (root / "var" / "lib" / "roadlrs" / "south" / "roads.db").exists()
        # an upgrade
        before = process()
        machine.does("dpkg", "-i", "/package.deb")
        assert health() == '{"edits":7}' and process() not in (before, "0\n")
        # a removal, and what stays
        machine.does("dpkg", "-r", "roadlrs")
        assert [is_active(unit) for unit in ["roadlrs@north", "roadlrs@south", "roadlrs-backup@north.timer"]] == ["inactive"] * 3
        machine.does("dpkg", "-i", "/package.deb")
        machine.does("systemctl", "start", "roadlrs@north")
        assert health() == '{"edits":7}'
        machine.does("dpkg", "-P", "roadlrs")
        assert sorted(os.listdir(root / "var" / "lib" / "roadlrs" / "north")) == ["roads.db", "roads.db-wal"]
        assert os.listdir(root / "etc" / "roadlrs") == ["south.conf"]
