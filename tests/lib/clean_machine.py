"""A machine on which nothing is but Debian: a folder with a few of the packages that are installed here, and a dpkg that knows of them.

Commands are called in it as in any root folder; or systemd is booted in it, with processes, mounts and a network of its own.
"""

import contextlib
import os
import pathlib
import select
import subprocess
import time
import warnings

from program import PATIENCE

# what a small system has, and what units and backups need; what these depend on comes with them
PACKAGES = "base-files base-passwd bash coreutils curl dash diffutils dpkg findutils grep libc-bin login passwd sed systemd util-linux".split()

# what nobody reads there
PASSED_OVER = ("/usr/share/doc/", "/usr/share/man/", "/usr/share/locale/", "/usr/share/info/")

ENVIRONMENT = {"PATH": "/usr/sbin:/usr/bin:/sbin:/bin"}

INFORMATION = pathlib.Path("/var/lib/dpkg/info")


def told(*words):
    return subprocess.run(words, capture_output=True, text=True, check=True, timeout=PATIENCE).stdout


def installed():
    """Each package that is installed here, with those that it depends on; of alternatives, all."""
    form = "${db:Status-Abbrev}\t${Package}\t${Pre-Depends}, ${Depends}\n"
    rows = [line.split("\t") for line in told("dpkg-query", "-W", "-f", form).splitlines()]
    needs = {name: text.replace("|", ",").split(",") for status, name, text in rows if status == "ii "}
    return {name: [text.split()[0].split(":")[0] for text in texts if text.strip()] for name, texts in needs.items()}


def with_dependencies(names):
    known, found, left = installed(), set(), list(names)
    while left:
        name = left.pop()
        if name in known and name not in found:
            found.add(name)
            left += known[name]
    assert found >= set(names), set(names) - found
    return sorted(found)


def copy_files(packages, root):
    listed = {line for line in told("dpkg-query", "-L", *packages).splitlines() if line.startswith("/") and not line.startswith(PASSED_OVER)}
    # where /bin is a link to /usr/bin, a package may name its file either way
    real = {os.path.join(os.path.realpath(os.path.dirname(path)), os.path.basename(path)) for path in listed if path != "/."}
    real |= {str(path) for name in packages for path in INFORMATION.glob(f"{name}*.list") if path.stem.split(":")[0] == name}
    names = "\0".join(sorted(path[1:] for path in real if os.path.lexists(path)))
    packing = subprocess.Popen(["tar", "-C", "/", "--null", "--no-recursion", "-c", "-T", "-"], stdin=subprocess.PIPE, stdout=subprocess.PIPE)
    with packing, subprocess.Popen(["tar", "-C", root, "-x", "-p"], stdin=packing.stdout) as unpacking:
        packing.stdin.write(names.encode())
        packing.stdin.close()
        # (with 1 it says that a file changed as it was read, as /tmp does beside other tests)
        assert unpacking.wait(PATIENCE) == 0 and packing.wait(PATIENCE) in (0, 1)


def set_up(root):
    """Makes such a folder, with the accounts that Debian begins with."""
    root.mkdir()
    packages = with_dependencies(PACKAGES)
    copy_files(packages, root)
    stanzas = [stanza.strip() + "\n\n" for stanza in pathlib.Path("/var/lib/dpkg/status").read_text().split("\n\n") if stanza.strip()]
    of_these = {f"Package: {name}" for name in packages}
    dpkg = root / "var" / "lib" / "dpkg"
    (dpkg / "updates").mkdir(exist_ok=True)
    (dpkg / "status").write_text("".join(stanza for stanza in stanzas if stanza.partition("\n")[0] in of_these))
    for name in ["passwd", "group"]:
        (root / "etc" / name).write_bytes((root / "usr" / "share" / "base-passwd" / f"{name}.master").read_bytes())
    null = root / "dev" / "null"
    os.mknod(null, 0o020666, os.makedev(1, 3))
    null.chmod(0o666)


class Machine:
    """Such a folder, and how a command is called there."""

    def __init__(self, root, called):
        self.root, self.called = root, called

    def calls(self, *words, **settings):
        settings = {"env": ENVIRONMENT, "stdin": subprocess.DEVNULL, "timeout": PATIENCE, **settings}
        return subprocess.run([*self.called, *words], stdout=subprocess.PIPE, stderr=subprocess.PIPE, text=True, **settings)

    def does(self, *words, **settings):
        """What a command writes that does its work."""
        done = self.calls(*words, **settings)
        assert done.returncode == 0, (words, done)
        return done.stdout


def unbooted(root):
    return Machine(root, ["chroot", root])


# What is done in the new namespaces before systemd is begun there. It says first which process it is, as others see it.
BOOT = """
read -r process _ </proc/self/stat
mount --make-rprivate /
mount --bind "$0" "$0"
cd "$0"
mount -t proc proc proc
mount -t sysfs sysfs sys
mount -t cgroup2 cgroup2 sys/fs/cgroup
mount -t tmpfs -o mode=755 tmpfs run
mount -t tmpfs -o mode=755 tmpfs dev
for device in null,1,3 zero,1,5 full,1,7 random,1,8 urandom,1,9 tty,5,0; do
    IFS=, read -r name major minor <<<"$device"
    mknod -m 666 "dev/$name" c "$major" "$minor"
done
mkdir -p dev/shm dev/pts old
mount -t devpts -o newinstance,ptmxmode=666 devpts dev/pts
ln -s pts/ptmx dev/ptmx
ln -s /proc/self/fd dev/fd
pivot_root . old
umount -l /old
echo "$process"
exec >/dev/null
exec env container=other /lib/systemd/systemd --system --log-target=journal
"""

NAMESPACES = ["--pid", "--mount", "--uts", "--ipc", "--net", "--cgroup"]


def control_group():
    """A new control group for what is booted, in that of the tests."""
    mounts = [line.split() for line in pathlib.Path("/proc/self/mounts").read_text().splitlines()]
    (top,) = [place for _, place, kind, *_ in mounts if kind == "cgroup2"]
    (own,) = [line[3:] for line in pathlib.Path("/proc/self/cgroup").read_text().splitlines() if line.startswith("0::")]
    folder = pathlib.Path(top + own) / f"roadlrs-test-{os.getpid()}"
    folder.mkdir()
    return folder


def remove_group(group):
    for folder, _, _ in os.walk(group, topdown=False):
        for _ in range(100):
            with contextlib.suppress(OSError):
                os.rmdir(folder)
                break
            time.sleep(0.05)


def is_up(machine):
    limit = time.monotonic() + 60
    while machine.calls("systemctl", "is-system-running").stdout.strip() not in ("running", "degraded"):
        if time.monotonic() > limit:
            return False
        time.sleep(0.1)
    return True


@contextlib.contextmanager
def booted(root):
    """The machine with systemd running; None, and a warning, where this machine does not let anybody boot it in a folder."""
    try:
        group = control_group()
    except (OSError, ValueError) as fault:
        warnings.warn(f"systemd is not booted here: there is no control group for it: {fault!r}")
        yield None
        return
    words = ["unshare", *NAMESPACES, "--fork", "--kill-child", "bash", "-euc", BOOT, root]
    joins = lambda: (group / "cgroup.procs").write_text(str(os.getpid()))
    settings = {"stdin": subprocess.DEVNULL, "stdout": subprocess.PIPE, "stderr": subprocess.PIPE, "env": ENVIRONMENT, "preexec_fn": joins}
    child = subprocess.Popen(words, **settings)
    try:
        ready, _, _ = select.select([child.stdout], [], [], PATIENCE)
        process = child.stdout.readline().decode().strip() if ready else ""
        machine = Machine(root, ["nsenter", "-t", process, "-a"])
        if process and is_up(machine):
            yield machine
        else:
            child.kill()
            warnings.warn(f"systemd is not booted here: {child.communicate()[1].decode()}")
            yield None
    finally:
        child.kill()
        child.communicate()
        remove_group(group)
