#!/usr/bin/env python3
"""Shows which files a disk takes, and how it stands up to locks, streams and faults, with processes of its own.

usage: bench/disk.py [PROGRAM]

PROGRAM is a built disk_probe of bench/programs; without one it is built here, beside a copy of the crates.
Each case prints a line; the status is 1 where one isn't as it must be. Cases with faults of the system need
strace, and those with devices, other owners and without /proc need root. What can't be tried is left out with a word.
"""
import os
import shutil
import stat
import subprocess
import sys
import tempfile
import time

sys.dont_write_bytecode = True
from measuring import build

NAME = "sidetree.vault"
MOST_SECONDS = 60
# The number of a user who owns no file here.
NOBODY = 65534


class Shown:
    """What each case came to."""

    def __init__(self, program):
        self.program = program
        self.wrong = 0

    def run(self, folder, steps, before=(), closed=(), nobody=False, **streams):
        """The answers to the steps, in this folder, with these standard streams closed or given, as this user or nobody."""
        def close():
            for stream in closed:
                os.close(stream)
        user = {"user": NOBODY, "group": NOBODY, "extra_groups": []} if nobody else {}
        done = subprocess.run([*before, self.program, *steps], cwd=folder, preexec_fn=close, timeout=MOST_SECONDS, **user,
                              **{"stdin": subprocess.DEVNULL, "stdout": subprocess.PIPE, "stderr": subprocess.DEVNULL, **streams})
        return (done.stdout or b"").decode().split()

    def begin(self, folder, steps):
        """A process that takes the steps and then waits, and goes on with others when its input ends."""
        begun = subprocess.Popen([self.program, *steps], cwd=folder, stdin=subprocess.PIPE, stdout=subprocess.PIPE)
        begun.stdout.readline()
        return begun

    def case(self, what, found, wanted):
        right = found == wanted
        self.wrong += not right
        print("%s: %s" % (what, "as it must be" if right else "WRONG, %r and not %r" % (found, wanted)), flush=True)


def held(path):
    with open(path, "rb") as file:
        return file.read()


def plain(shown, folder):
    path = os.path.join(folder, NAME)
    shown.case("a new file is made, written and synced", shown.run(folder, ["length", "write", "sync"]), ["ok"] * 3)
    shown.case("its mode is 0600", stat.S_IMODE(os.stat(path).st_mode), 0o600)
    shown.case("it holds what was written", held(path), b"VAULT")
    os.chmod(path, 0o604)
    shown.case("it keeps another mode", (shown.run(folder, ["length"]), stat.S_IMODE(os.stat(path).st_mode)), (["ok"], 0o604))
    os.chmod(path, 0o400)
    if os.geteuid():
        shown.case("a file that may only be read is refused", shown.run(folder, ["length"]), ["failed"])
    else:
        print("a file that may only be read: left out, for root may write it")


def others(shown, folder):
    path = os.path.join(folder, NAME)
    shown.run(folder, ["write"])
    for mode in (0o620, 0o602):
        os.chmod(path, mode)
        shown.case("a file of mode %o is refused" % mode, shown.run(folder, ["write"]), ["failed"])
    if os.geteuid():
        print("a file of another owner, a folder that may not be read: left out, for only root changes users")
        return
    os.chmod(folder, 0o777)
    os.chmod(path, 0o604)
    os.chown(path, NOBODY, NOBODY)
    shown.case("a file of another owner is refused", shown.run(folder, ["length"]), ["failed"])
    shown.case("and not to its owner", shown.run(folder, ["length"], nobody=True), ["ok"])
    os.remove(path)
    os.chmod(folder, 0o333)
    shown.case("a folder that may not be read is refused", shown.run(folder, ["length"], nobody=True), ["failed"])


def streams(shown, folder):
    path = os.path.join(folder, NAME)
    for stream, how in (("stdin", "r+b"), ("stdout", "wb"), ("stderr", "wb")):
        shown.run(folder, ["write", "sync"])
        with open(path, how) as file:
            found = shown.run(folder, ["length", "write"], **{stream: file})
        if stream == "stdout":
            shown.case("a file that is stdout is refused, and holds the replies alone", held(path), b"failed\nfailed\n")
        else:
            shown.case("a file that is %s is refused" % stream, found, ["failed"] * 2)
        os.remove(path)
    with open(os.path.join(folder, "other"), "wb") as other:
        shown.run(folder, ["write"], stdout=other, stderr=other)
    shown.case("another file may be stdout and stderr", held(path), b"VAULT")
    if os.geteuid() or not shutil.which("unshare"):
        print("a system without /proc: left out, for only root takes it away")
        return
    without = ["unshare", "-m", "sh", "-c", 'mount -t tmpfs none /proc && exec "$0" "$@"']
    shown.case("without /proc each file is refused", shown.run(folder, ["length"], without), ["failed"])


def closed_streams(shown, folder):
    path = os.path.join(folder, NAME)
    for closed in ((1,), (0, 1, 2)):
        if os.path.exists(path):
            os.remove(path)
        shown.run(folder, ["length", "write", "sync", "length", "sync"], closed=closed)
        shown.case("with the streams %s closed no answer lands in the file" % (closed,), held(path), b"VAULT")


def other_names(shown, folder):
    path = os.path.join(folder, NAME)
    other = os.path.join(folder, "other")
    os.symlink("other", path)
    shown.case("a link is refused, and again", shown.run(folder, ["length", "sync"]), ["failed"] * 2)
    shown.case("nothing is made where it leads", os.path.lexists(other), False)
    with open(other, "wb") as file:
        file.write(b"other")
    shown.case("a link to a file is refused", shown.run(folder, ["write"]), ["failed"])
    os.remove(path)
    os.link(other, path)
    shown.case("a second name is refused", shown.run(folder, ["write"]), ["failed"])
    shown.case("and the file stays", held(other), b"other")
    os.remove(other)
    shown.case("the one name that is left is opened", shown.run(folder, ["length"]), ["ok"])


def other_kinds(shown, folder):
    path = os.path.join(folder, NAME)
    os.mkdir(path)
    shown.case("a folder is refused", shown.run(folder, ["sync"]), ["failed"])
    os.rmdir(path)
    os.mkfifo(path)
    shown.case("a pipe is refused, and nobody waits", shown.run(folder, ["sync"]), ["failed"])
    os.remove(path)
    if os.geteuid():
        print("a device: left out, for only root makes one")
        return
    os.mknod(path, 0o600 | stat.S_IFCHR, os.makedev(1, 3))
    shown.case("a device is refused", shown.run(folder, ["sync"]), ["failed"])


def locks(shown, folder):
    first = shown.begin(folder, ["length", "hold"])
    shown.case("a second process is refused while the first holds the file", shown.run(folder, ["length"]), ["failed"])
    first.communicate()
    shown.case("and not once that has ended", shown.run(folder, ["length"]), ["ok"])


def put_under_the_name(shown, folder):
    path, old, new = (os.path.join(folder, name) for name in (NAME, "old", "new"))
    first = shown.begin(folder, ["length", "hold", "write", "sync"])
    os.rename(path, old)
    shown.case("a process makes a new file when the first has lost its name", shown.run(folder, ["length"]), ["ok"])
    shown.case("and the first writes to the lost one",
               (first.communicate()[0].split(), held(old), held(path)), ([b"ok"] * 3, b"VAULT", b""))
    if not shutil.which("strace"):
        print("a file put under the name before the lock is held: left out, for strace is not there")
        return
    os.remove(path)
    before = ["strace", "-o", os.devnull, "-e", "inject=flock:delay_enter=2000000"]
    slow = subprocess.Popen([*before, shown.program, "write"], cwd=folder, stdout=subprocess.PIPE)
    while not os.path.exists(path):
        time.sleep(0.001)
    with open(new, "wb"):
        pass
    os.rename(new, path)
    shown.case("a file that is put under the name before the lock is held is seen",
               (slow.communicate()[0].split(), held(path)), ([b"failed"], b""))


def remembered(shown, folder):
    path = os.path.join(folder, NAME)
    os.mkdir(path)
    first = shown.begin(folder, ["length", "hold", "length"])
    os.rmdir(path)
    shown.case("a failure to open is remembered", first.communicate()[0].split(), [b"ok", b"failed"])


def faults(shown, folder):
    if not shutil.which("strace"):
        print("faults of the system: left out, for strace is not there")
        return

    def under(fault):
        return ["strace", "-o", os.devnull, "-e", "inject=" + fault]

    def first_read():
        """The number of the first read of standard input among all reads; the loader has reads of its own."""
        told = os.path.join(folder, "told")
        shown.run(folder, ["hold"], ["strace", "-o", told, "-e", "trace=read"])
        with open(told, encoding="utf-8") as lines:
            return 1 + [line.startswith("read(0,") for line in lines].index(True)
    steps = ["length", "write", "sync", "length", "sync"]
    shown.case("a file's first sync that fails is a fault, and remembered",
               shown.run(folder, steps, under("fsync:error=EIO:when=1")), ["failed"] * 5)
    shown.case("so is that of the folder",
               shown.run(folder, steps, under("fsync:error=EIO:when=2")), ["failed"] * 5)
    shown.case("and a later sync of the file",
               shown.run(folder, steps, under("fsync:error=EIO:when=3")), ["ok", "ok", "failed", "failed", "failed"])
    shown.case("a file that can't be locked is refused",
               shown.run(folder, steps, under("flock:error=EOPNOTSUPP")), ["failed"] * 5)
    shown.case("a write of an answer that a signal interrupts is tried again",
               shown.run(folder, steps, under("write:error=EINTR:when=1+2")), ["ok"] * 5)
    shown.case("so is a read of standard input",
               shown.run(folder, ["hold", "length"], under("read:error=EINTR:when=%d" % first_read())), ["ok"] * 2)


def main():
    with tempfile.TemporaryDirectory() as top:
        given = sys.argv[1:]
        program = os.path.abspath(given[0]) if given else build(os.path.join(top, "built"), ["disk_probe"])[0]
        # Another user may run it.
        os.chmod(top, 0o755)
        shown = Shown(shutil.copy(program, top))
        for case in (plain, others, streams, closed_streams, other_names, other_kinds, locks, put_under_the_name, remembered,
                     faults):
            folder = os.path.join(top, case.__name__)
            os.mkdir(folder)
            case(shown, folder)
    sys.exit(1 if shown.wrong else 0)


main()
