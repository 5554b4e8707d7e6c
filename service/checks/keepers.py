"""The keeper: its sockets, its own words, its ends, and what it says."""
import os
import signal
import socket
import stat
import subprocess
import threading
import time

from client import Kept, NoKeeper
from frame import (FOLDER, SERVICE, TOP, Keeper, Skipped, answers, asked, case, command, create, holds, pairs, same, table,
                   tool, until)

DIDS = open(os.path.join(FOLDER, "dids"), encoding="utf-8").read().split()
LIFE = os.path.join(TOP, "examples", "life")


def read(path):
    with open(path, "rb") as file:
        return file.read()


@case("a session over the socket all, and again after kill -9 of the node and of the keeper")
def session(folder):
    lines, replies = read(LIFE + ".in"), read(LIFE + ".out").decode()
    with Keeper(folder) as keeper:
        same(tool("tell", keeper.all, given=lines).out, replies)
        os.kill(keeper.node(), signal.SIGKILL)
        same(keeper.process.wait(60), 137, "the status after kill -9 of the node")
        holds("signal 9 ended it" in keeper.said(), keeper.said())
        holds(not os.path.exists(keeper.ask), "the sockets are removed")
    with Keeper(folder) as keeper:
        same(asked(keeper.ask, lines.decode().splitlines()[-1])[0], replies.splitlines()[-1])
        node = keeper.node()
        keeper.kill(signal.SIGKILL)
        until(lambda: not os.path.exists("/proc/%d" % node))
        holds(os.path.exists(keeper.ask) and not answers(keeper.ask), "a stale socket is there")
    with Keeper(folder) as keeper:
        same(asked(keeper.ask, lines.decode().splitlines()[-1])[0], replies.splitlines()[-1])
        same(keeper.kill(signal.SIGINT), 0, "the status after SIGINT")
        holds(not os.path.exists(keeper.ask), "the sockets are removed")
        holds("the node ended with status 0" in keeper.said(), keeper.said())


@case("it says what the journal has, and when it is ready")
def says(folder):
    with Keeper(folder) as keeper:
        holds("the node makes it" in keeper.said(), keeper.said())
        tool("feed", FOLDER, keeper.all)
    with Keeper(folder) as keeper:
        holds("8435 bytes and 12 records" in keeper.said() and "with 3 entries" in keeper.said(), keeper.said())
        same(keeper.kill(), 0)
        said = [line for line in keeper.said().splitlines() if "starting for" not in line]
        same(len(said), 3, "the number of lines that it said besides its progress")


# What is asked on the socket `ask` of a node over the example's folder, and how the reply begins.
ASKED = [
    ("health", "health", "health entries 3 height 22 wanted 0 queued 0 journal 8435 memory "),
    ("health with a word", "health x", "refused keeper"),
    ("entry", "entry 0", "entry 20 2."), ("entry of none", "entry 3", "refused range"),
    ("entry of no number", "entry x", "refused line number"), ("entry with a zero", "entry 00", "refused line number"),
    ("chain", "chain", "chain 3 "), ("chain of none", "chain 0", "chain 0 " + "0" * 64), ("chain of more", "chain 4", "refused range"),
    ("verify", "verify " + DIDS[0], 'verified entries 3 height 22 missing 0 resolved {"didDocument"'),
    ("verify of nothing", "verify x", "verified entries 3 height 22 missing 0 unresolved badDid"),
    ("resolve", "resolve " + DIDS[0], "resolved "), ("explain", "explain " + DIDS[0], "explained 2"),
    ("wanted", "wanted", "wanted 0"), ("report", "report 0", "report read "), ("submit", "submit {", "refused notJson"),
    ("anchor", "anchor 30 x", "refused keeper"), ("at", "at 3 30 x", "refused keeper"), ("rollback", "rollback 0", "refused keeper"),
    ("content", "content Zm9v", "refused keeper"), ("flush", "flush", "refused keeper"), ("an empty line", "", "refused keeper"),
    ("a long resolve", "resolve " + "x" * 4_096, "refused keeper"), ("a long submit", "submit " + "x" * 65_530, "refused keeper"),
]


@case("what everybody may ask")
def everybody(folder):
    with Keeper(folder) as keeper:
        tool("feed", FOLDER, keeper.all)
        with Kept(keeper.ask) as node:
            for name, line, reply in ASKED:
                holds(node.ask(line)[0].startswith(reply), "%s: %.200s" % (name, node.ask(line)[0]))
        same(asked(keeper.all, "entry 1", "wanted", "nothing"), [
            "entry " + read(os.path.join(FOLDER, "anchors")).decode().splitlines()[1], "wanted 0", "refused line command"])


@case("at appends an entry in its place alone, so it may be said again")
def at(folder):
    with Keeper(folder) as keeper:
        same(asked(keeper.all, "at 0 5 one", "at 0 5 one", "at 0 5 two", "at 2 6 x", "at 1 4 x", "at 1 5 two words", "entry 1",
                   "at x 5 one", "at 1", "chain"),
             ["anchored 0", "had 0", "refused range", "refused range", "refused height", "anchored 1", "entry 5 two words",
              "refused line number", "refused range", asked(keeper.all, "chain")[0]])
        same(pairs(asked(keeper.ask, "health")[0])["entries"], "2")


@case("health knows the queue, the height and the version of the limits, also after a start")
def health(folder):
    with Keeper(folder, "--v2-at=10") as keeper:
        same(asked(keeper.all, "submit " + create("a"), "submit " + create("b"))[1][:6], "queued")
        found = pairs(asked(keeper.ask, "health")[0])
        same((found["queued"], found["height"], found["v2-at"], found["version"]), ("2", "-", "10", "1"))
        holds(int(found["memory"]) > 1_000_000 and found["journal"] == str(os.path.getsize(keeper.journal)), str(found))
        asked(keeper.all, "anchor 10 x", "flush", "submit " + create("c", later=True))
    with Keeper(folder, "--v2-at=10") as keeper:
        found = pairs(asked(keeper.ask, "health")[0])
        same((found["queued"], found["height"], found["version"]), ("1", "10", "2"))


@case("health as a file for Prometheus")
def metrics(folder):
    path = os.path.join(folder, "sidetree.prom")
    with Keeper(folder, "--metrics=" + path):
        until(lambda: os.path.exists(path))
        text = read(path).decode()
        holds("# TYPE sidetree_entries gauge\nsidetree_entries 0\n" in text and "sidetree_height NaN\n" in text, text)


@case("modes and groups of the sockets, and a socket without submit")
def modes(folder):
    def mode(path):
        return stat.S_IMODE(os.stat(path).st_mode)
    with Keeper(folder) as keeper:
        same((mode(keeper.all), mode(keeper.ask)), (0o600, 0o666))
    with Keeper(folder, "--feeders=root" if os.getuid() == 0 else "--feeders=" + group(), "--no-submit") as keeper:
        same((mode(keeper.all), mode(keeper.ask)), (0o660, 0o666))
        same(asked(keeper.ask, "submit {", "wanted"), ["refused keeper", "wanted 0"])
        same(asked(keeper.all, "submit {"), ["refused notJson"])
    with Keeper(folder, "--feeders=nobody-has-this-group") as keeper:
        same(keeper.process.wait(60), 73)


def group():
    import grp
    return grp.getgrgid(os.getgid()).gr_name


@case("bounds on one connection")
def bounds(folder):
    with Keeper(folder, "--connection-lines=3", "--connection-bytes=200") as keeper:
        with Kept(keeper.ask) as node:
            for _ in range(3):
                same(node.ask("wanted"), ["wanted 0"])
            try:
                raise AssertionError("a fourth line is answered: %s" % node.ask("wanted"))
            except NoKeeper:
                pass
        with Kept(keeper.ask) as node:
            try:
                raise AssertionError("200 bytes are answered: %s" % node.ask("resolve " + "x" * 200))
            except NoKeeper:
                pass
        same(asked(keeper.all, *["wanted"] * 5), ["wanted 0"] * 5)


@case("a line that is too long ends its connection, and no other")
def too_long(folder):
    with Keeper(folder) as keeper, Kept(keeper.ask) as other:
        with socket.socket(socket.AF_UNIX) as there:
            there.connect(keeper.ask)
            try:
                there.sendall(b"x" * 200_000)
                same(there.recv(100), b"")
            except (BrokenPipeError, ConnectionResetError):
                pass
        same(other.ask("wanted"), ["wanted 0"])


@case("a second keeper on the same sockets or on the same folder")
def second(folder):
    with Keeper(folder) as keeper:
        again = tool("keeper", os.path.join(folder, "other"), keeper.sockets)
        same((again.status, again.err.count("\n")), (73, 1), again.err)
        os.mkdir(os.path.join(folder, "more"))
        again = tool("keeper", keeper.state, os.path.join(folder, "more"))
        same(again.status, 4, "the status of a keeper on the same folder")
        holds("another node has it" in again.err, again.err)
        same(asked(keeper.ask, "wanted"), ["wanted 0"])


@table("what keeps it from a start", [
    ("no program", ["state", "sockets"], {"SIDETREE": "/nowhere/sidetree"}, 69),
    ("a checkout that was not built", ["state", "sockets"], {"SIDETREE": "FOLDER/top/sidetree"}, 69),
    ("no folder", ["nowhere", "sockets"], {}, 66), ("a long path of a socket", ["state", "s" * 120], {}, 73),
    ("no words", [], {}, 64), ("an option that is none", ["state", "sockets", "--journal"], {}, 64),
    ("an option without its value", ["state", "sockets", "--metrics"], {}, 64),
    ("a bound of 0", ["state", "sockets", "--connection-lines=0"], {}, 64),
    ("a limit that is none", ["state", "sockets", "--limit=0"], {}, 1)])
def refuses(folder, words, environment, status):
    for name in ("state", "sockets", "s" * 120, "top/launcher"):
        os.makedirs(os.path.join(folder, name))
    for name in ("top/launcher/build.py", "top/sidetree"):
        open(os.path.join(folder, name), "w").close()
    environment = {name: value.replace("FOLDER", folder) for name, value in environment.items()}
    words = [word if word.startswith("--") else os.path.join(folder, word) for word in words]
    done = tool("keeper", *words, env={**os.environ, **environment})
    same(done.status, status, "the status (%s)" % done.err)
    holds(1 <= done.err.count("\n") <= 2 and "Traceback" not in done.err, done.err)


@case("a journal that is being read: the keeper says how far the node is, and SIGTERM ends it")
def slow(folder):
    os.makedirs(os.path.join(folder, "state"))
    slow_node = os.path.join(folder, "slow")
    with open(slow_node, "w", encoding="utf-8") as file:
        file.write("#!/bin/sh\nexec sleep 100\n")
    os.chmod(slow_node, 0o755)
    before = os.environ["SIDETREE"]
    try:
        os.environ["SIDETREE"] = slow_node
        with Keeper(folder, wait=False) as keeper:
            until(lambda: "starting for" in keeper.said(), 30)
            same(keeper.kill(), 0)
    finally:
        os.environ["SIDETREE"] = before


@case("SIGTERM ends it soon, with twenty askers that never pause")
def busy(folder):
    with Keeper(folder) as keeper:
        def ask():
            try:
                with Kept(keeper.ask) as node:
                    while True:
                        node.ask("wanted")
            except NoKeeper:
                pass
        askers = [threading.Thread(target=ask) for _ in range(20)]
        for asker in askers:
            asker.start()
        time.sleep(0.5)
        began = time.monotonic()
        same(keeper.kill(), 0)
        holds(time.monotonic() - began < 20, "it took %.1f s" % (time.monotonic() - began))
        for asker in askers:
            asker.join()


@case("a service manager is told when it is ready")
def notified(folder):
    path = os.path.join(folder, "notify")
    with socket.socket(socket.AF_UNIX, socket.SOCK_DGRAM) as there:
        there.bind(path)
        there.settimeout(30)
        os.environ["NOTIFY_SOCKET"] = path
        try:
            with Keeper(folder):
                told = [there.recv(4096).decode()]
                while "READY=1" not in told:
                    told.append(there.recv(4096).decode())
                holds(any(one.startswith("STATUS=ready after") for one in told), str(told))
        finally:
            del os.environ["NOTIFY_SOCKET"]


@case("a full disk: status 4 with its cause, and all goes on when there is room")
def full(folder):
    place = os.path.join(folder, "disk")
    os.mkdir(place)
    if os.getuid() or command("mount", "-t", "tmpfs", "-o", "size=256k", "none", place).status:
        raise Skipped("no small disk can be mounted here")
    try:
        with Keeper(place) as keeper:
            with Kept(keeper.all) as node:
                had = 0
                try:
                    while True:
                        node.ask("anchor %d %s" % (had, "x" * 4_000))
                        had += 1
                except NoKeeper:
                    pass
            same(keeper.process.wait(60), 4)
            holds("the disk is full" in keeper.said(), keeper.said())
        command("mount", "-o", "remount,size=2m", place)
        with Keeper(place) as keeper:
            count = int(pairs(asked(keeper.ask, "health")[0])["entries"])
            holds(had <= count <= had + 1, "%d entries were answered, and %d are there" % (had, count))
            same(asked(keeper.all, "at %d 9999 x" % count), ["anchored %d" % count])
    finally:
        command("umount", "-l", place)


@case("the units are well-formed")
def units(folder):
    if subprocess.run(["which", "systemd-analyze"], capture_output=True, check=False).returncode:
        raise Skipped("systemd-analyze is not there")
    for name in ("sidetree.service", "sidetree-follow.service", "sidetree-gateway.service"):
        with open(os.path.join(SERVICE, name), encoding="utf-8") as file:
            text = file.read().replace("@PREFIX@/lib/sidetree", SERVICE)
        with open(os.path.join(folder, name), "w", encoding="utf-8") as file:
            file.write("".join(line for line in text.splitlines(True) if not line.startswith("Documentation=")))
    done = command("systemd-analyze", "verify", *(os.path.join(folder, name) for name in os.listdir(folder)))
    same((done.status, done.err), (0, ""))
