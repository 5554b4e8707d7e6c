"""Ledgers that grow and change, and nodes that follow them through any stop."""
import os
import random
import signal
import subprocess
import time

from client import Kept
from frame import (FOLDER, SERVICE, Batches, Keeper, asked, case, copy_of_folder, holds, pairs, same, tool, until,
                   write)
from ledger import lines_of


def entries_of(path):
    """The entries of a kept node."""
    with Kept(path) as node:
        count = int(pairs(node.ask("health")[0])["entries"])
        return [node.expect("entry", "entry %d" % n) for n in range(count)]


def follow(folder, keeper, *options):
    return tool("follow", os.path.join(folder, "anchors"), os.path.join(folder, "files"), keeper.all, *options)


@case("feed gives the lines for a new node, whatever the ends of lines are")
def feeds(folder):
    with open(os.path.join(FOLDER, "..", "feed.out"), "rb") as file:
        wanted = file.read()
    lines = tool("feed", FOLDER).out
    same(subprocess.run([os.environ["SIDETREE"], "node"], input=lines.encode(), capture_output=True, check=True).stdout, wanted)
    ledger = copy_of_folder(folder)
    text = open(os.path.join(ledger, "anchors"), encoding="utf-8").read()
    write(os.path.join(ledger, "anchors"), "\r\n" + text.replace("\n", "\r\n")[:-2])
    same(tool("feed", ledger).out, lines)
    same(tool("feed", os.path.join(folder, "none")).status, 2)
    same(tool("feed").status, 64)


@case("feed to a kept node, and no second time")
def feeds_once(folder):
    with Keeper(folder) as keeper:
        done = tool("feed", FOLDER, keeper.all)
        holds(done.status == 0 and "3 new; 9 files fed, 0 missing" in done.err and done.out.count("resolved") == 2, done.err)
        again = tool("feed", FOLDER, keeper.all)
        same((again.status, again.err.count("\n")), (1, 1))
        holds("is fed no second time" in again.err, again.err)
        same(len(entries_of(keeper.ask)), 3)
    same(tool("feed", FOLDER, keeper.all).status, 2, "the status without a keeper")


@case("follow can be run again, and follows growth and reorganisations")
def follows(folder):
    ledger = copy_of_folder(folder)
    anchors, path = lines_of(os.path.join(FOLDER, "anchors")), os.path.join(ledger, "anchors")
    rounds = [
        (anchors[:1], 0, "1 entries: 0 taken back, 1 new"), (anchors[:1], 0, "1 entries: 0 taken back, 0 new"),
        (anchors, 0, "3 entries: 0 taken back, 2 new"), (anchors[:2], 0, "2 entries: 1 taken back, 0 new"),
        ([anchors[0], "21 " + anchors[2].split()[1], "25 " + anchors[1].split()[1]], 0, "3 entries: 1 taken back, 2 new"),
        (["19 " + anchors[0].split()[1]] + anchors[1:], 0, "3 entries: 3 taken back, 3 new")]
    with Keeper(folder) as keeper:
        for lines, status, said in rounds:
            write(path, "".join(line + "\n" for line in lines))
            done = follow(ledger, keeper)
            same(done.status, status, done.err)
            holds(done.out.startswith(said) and done.out.endswith("0 missing\n"), "%s, not %s" % (done.out, said))
            same(entries_of(keeper.ask), lines)
            same(follow(ledger, keeper).out, "%d entries: 0 taken back, 0 new; 0 files fed, 0 missing\n" % len(lines), "a second run")


@case("follow names entries that give nothing, lines that are refused, files that are missing, and ledgers that shrink")
def faults(folder):
    ledger = copy_of_folder(folder)
    anchors, path = lines_of(os.path.join(FOLDER, "anchors")), os.path.join(ledger, "anchors")
    with Keeper(folder) as keeper:
        os.rename(os.path.join(ledger, "files", "2-core.json"), os.path.join(folder, "kept"))
        done = follow(ledger, keeper)
        same((done.status, done.out), (3, "3 entries: 0 taken back, 3 new; 7 files fed, 1 missing\n"))
        os.rename(os.path.join(folder, "kept"), os.path.join(ledger, "files", "another name"))
        same(follow(ledger, keeper).status, 0, "when the file has come")
        write(path, "".join(line + "\n" for line in anchors + ["30 1.EiDKp ", "30 words", "30 0.EiDKpVr9gXlWzhjZvLmtvO9QrHKyLmE4Uc4B4FD3HhiB0Q"]))
        done = follow(ledger, keeper)
        same((done.status, [one[:len("follow: entry 3 gives nothing (A3)")] for one in done.err.splitlines()]), (
            0, ["follow: entry 3 gives nothing (A3)", "follow: entry 4 gives nothing (A1)", "follow: entry 5 gives nothing (A2)"]))
        write(path, "".join(line + "\n" for line in anchors + ["3 1.x"]))
        done = follow(ledger, keeper)
        same((done.status, done.err), (1, "follow: entry 3: at 3 3 1.x: refused height\n"))
        write(path, "\n".join(anchors + ["23 1.half of a li"]))
        same(follow(ledger, keeper).out, "3 entries: 0 taken back, 0 new; 0 files fed, 0 missing\n", "a line that is being written")
        write(path, "")
        done = follow(ledger, keeper)
        holds(done.status == 4 and "none is taken back" in done.err, done.err)
        write(path, anchors[0] + "\n")
        done = follow(ledger, keeper, "--most-back=1")
        holds(done.status == 4 and "--most-back=2" in done.err, done.err)
        same(follow(ledger, keeper, "--most-back=2").status, 0)
        same(follow(folder, keeper).status, 2, "the status without a ledger")
    same(follow(ledger, keeper).status, 2, "the status without a keeper")
    same(tool("follow", path, "--every=x", "a", "b").status, 64)


@case("follow that goes on, through a keeper that ends")
def goes_on(folder):
    ledger = copy_of_folder(folder)
    anchors, path = lines_of(os.path.join(FOLDER, "anchors")), os.path.join(ledger, "anchors")
    write(path, anchors[0] + "\n")
    out, err = os.path.join(folder, "out"), os.path.join(folder, "err")

    def said(name):
        with open(name, encoding="utf-8") as file:
            return file.read()
    with Keeper(folder) as keeper, open(out, "w", encoding="utf-8") as out_file, open(err, "w", encoding="utf-8") as err_file:
        following = subprocess.Popen([os.path.join(SERVICE, "follow"), path, os.path.join(ledger, "files"), keeper.all, "--every=1"],
                                     stdout=out_file, stderr=err_file)
        try:
            until(lambda: "1 entries: 0 taken back, 1 new" in said(out))
            keeper.kill()
            write(path, "".join(line + "\n" for line in anchors))
            until(lambda: "no keeper is there" in said(err))
            time.sleep(1.5)
            with Keeper(folder) as again:
                until(lambda: "3 entries: 0 taken back, 2 new" in said(out))
                same(entries_of(again.ask), anchors)
        finally:
            following.terminate()
            following.wait()
    same(said(err).count("\n"), 1, "how many lines it says while the keeper is away")


@case("a file that rots in the journal is another file, and follow feeds the right one again")
def rots(folder):
    ledger = copy_of_folder(folder)
    with Keeper(folder) as keeper:
        same(follow(ledger, keeper).status, 0)
    with open(keeper.journal, "r+b") as file:
        file.seek(file.read().index(b"content e") + len("content "))
        file.write(b"d")
    with Keeper(folder) as keeper:
        same(pairs(asked(keeper.ask, "health")[0])["wanted"], "1")
        same(follow(ledger, keeper).out, "3 entries: 0 taken back, 0 new; 1 files fed, 0 missing\n")


@case("kill -9 of node, keeper and follower at 50 random moments: the entries are the ledger's, none twice")
def kills(folder):
    chance, batches = random.Random(58), Batches(40)
    path, files = os.path.join(folder, "anchors"), os.path.join(folder, "files")
    batches.write_files(files)
    anchors = ["%d %s" % (10 + n // 3, anchor) for n, anchor in enumerate(batches.anchors)]
    lines, taken_back, killed = [], 0, {"node": 0, "keeper": 0, "follower": 0}
    keeper, follower = Keeper(folder), None

    def put():
        write(path + ".new", "".join(line + "\n" for line in lines))
        os.replace(path + ".new", path)

    def ended(process):
        return process is None or process.poll() is not None

    put()
    rounds = 0
    while rounds < 500 and (sum(killed.values()) < 50 or min(killed.values()) < 6):
        rounds += 1
        if keeper.process.poll() is not None:
            keeper.log.close()
            keeper = Keeper(folder)
            continue
        # The ledger grows, and now and then its end is replaced by other entries.
        if lines and chance.random() < 0.2:
            del lines[-min(len(lines), chance.randint(1, 4)):]
            taken_back += 1
        while len(lines) < len(anchors) and chance.random() < 0.8:
            lines.append(chance.choice([line for line in anchors[len(lines):len(lines) + 3]]))
            lines[-1] = "%d %s" % (10 + len(lines) // 3, lines[-1].split(" ")[1])
        if len(lines) == len(anchors):
            del lines[5:]
        put()
        if ended(follower):
            follower = subprocess.Popen([os.path.join(SERVICE, "follow"), path, files, keeper.all],
                                        stdout=subprocess.DEVNULL, stderr=subprocess.DEVNULL)
        who = chance.choice(list(killed))
        # A follower that has done all ends by itself, so it is killed sooner.
        time.sleep(chance.random() * (0.12 if who == "follower" else 0.25))
        try:
            if who == "follower" and not ended(follower):
                follower.kill()
            elif who == "keeper":
                keeper.process.kill()
                keeper.process.wait()
            elif who == "node":
                os.kill(keeper.node(), signal.SIGKILL)
            else:
                continue
            killed[who] += 1
        except (OSError, IndexError):
            continue
    if follower:
        follower.wait()

    # A keeper ends soon after its node was killed, and then another is started.
    def has_followed():
        nonlocal keeper
        if ended(keeper.process):
            keeper.log.close()
            keeper = Keeper(folder)
        return tool("follow", path, files, keeper.all).status == 0

    until(has_followed, 60)
    with keeper:
        same(entries_of(keeper.ask), lines, "the node's entries")
        same(pairs(asked(keeper.ask, "health")[0])["wanted"], "0")
        same(tool("journal", "check", keeper.journal).status, 0, "the status of journal check")
    holds(taken_back > 3 and min(killed.values()) > 5, "enough was tried: %s, %d times the end was replaced" % (killed, taken_back))
