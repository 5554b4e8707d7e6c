"""Journals that were changed: what the keeper and `journal check` say of them, copies, and shorter ones."""
import os
import threading

from client import Kept, Node
from frame import FOLDER, Batches, Keeper, case, create, holds, same, table, tool
from records import Journal


def journal_of(folder, *lines, options=()):
    """A journal that a node has made of lines."""
    os.makedirs(folder, exist_ok=True)
    with Node("node", *options, "--journal", folder=folder) as node:
        for line in lines:
            node.ask(line)
    return os.path.join(folder, "sidetree.journal")


def fed(folder):
    """The journal of a node that was fed the example's folder."""
    return journal_of(folder, *tool("feed", FOLDER).out.splitlines())


def read(path):
    with open(path, "rb") as file:
        return bytearray(file.read())


def write(path, data):
    with open(path, "wb") as file:
        file.write(data)


def places(path):
    """Where the records begin."""
    journal, found = Journal(path), [0]
    found += [record.end for record in journal.records()]
    journal.close()
    return found


def flip(n, bits=1, add=0):
    """Turns bits of a byte at the beginning of record n, or some bytes after."""
    def change(data, starts):
        data[starts[n] + add] ^= bits
        return data
    return change


TORN = b"\0\0\0\x40anchor 5 this was being written when the machine sto"

# How a journal is changed, the keeper's status (None: it starts), and the status of `journal check`.
CHANGES = [
    ("none", lambda data, starts: data, None, 0),
    ("a text", lambda data, starts: b"some notes\n", 65, 1),
    ("a journal in gzip", lambda data, starts: b"\x1f\x8b\x08\0" + bytes(data), 65, 1),
    ("cut in the last record", lambda data, starts: data[:-30], 65, 1),
    ("without its closed gate", lambda data, starts: data[:-1], 65, 1),
    ("a flipped bit in the first gate", flip(0), 65, 1),
    ("a flipped bit in a gate", flip(3), 65, 1),
    ("a gate of zeros", flip(3, 0xa5), 65, 1),
    ("a flipped bit in a length that makes it greater", flip(9, 8, 1), 65, 1),
    ("a flipped bit in a length that makes it less", flip(0, 0x01, 3), 65, 1),
    ("a flipped bit in the last gate", flip(-1, 0x10), 65, 1),
    ("what a stop leaves", lambda data, starts: data + TORN, None, 0),
    ("what two stops leave, the later one shorter", lambda data, starts: data + TORN[:14] + b"\0" + b"Zm9v" * 40_000, None, 0),
    ("more than one line after its end", lambda data, starts: data + bytes(24_000_011), 65, 1),
    ("a height that falls", lambda data, starts: data.replace(b"anchor 22", b"anchor 02"), None, 3),
    ("a file that is no base64url", lambda data, starts: data.replace(b"content e", b"content !", 1), None, 3),
    ("a file with a flipped bit, which nobody can see", lambda data, starts: data.replace(b"content e", b"content d", 1), None, 0),
    ("an empty file", lambda data, starts: b"", None, 0),
    ("a byte", lambda data, starts: b"x", None, 0),
]


@table("a changed journal", CHANGES)
def changed(folder, change, keeper, check):
    path = fed(os.path.join(folder, "state"))
    write(path, change(read(path), places(path)))
    before = read(path)
    looked = tool("journal", "check", path)
    same(looked.status, check, "the status of journal check (%s)" % looked.err)
    holds(check == 0 or looked.err.count("\n") >= 1, "check names what it found")
    if keeper is not None:
        with Keeper(folder) as kept:
            kept.process.wait(60)
            same(kept.process.returncode, keeper, "the keeper's status")
            same(kept.said().count("\n"), 1, "the number of lines that it said")
        same(read(path), before, "the journal afterwards")
    elif check == 0:
        with Keeper(folder) as kept:
            holds("ready after" in kept.said(), "it is ready")


@case("journal check counts, and its sum is that of a copy")
def counts(folder):
    path = fed(folder)
    looked = tool("journal", "check", path)
    holds("content 9, anchor 3" in looked.out and "entries 3, last height 22" in looked.out, looked.out)
    copied = tool("journal", "copy", path, os.path.join(folder, "copy"))
    same((copied.status, copied.out), (0, looked.out))
    again = tool("journal", "copy", path, os.path.join(folder, "copy"))
    same(again.status, 2, "the status of a copy onto a file that is there")


@case("journal copy while a node writes, eight times, each a node")
def copies(folder):
    with Keeper(folder) as keeper:
        stop = threading.Event()

        def load():
            with Kept(keeper.all) as node:
                n = 0
                while not stop.is_set():
                    node.ask("anchor %d some text %d" % (n, n))
                    n += 1
        thread = threading.Thread(target=load)
        thread.start()
        last = -1
        for n in range(8):
            to = os.path.join(folder, "copy%d" % n, "sidetree.journal")
            os.mkdir(os.path.dirname(to))
            same(tool("journal", "copy", keeper.journal, to).status, 0)
            with Node("node", "--journal", folder=os.path.dirname(to)) as node:
                count = int(node.expect("cut", "rollback 0"))
            holds(count >= last, "the later copy has no fewer entries")
            last = count
        stop.set()
        thread.join()
        holds(last > 0, "entries came")


def sessions():
    """Sessions whose journals are shortened: their lines, the node's options, and a line that must have gone or stay."""
    one, two, three = create("one"), create("two", later=True), create("three")
    text = "1.EiDKpVr9gXlWzhjZvLmtvO9QrHKyLmE4Uc4B4FD3HhiB0Q"
    yield "a file that nobody names, and a rollback", (
        ["content Zm9v", "anchor 1 " + text, "anchor 2 " + text, "rollback 1"]), (), 1
    yield "a request that waits", ["submit " + one, "anchor 1 " + text], (), 2
    yield "a batch whose entry has not come", ["submit " + one, "flush", "submit " + three], (), 4
    yield "a request of version 2 that waits", ["anchor 10 x", "submit " + two, "submit " + one], ("--v2-at=10",), 5
    yield "a request of version 2 that waits on a ledger that is lower now", (
        ["anchor 3 x", "anchor 10 y", "submit " + two, "submit " + one, "rollback 1"]), ("--v2-at=10",), 5
    yield "a request of version 1 that waits on a ledger that is higher now", (
        ["anchor 3 x", "submit " + one, "anchor 10 y"]), ("--v2-at=10",), 3


@table("journal shorten", [(name, lines, options, count) for name, lines, options, count in sessions()])
def shortens(folder, lines, options, count):
    path = journal_of(os.path.join(folder, "state"), *lines, options=options)
    to = os.path.join(folder, "short", "sidetree.journal")
    os.mkdir(os.path.dirname(to))
    done = tool("journal", "shorten", path, to, *options)
    same(done.status, 0, "the status (%s)" % done.err)
    same(done.out.splitlines()[0], "lines %d" % count)
    waits = []
    for where in (path, to):
        with Node("node", *options, "--journal", folder=os.path.dirname(where)) as node:
            waits.append([node.ask("flush"), node.ask("wanted"), node.ask("report 0"), node.ask("flush")])
    same(waits[1], waits[0], "what the node over the short journal says")


@case("journal shorten of the example's folder, with batches of its own")
def shortens_more(folder):
    batches = Batches(2)
    lines = tool("feed", FOLDER).out.splitlines()[:12]
    lines += ["submit " + create("n0-0"), "flush", "anchor 30 " + batches.anchors[0], "content bm9ib2R5"]
    path = journal_of(os.path.join(folder, "state"), *lines)
    done = tool("journal", "shorten", path, os.path.join(folder, "short"))
    same((done.status, done.out.splitlines()[0]), (0, "lines 16"))
    holds("content 12, anchor 4" in done.out, done.out)


@case("a flush whose reply was lost: its requests, submitted again in their order, make the same batch")
def flushed(folder):
    lines = ["submit " + create(name) for name in ("one", "two")]
    with Node("node", "--journal", folder=folder) as node:
        lost = [node.ask(line) for line in [*lines, "flush"]][-1]
    with Node("node", "--journal", folder=folder) as node:
        same(node.ask("flush"), ["refused nothing"])
        same([node.ask(line) for line in [*lines, "flush"]][-1], lost)


@case("journal check and copy of a file that is not there")
def none(folder):
    same(tool("journal", "check", os.path.join(folder, "x")).status, 2)
    same(tool("journal", "copy", os.path.join(folder, "x"), os.path.join(folder, "y")).status, 2)
    same(tool("journal", "look", "x").status, 64)
