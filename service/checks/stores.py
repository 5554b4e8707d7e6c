"""One table of cases over both stores."""
import os
import signal
import subprocess
import sys
import threading
import time

from cluster import SHARED, new_store
from frame import SERVICE, holds, same, table, until
from kept import chained
from ledger import uri_of
import store as module
from store import PATIENCE, Away, Halt, open_store

KINDS = [("sqlite", "sqlite"), ("postgresql", "postgresql")]
# A process that works with a store until it is killed.
PROGRAM = "import sys\nsys.path[:0] = [%r, %r]\nfrom stores import batch, open_store\nstore = open_store(sys.argv[1])\n" % (
    os.path.join(SERVICE, "checks"), SERVICE)
APPENDS = PROGRAM + """
while True:
    n = store.last("k").number + 1
    store.append("k", n, *batch(n))
"""
STOPS = PROGRAM.replace("store = ", "import store as module\nmodule.PATIENCE = 3\nstore = ") + """
with store.connected(), store.writing():
    store.sql("SELECT 1")
    print("in", flush=True)
    sys.stdin.read()
"""


def batch(n):
    files = [(uri_of(data), data) for data in (b"core %d" % n, b"chunk %d" % n)]
    return "%d.%s" % (n + 1, files[0][0]), files


def made(kind, folder):
    url = new_store(kind, folder)
    open_store(url).create()
    return url


def run(code, url, **more):
    return subprocess.Popen([sys.executable, "-B", "-c", code, url], stderr=subprocess.DEVNULL, **more)


def halts(call, *values):
    try:
        call(*values)
    except Halt:
        return True
    return False


@table("a store has each batch once, in order, with its files", KINDS)
def order(folder, kind):
    url = made(kind, folder)
    store, other = open_store(url), open_store(url)
    other.create()
    same(store.id(), other.id())
    same((store.count(), store.chain(0), store.chain(1), store.last("a").number), (0, "0" * 64, None, 0))
    same([store.append("a", 1, *batch(1)), other.append("a", 1, *batch(1))], [0, 0])
    holds(halts(other.append, "a", 1, *batch(2)) and halts(other.append, "a", 3, *batch(2)), "another batch 1, and batch 3 before 2")
    same(store.append("b", 1, *batch(1)), 1, "the place of an anchor string that came before")
    same(store.append("a", 2, *batch(2)), 2)
    last = other.last("a")
    same((last.number, last.through, last.anchor, other.last("b").through), (2, 5, batch(2)[0], 2))
    holds(0 <= last.age < 60, "the age of a batch: %s" % last.age)
    holds(halts(store.append, "a", 3, batch(3)[0], [(uri_of(b"x"), b"y")]) and halts(store.append, "a", 3, batch(4)[0], batch(3)[1])
          and halts(store.append, "a", 3, batch(3)[0], []), "files that are not those of the batch")
    same(other.entries(0), ["%d %s" % (n, batch(m)[0]) for n, m in enumerate((1, 1, 2))])
    chain = bytes(32)
    for n, entry in enumerate(other.entries(0)):
        chain = chained(chain, entry.encode())
        same(store.chain(n + 1), chain.hex())
    same((store.chain(4), other.count(), store.entries(3)), (None, 3, []))
    same([other.get(uri) for n in (1, 2) for uri, _ in batch(n)[1]] + [other.get("none")],
         [data for n in (1, 2) for _, data in batch(n)[1]] + [None])


@table("writers at once, two for each name: no gap, nothing twice, and a reader sees prefixes", KINDS)
def race(folder, kind):
    url, each, seen, ended = made(kind, folder), 20, [], []

    def append(name):
        store, n = open_store(url), 0
        while n < each:
            n = store.last(name).number + 1
            store.append(name, n, *batch(n))

    def look():
        store = open_store(url)
        while True:
            last = bool(ended)
            seen.append(store.entries(0))
            if last:
                return
            store.wait(0.2)

    threads = [threading.Thread(target=append, args=("r%d" % (n // 2),)) for n in range(6)]
    reader = threading.Thread(target=look)
    for thread in (reader, *threads):
        thread.start()
    for thread in threads:
        thread.join()
    ended.append(True)
    reader.join()
    holds(3 * each <= len(seen[-1]) <= 3 * (each + 1), "%d entries" % len(seen[-1]))
    holds(all(rows == seen[-1][:len(rows)] for rows in seen), "each look is a prefix of the last")
    same([row.split(" ")[0] for row in seen[-1]], [str(n) for n in range(len(seen[-1]))])


@table("a writer is killed at 12 random moments: what is there is whole", KINDS)
def killed(folder, kind):
    url = made(kind, folder)
    store = open_store(url)
    for n in range(12):
        process, before = run(APPENDS, url), store.count()
        while store.count() < before + 2 and process.poll() is None:
            time.sleep(0.005 + 0.001 * n)
        process.kill()
        process.wait()
    number, rows = store.last("k").number, []
    while page := store.entries(len(rows)):
        rows += page
    holds(number == len(rows) >= 24, "%d batches, %d entries" % (number, len(rows)))
    for n, row in enumerate(rows):
        anchor, files = batch(n + 1)
        same(row, "%d %s" % (n, anchor))
        same([store.get(uri) for uri, _ in files], [data for _, data in files])


@table("who waits hears of an entry at once, and of nothing otherwise", KINDS)
def waits(folder, kind):
    url = made(kind, folder)
    store, other = open_store(url), open_store(url)
    store.count(), other.count(), store.wait(0.1), store.wait(0.1)
    began = time.monotonic()
    store.wait(0.5)
    quiet = time.monotonic() - began
    threading.Timer(0.3, lambda: open_store(url).append("w", 1, *batch(9))).start()
    began = time.monotonic()
    while not store.count():
        store.wait(30)
    holds(quiet > 0.45 and time.monotonic() - began < 20, "quiet for %.2f s, heard after %.2f s" % (quiet, time.monotonic() - began))


@table("a writer that is stopped in a transaction holds others up for a while, not for ever", KINDS)
def stopped(folder, kind):
    url = made(kind, folder)
    process = run(STOPS, url, stdin=subprocess.PIPE, stdout=subprocess.PIPE)
    process.stdout.readline()
    process.send_signal(signal.SIGSTOP)
    store, began = open_store(url), time.monotonic()
    module.PATIENCE = 3
    try:
        while store.last("p").number == 0:
            try:
                store.append("p", 1, *batch(5))
            except Away:
                holds(time.monotonic() - began < 60, "it is held up for %.0f s" % (time.monotonic() - began))
                if kind == "sqlite":
                    # Nobody can end its transaction: whoever watches processes must kill it, as `up` does.
                    process.kill()
    finally:
        module.PATIENCE = PATIENCE
        process.kill()
        process.wait()


class Node:
    """What of a keeper `join` asks for."""
    known = "-"

    def expect(self, _, line):
        self.known = line.partition(" ")[2] if self.known == "-" and line != "store" else self.known
        return self.known or "-"


@table("tables are made only for a folder that has followed no store, and another store halts it", KINDS)
def joins(folder, kind):
    url, node = new_store(kind, folder), Node()
    store = open_store(url)
    store.join(node)
    store.join(node)
    same(node.known, store.id())
    store.append("a", 1, *batch(1))
    empty = open_store(new_store(kind, os.path.join(folder, "other")))
    os.mkdir(os.path.join(folder, "other"))
    if kind == "sqlite":
        # A file that is not there is away. One that is empty halts, as an empty database does.
        holds(is_away(empty), "no file is there")
        open(empty.path, "wb").close()
    holds(halts(empty.join, node), "an empty database")
    holds(halts(empty.join, node), "no tables were made")
    empty.create()
    holds(halts(empty.join, node), "another store")
    store.join(node)


def is_away(store):
    try:
        return store.count() is None
    except Away:
        return True


@table("a database that goes away is Away, and later it is there", KINDS)
def away(folder, kind):
    url = made(kind, folder)
    store = open_store(url)
    store.append("a", 1, *batch(1))
    if kind == "sqlite":
        os.rename(os.path.join(folder, "store.db"), os.path.join(folder, "gone"))
        store.close()
        holds(is_away(store) and not os.path.exists(os.path.join(folder, "store.db")), "no file is made")
        os.rename(os.path.join(folder, "gone"), os.path.join(folder, "store.db"))
    else:
        os.kill(SHARED[0].postmaster(), signal.SIGKILL)
        until(lambda: is_away(store))
        SHARED[0].start_again()
    same((store.count(), store.last("a").number), (1, 1))
