"""Publisher and follower over both stores: each request comes once, whoever ends and whenever, and what could lose data
is refused."""
import os
import shutil
import signal
import subprocess
import threading
import time

from client import Kept
from cluster import new_store
from following import follow, release
from frame import SERVICE, Batches, Keeper, asked, case, create, holds, pairs, same, suffix_of, table, tool, until, words_of
from publishing import Publisher, publish
from store import open_store


class Ends(BaseException):
    """The publisher ends here, as by kill -9: nothing after this is done, and its connections close."""


class EndingNode(Kept):
    """A kept node whose asker ends at a point."""
    point, stop = None, None

    def ask(self, line):
        if (self.stop and self.stop.is_set()) or (self.point == "before" and line.startswith("batch ")):
            raise Ends
        reply = super().ask(line)
        if self.point == "reply" and line.startswith("batch "):
            raise Ends
        return reply


def end_in(store, point):
    """Lets whoever uses the store end in the transaction that appends an entry, or right after it."""
    plain, seen = store.sql, []

    def sql(text, *values):
        seen.extend([text] if "INTO entries" in text else [])
        if point == "transaction" and text == "COMMIT" and seen:
            raise Ends
        rows = plain(text, *values)
        if point == "committed" and text == "COMMIT" and seen:
            raise Ends
        return rows
    store.sql = sql
    return store


def publish_until(url, socket, point=None):
    """Publishes until it ends at a point; without one, until all is published."""
    store = end_in(open_store(url), point)
    with EndingNode(socket) as node:
        node.point = point
        store.join(node)
        try:
            publisher = Publisher(store, node, 0, 1_000)
            publisher.compare()
            while publisher.step() or point:
                pass
        except Ends:
            holds(point, "it ends at its point")
    store.close()


def threads_of(url, socket, stop):
    """Two publishers and two followers at once."""
    def publishing():
        with EndingNode(socket) as node:
            node.stop = stop
            publish(open_store(url), node, 0.1, 1_000)

    def following():
        store = open_store(url)
        with EndingNode(socket) as node:
            node.stop = stop
            while True:
                follow(node, store, 0)
                store.wait(0.2)

    def run(work):
        try:
            work()
        except Ends:
            pass
    return [threading.Thread(target=run, args=(work,)) for work in (publishing, publishing, following, following)]


POINTS = ("before", "reply", "transaction", "committed", "by hand")
ROWS = [("%s, ended at '%s', %s killed" % (kind, point, who), kind, point, who) for kind, points, whom in (
    ("sqlite", POINTS, ("keeper",)), ("sqlite", ("reply", "by hand"), ("nobody", "node")), ("postgresql", POINTS[:4], ("keeper",)))
    for point in points for who in whom]


@table("each request comes once", ROWS)
def once(folder, kind, point, who):
    url, requests = new_store(kind, folder), [create("%s%d" % (point, n)) for n in range(6)]
    with Keeper(folder) as keeper:
        with Kept(keeper.all) as node:
            node.expect("queued", "submit " + requests[0])
            publish_until(url, keeper.all)
            for request in requests[1:3]:
                node.expect("queued", "submit " + request)
            if point == "by hand":
                node.expect("batch", "flush")
            else:
                publish_until(url, keeper.all, point)
        if who == "node":
            os.kill(keeper.node(), signal.SIGKILL)
            keeper.process.wait()
        elif who == "keeper":
            keeper.kill(signal.SIGKILL)
        else:
            keeper.kill()
    with Keeper(folder) as keeper, Kept(keeper.all) as node:
        for request in requests[3:]:
            node.expect("queued", "submit " + request)
        store, stop = open_store(url), threading.Event()
        name = node.expect("batches", "batches").split(" ")[0]
        threads = threads_of(url, keeper.all, stop)
        for thread in threads:
            thread.start()
        try:
            until(lambda: store.last(name).through == 6 and
                  node.ask("chain")[0] == "chain %d %s" % (store.count(), store.chain(store.count())), 60)
            until(lambda: node.wanted() == [], 60)
        finally:
            stop.set()
            for thread in threads:
                thread.join()
        last, entries, words = store.last(name), store.entries(0), words_of(keeper.journal)
        same(node.expect("batches", "batches"), "%s %d 6 6" % (name, last.number))
        same((words["anchor"], words["rollback"], len(set(entries))), (len(entries), 0, len(entries)), "entries, and those that came back")
        for request in requests:
            holds(node.resolve("did:sidetree:" + suffix_of(request)), "it resolves")


class Publishing:
    """A tool that a case has started, and what it says on standard error."""

    def __init__(self, folder, *words):
        self.path = os.path.join(folder, "said%d" % len(os.listdir(folder)))
        with open(self.path, "wb") as file:
            self.process = subprocess.Popen([os.path.join(SERVICE, words[0]), *words[1:]], stderr=file, stdout=file)

    def said(self):
        with open(self.path, encoding="utf-8") as file:
            return file.read()

    def __enter__(self):
        return self

    def __exit__(self, *_):
        self.process.kill()
        self.process.wait()


def unpublished(keeper):
    return pairs(asked(keeper.ask, "health")[0])["unpublished"]


@table("a copied folder halts the publisher and the keeper's queue, until the copy's name is removed", [
    ("it made fewer batches", []), ("it made as many", ["flush"])])
def copied(folder, lines):
    url, requests = new_store("sqlite", folder), [create("c%d" % n) for n in range(4)]
    with Keeper(folder) as keeper:
        asked(keeper.all, "submit " + requests[0])
        publish_until(url, keeper.all)
        keeper.kill()
        there = os.path.join(folder, "copy")
        shutil.copytree(keeper.state, os.path.join(there, "state"))
    with Keeper(folder) as keeper:
        asked(keeper.all, "submit " + requests[1])
        publish_until(url, keeper.all)
    with Keeper(there) as copy:
        same(asked(copy.all, "submit " + requests[2], *lines)[0][:6], "queued")
        with Publishing(folder, "registry", "publish", url, copy.all) as publishing:
            until(lambda: "remove the file `name`" in publishing.said())
            same(publishing.said().count("\n"), 1, "lines that it says")
        same(asked(copy.ask, "submit " + requests[3]), ["refused held"])
        copy.kill()
    with Keeper(there) as copy:
        same(asked(copy.ask, "submit " + requests[3]), ["refused held"], "after a start too")
        copy.kill()
    os.remove(os.path.join(copy.state, "name"))
    with Keeper(there) as copy:
        with Publishing(folder, "registry", "publish", "--every=0.1", url, copy.all):
            until(lambda: unpublished(copy) == "0")
            same(asked(copy.ask, "submit " + requests[3])[0][:6], "queued")
            until(lambda: pairs(asked(copy.ask, "health")[0])["queued"] == "0" and unpublished(copy) == "0")
        same(tool("follow", url, copy.all).status, 0)
        same([bool(asked(copy.all, "resolve did:sidetree:" + suffix_of(request))[0].startswith("resolved ")) for request in requests], [True] * 4)


@case("an older journal under the same name halts the publisher")
def older(folder):
    url = new_store("sqlite", folder)
    with Keeper(folder) as keeper:
        asked(keeper.all, "submit " + create("a"))
        publish_until(url, keeper.all)
        same(tool("journal", "copy", keeper.journal, os.path.join(folder, "older")).status, 0)
        asked(keeper.all, "submit " + create("b"))
        publish_until(url, keeper.all)
    os.replace(os.path.join(folder, "older"), keeper.journal)
    with Keeper(folder) as keeper, Publishing(folder, "registry", "publish", url, keeper.all) as publishing:
        until(lambda: "its journal made 1" in publishing.said())
        until(lambda: asked(keeper.ask, "submit " + create("c")) == ["refused held"])


@case("a store that is not the folder's halts follower and publisher")
def another(folder):
    url, other = new_store("sqlite", folder), "sqlite:%s/other.db" % folder
    open_store(other).create()
    with Keeper(folder) as keeper:
        same(tool("follow", url, keeper.all).status, 0)
        done = tool("follow", other, keeper.all)
        holds(done.status == 4 and "give the right --store" in done.err, done.err)
        same(asked(keeper.ask, "submit " + create("a")), ["refused held"])
        same(tool("follow", url, keeper.all).status, 0)
        with Publishing(folder, "registry", "publish", other, keeper.all) as publishing:
            until(lambda: "give the right --store" in publishing.said())
            same(asked(keeper.ask, "submit " + create("a")), ["refused held"])
        same(tool("follow", "sqlite:%s/none.db" % folder, keeper.all).status, 2, "the status of follow without a store")
        same(tool("follow", "mysql://x", keeper.all).status, 64)


@case("a database put back from a copy: what it lacks is published again, and the follower takes back what may be")
def put_back(folder):
    url, path = new_store("sqlite", folder), os.path.join(folder, "store.db")
    with Keeper(folder) as keeper:
        for n in range(5):
            asked(keeper.all, "submit " + create("p%d" % n))
            publish_until(url, keeper.all)
            same(tool("follow", url, keeper.all).status, 0)
            if n == 1:
                store = open_store(url)
                store.id()
                store.sql("VACUUM INTO '%s'" % (path + ".copy"))
                store.close()
        for end in ("", "-wal", "-shm"):
            if os.path.exists(path + end):
                os.remove(path + end)
        os.rename(path + ".copy", path)
        done = tool("follow", url, keeper.all, "--most-back=2")
        holds(done.status == 4 and "--most-back=3" in done.err, done.err)
        same(asked(keeper.ask, "submit " + create("q")), ["refused held"])
        with Publishing(folder, "registry", "publish", "--every=0.1", url, keeper.all):
            until(lambda: open_store(url).count() == 5)
        same(tool("follow", url, keeper.all, "--most-back=2").status, 0)
        holds(asked(keeper.ask, "submit " + create("q"))[0].startswith("queued "), "it takes requests again")
        same([asked(keeper.all, "resolve did:sidetree:" + suffix_of(create("p%d" % n)))[0][:8] for n in range(5)], ["resolved"] * 5)
