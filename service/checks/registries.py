"""A registry in one command, the requests that its gateway takes, and short trials by `failures`."""
import json
import os
import re
import signal
import subprocess
import sys
import time
import urllib.error
import urllib.request

from client import Kept, Node
from cluster import free_port, missing
from following import follow
from frame import SERVICE, Keeper, Skipped, asked, case, command, create, holds, same, suffix_of, table, tool, until, write
from gateway_posts import post
from installs import bare, built, install
from ledger import read
from machines import Machine
from publishes import publish_until
from publishing import Publisher
from store import open_store
from web import KeptWeb, has


class Wallet:
    """A wallet with one vault, and the requests that it makes."""

    def __init__(self, folder):
        os.makedirs(folder)
        self.node = Node("wallet", folder=folder)
        self.node.expect("formatted", "format 3 5 %s %s" % ("5a" * 16, "a5" * 32))

    def delta(self, n):
        key = self.node.ask("key %032x" % n)[0].split(" ")[2]
        return json.dumps({"patches": [{"action": "add-services", "services": [
            {"id": "s%d" % n, "type": "S", "serviceEndpoint": "https://example.com/"}]}], "updateCommitment": key})

    def request(self, line):
        """The suffix and the text of a request."""
        return self.node.expect("request", line).split(" ", 1)

    def create(self, first=0):
        return self.request("create %032x %s" % (99, self.delta(first)))

    def update(self, suffix, n):
        return self.request("update %s %032x %s" % (suffix, n, self.delta(n + 1)))[1]

    def end(self):
        self.node.end()


@case("the gateway takes a request once, tells where it is, and refuses a key that is not awaited")
def posts(folder):
    url, wallet = "sqlite:%s/store.db" % folder, Wallet(os.path.join(folder, "wallet"))
    suffix, made = wallet.create()
    updates = [wallet.update(suffix, n) for n in range(2)]
    ended = wallet.request("deactivate %s %032x" % (suffix, 99))[1]
    wallet.end()
    store = open_store(url)
    with KeptWeb(folder, "--submit=SUBMIT", "--submits=1000") as web:
        def place(request):
            reply = has(post(web, request), 200)
            return reply.headers["Sidetree-Request"]

        def publish():
            publish_until(url, web.keeper.all)
            with Kept(web.keeper.all) as node:
                follow(node, store, 0)
        has(post(web, updates[0]), 409, error="notAwaited", message="the identifier is not known here yet", awaits=None)
        same([place(made), place(made)], ["journal", "journal"])
        publish()
        same(place(made), "ledger")
        # It was not queued again: there would be an entry more.
        same(asked(web.keeper.all, "batches")[0].split(" ")[2:4], ["1", "1"])
        same([place(updates[0]), place(updates[0])], ["journal", "journal"])
        publish()
        same([place(updates[0]), place(updates[1])], ["ledger", "journal"])
        publish()
        same(place(ended), "journal")
        publish()
        same([place(updates[0]), place(updates[1]), place(ended)], ["ledger"] * 3)
        asked(web.keeper.all, "hold follow a cause for the log")
        reply = has(post(web, create("x")), 503, error="held")
        holds(int(reply.headers["Retry-After"]) > 0, "a time to wait")
        same(place(ended), "ledger", "what was taken already is still known")
        asked(web.keeper.all, "release follow")
        same(place(create("x")), "journal")
    with KeptWeb(os.path.join(folder, "other"), "--submit=SUBMIT") as web:
        with Kept(web.keeper.all) as node:
            follow(node, store, 0)
        has(post(web, updates[0]), 409, error="notAwaited", awaits=None)


@case("registry up: a request that is posted resolves, through the end of each part, and SIGTERM ends all")
def up(folder):
    began = time.monotonic()
    machine = Machine(folder, 1, "sqlite:%s/store.db" % folder, "--every=0.5", "--submits=1000")
    try:
        until(lambda: "registry: ready" in machine.said())

        def resolves(name):
            request = create(name)
            until(lambda: machine.http("POST", "/operations", request)[0] == 200)
            until(lambda: machine.http("GET", "/identifiers/did:sidetree:" + suffix_of(request))[0] == 200)
        resolves("first")
        for part in ("gateway", "publish", "follow", "keeper", "node"):
            os.kill(machine.process(part), signal.SIGKILL)
            resolves("after the end of " + part)
        same(tool("registry", "up", machine.folder).status, 4, "the status of a second one")
        machine.up.kill()
        machine.up.wait()
        machine.start()
        resolves("after the end of up")
        same(machine.end(), 0)
        said = machine.said()
        for part in ("keeper", "follow", "publish", "gateway"):
            holds(len(re.findall("registry: %s runs, process" % part, said)) >= 3, "%s was started again" % part)
        same(said.splitlines()[-1], "registry: all have ended")
        holds("is killed" not in said, "each part ends by itself")
        same(open_store("sqlite:%s/store.db" % folder).count(), 7, "entries")
    finally:
        if machine.up.poll() is None:
            machine.end()


@case("the way of a new user: install, sidetree-registry up, a request from the wallet")
def installed(folder):
    prefix = os.path.join(folder, "usr")
    install(built(folder), prefix)
    wallet = Wallet(os.path.join(folder, "wallet"))
    suffix, request = wallet.create()
    wallet.end()
    environment = {name: value for name, value in bare(prefix).items() if name != "SIDETREE"}
    port = free_port()
    with open(os.path.join(folder, "log"), "wb") as log:
        up = subprocess.Popen(["sidetree-registry", "up", os.path.join(folder, "kept"), "--listen=127.0.0.1:%d" % port, "--every=1"],
                              env=environment, stderr=log, stdout=log)
    try:
        until(lambda: b"registry: ready" in read(os.path.join(folder, "log")))
        address = "http://127.0.0.1:%d" % port
        asked = urllib.request.Request(address + "/operations", request.encode(), {"Content-Type": "application/json"})
        same(urllib.request.urlopen(asked).status, 200)

        def is_there():
            try:
                return urllib.request.urlopen(address + "/identifiers/did:sidetree:" + suffix).status == 200
            except urllib.error.HTTPError:
                return False
        until(is_there)
        holds(b"<title>" in urllib.request.urlopen(address + "/").read(), "there is a page")
    finally:
        up.terminate()
    same(up.wait(60), 0)


@case("registry drain brings all to the ledger, and ends up; the next up takes requests again")
def drained(folder):
    machine = Machine(folder, 1, "sqlite:%s/store.db" % folder, "--every=3", "--submits=1000")
    try:
        until(lambda: "registry: ready" in machine.said())
        requests = [create("d%d" % n) for n in range(20)]
        for request in requests:
            same(machine.http("POST", "/operations", request)[0], 200)
        done = tool("registry", "drain", machine.folder)
        same((done.status, done.out), (0, "20 requests are on the ledger\n"), done.err)
        same(machine.up.wait(60), 0)
        machine.start()
        until(lambda: machine.http("POST", "/operations", create("after"))[0] == 200)
        same(tool("registry", "drain", folder).status, 2, "the status without a keeper")
    finally:
        machine.end()


@case("registry up ends with the keeper's status if that cannot mend itself")
def ends(folder):
    os.makedirs(os.path.join(folder, "state"))
    with open(os.path.join(folder, "state", "sidetree.journal"), "w", encoding="ascii") as file:
        file.write("no journal")
    done = tool("registry", "up", os.path.join(folder, "state"), "--listen=127.0.0.1:0")
    same(done.status, 65, done.err)
    for words in (("up",), ("up", folder, "--store=x"), ("up", folder, "--every=x"), ("nothing", folder), ("publish", "x", "y")):
        same(tool("registry", *words).status, 64, " ".join(words))
    deep = os.path.join(folder, "x" * 100)
    done = tool("registry", "up", deep)
    holds(done.status == 73 and "too long" in done.err, done.err)


HANGING = """
import sys
sys.path.insert(0, %r)
import supervising
supervising.HANGS, ends = 8, []
sys.argv[0] = "registry"
sys.exit(supervising.supervise([supervising.Part("lively", sys.argv[1], "lively"), supervising.Part("hung", sys.argv[1], "hung")],
                               lambda part, status: ends.append(part) or (5 if len(ends) == 2 else None), lambda: None))
""" % SERVICE
# A part that beats, or one that is ready and then hangs.
PART = """
import sys, time
sys.path.insert(0, %r)
from tools import beat, tell_manager
tell_manager("READY=1")
while True:
    time.sleep(0.1)
    if sys.argv[1] == "lively":
        beat()
""" % SERVICE


@case("a part that hangs is killed and started again, and one that beats is left alone")
def hangs(folder):
    write(os.path.join(folder, "part.py"), PART)
    done = command(sys.executable, "-B", "-c", HANGING, os.path.join(folder, "part.py"))
    same(done.status, 5, done.err)
    same([done.err.count(text) for text in ("hung has said nothing for 8 s", "hung runs", "lively runs", "lively has said", "all have ended")],
         [2, 2, 1, 0, 1], done.err)


@case("a publisher that ends often still publishes: the age of the last batch is the store's")
def clock(folder):
    store = open_store("sqlite:%s/store.db" % folder)
    with Keeper(folder) as keeper, Kept(keeper.all) as node:
        store.join(node)
        node.expect("queued", "submit " + create("a"))
        same(Publisher(store, node, 3, 1_000).step(), 0, "requests that wait after the first batch")
        began = time.monotonic()
        node.expect("queued", "submit " + create("b"))
        while Publisher(store, node, 3, 1_000).step():
            time.sleep(0.05)
        holds(time.monotonic() - began > 2, "the batch came after %.1f s" % (time.monotonic() - began))
        node.expect("queued", "submit " + create("c"))
        same(Publisher(store, node, 1_000, 1).step(), 0, "one waits, and one is enough")


@case("a registry whose later entries are read by version 2")
def later(folder):
    store = "sqlite:%s/store.db" % folder
    machine = Machine(folder, 1, store, "--every=0.1", "--submits=1000")
    try:
        def resolves(name, later=False):
            request = create(name, later)
            until(lambda: machine.http("POST", "/operations", request)[0] == 200)
            until(lambda: machine.http("GET", "/identifiers/did:sidetree:" + suffix_of(request))[0] == 200)
        resolves("one")
        resolves("two")
        same(machine.end(), 0)
        machine.words.append("--v2-at=4")
        machine.start()
        resolves("three")
        until(lambda: machine.http("POST", "/operations", create("later", later=True))[0] == 400)
        resolves("four")
        resolves("five")
        resolves("later", later=True)
        same(open_store(store).count(), 6, "entries")
    finally:
        machine.end()


@table("failures", [(kind, kind) for kind in ("sqlite", "postgresql")])
def short(folder, kind):
    if kind == "postgresql" and missing():
        raise Skipped(missing())
    done = command(os.path.join(SERVICE, "failures"), "--store=" + kind, "--kills=8", "--clients=4", "--seed=3")
    same(done.status, 0, "the status: %s %s" % (done.out, done.err))
    holds(re.search(r"^8 failures, .* 0 identifiers lost, 0 that differ, .* 0 faults$", done.out, re.M), done.out)
