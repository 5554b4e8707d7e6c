"""What the cases share: how a case is declared, how tools are run, and a ledger to run them over."""
import base64
import collections
import json
import os
import shutil
import signal
import socket
import subprocess
import tempfile
import time
import traceback

from client import Kept, Node
from ledger import uri_of
from plain_json import canonical
from records import Journal

SERVICE = os.path.dirname(os.path.dirname(os.path.realpath(__file__)))
TOP = os.path.dirname(SERVICE)
FOLDER = os.path.join(TOP, "examples", "folder")
TOOLS = ("keeper", "follow", "feed", "resolve", "tell", "shell", "why", "journal", "gateway", "registry")
# The longest that anything may take here, in seconds.
LONGEST = 120
CASES = []


class Skipped(Exception):
    """A case that this machine can't run, and why."""


def case(name):
    """Declares a function as a case. It gets a folder of its own, and raises if something does not hold."""
    def declare(function):
        CASES.append((name, function))
        return function
    return declare


def table(name, rows):
    """Declares a case for each row of a table: a name, and what the function gets after the folder."""
    def declare(function):
        for row in rows:
            CASES.append(("%s: %s" % (name, row[0]), lambda folder, row=row: function(folder, *row[1:])))
        return function
    return declare


def same(found, wanted, what=""):
    """Fails if two values differ."""
    if found != wanted:
        raise AssertionError("%s is %.300r, and %.300r is wanted" % (what or "it", found, wanted))


def holds(condition, what):
    if not condition:
        raise AssertionError(what)


class Ran:
    """What a command has said, and its status."""

    def __init__(self, done):
        self.status, self.out, self.err = done.returncode, done.stdout.decode(), done.stderr.decode()


def tool(name, *words, given=b"", **more):
    """Runs a tool over some input."""
    return command(os.path.join(SERVICE, name), *words, given=given, **more)


def command(*words, given=b"", **more):
    return Ran(subprocess.run(words, input=given if isinstance(given, bytes) else given.encode(), capture_output=True,
                              timeout=LONGEST, check=False, **more))


class Keeper:
    """A keeper that a case has started, in a folder."""

    def __init__(self, folder, *options, wait=True):
        self.state, self.sockets = os.path.join(folder, "state"), os.path.join(folder, "sockets")
        os.makedirs(self.state, exist_ok=True)
        os.makedirs(self.sockets, exist_ok=True)
        self.all, self.ask = os.path.join(self.sockets, "all"), os.path.join(self.sockets, "ask")
        self.journal = os.path.join(self.state, "sidetree.journal")
        self.log = tempfile.TemporaryFile()
        self.process = subprocess.Popen([os.path.join(SERVICE, "keeper"), *options, self.state, self.sockets], stderr=self.log)
        if wait:
            self.wait()

    def wait(self):
        """Waits until it is ready, or has ended."""
        until(lambda: self.process.poll() is not None or "ready after" in self.said())

    def node(self):
        """The process of the node."""
        with open("/proc/%d/task/%d/children" % (self.process.pid, self.process.pid), encoding="ascii") as file:
            return int(file.read().split()[0])

    def said(self):
        return os.pread(self.log.fileno(), 1_000_000, 0).decode()

    def kill(self, number=signal.SIGTERM):
        """Sends a signal, and gives the status."""
        if self.process.poll() is None:
            self.process.send_signal(number)
        return self.process.wait(LONGEST)

    def __enter__(self):
        return self

    def __exit__(self, *_):
        self.kill()
        self.log.close()


def answers(path):
    with socket.socket(socket.AF_UNIX) as tried:
        return tried.connect_ex(path) == 0


def until(condition, longest=LONGEST):
    """Waits until a condition holds."""
    end = time.monotonic() + longest
    while not condition():
        if time.monotonic() > end:
            raise AssertionError("it does not hold within %d s" % longest)
        time.sleep(0.01)


def asked(path, *lines):
    """The first lines of the replies to lines, from a keeper."""
    with Kept(path) as node:
        return [node.ask(line)[0] for line in lines]


def pairs(reply):
    """The pairs of a name and a value in a reply to `health`."""
    words = reply.split(" ")[1:]
    return dict(zip(words[::2], words[1::2]))


def create(name, later=False):
    """A request for a create. Nobody has the keys of its commitments. It needs version 2 if that is asked for."""
    commitment = uri_of(name.encode())
    patches = [{"action": "add-services", "services": [{"id": "home", "type": "Site", "serviceEndpoint": "https://%s.example/" % name}]}]
    if later:
        patches.append({"action": "add-also-known-as", "uris": ["https://%s.example/" % name]})
    delta = {"patches": patches, "updateCommitment": commitment}
    return canonical({"type": "create", "delta": delta, "suffixData": {
        "deltaHash": uri_of(canonical(delta)), "recoveryCommitment": commitment}}).decode()


def suffix_of(request):
    return uri_of(canonical(json.loads(request)["suffixData"]))


class Batches:
    """Batches of creates, each an anchor string and its files."""

    def __init__(self, count, size=1):
        self.anchors, self.files, self.dids = [], {}, []
        with Node("node") as node:
            for n in range(count):
                for m in range(size):
                    request = create("n%d-%d" % (n, m))
                    self.dids.append("did:sidetree:" + suffix_of(request))
                    node.expect("queued", "submit " + request)
                head, *files = node.ask("flush")
                self.anchors.append(head.split(" ")[1])
                for line in files:
                    _, _, uri, text = line.split(" ", 3)
                    self.files[uri] = text

    def write_files(self, folder):
        os.makedirs(folder, exist_ok=True)
        for uri, text in self.files.items():
            with open(os.path.join(folder, uri), "wb") as file:
                file.write(base64.urlsafe_b64decode(text + "=" * (-len(text) % 4)))


def words_of(path):
    """How many records of each word a journal has."""
    journal = Journal(path)
    try:
        return collections.Counter(record.word.decode() for record in journal.records())
    finally:
        journal.close()


def write(path, text):
    with open(path, "w", encoding="utf-8") as file:
        file.write(text)


def copy_of_folder(folder):
    """A copy of the example's folder."""
    to = os.path.join(folder, "ledger")
    shutil.copytree(FOLDER, to)
    return to


def run_all(program, words):
    """Runs the cases, and gives the status."""
    os.environ["SIDETREE"], os.environ["PYTHONDONTWRITEBYTECODE"] = program, "1"
    passed = failed = 0
    for name, function in CASES:
        if words and not any(word in name for word in words):
            continue
        began = time.monotonic()
        with tempfile.TemporaryDirectory() as folder:
            try:
                function(folder)
            except Skipped as skipped:
                print("skipped %s: %s" % (name, skipped), flush=True)
                continue
            except AssertionError as wrong:
                failed += 1
                print("failed %s: %s" % (name, wrong), flush=True)
                continue
            except Exception:
                failed += 1
                print("failed %s: %s" % (name, traceback.format_exc().replace("\n", "\n    ")), flush=True)
                continue
        passed += 1
        print("ok %s (%.1f s)" % (name, time.monotonic() - began), flush=True)
    print("%d passed, %d failed" % (passed, failed))
    return 1 if failed else 0
