"""Machines of a registry, each a folder and `registry up` over it, and how they are failed."""
import collections
import http.client
import os
import random
import signal
import socket
import subprocess
import threading
import time

from client import Kept
from cluster import free_port
from frame import SERVICE

PARTS = ("node", "keeper", "follow", "publish", "gateway", "up")


def below(process):
    """The processes that one has started, with their words."""
    found = []
    try:
        for thread in os.listdir("/proc/%d/task" % process):
            with open("/proc/%d/task/%s/children" % (process, thread), encoding="ascii") as file:
                for number in map(int, file.read().split()):
                    with open("/proc/%d/cmdline" % number, encoding="utf-8", errors="replace") as words:
                        found.append((number, words.read().split("\0")))
    except (OSError, TypeError):
        pass
    return found


def processes_of(folder):
    """The processes that have a folder among their words, after some seconds in which they may end."""
    end = time.monotonic() + 20
    while True:
        found = []
        for name in os.listdir("/proc"):
            try:
                with open("/proc/%s/cmdline" % int(name), encoding="utf-8", errors="replace") as words:
                    found += [name] if any(word.startswith(folder + "/") or word == folder for word in words.read().split("\0")) else []
            except (OSError, ValueError):
                pass
        if not found or time.monotonic() > end:
            return found
        time.sleep(0.2)


class Line:
    """A machine's connection to the database. It can be cut for a while, as by a network that drops all."""

    def __init__(self, port):
        self.to, self.whole = port, threading.Event()
        self.whole.set()
        self.listening = socket.create_server(("127.0.0.1", 0), backlog=64)
        self.port = self.listening.getsockname()[1]
        threading.Thread(target=self.take, daemon=True).start()

    def take(self):
        while True:
            near = self.listening.accept()[0]
            threading.Thread(target=self.connect, args=(near,), daemon=True).start()

    def connect(self, near):
        self.whole.wait()
        try:
            far = socket.create_connection(("127.0.0.1", self.to))
        except OSError:
            near.close()
            return
        for pair in ((near, far), (far, near)):
            threading.Thread(target=self.pass_on, args=pair, daemon=True).start()

    def pass_on(self, source, sink):
        try:
            while data := source.recv(1 << 16):
                if not self.whole.is_set():
                    self.whole.wait()
                    # Its peer has given it up, or not: both happen.
                    if random.random() < 0.5:
                        break
                sink.sendall(data)
        except OSError:
            pass
        for one in (source, sink):
            try:
                one.shutdown(socket.SHUT_RDWR)
            except OSError:
                pass


class Machine:
    """A folder, and `up` over it."""

    def __init__(self, folder, number, store, *options):
        self.folder, self.port = os.path.join(folder, "m%d" % number), free_port()
        self.sockets, self.journal = os.path.join(self.folder, "sockets"), os.path.join(self.folder, "sidetree.journal")
        self.words = [os.path.join(SERVICE, "registry"), "up", self.folder, "--store=" + store, "--listen=127.0.0.1:%d" % self.port, *options]
        self.log = os.path.join(folder, "m%d.log" % number)
        self.start()

    def start(self):
        with open(self.log, "ab") as log:
            self.up = subprocess.Popen(self.words, stderr=log, stdout=log)

    def said(self):
        with open(self.log, encoding="utf-8", errors="replace") as log:
            return log.read()

    def process(self, what):
        """The process of a part, or None."""
        if what == "up":
            return self.up.pid
        for number, words in below(self.up.pid):
            if what in [os.path.basename(word) for word in words[:4]]:
                return number
            if what == "node" and "keeper" in [os.path.basename(word) for word in words[:4]]:
                return next((one for one, _ in below(number)), None)
        return None

    def http(self, method, path, body=None, patience=10):
        """The status and the body of an answer, and its headers; or the name of the error instead of the status."""
        connection = http.client.HTTPConnection("127.0.0.1", self.port, timeout=patience)
        try:
            connection.request(method, path, body, {"Content-Type": "application/json"} if body else {})
            answer = connection.getresponse()
            if answer.headers["Content-Length"] is None:
                # The gateway was killed in the middle of its head.
                raise http.client.IncompleteRead(b"")
            return answer.status, answer.read().decode(), answer.headers
        except (OSError, http.client.HTTPException) as error:
            return type(error).__name__, "", {}
        finally:
            connection.close()

    def ask(self, *lines):
        """The replies of the keeper to lines."""
        with Kept(os.path.join(self.sockets, "all"), 60) as node:
            return [node.ask(line) for line in lines]

    def end(self):
        """Ends it, and gives its status."""
        if self.up.poll() is None:
            self.up.terminate()
        return self.up.wait(120)


class Failing(threading.Thread):
    """Kills, stops and cuts off, at random, until so many failures have been."""

    def __init__(self, machines, lines, cluster, count, seed):
        super().__init__(daemon=True)
        self.machines, self.lines, self.cluster, self.count = machines, lines, cluster, count
        self.random, self.counts, self.fault = random.Random(seed), collections.Counter(), None

    def run(self):
        try:
            while sum(self.counts.values()) < self.count:
                time.sleep(self.random.choice((0.05, 0.5, 1, 3)))
                what = self.random.choice(PARTS + ("publish",) + (("backend", "postgres", "line", "line") if self.cluster else ()))
                try:
                    self.fail(what, self.random.choice(self.machines))
                except ProcessLookupError:
                    continue
        except Exception as fault:
            self.fault = fault

    def fail(self, what, machine):
        if what == "line":
            line = self.random.choice(self.lines)
            line.whole.clear()
            self.counts["cut off"] += 1
            time.sleep(self.random.choice((0.5, 2, 6, 12)))
            line.whole.set()
            return
        found = self.cluster.backends() if what == "backend" else [self.cluster.postmaster() if what == "postgres" else machine.process(what)]
        number = self.random.choice(found) if found else None
        if number is None:
            return
        if self.random.random() < 0.3:
            os.kill(number, signal.SIGSTOP)
            self.counts["stopped " + what] += 1
            time.sleep(self.random.choice((0.2, 0.2, 0.2, 1, 1, 3, 3, 12)))
            os.kill(number, signal.SIGCONT)
            return
        os.kill(number, signal.SIGKILL)
        self.counts["killed " + what] += 1
        if what == "up":
            machine.up.wait()
            time.sleep(self.random.choice((0, 0.5)))
            machine.start()
        elif what == "postgres":
            time.sleep(self.random.choice((0, 1, 4)))
            self.cluster.start_again()
