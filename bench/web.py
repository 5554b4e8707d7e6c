#!/usr/bin/env python3
"""Tries the gateway with bytes that are no requests, with many clients, and measures it.

usage: bench/web.py hostile [REQUESTS [SEED]]
       bench/web.py clients [CLIENTS [SECONDS]]
       bench/web.py speed [SECONDS]

hostile  sends mutated HTTP requests (100,000) as raw bytes, each over a connection of its own, and intact ones between
         them. The node's entries, queue and journal must be as before, each connection must get an answer or be closed in
         time, and no answer may belong to another request.
clients  200 clients ask at once for 60 seconds. Each answer must be that to its own request.
speed    wrk asks for the identifier of examples/life.in for 3 seconds, beside a WSGI application that answers a
         constant, both under gunicorn with the same workers and threads, ten times in turn: a run is as fast as the
         kernel happens to spread its connections over the workers, so the medians of the ten are compared.

The program is the one that SIDETREE names, else the built one. The last line is 'ok', or says what does not hold.
"""
import contextlib
import itertools
import os
import random
import re
import shutil
import socket
import statistics
import subprocess
import sys
import tempfile
import threading
import time
from urllib.parse import unquote_to_bytes

sys.dont_write_bytecode = True
TOP = os.path.dirname(os.path.dirname(os.path.realpath(__file__)))
SERVICE = os.path.join(TOP, "service")
sys.path[:0] = [os.path.join(SERVICE, "checks"), SERVICE]
from frame import Keeper, asked, create, pairs, tool, until
from resolves import long_form

# Threads that send mutated requests, the gateway's patience in seconds, and the longest that a connection may then take.
SENDERS, PATIENCE, LONGEST = 24, 2, 3 * 2 + 4
WORKERS, THREADS = 2, 4
PIECES = [b"\r\n", b"\n", b"\r\n\r\n", b"\x00", b"\xff", b"%0a", b"%0d%0aflush", b"%", b"%2e%2e/", b"..", b"//", b" ", b"\t", b":", b"HTTP/1.1", b"0" * 70,
          b"Content-Length: 5\r\n", b"Content-Length: -1\r\n", b"Transfer-Encoding: chunked\r\n", b"Expect: 100-continue\r\n", b"\r\n ", b"\"", b"\\", b"{",
          b"x" * 9_000, b"A: b\r\n" * 120, b"Accept: application/did\r\n", b"Accept: ;;q=,\r\n", b"?versionId=1", b"#", b"%23sign", b"\xc2\x85", b"\xe2\x80\xa8"]


class Lot:
    """A keeper over the session of examples/life.in, and a gateway over it."""

    def __init__(self, folder):
        self.keeper = Keeper(folder)
        with open(os.path.join(TOP, "examples", "life.in"), "rb") as file:
            session = file.read()
        self.did = session.split(b"\n")[1].split(b" ")[1].decode()
        tool("tell", self.keeper.all, given=session)
        self.gateway = subprocess.Popen([os.path.join(SERVICE, "gateway"), self.keeper.ask, "--submit=" + self.keeper.ask, "--listen=127.0.0.1:0",
                                         "--submits=1000000000", "--patience=%d" % PATIENCE], stderr=subprocess.PIPE, text=True)
        self.port = int(self.gateway.stderr.readline().rpartition(":")[2])
        self.said = []
        threading.Thread(target=lambda: self.said.extend(self.gateway.stderr), daemon=True).start()

    def state(self):
        found = pairs(asked(self.keeper.ask, "health")[0])
        return {name: found[name] for name in ("entries", "height", "wanted", "queued", "journal")}

    def __enter__(self):
        return self

    def __exit__(self, *_):
        self.gateway.terminate()
        self.gateway.wait()
        self.keeper.__exit__()


def answer(port, given, half=True):
    """All that comes back for bytes. With `half` the client says that it sends no more."""
    with socket.create_connection(("127.0.0.1", port), timeout=60) as there:
        found = b""
        try:
            there.sendall(given)
            if half:
                there.shutdown(socket.SHUT_WR)
            while piece := there.recv(65_536):
                found += piece
        except (ConnectionResetError, BrokenPipeError):
            pass
        return found


def requests(did):
    """Requests to mutate. None of their bodies is a request that a node queues."""
    longs = long_form(create("base"))
    with open(os.path.join(TOP, "examples", "requests.in"), "rb") as given, open(os.path.join(TOP, "examples", "requests.out"), "rb") as replies:
        bodies = [line[len("submit "):-1] for line, reply in zip(given, replies) if reply.startswith(b"refused bad") or reply.startswith(b"refused not")]
    paths = ["/", "/version", "/health", "/metrics", "/identifiers/" + did, "/1.0/identifiers/" + did, "/1.0/identifiers/%s%%23home" % did, "/history/" + did,
             "/identifiers/" + longs, "/1.0/identifiers/" + longs, "/1.0/identifiers/did:other:x", "/identifiers/did%3Asidetree%3A" + did[13:]]
    made = ["%s %s HTTP/1.1\r\nHost: localhost\r\nAccept: application/did-resolution\r\nUser-Agent: bench\r\n\r\n" % (method, path)
            for path in paths for method in ("GET", "GET", "HEAD", "OPTIONS")]
    return [one.encode() for one in made] + [
        b"POST /operations HTTP/1.1\r\nHost: localhost\r\nContent-Type: application/json\r\nContent-Length: %d\r\n\r\n%s" % (len(body), body) for body in bodies]


def mutated(chance, known):
    data = bytearray(chance.choice(known))
    for _ in range(chance.choice((1, 1, 1, 2, 3, 8))):
        at, kind = chance.randrange(len(data) + 1), chance.randrange(7)
        if kind == 0 and at < len(data):
            data[at] = chance.randrange(256)
        elif kind == 1:
            data[at:at] = chance.choice(PIECES)
        elif kind == 2:
            del data[at:at + chance.choice((1, 2, 10, 100))]
        elif kind == 3:
            data[at:at] = data[at:at + chance.choice((1, 5, 50, 500))]
        elif kind == 4:
            other = chance.choice(known)
            data[at:] = other[chance.randrange(len(other)):]
        elif kind == 5:
            del data[at:]
        elif at < len(data):
            data[at] ^= 1 << chance.randrange(8)
    return bytes(data)


def hostile(lot, count=100_000, seed=0):
    known, before, faults, statuses, numbers = requests(lot.did), lot.state(), [], {}, itertools.count()
    lock = threading.Lock()

    def send(number):
        chance = random.Random(seed * SENDERS + number)
        while (n := next(numbers)) < count and len(faults) < 10:
            given = mutated(chance, known)
            began = time.monotonic()
            found = answer(lot.port, given, half=n % 500 != 0)
            took = time.monotonic() - began
            status = re.match(rb"HTTP/1\.0 (\d\d\d) ", found)
            with lock:
                key = status[1].decode() if status else "closed" if not found else "other"
                statuses[key] = statuses.get(key, 0) + 1
            asked_for = unquote_to_bytes(given)
            for one in re.findall(rb'"id": ?"(did:[^"]*)"', found):
                if one not in asked_for:
                    faults.append("%r got an answer about %r" % (given[:300], one))
            if took > LONGEST or key == "other" or status and status[1] == b"500" or b"Traceback" in found or found.count(b"HTTP/1.0 ") > 1:
                faults.append("%r got %r after %.1f s" % (given[:300], found[:300], took))
            if n % 10 == 0:
                faults.extend(probe(lot.port, n))
    threads = [threading.Thread(target=send, args=(number,)) for number in range(SENDERS)]
    for thread in threads:
        thread.start()
    for thread in threads:
        thread.join()
    print("answers: " + ", ".join("%s %d" % pair for pair in sorted(statuses.items())))
    if lot.state() != before:
        faults.append("the node was %s and is %s" % (before, lot.state()))
    return faults + lot.said


def probe(port, n):
    """What is wrong in the answer to an intact request that nobody else makes."""
    did = long_form(create("probe%d" % n))
    found = answer(port, b"GET /identifiers/%s HTTP/1.1\r\nHost: localhost\r\n\r\n" % did.encode())
    if not found.startswith(b"HTTP/1.0 200 ") or b'"id":"%s"' % did.encode() not in found:
        yield "the probe %d got %r" % (n, found[:400])


def clients(lot, count=200, seconds=60):
    faults, answers, end = [], [], time.monotonic() + seconds

    def ask(n):
        made = 0
        while time.monotonic() < end and len(faults) < 10:
            try:
                faults.extend(probe(lot.port, n * 1_000_000 + made))
            except OSError as error:
                faults.append("client %d: %s" % (n, error))
            made += 1
        answers.append(made)
    threads = [threading.Thread(target=ask, args=(n,)) for n in range(count)]
    for thread in threads:
        thread.start()
    for thread in threads:
        thread.join()
    print("%d clients, %d answers in %d seconds, the fewest of a client %d" % (count, sum(answers), seconds, min(answers)))
    return faults + lot.said


def constant(environ, start):
    """A WSGI application that answers a constant."""
    body = b'{"didDocument":{"id":"did:sidetree:x"}}'
    start("200 OK", [("Content-Type", "application/json"), ("Content-Length", str(len(body)))])
    return [body]


@contextlib.contextmanager
def gunicorn(name, folder, environment):
    """gunicorn with an application of a folder; gives its port."""
    with socket.create_server(("127.0.0.1", 0)) as free:
        port = free.getsockname()[1]
    server = subprocess.Popen(["gunicorn", "--bind=127.0.0.1:%d" % port, "--worker-class=gthread", "--workers=%d" % WORKERS, "--threads=%d" % THREADS, name],
                              cwd=folder, env={**os.environ, **environment, "PYTHONDONTWRITEBYTECODE": "1"}, stderr=subprocess.DEVNULL)
    try:
        until(lambda: answer(port, b"GET / HTTP/1.0\r\n\r\n") if not socket.socket().connect_ex(("127.0.0.1", port)) else False)
        yield port
    finally:
        server.terminate()
        server.wait()


def rate(port, path, seconds):
    """How many answers a second wrk gets, all of them 200."""
    done = subprocess.run(["wrk", "-t2", "-c8", "-d%ds" % seconds, "--latency", "http://127.0.0.1:%d%s" % (port, path)], capture_output=True, text=True, check=True)
    if "Non-2xx" in done.stdout or "Socket errors" in done.stdout:
        raise SystemExit("bench/web.py: " + done.stdout)
    return float(re.search(r"Requests/sec: +([0-9.]+)", done.stdout)[1])


def speed(lot, seconds=3):
    missing = [name for name in ("gunicorn", "wrk") if not shutil.which(name)]
    if missing:
        return ["there is no %s" % " and no ".join(missing)]
    resolves, constants = [], []
    with gunicorn("web:constant", os.path.join(TOP, "bench"), {}) as plain, gunicorn(
            "gateway_wsgi:application", SERVICE, {"SIDETREE_GATEWAY": lot.keeper.ask}) as gateway:
        for _ in range(10):
            resolves.append(rate(gateway, "/identifiers/" + lot.did, seconds))
            constants.append(rate(plain, "/", seconds))
            print("%d resolves a second, %d constants a second" % (resolves[-1], constants[-1]))
    ratio = statistics.median(resolves) / statistics.median(constants)
    print("the medians: %d and %d, %.2f" % (statistics.median(resolves), statistics.median(constants), ratio))
    return [] if ratio >= 0.5 else ["resolves are %.2f of constants" % ratio]


def main(what, *numbers):
    with tempfile.TemporaryDirectory() as folder, Lot(folder) as lot:
        faults = {"hostile": hostile, "clients": clients, "speed": speed}[what](lot, *map(int, numbers))
    print("\n".join(faults[:20]) or "ok")
    return 1 if faults else 0


if __name__ == "__main__":
    if len(sys.argv) < 2 or sys.argv[1] not in ("hostile", "clients", "speed"):
        print(__doc__.strip())
        sys.exit(0 if "--help" in sys.argv else 64)
    sys.exit(main(*sys.argv[1:]))
