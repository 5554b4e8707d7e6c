"""The gateway's own server over raw bytes, the tool as a process, and other servers for WSGI."""
import os
import re
import shutil
import signal
import socket
import subprocess
import tempfile
import threading
import time

from frame import SERVICE, Keeper, Skipped, case, create, holds, same, tool, until
from resolves import NOBODY
from web import KeptWeb, StandIn, Web, all_of, asked_of, has

# Bytes of a client, and how the answer begins; nothing, if the connection is closed without one.
RAW = [
    (b"GET / HTTP/1.1\r\nHost: x\r\n\r\n", b"HTTP/1.0 200 "), (b"GET / HTTP/1.0\r\n\r\n", b"HTTP/1.0 200 "),
    (b"GET / HTTP/1.1\nHost: x\n\n", b"HTTP/1.0 200 "), (b"\r\n\r\n", b""), (b"GET / HTTP/9.9\r\n\r\n", b"HTTP/1.0 505 "),
    (b"GET / HTTP/1\r\n\r\n", b"HTTP/1.0 400 "), (b"GET\r\n\r\n", b"HTTP/1.0 400 "), (b"\x16\x03\x01\x02\x00\n\n", b"HTTP/1.0 400 "),
    (b"GET /a b c HTTP/1.1\r\n\r\n", b"HTTP/1.0 400 "), (b"GET /" + b"x" * 16_400, b"HTTP/1.0 431 "),
    (b"GET / HTTP/1.1\r\n" + b"A: b\r\n" * 3_000, b"HTTP/1.0 431 "), (b"GET / HTTP/1.1\r\n" + b"A: b\r\n" * 150 + b"\r\n", b"HTTP/1.0 431 "),
    (b"GET http://other/health HTTP/1.1\r\n\r\n", b"HTTP/1.0 400 "), (b"GET /%ff%00%0a HTTP/1.1\r\n\r\n", b"HTTP/1.0 404 "),
    (b"GET /\xff\xfe HTTP/1.1\r\n\r\n", b"HTTP/1.0 404 "), (b"get / HTTP/1.1\r\n\r\n", b"HTTP/1.0 405 "),
    (b"POST /operations HTTP/1.1\r\nTransfer-Encoding: chunked\r\n\r\n2\r\n{}\r\n0\r\n\r\n", b"HTTP/1.0 404 "),
    (b"GET /health HTTP/1.1\r\n\r\nGET /version HTTP/1.1\r\n\r\n", b"HTTP/1.0 200 "),
]


@case("the gateway's server: what is no request, and one answer a connection")
def raw(folder):
    with KeptWeb(folder) as web:
        for given, wanted in RAW:
            found = web.raw(given)
            holds(found.startswith(wanted) and bool(found) == bool(wanted), "%.60r: %.200r" % (given, found))
            holds(found.count(b"HTTP/1.0 ") <= 1 and b"Traceback" not in found, "%.60r: %.200r" % (given, found))


@case("the gateway's server: slow clients are cut off, and hold nobody up")
def slow(folder):
    with StandIn(folder, lambda line: b"verified entries 0 height - missing 0 unresolved notFound\n") as keeper:
        with Web(keeper.path, "--submit=" + keeper.path, "--patience=1") as web:
            def drip(there):
                """Sends a byte now and then, for ever."""
                try:
                    while True:
                        there.sendall(b"a")
                        time.sleep(0.2)
                except OSError:
                    pass
            began, clients = time.monotonic(), []
            for head in (b"", b"GET / HT", b"POST /operations HTTP/1.1\r\nContent-Type: application/json\r\nContent-Length: 9000\r\n\r\n{"):
                for dripping in (False, True):
                    there = socket.create_connection(("127.0.0.1", web.port), timeout=30)
                    there.sendall(head)
                    clients.append(there)
                    if dripping:
                        threading.Thread(target=drip, args=(there,), daemon=True).start()
            has(web.ask("/identifiers/" + NOBODY), 404)
            holds(time.monotonic() - began < 3, "others are answered at once")
            found = [all_of(there) for there in clients]
            same(found[:4], [b""] * 4, "the answers to heads that have no end")
            holds(found[4].startswith(b"HTTP/1.0 408 ") and b"tooSlow" in found[4], "%.100r" % found[4])
            holds(not found[5] or found[5].startswith(b"HTTP/1.0 400 "), "%.100r" % found[5])
            for there in clients:
                there.close()
            holds(time.monotonic() - began < 12, "it took %.1f s" % (time.monotonic() - began))
            until(lambda: not web.server.ends, 10)


class Process:
    """The tool as a process, on a port that the system gives."""

    def __init__(self, *words):
        self.log = tempfile.TemporaryFile()
        self.process = subprocess.Popen([os.path.join(SERVICE, "gateway"), *words], stderr=self.log)
        places = 1 + any(word.startswith("--metrics") for word in words)
        until(lambda: self.process.poll() is not None or self.said().count("answers on") == places)
        self.ports = [int(port) for port in re.findall(r"answers on http://\S+:(\d+)\n", self.said())]

    def said(self):
        return os.pread(self.log.fileno(), 100_000, 0).decode()

    def __enter__(self):
        return self

    def __exit__(self, *_):
        self.process.kill()
        self.process.wait()
        self.log.close()


@case("the gateway as a tool: it answers, has a second address, and a signal ends it")
def process(folder):
    with Keeper(folder) as keeper, Process(keeper.ask, "--listen=127.0.0.1:0", "--metrics=127.0.0.1:0") as gateway:
        first, second = gateway.ports
        same([asked_of(port, path).status for port in (first, second) for path in ("/", "/version", "/health", "/metrics", "/nothing")],
             [200, 200, 404, 404, 404, 404, 404, 200, 200, 404])
        holds('status="200"} 4' in asked_of(second, "/metrics").body.decode(), "the second address counts the answers of both")
        again = tool("gateway", keeper.ask, "--listen=127.0.0.1:%d" % first)
        same((again.status, again.err.count("\n")), (73, 1), again.err)
        gateway.process.send_signal(signal.SIGTERM)
        same(gateway.process.wait(30), 0)
        same(gateway.said().count("\n"), 2, gateway.said())


@case("the gateway as a tool: a request that has begun is answered before the end")
def ends(folder):
    began = threading.Event()

    def reply(line):
        began.set()
        time.sleep(1)
        return b"verified entries 0 height - missing 0 unresolved notFound\n"
    with StandIn(folder, reply) as keeper, Process(keeper.path, "--listen=127.0.0.1:0") as gateway:
        found = []
        asker = threading.Thread(target=lambda: found.append(asked_of(gateway.ports[0], "/identifiers/" + NOBODY).status))
        asker.start()
        began.wait(30)
        gateway.process.send_signal(signal.SIGINT)
        asker.join()
        same((found, gateway.process.wait(30)), ([404], 0))


@case("the gateway as a tool: words that are wrong")
def words(folder):
    for given in ([], ["a", "b"], ["a", "--listen"], ["a", "--listen=x"], ["a", "--listen=127.0.0.1:70000"], ["a", "--patience=0"],
                  ["a", "--submits=none"], ["a", "--strict=1"], ["a", "--metrics=:x"], ["a", "--other"]):
        done = tool("gateway", *given)
        same((done.status, done.err.count("\n")), (64, 1), "%s: %s" % (given, done.err))


@case("the gateway under gunicorn and waitress, without a change")
def servers(folder):
    there = [name for name in ("gunicorn", "waitress-serve") if shutil.which(name)]
    if not there:
        raise Skipped("neither gunicorn nor waitress is there")
    with Keeper(folder) as keeper:
        environment = {**os.environ, "SIDETREE_GATEWAY": "%s --submit=%s" % (keeper.ask, keeper.ask)}
        for n, name in enumerate(there):
            with socket.create_server(("127.0.0.1", 0)) as free:
                port = free.getsockname()[1]
            options = ["--bind=127.0.0.1:%d" % port, "--worker-class=gthread", "--threads=4", "--workers=2"] if name == "gunicorn" else [
                "--listen=127.0.0.1:%d" % port]
            server = subprocess.Popen([name, *options, "gateway_wsgi:application"], cwd=SERVICE, env=environment, stderr=subprocess.DEVNULL,
                                      stdout=subprocess.DEVNULL)
            try:
                until(lambda: server.poll() is not None or not socket.socket().connect_ex(("127.0.0.1", port)), 30)
                has(asked_of(port, "/identifiers/" + NOBODY), 404, error="notFound")
                has(asked_of(port, "/1.0/identifiers/did:other:x"), 501, error="methodNotSupported")
                has(asked_of(port, "/1.0/identifiers/%0Aflush"), 400, error="invalidDid")
                same(asked_of(port, "/", "HEAD").status, 200)
                reply = asked_of(port, "/operations", "POST", create("n%d" % n), Content_Type="application/json")
                same(reply.json()["didDocument"]["service"][0]["serviceEndpoint"], "https://n%d.example/" % n)
            finally:
                server.terminate()
                server.wait(30)
