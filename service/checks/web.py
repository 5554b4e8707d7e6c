"""What the cases of the gateway share: a gateway over a keeper or over a stand-in for one, and requests to it."""
import http.client
import json
import os
import socket
import socketserver
import threading
import warnings
from wsgiref.validate import WSGIWarning, validator

from frame import Keeper, holds
from tools import Words
from web_application import OPTIONS, Gateway
from web_server import Server

# It warns of methods that it does not know.
warnings.simplefilter("ignore", WSGIWarning)


class Reply:
    """What a client gets."""

    def __init__(self, response):
        self.status, self.headers, self.body = response.status, response.headers, response.read()
        self.kind = self.headers.get("Content-Type")

    def json(self):
        return json.loads(self.body)

    def trust(self):
        return tuple(self.headers.get("Sidetree-" + name) for name in ("Entries", "Height", "Missing"))


class Web:
    """A gateway in this process, checked by `wsgiref.validate`, on a port of its own."""

    def __init__(self, ask, *options, checked=True):
        words = Words([ask, *options], 1, 1, OPTIONS)
        self.gateway = Gateway(words)
        self.server = Server(("127.0.0.1", 0), validator(self.gateway) if checked else self.gateway, words.number("--patience", 10))
        self.port = self.server.server_address[1]
        threading.Thread(target=self.server.serve_forever, args=(0.05,), daemon=True).start()

    def ask(self, path, method="GET", body=None, **headers):
        """The reply to a request. Names of headers have `_` for `-`."""
        return asked_of(self.port, path, method, body, **headers)

    def raw(self, given, ends=False):
        """All that comes back for bytes, until the connection is closed. The client may say that it sends no more."""
        with socket.create_connection(("127.0.0.1", self.port), timeout=60) as there:
            there.sendall(given)
            if ends:
                there.shutdown(socket.SHUT_WR)
            return all_of(there)

    def __enter__(self):
        return self

    def __exit__(self, *_):
        self.server.shutdown()
        self.server.server_close()
        for asked in filter(None, (self.gateway.asked, self.gateway.submitted)):
            for node in filter(None, asked.free.queue):
                node.end()


def asked_of(port, path, method="GET", body=None, **headers):
    """The reply of whoever answers on a port."""
    connection = http.client.HTTPConnection("127.0.0.1", port, timeout=60)
    try:
        connection.request(method, path, body, {name.replace("_", "-"): value for name, value in headers.items()})
        return Reply(connection.getresponse())
    finally:
        connection.close()


def all_of(there):
    found = b""
    try:
        while piece := there.recv(65_536):
            found += piece
    except ConnectionResetError:
        pass
    return found


class KeptWeb(Web):
    """A keeper, and a gateway over it. SUBMIT in the options is the keeper's socket."""

    def __init__(self, folder, *options, keeper=()):
        self.keeper = Keeper(folder, *keeper)
        super().__init__(self.keeper.ask, *[option.replace("SUBMIT", self.keeper.ask) for option in options])

    def __exit__(self, *_):
        super().__exit__()
        self.keeper.kill()
        self.keeper.log.close()


class StandIn:
    """A socket on which a function answers each line, with bytes, or with None to close the connection."""

    def __init__(self, folder, reply):
        class Asker(socketserver.StreamRequestHandler):
            def handle(self):
                for line in self.rfile:
                    self.server.lines.append(line)
                    answer = reply(line)
                    if answer is None:
                        return
                    self.wfile.write(answer)
        self.path = os.path.join(folder, "stand-in")
        self.server = socketserver.ThreadingUnixStreamServer(self.path, Asker)
        self.server.daemon_threads, self.server.lines = True, []
        # A gateway that has waited long enough is gone.
        self.server.handle_error = lambda *_: None
        threading.Thread(target=self.server.serve_forever, args=(0.05,), daemon=True).start()

    def __enter__(self):
        return self

    def __exit__(self, *_):
        self.server.shutdown()
        self.server.server_close()


def has(reply, status, **members):
    """Whether a reply has a status, and a body with these members, also among the metadata of a resolution."""
    holds(reply.status == status, "the status is %d, and %d is wanted: %.300r" % (reply.status, status, reply.body))
    told = reply.json()
    told = told.get("didResolutionMetadata", told)
    for name, value in members.items():
        holds(told.get(name) == value, "%s is %r, and %r is wanted" % (name, told.get(name), value))
    return reply
