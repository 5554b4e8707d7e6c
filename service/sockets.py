"""The keeper's sockets: a line comes in, its reply goes out, whoever sent it."""
import grp
import os
import socket
import socketserver
import threading

from client import LONGEST_PATH, NodeEnded
from kept import Ending
from records import LONGEST_LINE

# By its first word the longest line that a stranger may give, in bytes.
STRANGERS = {"resolve": 4_096, "explain": 4_096, "wanted": 6, "report": 17, "submit": 65_536, "verify": 4_096,
             "health": 6, "entry": 16, "chain": 16, "taken": 65_535}
EVERYBODY, GROUP, OWNER = 0o666, 0o660, 0o600


class SocketFault(Exception):
    """A socket that can't be made."""


class Rules:
    """Which lines a socket takes, and how much one connection may send. None is no bound."""

    def __init__(self, longest=None, lines=None, size=None):
        self.longest, self.lines, self.size = longest, lines, size
        self.most = LONGEST_LINE if longest is None else max(longest.values())

    def takes(self, line):
        return self.longest is None or len(line) <= self.longest.get(line.split(b" ", 1)[0].decode(errors="replace"), -1)


class Asker(socketserver.StreamRequestHandler):
    """One connection."""

    def handle(self):
        rules, lines, size = self.server.rules, 0, 0
        while True:
            line = self.rfile.readline(rules.most + 2)
            lines, size = lines + 1, size + len(line)
            too_much = (rules.lines is not None and lines > rules.lines) or (rules.size is not None and size > rules.size)
            if not line.endswith(b"\n") or too_much:
                return
            line = line[:-1]
            try:
                reply = self.server.node.answer(line.decode("utf-8", "surrogateescape")) if rules.takes(line) else [
                    "refused keeper"]
            except (NodeEnded, Ending, ValueError):
                # The node has ended, or its input is closed.
                return
            self.wfile.write("".join(one + "\n" for one in reply).encode("utf-8", "surrogateescape"))


class Server(socketserver.ThreadingUnixStreamServer):
    daemon_threads = True
    request_queue_size = 128

    def __init__(self, path, mode, node, rules, group=None):
        self.node, self.rules = node, rules
        old = os.umask(0o777)
        try:
            super().__init__(path, Asker)
            if group is not None:
                os.chown(path, -1, group)
            os.chmod(path, mode)
        except OSError as error:
            raise SocketFault("%s can't be made: %s" % (path, error.strerror)) from None
        finally:
            os.umask(old)
        threading.Thread(target=self.serve_forever, daemon=True).start()

    def handle_error(self, request, client_address):
        """An asker that goes away in the middle is no fault of the keeper."""


def clear(path):
    """Removes a socket that an earlier keeper has left. One on which somebody answers stays, and is a fault."""
    if len(os.fsencode(path)) > LONGEST_PATH:
        raise SocketFault("%s is longer than the %d bytes that a socket's path may have" % (path, LONGEST_PATH))
    with socket.socket(socket.AF_UNIX) as tried:
        try:
            tried.connect(path)
        except FileNotFoundError:
            return
        except ConnectionRefusedError:
            remove(path)
            return
        except OSError as error:
            raise SocketFault("%s: %s" % (path, error.strerror)) from None
    raise SocketFault("%s: another keeper answers there" % path)


def remove(path):
    try:
        os.unlink(path)
    except FileNotFoundError:
        pass


def group_of(name):
    """The number of a group."""
    try:
        return grp.getgrnam(name).gr_gid
    except KeyError:
        raise SocketFault("there is no group %s" % name) from None
