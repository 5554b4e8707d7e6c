"""A node that stays open, for Python programs: a line goes in, and its reply comes out.

    with Node() as node:
        node.expect("anchored", "anchor 1 1.EiA…")
        print(node.resolve("did:sidetree:EiA…"))

`Node` starts a node of its own, `Kept` asks one that a keeper keeps. Threads may share either. The program is the one
that SIDETREE names in the environment, else the one beside this file, else the one that this checkout has built.
Nothing here ever builds.
"""
import ctypes
import json
import os
import signal
import socket
import subprocess
import threading

HERE = os.path.dirname(os.path.realpath(__file__))
# The longest path that a Unix socket may have, in bytes.
LONGEST_PATH = 107

# The cause that a node's status tells.
MEANS = {0: "the input has ended", 1: "its words are invalid", 2: "reading failed", 3: "writing failed",
         4: "the journal's file failed: the disk is full or broken, the folder is read-only, another user owns or may write the "
            "file, or another node has it",
         5: "the input is longer than its limit", 6: "it is out of memory", 7: "the journal is damaged",
         8: "the journal has more than 2^40 bytes", 9: "a word is not valid UTF-8, or nothing was built"}


class NoProgram(OSError):
    """There is no program to run."""


class NoKeeper(OSError):
    """No keeper answers on a socket."""


class Refused(Exception):
    """A line that the node refused, with its cause."""


class NodeEnded(Exception):
    """The node has ended, and its status says why."""

    def __init__(self, status):
        super().__init__("the node ended with status %d: %s" % (status, cause_of(status)))
        self.status = status


def cause_of(status):
    """What a status of the node says, as a process's status: below 0 it is that of a signal."""
    return MEANS.get(status, "no cause is known") if status >= 0 else "signal %d ended it" % -status


def built_below(top):
    """The program that a checkout has built."""
    path = os.path.join(top, "crates", "st_cli", "out", "st_cli")
    if not os.access(path, os.X_OK):
        raise NoProgram("%s is not there: `./sidetree node < examples/life.in` builds it" % path)
    return path


def program():
    """The path of the program. A checkout's launcher counts as the program that was built there."""
    given = os.environ.get("SIDETREE")
    if given:
        top = os.path.dirname(os.path.realpath(given))
        if os.path.exists(os.path.join(top, "launcher", "build.py")):
            return built_below(top)
        if not os.access(given, os.X_OK):
            raise NoProgram("%s, which SIDETREE names, is no program" % given)
        return os.path.abspath(given)
    beside = os.path.join(HERE, "sidetree")
    return beside if os.access(beside, os.X_OK) else built_below(os.path.dirname(HERE))


def end_with_parent(number):
    """What a new process does before its program: it asks for this signal at the end of the one that started it."""
    parent, system = os.getpid(), ctypes.CDLL(None)

    def ask():
        system.prctl(1, number)
        # The parent may have ended just before.
        if os.getppid() != parent:
            os._exit(1)
    return ask


class Lines:
    """Whoever answers lines. Its heirs say how a line is sent and how one is read."""

    def __init__(self):
        self.lock = threading.RLock()

    def ask(self, line):
        """The lines of the reply: one, or one and as many more as its last word says."""
        if "\n" in line:
            raise ValueError("a line feed ends a line, and the text after it would be another line")
        with self.lock:
            self._send(line.encode("utf-8", "surrogateescape") + b"\n")
            reply = [self._line()]
            if reply[0].startswith(("batch ", "explained ")):
                reply += [self._line() for _ in range(int(reply[0].rpartition(" ")[2]))]
            return reply

    def expect(self, words, line):
        """The text after the first word of a reply. That word must be one of these."""
        word, _, rest = self.ask(line)[0].partition(" ")
        if word not in words.split():
            raise Refused("%s: %s" % (line if len(line) < 100 else line[:99] + "…", (word + " " + rest).strip()))
        return rest

    def resolve(self, did):
        """The result of an identifier, or None if it is unresolved."""
        word, _, rest = self.ask("resolve " + did)[0].partition(" ")
        return json.loads(rest) if word == "resolved" else None

    def wanted(self):
        """The URIs of the files that are missing."""
        return self.expect("wanted", "wanted").split(" ")[1:]

    def __enter__(self):
        return self

    def __exit__(self, *_):
        self.end()


class Node(Lines):
    """A running node. The words are those after the program's name; the folder has its journal or vault. With `apart`
    a signal to the group of processes, as by Ctrl-C, does not reach it; and it does not outlive this process, even if it
    is stopped, since it would keep the lock of its journal."""

    def __init__(self, *words, folder=None, apart=False):
        super().__init__()
        self.process = subprocess.Popen([program(), *(words or ["node"])], cwd=folder, start_new_session=apart,
                                        preexec_fn=end_with_parent(signal.SIGKILL) if apart else None,
                                        stdin=subprocess.PIPE, stdout=subprocess.PIPE)

    def _send(self, data):
        try:
            self.process.stdin.write(data)
            self.process.stdin.flush()
        except BrokenPipeError:
            pass  # The next read tells the status.

    def _line(self):
        """The next line of the replies. A line that was cut off is none."""
        line = self.process.stdout.readline()
        if not line.endswith(b"\n"):
            raise NodeEnded(self.process.wait())
        return line[:-1].decode("utf-8", "surrogateescape")

    def end(self):
        """Ends the node's input, and gives its status."""
        try:
            self.process.stdin.close()
        except BrokenPipeError:
            pass
        status = self.process.wait()
        self.process.stdout.close()
        return status


class Kept(Lines):
    """A node that a keeper keeps, over one of its sockets. With a timeout, in seconds, a reply that comes later is an
    error, and the connection is of no more use."""

    def __init__(self, path, timeout=None):
        super().__init__()
        if len(os.fsencode(path)) > LONGEST_PATH:
            raise NoKeeper("%s is longer than the %d bytes that a socket's path may have" % (path, LONGEST_PATH))
        self.path, self.socket = path, socket.socket(socket.AF_UNIX)
        self.socket.settimeout(timeout)
        try:
            self.socket.connect(path)
        except OSError as error:
            self.socket.close()
            missing = isinstance(error, (FileNotFoundError, ConnectionRefusedError))
            raise NoKeeper("%s: %s" % (path, "no keeper is there, or its node still reads the journal"
                                       if missing else error.strerror)) from None
        self.file = self.socket.makefile("rb")

    def _send(self, data):
        try:
            self.socket.sendall(data)
        except BrokenPipeError:
            pass  # The next read tells it.

    def _line(self):
        try:
            line = self.file.readline()
        except ConnectionError:
            line = b""
        if not line.endswith(b"\n"):
            raise NoKeeper("%s: the keeper has closed the connection" % self.path)
        return line[:-1].decode("utf-8", "surrogateescape")

    def verify(self, did):
        """The reply to `resolve DID`, and on what it rests: the number of entries, the last height or '-', and the number
        of missing files."""
        _, entries, _, height, _, missing, reply = self.expect("verified", "verify " + did).split(" ", 6)
        return reply, int(entries), height, int(missing)

    def end(self):
        self.file.close()
        self.socket.close()


def named(document, fragment):
    """The verification method or the service of a name in a document, or None."""
    return next((one for kind in ("verificationMethod", "service") for one in document.get(kind, [])
                 if one["id"] == "#" + fragment), None)
