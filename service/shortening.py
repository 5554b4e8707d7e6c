"""The shortest journal of a state: the lines that a new node needs to have the entries, the files and the queue.

A batch's files are in no `content` line: the node makes them at a `flush`. So the batches are made again, by a node of
its own over the requests alone, and their files are kept beside. Which files an entry names is read from its index files.
"""
import hashlib
import json
import os
import tempfile

from checking import decoded
from client import Node
from ledger import uri_of
from records import CLOSED, OPEN, Journal

# A text that is no anchor string, for an entry that is taken back at once.
NO_ENTRY = "-"
# How many bytes a node is given before another takes its place, if nothing waits. It takes some 1,073 million.
ENOUGH = 500_000_000
# A core index file names files, and a provisional index file that it names does so too.
INDEX_FILES = 2


def write_record(file, body):
    file.write(bytes([OPEN]) + len(body).to_bytes(4, "big") + body)


def new_file(path):
    """Opens a file that must not be there yet, for its owner alone."""
    return os.fdopen(os.open(path, os.O_WRONLY | os.O_CREAT | os.O_EXCL, 0o600), "wb")


def finish(file, path):
    """Writes the closed gate, and syncs the file and its name."""
    file.write(bytes([CLOSED]))
    file.flush()
    os.fsync(file.fileno())
    folder = os.open(os.path.dirname(os.path.abspath(path)), os.O_RDONLY)
    os.fsync(folder)
    os.close(folder)


def copy(path, to):
    """Copies the whole records of a journal, also while a node writes it. Gives how many they are."""
    journal, count = Journal(path), 0
    try:
        with new_file(to) as file:
            for record in journal.records():
                write_record(file, journal.body(record))
                count += 1
            finish(file, to)
    finally:
        journal.close()
    return count


class Writer:
    """Makes the batches of a journal again, and knows the version of the limits by one entry at most."""

    def __init__(self, options, later_from):
        self.options, self.later_from, self.node = options, later_from, None
        self._begin()

    def _begin(self):
        self.end()
        self.node, self.given, self.waiting, self.version = Node("node", *self.options), 0, 0, 1
        if self.later_from == 0:
            self.version = 2

    def end(self):
        if self.node:
            self.node.end()

    def ask(self, line, version):
        """The reply to a request or a flush, under a version."""
        if self.given > ENOUGH and not self.waiting:
            self._begin()
        if version != self.version:
            self.node.expect("anchored cut", "anchor %d %s" % (self.later_from, NO_ENTRY) if version == 2 else "rollback 0")
            self.version = version
        self.given += len(line)
        reply = self.node.ask(line)
        if reply[0].startswith("queued "):
            self.waiting += 1
        elif reply[0].startswith("batch "):
            self.waiting -= int(reply[0].split(" ")[1].partition(".")[0])
        else:
            raise ValueError("a node answers %r to %r of the journal" % (reply[0], line[:40]))
        return reply


class State:
    """What a journal's lines make: entries, requests that wait, and where the file of each URI is."""

    def __init__(self, path, options):
        self.later_from = next((int(word.partition("=")[2]) for word in options if word.startswith("--v2-at=")), None)
        self.journal, self.made = Journal(path), tempfile.TemporaryFile()
        self.entries, self.waiting, self.batches, self.files = [], [], [], {}
        writer = Writer(options, self.later_from)
        try:
            for record in self.journal.records():
                body = self.journal.body(record)
                if record.word == b"content":
                    self.files[uri_of(decoded(body[len("content "):]))] = (self.journal, record.place, record.length)
                else:
                    self._take(body.decode("utf-8", "surrogateescape"), writer)
        finally:
            writer.end()

    def close(self):
        self.journal.close()
        self.made.close()

    def _take(self, line, writer):
        word, _, rest = line.partition(" ")
        if word == "anchor":
            self.entries.append(rest)
        elif word == "rollback":
            del self.entries[int(rest):]
        elif word == "submit":
            writer.ask(line, self.version())
            self.waiting.append((line, self.version()))
        elif word == "flush":
            reply = writer.ask(line, self.version())
            anchor, uris = reply[0].split(" ")[1], []
            del self.waiting[:int(anchor.partition(".")[0])]
            for one in reply[1:]:
                _, _, uri, text = one.split(" ", 3)
                uris.append(uri)
                self._keep(uri, b"content " + text.encode())
            self.batches.append((anchor, uris))

    def _keep(self, uri, line):
        if uri not in self.files:
            place = self.made.seek(0, os.SEEK_END)
            self.made.write(line)
            self.files[uri] = (None, place, len(line))

    def line_of(self, uri):
        """The line `content` of a file."""
        journal, place, length = self.files[uri]
        if journal:
            return journal.body_at(place, length)
        self.made.seek(place)
        return self.made.read(length)

    def version(self):
        """The version of the limits at the last entry."""
        height = int(self.entries[-1].split(" ", 1)[0]) if self.entries else 0
        return 2 if self.later_from is not None and height >= self.later_from else 1

    def named(self):
        """The URIs of the files to keep: those that entries name, and those of batches that no entry has yet."""
        texts = {entry.partition(" ")[2] for entry in self.entries}
        found = dict.fromkeys(uri for anchor, uris in self.batches if anchor not in texts for uri in uris)
        level = dict.fromkeys(text.partition(".")[2] for text in texts)
        for deep in range(INDEX_FILES + 1):
            level = dict.fromkeys(uri for uri in level if uri in self.files)
            found.update(level)
            if deep < INDEX_FILES:
                level = dict.fromkeys(text for uri in level for text in texts_in(decoded(self.line_of(uri)[len("content "):])))
        return list(found)

    def lines(self):
        """The shortest lines that make this state."""
        yield from map(self.line_of, self.named())
        waits = [line.encode("utf-8", "surrogateescape") for line, _ in self.waiting]
        entries = [b"anchor " + entry.encode("utf-8", "surrogateescape") for entry in self.entries]
        if any(version == 2 for _, version in self.waiting):
            # The ledger may be lower now than it was when version 2 judged them, and version 1 takes less.
            yield b"anchor %d %s" % (self.later_from, NO_ENTRY.encode())
            yield from waits
            yield b"rollback 0"
            waits = []
        yield from waits + entries


def texts_in(data):
    """The texts of a file's JSON, and none if it has none."""
    try:
        level = [json.loads(data)]
    except (ValueError, RecursionError):
        return
    while level:
        value = level.pop()
        if isinstance(value, str):
            yield value
        elif isinstance(value, (list, dict)):
            level.extend(value if isinstance(value, list) else value.values())


def seen(path, options):
    """What a node over a journal answers of its files, entries and queue. The node gets a copy, since it makes batches
    until nothing waits."""
    with tempfile.TemporaryDirectory(dir=os.path.dirname(os.path.abspath(path))) as folder:
        copy(path, os.path.join(folder, "sidetree.journal"))
        found, n = hashlib.sha256(), 0
        with Node("node", *options, "--journal", folder=folder) as node:
            found.update(node.ask("wanted")[0].encode())
            while (reply := node.ask("report %d" % n))[0] != "refused range":
                found.update(reply[0].encode())
                n += 1
            while (reply := node.ask("flush"))[0] != "refused nothing":
                found.update("\n".join(reply).encode())
        return found.hexdigest()


def shorten(path, to, options):
    """Writes the shortest journal of a journal's state, and compares what two nodes say of both. Gives how many lines
    it has."""
    state = State(path, options)
    try:
        with new_file(to) as file:
            count = 0
            for line in state.lines():
                write_record(file, line)
                count += 1
            finish(file, to)
    finally:
        state.close()
    if seen(path, options) != seen(to, options):
        os.unlink(to)
        raise ValueError("the short journal makes another state. It was removed, and %s is as it was" % path)
    return count
