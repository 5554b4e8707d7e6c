"""A ledger as a file and files in a folder, and how a node is given what it wants of them."""
import base64
import hashlib
import os

from tools import beat

# The longest file that fits into a line of a node.
LONGEST_FILE = 17_999_994
# The rules that an anchor string may fail. Such an entry gives nothing.
NO_ANCHOR_STRING = ("A1", "A2", "A3")


def base64url(data):
    return base64.urlsafe_b64encode(data).rstrip(b"=").decode()


def uri_of(data):
    """The URI of a file: the text of its SHA-256 multihash."""
    return base64url(b"\x12\x20" + hashlib.sha256(data).digest())


def lines_of(path, whole=False):
    """The lines of a file without their ends, however these are written, and without empty lines. With `whole` a last
    line that has no end yet is left out."""
    with open(path, encoding="utf-8", errors="surrogateescape", newline="\n") as file:
        lines = file.read().split("\n")
    if whole:
        lines = lines[:-1]
    return [line.rstrip("\r") for line in lines if line.rstrip("\r")]


def read(path):
    with open(path, "rb") as file:
        return file.read()


class Files:
    """The files of a folder by their URIs, under whatever names they are there. A file is hashed once, and again when
    it has changed."""

    def __init__(self, folder):
        self.folder, self._known, self._names = folder, {}, {}
        os.listdir(folder)

    def look(self):
        """Takes in what is new in the folder."""
        names, there = {}, {}
        for entry in os.scandir(self.folder):
            if not entry.is_file():
                continue
            state = entry.stat()
            mark = (state.st_size, state.st_mtime_ns, state.st_ino)
            known = self._known.get(entry.name)
            if known is None or known[0] != mark:
                known = (mark, uri_of(read(entry.path)) if state.st_size <= LONGEST_FILE else None)
            there[entry.name] = known
            names[known[1]] = entry.name
        self._known, self._names = there, names

    def get(self, uri):
        """The bytes of a file, or None if it isn't there."""
        for name in (uri, self._names.get(uri)):
            try:
                data = read(os.path.join(self.folder, name)) if name else None
            except OSError:
                data = None
            if data is not None and len(data) <= LONGEST_FILE and uri_of(data) == uri:
                return data
        return None


def feed_wanted(node, files):
    """Feeds the files that entries name, until the node wants none that is in the folder: one that it has read may
    name others. Gives how many went in each round, and how many are missing."""
    fed, looked = [], False
    while True:
        wanted = node.wanted()
        count = 0
        for uri in wanted:
            data = files.get(uri)
            if data is not None:
                node.expect("have had", "content " + base64url(data))
                count += 1
                beat()
        if count:
            fed.append(count)
        elif wanted and not looked:
            files.look()
            looked = True
            continue
        else:
            return fed, len(wanted)
        looked = False


def fault_of_entry(node, n):
    """The rule that an entry's anchor string fails, or None."""
    rule = node.expect("report", "report %d" % n).split(" ")[0]
    return rule if rule in NO_ANCHOR_STRING else None
