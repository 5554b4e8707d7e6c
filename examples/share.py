#!/usr/bin/env python3
"""Two nodes that get files from each other by messages: an example of an adapter beside each node.

usage: examples/share.py FOLDER

FOLDER is as for examples/ask.py. Both nodes get the entries, and the first one the files. Then the second asks
for what it wants, over a network that loses every third message, repeats every fifth, and carries the last
one first. It asks anew until it wants nothing. The program is the built one, or the one that SIDETREE names in the
environment.
"""
import base64
import os
import sys

# So that no folder of compiled modules is left.
sys.dont_write_bytecode = True
sys.path.append(os.path.join(os.path.dirname(os.path.dirname(os.path.abspath(__file__))), "service"))
from client import Node, NodeEnded, Refused
from ledger import base64url, lines_of, read, uri_of

MOST_URIS = 1_000
LONGEST_FILE = 16_000_000


def digest_of(uri):
    return base64.urlsafe_b64decode(uri + "==")[2:]


def listing(kind, uris):
    return bytes([kind]) + len(uris).to_bytes(4, "big") + b"".join(map(digest_of, uris))


def listed(message):
    """The URIs that a message lists, or none if the bytes are no message."""
    count = int.from_bytes(message[1:5], "big")
    if count > MOST_URIS or len(message) != 5 + 32 * count:
        return []
    return [base64url(b"\x12\x20" + message[at : at + 32]) for at in range(5, len(message), 32)]


class Adapter:
    """Stands between a node and the network. It keeps the files that its node has, and nothing else."""

    def __init__(self, node):
        self.node = node
        self.files = {}

    def keep(self, data):
        self.node.expect("have had", "content " + base64url(data))
        self.files[uri_of(data)] = data

    def wanted(self):
        return self.node.wanted()

    def question(self):
        """What the node wants."""
        return listing(1, self.wanted()[:MOST_URIS])

    def answer(self, message):
        """The messages that go back to the sender; a file that the node wants is fed to it."""
        if message[:1] == b"\x01":
            there = [uri for uri in dict.fromkeys(listed(message)) if uri in self.files]
            return [b"\x03" + self.files[uri] for uri in there if len(self.files[uri]) <= LONGEST_FILE]
        if message[:1] == b"\x02":
            wanted = set(self.wanted())
            asked = [uri for uri in listed(message) if uri in wanted]
            return [listing(1, asked)] if asked else []
        if message[:1] == b"\x03" and uri_of(message[1:]) in self.wanted():
            self.keep(message[1:])
        return []


class Network:
    """Messages on their way, each with its receiver and its sender."""

    def __init__(self):
        self.carried = []
        self.sent = self.lost = self.repeated = 0

    def send(self, to, sender, message):
        self.sent += 1
        if self.sent % 3 == 0:
            self.lost += 1
            return
        self.carried.append((to, sender, message))
        if self.sent % 5 == 0:
            self.repeated += 1
            self.carried.append((to, sender, message))

    def deliver_all(self):
        while self.carried:
            to, sender, message = self.carried.pop()
            for reply in to.answer(message):
                self.send(sender, to, reply)


def main(folder):
    first, second, network = Adapter(Node()), Adapter(Node()), Network()
    for line in lines_of(os.path.join(folder, "anchors")):
        first.node.expect("anchored", "anchor " + line)
        second.node.expect("anchored", "anchor " + line)
    for name in sorted(os.listdir(os.path.join(folder, "files"))):
        first.keep(read(os.path.join(folder, "files", name)))
    while second.wanted():
        network.send(first, second, second.question())
        network.deliver_all()
    print("the second node has %d files of %d, and wants none" % (len(second.files), len(first.files)))
    for did in lines_of(os.path.join(folder, "dids")):
        alike = first.node.ask("resolve " + did) == second.node.ask("resolve " + did)
        print(did, "is answered alike" if alike else "is answered otherwise")
    return first.node.end() or second.node.end()


if __name__ == "__main__":
    if len(sys.argv) != 2:
        sys.exit(__doc__)
    try:
        sys.exit(main(sys.argv[1]))
    except (Refused, NodeEnded, OSError) as stopped:
        sys.exit("share.py: %s" % stopped)
