"""How a kept node gets the entries of a ledger: those that it lacks, and no other, however often this is done. A ledger is
a folder's or a store's."""
import contextlib
import time

from client import Refused
from kept import chained
from ledger import Files, fault_of_entry, feed_wanted, lines_of
from store import Halt
from tools import beat


@contextlib.contextmanager
def holding(node, who):
    """If the work halts, the keeper takes no more requests. Whoever has done it without that calls `release`."""
    try:
        yield
    except Halt as halt:
        node.expect("held", "hold %s %s" % (who, halt))
        raise


def release(node, who):
    node.expect("held", "release " + who)


class FolderLedger:
    """The ledger in a file, 'HEIGHT ANCHORSTRING' a line, and the files in a folder. If the ledger grows, only whole
    lines are read: a last line without an end is being written."""

    def __init__(self, ledger, files, whole=True):
        self.path, self.files, self.whole = ledger, Files(files), whole
        self._lines, self._chains = [], [bytes(32)]

    def join(self, node):
        """Any node may follow a folder."""

    def look(self):
        """Takes in the file as it is now."""
        lines = lines_of(self.path, self.whole)
        alike = next((n for n, pair in enumerate(zip(lines, self._lines)) if pair[0] != pair[1]),
                     min(len(lines), len(self._lines)))
        del self._chains[alike + 1:]
        for entry in lines[alike:]:
            self._chains.append(chained(self._chains[-1], entry.encode("utf-8", "surrogateescape")))
        self._lines = lines

    def count(self):
        return len(self._lines)

    def chain(self, count):
        """The hash of the first entries, as the keeper's word `chain` tells it."""
        return self._chains[count].hex()

    def entries(self, start):
        return self._lines[start:]

    def wait(self, seconds):
        time.sleep(seconds)


class Round:
    """What one look at a ledger has changed at a node."""

    def __init__(self):
        self.entries = self.back = self.new = self.fed = self.missing = 0
        self.faults = []

    def __str__(self):
        return "%d entries: %d taken back, %d new; %d files fed, %d missing" % (
            self.entries, self.back, self.new, self.fed, self.missing)


def chain_of(node, count=None):
    """How many entries a node has, or the number that was asked for, and their hash."""
    found, text = node.expect("chain", "chain" if count is None else "chain %d" % count).split(" ")
    return int(found), text


def shared(node, ledger, most):
    """How many entries the node and the ledger share from the first on. Each has so many at least."""
    low, high = 0, most
    if chain_of(node, high)[1] == ledger.chain(high):
        return high
    while low + 1 < high:
        middle = (low + high) // 2
        if chain_of(node, middle)[1] == ledger.chain(middle):
            low = middle
        else:
            high = middle
    return low


def take_back(node, ledger, there, count, most):
    """Takes back the entries from a number on, if they are not too many."""
    if not ledger.count():
        # Such a ledger is more likely one that is being written than one without entries.
        raise Halt("the ledger has no entries, and the node has %d: none is taken back (`rollback 0` would)" % there)
    if there - count > most:
        raise Halt("the ledger differs from the node at entry %d of %d, so %d entries would be taken back: that needs "
                   "--most-back=%d or more" % (count, there, there - count, there - count))
    node.expect("cut", "rollback %d" % count)


def follow(node, ledger, most_back):
    """Brings a kept node to the ledger as it is now, and gives what was changed. It may be stopped and run again at
    any moment: an entry is appended only in its place."""
    done = Round()
    # In this order: an entry that comes meanwhile to the ledger, and by another follower to the node, is not one too many.
    there = chain_of(node)[0]
    ledger.look()
    n = shared(node, ledger, min(there, ledger.count()))
    if n < there:
        take_back(node, ledger, there, n, most_back)
        done.back = there - n
    while page := ledger.entries(n):
        for entry in page:
            try:
                node.expect("anchored had", "at %d %s" % (n, entry))
            except Refused as refused:
                raise Refused("entry %d: %s" % (n, refused)) from None
            done.new += 1
            rule = fault_of_entry(node, n)
            if rule:
                done.faults.append((n, rule, entry.partition(" ")[2]))
            n += 1
        beat()
    done.entries = n
    fed, done.missing = feed_wanted(node, ledger.files)
    done.fed = sum(fed)
    return done
