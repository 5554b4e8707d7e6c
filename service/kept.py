"""A node with a journal, and the words that the keeper answers beside the node's.

health              `health` and pairs of a name and a value, in this order; later versions may append pairs
entry N             `entry HEIGHT TEXT`, entry N of the ledger
chain [N]           `chain K HASH`: the hash of the first K entries, all or N
verify DID          `verified entries E height H missing M` and the node's reply to `resolve DID`, of one moment
at N HEIGHT TEXT    appends an entry as `anchor` does, but only as entry N: `anchored N`; `had N` if entry N is this
                    one already; else `refused range`. So it may be given again at any moment
batches             `batches NAME K S P`: of the S requests that were queued, K batches were made; NAME is the journal's
                    own; the first P requests are on the ledger, by the last `published` (`-` if there was none)
batch N SKIP        the reply to flush N: made now if N is K + 1, else made again. SKIP is how many requests are in the
                    batches before it. So it too may be given again
published P         notes that the first P requests are on the ledger
taken REQUEST       `taken ledger` or `taken journal`, if this very request was queued of late; else `taken no`
store [ID]          `store ID`: the store of the node's folder, which the first such line sets; `store -` if none has
hold WHO CAUSE      every `submit` is `refused held` from now on, also after a start; `held N`, by so many
release WHO         takes that back

All that the keeper knows of entries and requests it reads in the journal, where a line is before its reply.
"""
import array
import hashlib
import os
import time

from batches import Requests, batches_again
from client import Node
from folder import Folder
from records import Journal

# How many operations a batch takes, by version. A queue of at most the first number goes into one batch whole.
MOST_OF_A_BATCH = {1: 1_000, 2: 5_000}
DIGEST = 32
NO_ENTRY = "-"
# How a reply begins to a line that may change which files are missing.
CHANGES = ("have ", "anchored ", "cut ", "batch ")


def chained(chain, entry):
    """The hash of a ledger with one entry more, from the hash of the ledger before it. That of no entry is 32 zeros."""
    return hashlib.sha256(chain + entry + b"\n").digest()


def number(text):
    """A number as the node's lines spell it, or None."""
    return int(text) if text.isascii() and text.isdigit() and (text == "0" or text[0] != "0") and len(text) < 11 else None


class Ledger:
    """The entries that a journal tells, by their places in the file, and how many requests wait."""

    def __init__(self, path, later_from=None):
        self.journal, self.later_from = Journal(path), later_from
        self.places, self.lengths, self.chains = array.array("Q"), array.array("L"), bytearray()
        # None if it is not known how many requests the last batch took.
        self.waiting, self.flushes, self.taken, self.requests = 0, 0, {}, Requests(self.journal)

    def __len__(self):
        return len(self.places)

    def advance(self):
        """Takes in the records that are new."""
        for record in self.journal.records():
            if record.word == b"anchor":
                self.chains += chained(self.chain(len(self)), self.journal.body(record)[len("anchor "):])
                self.places.append(record.place)
                self.lengths.append(record.length)
            elif record.word == b"rollback":
                count = int(self.journal.body(record)[len("rollback "):])
                del self.places[count:], self.lengths[count:], self.chains[count * DIGEST:]
            elif record.word == b"submit":
                self.waiting = None if self.waiting is None else self.waiting + 1
                self.requests.add(record)
            elif record.word == b"flush":
                self.flushes += 1
                self._flush(self.taken.pop(self.flushes, None))

    def _flush(self, taken):
        if taken is None and self.waiting is not None:
            whole = self.waiting <= MOST_OF_A_BATCH[1]
            taken = self.waiting if whole else MOST_OF_A_BATCH[1] if self.version() == 1 else None
        self.waiting = None if taken is None or self.waiting is None else self.waiting - taken

    def note_batch(self, taken):
        """The next `flush` that the journal has took so many requests."""
        self.taken[self.flushes + 1] = taken

    def entry(self, n):
        """The height and the text of an entry, as a line has them."""
        return self.journal.body_at(self.places[n], self.lengths[n])[len("anchor "):]

    def chain(self, count):
        """The hash of the first entries."""
        return bytes(self.chains[(count - 1) * DIGEST:count * DIGEST]) if count else bytes(DIGEST)

    def height(self):
        """The height of the last entry, or None."""
        return int(self.entry(len(self) - 1).split(b" ", 1)[0]) if self.places else None

    def version(self):
        """The version of the limits at the last entry."""
        return 2 if self.later_from is not None and (self.height() or 0) >= self.later_from else 1


class Ending(Exception):
    """A line that came after the keeper had begun to end its node."""


class KeptNode:
    """A node with a journal, its ledger, and the words of the keeper. One lock is held for each line."""

    def __init__(self, folder, options):
        self.path, self.began, self.answered = os.path.join(folder, "sidetree.journal"), time.monotonic(), 0
        self.later_from = next((int(word.partition("=")[2]) for word in options if word.startswith("--v2-at=")), None)
        self.options, self.folder = options, Folder(folder)
        self.node = Node("node", *options, "--journal", folder=folder, apart=True)
        self.ledger, self.is_ending, self._missing = None, False, None
        # The last batch with its number, and how many requests are on the ledger, if a publisher has said so.
        self.last, self.published = (0, None), None

    def wait(self):
        """Waits until the node has done its journal. Only then has it locked the file, so only then is the file's end
        that of this node."""
        self.node.wanted()
        self.ledger = Ledger(self.path, self.later_from)
        self.ledger.advance()
        self.name, self.held = self.folder.name(), self.folder.held()

    def ask(self, line):
        """The node's reply to a line."""
        with self.node.lock:
            reply = self.node.ask(line)
            self.answered += 1
            if reply[0].startswith(CHANGES):
                self._missing = None
            if reply[0].startswith("batch "):
                # The anchor string begins with the number of operations.
                self.ledger.note_batch(int(reply[0].split(" ")[1].partition(".")[0]))
                self.ledger.advance()
                self.last = self.ledger.flushes, reply
            elif reply[0] == "refused nothing":
                self.ledger.advance()
                self.ledger.waiting = 0
            return reply

    def answer(self, line):
        """The reply to a line of the node's or of the keeper's own."""
        word, _, rest = line.partition(" ")
        own = OWN.get(word)
        if self.is_ending:
            raise Ending
        if word == "batch":
            return self.batch(rest)
        with self.node.lock:
            if own is None:
                return ["refused held"] if word == "submit" and self.held else self.ask(line)
            self.ledger.advance()
            return [own(self, rest)]

    def batch(self, rest):
        """The batch of a number. One that is made again takes a while, and others are answered meanwhile."""
        n, skip = map(number, (rest.split(" ") + [""])[:2])
        if n is None or skip is None or rest.count(" ") != 1:
            return ["refused line number"]
        with self.node.lock:
            self.ledger.advance()
            if n == self.ledger.flushes + 1:
                return self.ask("flush")
            if not 0 < n <= self.ledger.flushes:
                return ["refused range"]
            if self.last[0] == n:
                return self.last[1]
        return next(batches_again(self.path, self.options, n, skip))

    def missing(self):
        """How many files are missing. The node is asked only after a change, since its list may be long."""
        if self._missing is None:
            self._missing = int(self.ask("wanted")[0].split(" ")[1])
        return self._missing

    def health_pairs(self):
        """What there is to know of the node, as pairs of a name and a value."""
        ledger, height = self.ledger, self.ledger.height()
        return [("entries", len(ledger)), ("height", NO_ENTRY if height is None else height), ("wanted", self.missing()),
                ("queued", NO_ENTRY if ledger.waiting is None else ledger.waiting), ("journal", ledger.journal.size()),
                ("memory", memory_of(self.node.process.pid)), ("up", int(time.monotonic() - self.began)),
                ("lines", self.answered), ("v2-at", NO_ENTRY if self.later_from is None else self.later_from),
                ("version", ledger.version()),
                ("unpublished", NO_ENTRY if self.published is None else ledger.requests.count - self.published),
                ("held", len(self.held))]

    def health(self, rest):
        return "refused line words" if rest else "health " + " ".join("%s %s" % pair for pair in self.health_pairs())

    def entry(self, rest):
        n = number(rest)
        if n is None:
            return "refused line number"
        return "entry " + text_of(self.ledger.entry(n)) if n < len(self.ledger) else "refused range"

    def chain(self, rest):
        n = number(rest) if rest else len(self.ledger)
        if n is None:
            return "refused line number"
        return "chain %d %s" % (n, self.ledger.chain(n).hex()) if n <= len(self.ledger) else "refused range"

    def verify(self, rest):
        height = self.ledger.height()
        return "verified entries %d height %s missing %d %s" % (
            len(self.ledger), NO_ENTRY if height is None else height, self.missing(), self.ask("resolve " + rest)[0])

    def at(self, rest):
        place, _, entry = rest.partition(" ")
        n = number(place)
        if n is None:
            return "refused line number"
        if n == len(self.ledger):
            return self.ask("anchor " + entry)[0]
        same = n < len(self.ledger) and text_of(self.ledger.entry(n)) == entry
        return "had %d" % n if same else "refused range"

    def batches(self, rest):
        if rest:
            return "refused line words"
        return "batches %s %d %d %s" % (self.name, self.ledger.flushes, self.ledger.requests.count,
                                        NO_ENTRY if self.published is None else self.published)

    def publish(self, rest):
        if number(rest) is None:
            return "refused line number"
        self.published = number(rest)
        return "published " + rest

    def taken(self, rest):
        found = self.ledger.requests.number(b"submit " + rest.encode("utf-8", "surrogateescape"))
        return "taken " + ("no" if found is None else "ledger" if found < (self.published or 0) else "journal")

    def store(self, rest):
        if rest and not self.folder.read("store"):
            self.folder.write("store", rest)
        return "store " + (self.folder.read("store") or NO_ENTRY)

    def hold(self, rest):
        who, _, cause = rest.partition(" ")
        if not who or not cause:
            return "refused line words"
        self.held = self.folder.hold(who, cause)
        return "held %d" % len(self.held)

    def release(self, rest):
        self.held = self.folder.hold(rest, "")
        return "held %d" % len(self.held)


# The keeper's own words, but for `batch`.
OWN = {"health": KeptNode.health, "entry": KeptNode.entry, "chain": KeptNode.chain, "verify": KeptNode.verify,
       "at": KeptNode.at, "batches": KeptNode.batches, "published": KeptNode.publish, "taken": KeptNode.taken,
       "store": KeptNode.store, "hold": KeptNode.hold, "release": KeptNode.release}


def text_of(data):
    return data.decode("utf-8", "surrogateescape")


def memory_of(process):
    """How many bytes of memory a process has, or 0 if the system doesn't say."""
    try:
        with open("/proc/%d/status" % process, encoding="ascii", errors="replace") as status:
            return next(int(line.split()[1]) * 1024 for line in status if line.startswith("VmRSS:"))
    except (OSError, StopIteration):
        return 0
