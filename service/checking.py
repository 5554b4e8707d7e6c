"""What can be said of a journal without a node: counts, the last height, a sum, and records that no node keeps."""
import base64
import hashlib
import re

from kept import number
from records import LONGEST_LINE, WORDS, Journal

BASE64URL = re.compile(rb"[A-Za-z0-9_-]*")


def decoded(text):
    """The bytes of a base64url text."""
    return base64.urlsafe_b64decode(text + b"=" * (-len(text) % 4))


class Found:
    """What the records of a journal are."""

    def __init__(self, path):
        self.counts, self.heights, self.odd, self.waiting = {}, [], [], 0
        self.sum, self.files = hashlib.sha256(), set()
        self.journal = Journal(path)
        try:
            self.journal.look(self._look_at)
            self.end, self.fault = self.journal.end, self.journal.fault
        finally:
            self.journal.close()

    def _look_at(self, record):
        body = self.journal.body(record)
        self.sum.update(body + b"\n")
        why = self._take(body)
        if why and len(self.odd) < 10:
            self.odd.append("the record that ends at byte %d %s" % (record.end, why))

    def _take(self, body):
        """Takes in a record. Gives why no node keeps it, or None."""
        word, space, rest = body.partition(b" ")
        if word not in WORDS or bool(space) == (word == b"flush") or len(body) > LONGEST_LINE:
            return "is no line that a node keeps: %r" % body[:40]
        self.counts[word] = self.counts.get(word, 0) + 1
        return getattr(self, "_take_" + word.decode())(rest)

    def _take_content(self, rest):
        if not BASE64URL.fullmatch(rest) or len(rest) % 4 == 1:
            return "has a file that is not base64url"
        mark = hashlib.sha256(rest).digest()
        if mark in self.files:
            return "has a file that was there before"
        self.files.add(mark)
        return None

    def _take_anchor(self, rest):
        height = number(rest.partition(b" ")[0].decode(errors="replace"))
        if height is None or height > 4_294_967_295 or b" " not in rest:
            return "is an entry without a height"
        low = bool(self.heights) and height < self.heights[-1]
        self.heights.append(height)
        return "is an entry at height %d, after one at height %d" % (height, self.heights[-2]) if low else None

    def _take_rollback(self, rest):
        count = number(rest.decode(errors="replace"))
        if count is None or count >= len(self.heights):
            return "takes back entries that are not there"
        del self.heights[count:]
        return None

    def _take_submit(self, rest):
        self.waiting += 1
        return None if rest.strip()[:1] == b"{" and rest.strip()[-1:] == b"}" else "has a request that is no JSON object"

    def _take_flush(self, rest):
        if not self.waiting:
            return "makes a batch of no request"
        # A batch may leave some, so this is a bound.
        return None

    def __str__(self):
        kinds = ", ".join("%s %d" % (word.decode(), self.counts[word]) for word in WORDS if word in self.counts)
        return "records %d, bytes %d%s\nentries %d, last height %s\nsha256 of the records %s" % (
            sum(self.counts.values()), self.end, ": " + kinds if kinds else "", len(self.heights),
            self.heights[-1] if self.heights else "-", self.sum.hexdigest())
