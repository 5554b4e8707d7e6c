"""The records of a journal, read while a node writes them or after it has ended.

A journal is a row of records, each after a gate byte: 0xa5 opens it. Then come the length of the body in 4 bytes,
big-endian, and the body, one line of a node. After the last record there is a closed gate, 0x00, and after this the
rest of a record that a stop has left. Records never change, so whole ones can be read at any time.
"""
import os

OPEN, CLOSED, HEAD = 0xa5, 0x00, 5
# The longest line that a node takes, and what a stop may leave of it after the last gate.
LONGEST_LINE = 24_000_000
LONGEST_REST = HEAD + LONGEST_LINE
WORDS = (b"content", b"anchor", b"rollback", b"submit", b"flush")
# The longest of these words, and the space after it.
LONGEST_WORD = 9
PIECE = 1 << 16


class Record:
    """Where a record's body is in the file, and its first word."""
    __slots__ = ("place", "length", "word")

    def __init__(self, place, length, word):
        self.place, self.length, self.word = place, length, word

    @property
    def end(self):
        return self.place + self.length


class Journal:
    """A journal's file, and how far its records were read."""

    def __init__(self, path):
        self.path, self.end, self.fault = path, 0, None
        self._file = os.open(path, os.O_RDONLY)
        self._piece, self._at = b"", 0

    def close(self):
        os.close(self._file)

    def size(self):
        return os.fstat(self._file).st_size

    def _bytes(self, at, count):
        """Some bytes of the file, by way of a piece that is read at once."""
        if not self._at <= at <= at + count <= self._at + len(self._piece):
            self._piece, self._at = os.pread(self._file, max(PIECE, count), at), at
        return self._piece[at - self._at:at - self._at + count]

    def body(self, record):
        return self.body_at(record.place, record.length)

    def body_at(self, place, length):
        body = b""
        while len(body) < length:
            more = os.pread(self._file, length - len(body), place + len(body))
            if not more:
                raise OSError("%s became shorter" % self.path)
            body += more
        return body

    def records(self):
        """The records from where the last call ended. Afterwards `fault` says why no more can be read, if the
        journal is damaged."""
        # A piece may have been read before the node wrote there.
        self._piece, size = b"", self.size()
        while True:
            head = self._bytes(self.end, HEAD + LONGEST_WORD)
            if not head or head[0] != OPEN or size < 2:
                return
            place = self.end + HEAD
            length = int.from_bytes(head[1:HEAD], "big")
            if len(head) < HEAD or place + length >= size:
                # It may have grown since, with a node at work.
                if self.size() > size:
                    size = self.size()
                    continue
                self.fault = "damaged: the record at byte %d is longer than the file" % self.end
                return
            self.end = place + length
            yield Record(place, length, head[HEAD:HEAD + length].split(b" ", 1)[0])

    def look(self, take=lambda record: None):
        """Takes all records that are left, and sets `fault` to why the bytes from there on are none that a stop
        leaves. If a node has opened the gate meanwhile, it goes on."""
        while True:
            for record in self.records():
                take(record)
            self.fault = self.fault or fault_of_rest(os.pread(self._file, LONGEST_REST + 2, self.end), self.end)
            if self.fault is None or os.pread(self._file, 1, self.end) != bytes([OPEN]) or self.size() < 2:
                return
            if not self._is_longer():
                return
            self.fault = None

    def _is_longer(self):
        """Whether the record at the end is there whole."""
        length = int.from_bytes(os.pread(self._file, HEAD, self.end)[1:], "big")
        return self.end + HEAD + length < self.size()


def fault_of_rest(rest, end):
    """Why the bytes from the closed gate on are none that a stop leaves, or None."""
    gate = rest[:1]
    # A file of one byte is a journal without records, whatever the byte is.
    if gate not in (b"", bytes([CLOSED])) and (end or len(rest) > 1):
        return ("damaged: the gate at byte %d is 0x%02x, and no node writes that" % (end, rest[0]) if end else
                "no journal: its first byte is 0x%02x" % rest[0])
    if len(rest) > LONGEST_REST + 1:
        return "damaged: more bytes follow the closed gate at byte %d than the longest record has" % end
    at = rest.find(bytes([OPEN]))
    while at >= 0:
        length = int.from_bytes(rest[at + 1:at + HEAD], "big")
        word = rest[at + HEAD:at + HEAD + min(length, LONGEST_WORD)].split(b" ", 1)[0]
        if word in WORDS and at + HEAD + length < len(rest):
            return "damaged: a record follows the closed gate at byte %d, so that gate was open once" % end
        at = rest.find(bytes([OPEN]), at + 1)
    return None


def fault_of(path, take=lambda record: None):
    """Why a node must not be started over a journal, or None. Each record is taken on the way."""
    journal = Journal(path)
    try:
        journal.look(take)
        return journal.fault
    finally:
        journal.close()
