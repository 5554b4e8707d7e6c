"""The batches that a journal tells, and the requests that it told last."""
import collections
import hashlib

from client import Node
from records import Journal

# How many requests are known again: two full queues.
MOST = 20_000


def batches_again(path, options, first=1, skip=0):
    """The replies to the flushes of a journal from one on, made again by a node that keeps nothing. A batch takes the
    requests in the order of the journal, so those of the batches before the first, `skip` many, are left out."""
    journal, number = Journal(path), 0
    try:
        with Node("node", *options) as node:
            for record in journal.records():
                if record.word == b"submit" and skip:
                    skip -= 1
                elif record.word == b"flush":
                    number += 1
                    if number >= first:
                        yield node.ask("flush")
                elif record.word != b"content":
                    # Entries decide which version of the limits a batch is made by.
                    node.ask(journal.body(record).decode("utf-8", "surrogateescape"))
    finally:
        journal.close()


class Requests:
    """How many requests a journal tells, and the numbers of the last ones by their text."""

    def __init__(self, journal):
        self.journal, self.count = journal, 0
        # They are hashed when somebody asks, since a start reads them all.
        self._fresh, self._numbers = collections.deque(maxlen=MOST), collections.OrderedDict()

    def add(self, record):
        self._fresh.append((self.count, record.place, record.length))
        self.count += 1

    def number(self, line):
        """The number of the last `submit` with this line, counted from 0, or None."""
        while self._fresh:
            number, place, length = self._fresh.popleft()
            mark = hashlib.sha256(self.journal.body_at(place, length)).digest()
            self._numbers[mark] = number
            self._numbers.move_to_end(mark)
        while len(self._numbers) > MOST:
            self._numbers.popitem(last=False)
        return self._numbers.get(hashlib.sha256(line).digest())
