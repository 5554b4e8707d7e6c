"""How the batches of a kept node come into a store: each once, whoever ends, and whenever. Nothing is kept here. The store
knows which batches of the node's journal it has, and the keeper gives any batch again."""
import time

from checking import decoded
from client import Refused
from following import holding, release
from store import Halt
from tools import beat

# How often the store is asked although nothing waits: one that was put back from a copy lacks batches.
LOOK = 5
OTHER = ("%s. The folder, or an older journal, is a copy: remove the file `name` from the node's folder and start again, and "
         "all batches of the journal are published once more under a new name")


def batch_of(reply):
    """The anchor string of a batch, and its files."""
    files = [line.split(" ")[2:] for line in reply[1:]]
    return reply[0].split(" ")[1], [(uri, decoded(text.encode())) for uri, text in files]


class Publisher:
    """What is known of a kept node and of its store while both answer."""

    def __init__(self, store, node, every, most):
        self.store, self.node, self.every, self.most = store, node, every, most
        self.name, self.made, self.queued = self.batches()
        self.look()

    def batches(self):
        name, made, queued, _ = self.node.expect("batches", "batches").split(" ")
        return name, int(made), int(queued)

    def batch(self, number, skip):
        reply = self.node.ask("batch %d %d" % (number, skip))
        if not reply[0].startswith("batch "):
            raise Refused("batch %d: %s" % (number, reply[0]))
        return reply

    def look(self):
        """Asks the store for the last batch of this journal, and tells the keeper."""
        self.looked, self.last = time.monotonic(), self.store.last(self.name)
        self.node.expect("published", "published %d" % self.last.through)

    def compare(self):
        """Halts if the journal is not the one that the store has the batches of."""
        last = self.last
        if last.number > self.made or last.through > self.queued:
            raise Halt(OTHER % "the store has %d batches of %s, and its journal made %d" % (last.number, self.name, self.made))
        if last.number:
            found = batch_of(self.batch(last.number, last.through - int(last.anchor.partition(".")[0])))[0]
            if found != last.anchor:
                raise Halt(OTHER % "batch %d of %s is another one in the store" % (last.number, self.name))

    def is_due(self):
        """Whether a batch is to be made: so long after the last one as it is old by the store's clock."""
        waiting = self.queued - self.last.through
        if self.made > self.last.number or waiting >= self.most:
            return True
        age = None if self.last.age is None else self.last.age + time.monotonic() - self.looked
        return waiting > 0 and (age is None or age >= self.every or age < 0)

    def step(self):
        """Publishes a batch, if one is due, and gives how many requests are not published."""
        _, self.made, self.queued = self.batches()
        if time.monotonic() >= self.looked + LOOK:
            self.look()
        if self.last.number > self.made or self.last.through > self.queued:
            self.compare()
        if self.is_due():
            number = self.last.number + 1
            self.store.append(self.name, number, *batch_of(self.batch(number, self.last.through)))
            self.look()
        return self.queued - self.last.through


def publish(store, node, every, most):
    """Publishes for as long as node and store answer."""
    with holding(node, "publish"):
        store.join(node)
        publisher = Publisher(store, node, every, most)
        publisher.compare()
        release(node, "publish")
        while True:
            waiting = publisher.step()
            beat()
            time.sleep(0.05 if waiting else 0.2)
