#!/usr/bin/env python3
"""How big a machine a node needs: memory, journal and time of a start, by the number of identifiers.

usage: bench/machine.py PROGRAM [IDENTIFIERS..]

PROGRAM is the built program. For each number of identifiers (10000 and 50000) it writes the journal of creates with a key
and a service, in batches of 1,000, and then of one signed update of each (LM-OTS type 3). A node is started over both: its
journal, its memory and the processor time of the start are measured. Numbers for which this machine hasn't twice the memory
free are left out. The rest is projected from the two largest numbers, in a straight line. Python makes 50,000 identifiers with their updates in about three minutes of a processor; several make
them side by side.
"""
import multiprocessing
import os
import resource
import shutil
import sys
import tempfile

sys.dont_write_bytecode = True
TOP = os.path.dirname(os.path.dirname(os.path.abspath(__file__)))
sys.path.append(os.path.join(TOP, "service"))
import client
from formats import add_keys, anchor_line, batch, create, delta
from kept import memory_of
from load import Chain, contents, question, same_service
from shortening import finish, new_file, write_record

SIZE = 1_000
# The bytes of memory that an identifier takes with its update.
MEMORY = 8_700
PROJECTED = (100_000, 1_000_000, 10_000_000)


class Owner(Chain):
    """An identifier with a key and a service, whose one key of a vault serves all."""

    def __init__(self, number):
        super().__init__(number, 3, same_service)
        key = {"id": "k", "type": "JsonWebKey2020", "publicKeyJwk": self.key("sign").json(),
               "purposes": ["authentication", "assertionMethod"]}
        self.create = create(self.key("recovery"), delta([add_keys(key), same_service(number)], self.key("0")))


def lines(numbers):
    """The lines of a batch of creates, and those of a batch of updates of the same identifiers."""
    owners, found = [Owner(number) for number in numbers], []
    for operations in ([owner.create for owner in owners], [owner.update(1) for owner in owners]):
        made = batch(operations)
        found.append([line.encode() for line in [*contents(made), anchor_line(1, made)]])
    return found


class Measured:
    """What a node over a journal takes."""

    def __init__(self, folder, count):
        before = used()
        with client.Node("node", "--journal", folder=folder) as node:
            if node.wanted() or not node.resolve(question(Owner(count - 1)).partition(" ")[2]):
                raise SystemExit("the node has not taken the journal")
            self.memory = memory_of(node.process.pid)
        self.processor = used() - before
        self.journal = os.path.getsize(os.path.join(folder, "sidetree.journal"))

    def row(self):
        return self.memory, self.journal, self.processor


def has_room(count):
    """Whether twice the memory for so many identifiers is free."""
    with open("/proc/meminfo", encoding="ascii") as file:
        free = next(int(line.split()[1]) * 1024 for line in file if line.startswith("MemAvailable:"))
    return 2 * MEMORY * count < free


def used():
    """The processor time of the processes that have ended."""
    taken = resource.getrusage(resource.RUSAGE_CHILDREN)
    return taken.ru_utime + taken.ru_stime


def measure(count):
    """What a node takes after the creates, and after the updates."""
    with tempfile.TemporaryDirectory() as folder:
        journal, later = os.path.join(folder, "sidetree.journal"), os.path.join(folder, "later")
        with new_file(journal) as first, new_file(later) as second:
            with multiprocessing.Pool() as pool:
                for made in pool.imap(lines, (range(at, min(at + SIZE, count)) for at in range(0, count, SIZE))):
                    for file, records in zip((first, second), made):
                        for line in records:
                            write_record(file, line)
                pool.close()
                pool.join()
            finish(first, journal)
        creates = Measured(folder, count)
        with open(journal, "r+b") as file, open(later, "rb") as more:
            # The closed gate at the end goes.
            file.seek(-1, os.SEEK_END)
            shutil.copyfileobj(more, file)
            finish(file, journal)
        return creates, Measured(folder, count)


def show(count, what, row, how):
    print("%12s  %-22s %9.1f MB %10.1f MB %9.1f s  %s" % ("{:,}".format(count), what, row[0] / 1e6, row[1] / 1e6, row[2], how),
          flush=True)


def main(program, *counts):
    os.environ["SIDETREE"] = program
    counts = sorted(map(int, counts)) or [10_000, 50_000]
    names, found = ("creates", "and an update of each"), {}
    print("%12s  %-22s %12s %13s %11s" % ("identifiers", "operations", "memory", "journal", "processor"))
    for count in counts[:]:
        if not has_room(count):
            counts.remove(count)
            print("%12s  left out: there is too little memory" % "{:,}".format(count), flush=True)
            continue
        found[count] = [one.row() for one in measure(count)]
        for what, row in zip(names, found[count]):
            show(count, what, row, "measured")
    if len(counts) > 1:
        low, high = counts[-2:]
        for count in PROJECTED:
            for n, what in enumerate(names):
                row = [b + (b - a) / (high - low) * (count - high) for a, b in zip(found[low][n], found[high][n])]
                if count > high:
                    show(count, what, row, "projected")


if __name__ == "__main__":
    if len(sys.argv) < 2 or sys.argv[1] == "--help":
        sys.exit(__doc__)
    main(os.path.abspath(sys.argv[1]), *sys.argv[2:])
