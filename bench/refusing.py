#!/usr/bin/env python3
"""Refuses each allocation of the built program in turn, one run for each number, over whole sessions.

usage: bench/refusing.py [FILE..]

FILE is a session; without one these are the first five lines of the stored run, sessions of examples/ with all
lines of a node and of an exchange, life with a journal, a small workload, and lines of the wallet that sign with two
levels. Each run whose allocation is refused must end with status 6 and a beginning of the replies; the wallet may
have spent one counter more than there are signatures in them; the journal must have the records of the lines that
changed the node, as the whole run has them, from the first on to that of the last reply or one further. The numbers
go up until two in a row are not reached. It needs gcc, and ends with status 1 where a run is wrong.
"""
import concurrent.futures
import os
import subprocess
import sys
import tempfile

sys.dont_write_bytecode = True
from measuring import TOP, node
from wallet import image

STORED = os.path.join(TOP, "crates", "st_cli", "stdin")
FEW_LINES = 5
# Sessions of examples/ for a node: submits and batches, resolves, verdicts, refusals.
SESSIONS = ("life", "recovery", "whole", "explained", "rejected", "requests")
WORKLOAD = ["generate", "1", "1", "1"]
# The replies to lines that change a node.
CHANGING = (b"have ", b"anchored ", b"cut ", b"queued ", b"batch ")
GATE = 0xa5
# The last signature of one lower key, and the first of the next.
SIGNED = b"left\nsign-hss YWJj\nsign-hss YWJj\nkey -\nsign-hss e31\nleft\n"
MAP_AT, SPENT = 64, 31


def library(folder):
    made = os.path.join(folder, "refusing.so")
    source = os.path.join(TOP, "bench", "programs", "refusing.c")
    subprocess.run(["gcc", "-O1", "-shared", "-fPIC", "-fno-builtin", "-o", made, source], check=True)
    return made


def sessions(files):
    """The sessions by their names."""
    if files:
        return {file: open(file, "rb").read() for file in files}
    with open(STORED, "rb") as stored:
        found = {"five lines": b"".join(stored.readlines()[:FEW_LINES])}
    return {**found, **{name: example(name) for name in SESSIONS}}


def example(name):
    """The lines of a session of examples/."""
    with open(os.path.join(TOP, "examples", name + ".in"), "rb") as session:
        return session.read()


def run(command, given, shim, number, folder=None):
    """The status and the replies, where this allocation is refused."""
    done = subprocess.run(command, input=given, stdout=subprocess.PIPE, stderr=subprocess.DEVNULL, cwd=folder,
                          env={**os.environ, "LD_PRELOAD": shim, "REFUSED": str(number)})
    return done.returncode, done.stdout


def wallet_run(command, given, shim, number):
    """The same over a vault of its own; the status is -1 if fewer counters are spent than the replies have, or more than
    one beyond those."""
    with tempfile.TemporaryDirectory() as folder:
        path = os.path.join(folder, "sidetree.vault")
        before = bytearray(image(2, 6))
        before[MAP_AT:MAP_AT + SPENT] = b"\1" * SPENT
        with open(path, "wb") as file:
            file.write(before)
        status, replies = run(command, given, shim, number, folder)
        with open(path, "rb") as file:
            spent = sum(map(bool, file.read()[MAP_AT:])) - SPENT
    return (status if 0 <= spent - replies.count(b"hss ") <= 1 else -1), replies


def records(path):
    """The records of a journal, up to its first closed gate; none where there is no file."""
    if not os.path.exists(path):
        return []
    found, at = [], 0
    with open(path, "rb") as file:
        image = file.read()
    while image[at:at + 1] == bytes([GATE]):
        end = at + 5 + int.from_bytes(image[at + 1:at + 5], "big")
        found.append(image[at + 5:end])
        at = end
    return found


class Journalled:
    """Runs over journals of their own; the status is -1 if a journal has other records than those of the whole run,
    from the first on to that of the last reply or one further."""

    def __init__(self):
        self.whole = None

    def __call__(self, command, given, shim, number):
        with tempfile.TemporaryDirectory() as folder:
            status, replies = run(command, given, shim, number, folder)
            found = records(os.path.join(folder, "sidetree.journal"))
        if not number:
            self.whole = found
        replied = sum(line.startswith(CHANGING) for line in replies.splitlines())
        is_well = found == self.whole[:len(found)] and 0 <= len(found) - replied <= 1
        return (status if is_well else -1), replies


def refused(command, given, shim, run):
    """How many allocations there are, and the first number whose run ends neither as it must nor whole."""
    status, whole = run(command, given, shim, 0)
    if status:
        sys.exit("the whole run ends with status %d" % status)
    with concurrent.futures.ThreadPoolExecutor(os.cpu_count()) as pool:
        number, missed = 1, 0
        while True:
            numbers = range(number, number + 64)
            for at, (status, replies) in zip(numbers, pool.map(lambda n: run(command, given, shim, n), numbers)):
                if status == 6 and whole.startswith(replies):
                    missed = 0
                elif (status, replies) == (0, whole):
                    missed += 1
                else:
                    return at - 1, at
                if missed == 2:
                    return at - 2, None
            number += 64


def main():
    command, is_well = node(), True
    with tempfile.TemporaryDirectory() as folder:
        shim = library(folder)
        runs = [(name, command, given, run) for name, given in sessions(sys.argv[1:]).items()]
        if not sys.argv[1:]:
            runs += [("exchange", [command[0], "exchange"], example("exchange"), run),
                     ("a workload", [command[0], *WORKLOAD], b"", run),
                     ("life with a journal", [*command, "--journal"], example("life"), Journalled()),
                     ("wallet", [command[0], "wallet"], SIGNED, wallet_run)]
        for name, words, given, how in runs:
            count, wrong = refused(words, given, shim, how)
            if wrong is None:
                print("%s: numbers 1 to %d, each with status 6 and a beginning of the replies" % (name, count))
            else:
                is_well = False
                print("%s: number %d ends otherwise" % (name, wrong))
    sys.exit(0 if is_well else 1)


if __name__ == "__main__":
    main()
