#!/usr/bin/env python3
"""A node with a journal: the opening of a journal, against the same lines from standard input; lines that are recorded,
against two syncs of the same disk each; and how long a restart takes behind the creates of a folder.

usage: bench/durable.py [PROGRAM] [--from FOLDER]

PROGRAM is the built node; without one it is built by the launcher. FOLDER has the streams NAME.in or NAME.in.xz, of
which the one of creates is taken; without one it is generated. The journals lie where temporary files do: where that is
no disk (TMPDIR), a sync takes no time, and the second figure tells nothing.
"""
import argparse
import math
import os
import subprocess
import sys
import tempfile
import time

sys.dont_write_bytecode = True
import content
from load import creates
from measuring import node, peak, processor_seconds, write_lines
from streams import from_folder

NAME = "sidetree.journal"
GATE = b"\xa5"
CLOSED = b"\x00"
ROUNDS = 5
# The journals that are opened: how many lines, and the bytes of the smallest and of the greatest file among them.
LOADS = ((1_380_000, 8, 200), (15, 10_000_000, 10_000_000))
# How many lines are recorded one after the other, and how often: a disk that others use too scatters, so the least
# time of many rounds counts.
RECORDED = 1_000
ROUNDS_ON_DISK = 9


def write_journal(folder, lines):
    """Writes the journal of these lines, and gives its size and that of its longest record."""
    longest = 0
    with open(os.path.join(folder, NAME), "wb") as file:
        for line in lines:
            file.write(GATE + len(line).to_bytes(4, "big") + line)
            longest = max(longest, len(line))
        file.write(CLOSED)
        return file.tell(), longest


def opening(folder, ours):
    """Prints what opening a journal takes against reading its lines, for each load."""
    journalled = [*ours, "--journal"]
    for count, least, most in LOADS:
        given = write_lines(os.path.join(folder, "given"), content.lines(count, least, most))
        size, longest = write_journal(folder, content.lines(count, least, most))
        opened = fed = math.inf
        for _ in range(ROUNDS):
            fed = min(fed, processor_seconds(ours, given))
            opened = min(opened, processor_seconds(journalled, folder=folder))
        memory, plain = peak(journalled, folder=folder), peak(ours, given)
        print("a journal of %d MiB with %d records: opened in %.2f s of processor time, %.2f times what the same lines take "
              "from standard input (%.2f s; wanted: 1.1 times); %d MiB of memory, %.2f times theirs with one record more "
              "(%d MiB and %d bytes; wanted: once)"
              % (size >> 20, count, opened, opened / fed, fed, memory >> 20, memory / (plain + longest), plain >> 20, longest),
              flush=True)
        os.remove(os.path.join(folder, NAME))


def synced(folder, lines):
    """The seconds of the bare writes and syncs that these lines need in a journal: two of each for a line."""
    path = os.path.join(folder, "bare")
    file = os.open(path, os.O_RDWR | os.O_CREAT | os.O_TRUNC, 0o600)
    end = 0
    os.pwrite(file, CLOSED, end)
    os.fsync(file)
    began = time.monotonic()
    for line in lines:
        os.pwrite(file, len(line).to_bytes(4, "big") + line + CLOSED, end + 1)
        os.fsync(file)
        os.pwrite(file, GATE, end)
        os.fsync(file)
        end += 5 + len(line)
    spent = time.monotonic() - began
    os.close(file)
    os.remove(path)
    return spent


def recorded(folder, ours, given):
    """The seconds of a run that records the lines of a file in an empty journal."""
    path = os.path.join(folder, NAME)
    if os.path.exists(path):
        os.remove(path)
    with open(given, "rb") as source:
        began = time.monotonic()
        subprocess.run([*ours, "--journal"], cwd=folder, stdin=source, stdout=subprocess.DEVNULL, check=True)
        return time.monotonic() - began


def recording(folder, ours):
    """Prints how many lines a second are recorded, against two syncs of the same disk for each."""
    lines = list(content.lines(RECORDED, 8, 200))
    given = write_lines(os.path.join(folder, "given"), lines)
    bare = whole = math.inf
    for _ in range(ROUNDS_ON_DISK):
        bare, whole = min(bare, synced(folder, lines)), min(whole, recorded(folder, ours, given))
    print("%d lines are recorded in %.2f s, %.0f a second, %.2f times the time of two writes and two syncs of the same disk for "
          "each (%.2f s; wanted: 1.2 times)" % (RECORDED, whole, RECORDED / whole, whole / bare, bare), flush=True)


def stream_of(origin):
    """The lines of the creates of a folder, or generated ones."""
    if origin is None:
        return [line.encode() for line in creates()]
    return dict(from_folder(origin))["creates"]


def restart(folder, ours, origin):
    """Prints how long a node takes that starts again behind creates, beside what all lines took."""
    given = write_lines(os.path.join(folder, "given"), stream_of(origin))
    first = recorded(folder, ours, given)
    journalled = [*ours, "--journal"]
    size = os.path.getsize(os.path.join(folder, NAME))
    times = []
    for _ in range(ROUNDS):
        began = time.monotonic()
        subprocess.run(journalled, cwd=folder, stdin=subprocess.DEVNULL, stdout=subprocess.DEVNULL, check=True)
        times.append(time.monotonic() - began)
    work = min(processor_seconds(journalled, folder=folder) for _ in range(ROUNDS))
    fed = min(processor_seconds(ours, given) for _ in range(ROUNDS))
    print("a restart behind creates, whose journal has %.1f MiB: %.3f s, of them %.3f s of processor time; all lines took %.3f s with "
          "the journal, and %.3f s of processor time without one"
          % (size / 2 ** 20, min(times), work, first, fed), flush=True)
    os.remove(os.path.join(folder, NAME))


def measure(folder, ours, origin=None):
    """Prints all three."""
    opening(folder, ours)
    recording(folder, ours)
    restart(folder, ours, origin)


def main():
    parser = argparse.ArgumentParser(usage="bench/durable.py [PROGRAM] [--from FOLDER]")
    parser.add_argument("program", nargs="?")
    parser.add_argument("--from", dest="origin")
    options = parser.parse_args()
    ours = [os.path.abspath(options.program), "node"] if options.program else node()
    with tempfile.TemporaryDirectory() as folder:
        measure(folder, ours, options.origin)


if __name__ == "__main__":
    main()
