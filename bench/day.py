#!/usr/bin/env python3
"""Writes a day of a ledger, as a program does that follows one: for a node that is kept with `service/follow`.

usage: bench/day.py FOLDER [SECONDS]

FOLDER gets the entries in `anchors`, the files in `files`, and the identifiers in `dids`. The day has 144 entries, one in
each tenth of an hour or so, which come over SECONDS (600). Each has 20 creates and an update of every identifier of the
entry before. Six times the ledger loses its last two entries, and gets them again at other heights.
"""
import os
import sys
import time

sys.dont_write_bytecode = True
from formats import batch, short_form
from load import Chain, same_service

ENTRIES, CREATES, LOST, EVERY = 144, 20, 2, 24


def batches():
    """The batches of the day, one after the other, with the identifiers that each creates."""
    before = []
    for n in range(ENTRIES):
        new = [Chain(CREATES * n + m, 3, same_service) for m in range(CREATES)]
        yield batch([one.create for one in new] + [one.update(1) for one in before]), new
        before = new


def put(path, lines):
    """Replaces a file of lines in one step."""
    with open(path + ".new", "w", encoding="utf-8") as file:
        file.write("".join(line + "\n" for line in lines))
    os.replace(path + ".new", path)


def main(folder, seconds=600):
    files, anchors = os.path.join(folder, "files"), os.path.join(folder, "anchors")
    os.makedirs(files)
    entries, dids, height = [], [], 100
    for n, (made, new) in enumerate(batches()):
        for data in made.files.values():
            with open(os.path.join(files, "%d" % len(os.listdir(files))), "wb") as file:
                file.write(data)
        dids += [short_form(one.create) for one in new]
        put(os.path.join(folder, "dids"), dids)
        height += 1
        entries.append((height, made.anchor))
        if n % EVERY == EVERY - 1:
            put(anchors, ["%d %s" % entry for entry in entries[:-LOST]])
            time.sleep(seconds / ENTRIES / 2)
            height += LOST
            entries[-LOST:] = [(height - 1, entries[-2][1]), (height, entries[-1][1])]
        put(anchors, ["%d %s" % entry for entry in entries])
        print("entry %d at height %d" % (n, height), flush=True)
        time.sleep(seconds / ENTRIES)


if __name__ == "__main__":
    if len(sys.argv) not in (2, 3) or sys.argv[1] == "--help":
        sys.exit(__doc__)
    main(sys.argv[1], *map(float, sys.argv[2:]))
