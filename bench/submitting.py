"""The writer: the processor time of a node for requests and for the batches that are made of them, beside the
bare cost of reading the JSON of the requests and hashing their bytes once; that of a great flush beside small
ones of the same operations; and that of a flush of which a file is too long beside one that just fits.

The bare program is bench/programs/submit_cost.txt, over the same kit crates. It makes no batch.
"""
import os

import re
import subprocess

from formats import delta, hash_text, key_of, submit_line, update
from load import full_create, same_service, secret
from measuring import best_times, build, node, peak, write_lines

# How many creates, in how many rounds; a queue holds a round, and a batch of version 2 half of it.
CREATES, ROUNDS, FLUSHES = 40_000, 4, 2
# How many creates a great flush takes, and how many times fewer a small one.
GREAT, TIMES = 5_000, 8


def rounds(requests, size, flushes):
    """So many requests at a time, with so many flushes behind them."""
    for first in range(0, len(requests), size):
        yield from requests[first:first + size]
        yield from ["flush"] * flushes


def requested(folder, ours, requests):
    """Prints what all requests and their batches take."""
    (bare,) = build(folder, ["submit_cost"])
    given = write_lines(os.path.join(folder, "given"), rounds(requests, CREATES // ROUNDS, FLUSHES))
    time, base = best_times([(ours, given), ([bare], given)])
    print("%d creates requested in %d rounds, in batches of %d: %.2f s of processor time, %.2f times the bare cost (%.2f s); "
          "%d MiB for %d MiB of input" % (len(requests), ROUNDS, CREATES // ROUNDS // FLUSHES, time, time / base, base,
                                          peak(ours, given) >> 20, os.path.getsize(given) >> 20), flush=True)


def flushed(folder, ours, requests):
    """Prints what a flush takes, in great batches and in small ones. What the requests themselves take is
    known from the same ones without a flush, as many as a queue holds."""
    sizes = (GREAT, GREAT // TIMES)
    runs = [write_lines(os.path.join(folder, "flushed-%d" % size), rounds(requests, size, 1)) for size in sizes]
    queued = write_lines(os.path.join(folder, "queued"), requests)
    great, small, without = best_times([(ours, given) for given in (*runs, queued)], 5)
    print("a flush of %d creates takes %.2f ms, %.2f times the time of %d flushes of %d"
          % (GREAT, (great - without) / (len(requests) // GREAT) * 1e3, (great - without) / (small - without), TIMES, GREAT // TIMES),
          flush=True)


def cut(folder, ours):
    """Prints what a flush of updates takes whose proof file would be too long, beside one of just those that fit. All
    reveal one key of LM-OTS type 1 and have one delta, so they share a signed text of 11 kilobytes."""
    key, made = key_of(secret(1), "cut"), delta([same_service(1)], key_of(secret(1), "next"))
    one = submit_line(update("SUFFIX", key, 0, made))
    requests = [one.replace("SUFFIX", hash_text(b"%d" % number)) for number in range(GREAT)]
    whole = write_lines(os.path.join(folder, "whole"), [*requests, "flush"])
    with open(whole, "rb") as given:
        replies = subprocess.run(ours, stdin=given, capture_output=True, text=True, check=True).stdout
    fits = int(re.search(r"^batch ([0-9]+)", replies, re.M)[1])
    runs = [whole, *(write_lines(os.path.join(folder, name), lines) for name, lines in
                     (("asked", requests), ("fits", [*requests[:fits], "flush"]), ("few", requests[:fits])))]
    great, without, fitting, few = best_times([(ours, given) for given in runs], 5)
    print("a flush of %d updates, of which %d fit, takes %.2f ms, %.2f times the time of a flush of those"
          % (GREAT, fits, (great - without) * 1e3, (great - without) / (fitting - few)), flush=True)


def measure(folder):
    """Prints a line for the requests with their batches, one for a flush, and one for a flush that is cut."""
    ours = [*node(), "--v2-at=0"]
    requests = [submit_line(full_create(number)) for number in range(CREATES)]
    requested(folder, ours, requests)
    flushed(folder, ours, requests[:2 * GREAT])
    cut(folder, ours)
