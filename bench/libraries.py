"""Single libraries: canonical JSON, LMS, the index that keeps states, patches of documents, the journal.

The programs are json_cost, lms_cost, index_cost, patch_cost and journal_cost of bench/programs. All but
the first take their own times.
"""
import hashlib
import os
import subprocess
import time

import lms
from measuring import build, peak, rows


def seconds(command, given):
    """The best of three times."""
    best = []
    for _ in range(3):
        with open(given, "rb") as source, open(os.devnull, "wb") as sink:
            start = time.perf_counter()
            subprocess.run(command, stdin=source, stdout=sink, check=True)
            best.append(time.perf_counter() - start)
    return min(best)


def names(count):
    """One object of so many names that sort the other way round by UTF-16 code units."""
    for n in range(count // 2):
        for first in (0xE000, 0x10000):
            yield '"%s%06d":1' % (chr(first + n % 0x1900), n)


def json(folder):
    """Prints what reading and writing of great texts costs, against texts of an eighth of the size."""
    given = os.path.join(folder, "given")
    (program,) = build(folder, ["json_cost"])

    def write(text):
        with open(given, "w", encoding="utf-8") as file:
            file.write(text)
    for what, most, make in (("an object of %d names, the worst order", 800_000, lambda n: "{%s}" % ",".join(names(n))),
                             ("a list of %d numbers", 5_000_000, lambda n: "[%s]" % ",".join("7" * n))):
        times = []
        for count in (most // 8, most):
            write(make(count))
            times.append((seconds([program], given), os.path.getsize(given)))
        (small, small_size), (great, great_size) = times
        print("%s: %.2f s for %d bytes; %.2f times the time for %.2f times the bytes; %d MiB" % (
            what % most, great, great_size, great / small, great_size / small_size, peak([program], given) >> 20), flush=True)
    write("[" * 127)
    print("127 open brackets: %.3f s" % seconds([program], given), flush=True)


def compressions(ots, tree):
    """How many compressions of SHA-256 a verification, a key generation, a signature, and one with the nodes of
    the tree take, for the key, the number and the message of lms_cost."""
    w, p, _ = lms.OTS[ots]
    height = lms.HEIGHTS[tree]
    front = bytes([7]) * 16 + (3).to_bytes(4, "big")
    randomizer = hashlib.sha256(front + b"\xff\xfd\xff" + bytes([9]) * 32).digest()
    steps = lms.message_digits(ots, front, randomizer, b"message")
    ends = lms.blocks(22 + 32 * p)
    verification = sum(2 ** w - 1 - step for step in steps) + lms.blocks(22 + 32 + 7) + ends + 1 + 2 * height
    leaf = p * 2 ** w + ends + 1
    generation = 2 ** height * leaf + 2 * (2 ** height - 1)
    # The path's nodes stand over all leaves but one.
    path = (2 ** height - 1) * leaf + 2 * (2 ** height - 1 - height)
    chains = 1 + lms.blocks(22 + 32 + 7) + sum(1 + step for step in steps)
    return verification, generation, chains + path, chains


def signatures(folder):
    """Prints the cost of LMS against that of the compressions it is made of."""
    (program,) = build(folder, ["lms_cost"])
    best = best_rows(program, 2, 7)
    compression = min(times[-1] for times in best.values())
    for (ots, tree), (*times, _) in best.items():
        counts = compressions(ots, tree)
        print("LMS types %d and %d: " % (ots, tree) + "; ".join(
            "%.2f %s a second, %.2f times their compressions" % (1e9 / spent, what, spent / count / compression)
            for what, spent, count in zip(("verifications", "keys", "signatures", "signatures with a signer"), times, counts)), flush=True)


def best_rows(program, marks, end):
    """The least times by the first numbers of the rows; what stands at `end` or later is no time."""
    best = {}
    for row in rows(program):
        mark, times = tuple(row[:marks]), row[marks:end]
        best[mark] = [min(pair) for pair in zip(times, best.get(mark, times))]
    return best


def index(folder):
    """Prints what a put and a cut cost on an index, against those on one of an eighth of its size."""
    (program,) = build(folder, ["index_cost"])
    (_, small), ((keys, items), great) = sorted(best_rows(program, 2, 4).items())
    for what, cheap, dear in zip(("put at the end", "cut of the last place"), small, great):
        print("an index of %d keys with one item and one with %d: a %s takes %d ns, %.2f times that on an eighth of the size"
              % (keys, items, what, dear, dear / cheap), flush=True)


def patches(folder):
    """Prints what the worst deltas cost on a document near its bound, against copying it once."""
    (program,) = build(folder, ["patch_cost"])
    for (size, count, steps), (copy, apply) in best_rows(program, 3, 5).items():
        what = "%d copies in one patch" % steps if steps else "%d patches that remove nothing" % count
        print("a delta of %d bytes with %s, on a document of 16,276 bytes: %d us, %.1f times the time for copying the document"
              % (size, what, apply // 1000, apply / copy), flush=True)


def journal(folder):
    """Prints what opening a journal in memory costs, against copying its records, and against an eighth of it."""
    (program,) = build(folder, ["journal_cost"])
    (_, (_, small)), (records, (copy, great)) = sorted((count, times) for (count,), times in best_rows(program, 1, 3).items())
    print("a journal of %d records of 100 bytes: opened in %.1f ms, %.2f times the time for copying them, %.2f times that for an eighth"
          % (records, great / 1e6, great / copy, great / small), flush=True)
