"""`generate`: the processor time of the program, beside that of as many compressions of SHA-256 as its keys take, and
the signatures that it makes and that its two nodes check. At most 1.3 times that is wanted. Then how long the largest
workload takes.
"""
import hashlib

import lms
from measuring import build, node, processor_seconds, rows

# The types of all keys, and how often each signature is checked at least: where it is submitted, and once by each
# node where its batch is anchored. A second check of a batch that was taken back is left out.
OTS, TREE = 3, 5
CHECKS = 3
MEASURED = (1, 100, 10)
LARGEST = (1, 200, 30)
# So many bytes are signed of an update.
MESSAGE = 309
# How often each program runs, of which the least time counts.
ROUNDS = 5


def key():
    """How many compressions a key takes: each chain of each leaf from its start to its end, and the nodes."""
    w, p, _ = lms.OTS[OTS]
    leaves = 2 ** lms.HEIGHTS[TREE]
    leaf = p + p * (2 ** w - 1) + lms.blocks(22 + 32 * p) + lms.blocks(22 + 32)
    return leaves * leaf + (leaves - 1) * lms.blocks(22 + 64)


def steps():
    """How many steps the chains of a signature take, over a hundred messages."""
    front = bytes(20)
    return sum(sum(lms.message_digits(OTS, front, hashlib.sha256(b"%d" % n).digest(), b"")) for n in range(100)) / 100


def signature():
    """How many compressions it takes to make a signature, and to check one."""
    w, p, _ = lms.OTS[OTS]
    made = 1 + p + lms.blocks(22 + 32 + MESSAGE) + steps()
    checked = p * (2 ** w - 1) - steps() + lms.blocks(22 + 32 + MESSAGE) + lms.blocks(22 + 32 * p) + lms.blocks(22 + 32)
    return made, checked + lms.HEIGHTS[TREE] * lms.blocks(22 + 64)


def compressions(dids, rounds):
    """Those of all keys, and those of all signatures, made and checked."""
    made, checked = signature()
    return dids * key(), dids * rounds * (made + CHECKS * checked)


def words(workload):
    return ["generate", *(str(word) for word in workload)]


def measure(folder):
    program = node()[0]
    compress, = build(folder, ["compress_cost"])
    times, units = [], []
    for _ in range(ROUNDS):
        times.append(processor_seconds([program, *words(MEASURED)]))
        units.append(min(row[0] for row in rows(compress)) / 1000 / 1e9)
    keys, signatures = (count * min(units) for count in compressions(*MEASURED[1:]))
    print("%s: %.2f s, %.2f times its keys and signatures (%.2f s and %.2f s; wanted: 1.3 times)"
          % (" ".join(words(MEASURED)), min(times), min(times) / (keys + signatures), keys, signatures))
    print("%s: %.1f s" % (" ".join(words(LARGEST)), processor_seconds([program, *words(LARGEST)])))
