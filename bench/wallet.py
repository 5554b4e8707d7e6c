#!/usr/bin/env python3
"""Measures what the wallet's signatures take, against the compressions of SHA-256 that they are made of.

usage: bench/wallet.py [PROGRAM [COMPRESS_COST]]

PROGRAM is the built program, COMPRESS_COST the compress_cost of bench/programs; what is not named is built
here. The vaults are files of a folder in memory where there is one, for each line syncs its file. Times are
processor times of whole runs less that of a run over no line, the least of some rounds, in which bare
compressions take turns with them. Each signature that is counted is verified before.
"""
import base64
import os
import subprocess
import sys
import tempfile

sys.dont_write_bytecode = True
import lms
from measuring import best_times, build, node, write_lines

ID, SEED = bytes(range(16)), bytes(range(32, 64))
SUFFIX = "EiDjsMRCmPwcFJr79MiZb7kkJ65B5GSbk0yklZkbeFK4VQ"
DELTA = '{"patches":[],"updateCommitment":"%s"}' % SUFFIX
WANTED = 1.15
# How many compressions a run of compress_cost takes: twenty times four hundred pieces of 64,000 bytes.
COMPRESSIONS = 20 * 400 * 1000


def bytes_of(text):
    return base64.urlsafe_b64decode(text + b"=" * (-len(text) % 4))


def image(ots, tree):
    """A vault of which nothing is spent."""
    return b"\xa5" + lms.u(ots, 4) + lms.u(tree, 4) + ID + SEED + bytes(7 + 2 ** lms.HEIGHTS[tree])


def tree_cost(ots, height):
    """How many compressions the nodes of a tree take: its leaves, and what stands over them."""
    w, p, _ = lms.OTS[ots]
    return 2 ** height * (p * 2 ** w + lms.blocks(22 + 32 * p) + 1) + 2 * (2 ** height - 1)


def signature_len(ots, tree):
    return 44 + 32 * lms.OTS[ots][1] + 32 * lms.HEIGHTS[tree]


def signing_cost(public, message, signature):
    """How many compressions a signature takes where the nodes of its tree are there: its randomizer, the hash
    of the message, and each chain from its secret on."""
    ots = int.from_bytes(public[4:8], "big")
    steps = lms.message_digits(ots, public[8:24] + signature[:4], signature[8:40], message)
    return 1 + lms.blocks(22 + 32 + len(message)) + sum(1 + step for step in steps)


def holds(public, message, signature):
    """Whether this is an LMS signature of the message."""
    tree, ots = int.from_bytes(public[:4], "big"), int.from_bytes(public[4:8], "big")
    w, p, _ = lms.OTS[ots]
    front = public[8:24] + signature[:4]
    steps = lms.message_digits(ots, front, signature[8:40], message)
    values = [signature[40 + 32 * i:72 + 32 * i] for i in range(p)]
    ends = [lms.chained(front, i, value, step, 2 ** w - 1) for i, (value, step) in enumerate(zip(values, steps))]
    r = 2 ** lms.HEIGHTS[tree] + int.from_bytes(signature[:4], "big")
    value = lms.hashed(public[8:24], lms.u(r, 4), b"\x82\x82", lms.hashed(front, b"\x80\x80", *ends))
    path = signature[44 + 32 * p:]
    for at in range(0, len(path), 32):
        pair = [path[at:at + 32], value] if r % 2 else [value, path[at:at + 32]]
        r //= 2
        value = lms.hashed(public[8:24], lms.u(r, 4), b"\x83\x83", *pair)
    return value == public[24:]


class Wallets:
    """Runs of the program over new vaults, beside runs of compress_cost."""

    def __init__(self, program, compress, folder):
        self.program = program
        self.compress = compress
        self.folder = folder

    def prepared(self, ots, tree, number, line):
        """A command that puts a new vault into place and answers a line so many times, and the file of these."""
        with open(os.path.join(self.folder, "vault"), "wb") as file:
            file.write(image(ots, tree))
        given = write_lines(os.path.join(self.folder, "lines-%d" % number), [line] * number)
        script = "cp vault sidetree.vault && exec '%s' wallet" % self.program
        return ["sh", "-c", "cd '%s' && %s" % (self.folder, script)], given

    def replies(self, ots, tree, number, line):
        command, given = self.prepared(ots, tree, number, line)
        with open(given, "rb") as source:
            out = subprocess.run(command, stdin=source, stdout=subprocess.PIPE, check=True).stdout
        return out.split(b"\n")[:-1]

    def seconds(self, ots, tree, numbers, line, rounds):
        """The least times of so many lines, for each of the numbers, and that of a compression."""
        runs = []
        for number in (0, *numbers):
            command, given = self.prepared(ots, tree, number, line)
            runs.append((command, given))
        start, *whole, bare = best_times([*runs, ([self.compress],)], rounds)
        return [time - start for time in whole], bare / COMPRESSIONS


def hss_counts(replies, message):
    """The compressions of each of these signatures, and how many lower keys signed."""
    counts, lowers = [], {}
    for reply in replies:
        _, public, signature = map(bytes_of, reply.split(b" "))
        cut = 4 + signature_len(int.from_bytes(public[8:12], "big"), 5)
        upper, lower, last = signature[4:cut], signature[cut:cut + 56], signature[cut + 56:]
        if not (holds(public[4:], lower, upper) and holds(lower, message, last)):
            sys.exit("a signature of two levels does not hold")
        lowers[lower] = signing_cost(public[4:], lower, upper)
        counts.append(signing_cost(lower, message, last))
    return counts, lowers


def two_levels(wallets, number):
    """Prints what so many lines `sign-hss` take, and one of them where the lower key is there."""
    message = b"message"
    line = "sign-hss " + base64.urlsafe_b64encode(message).decode().rstrip("=")
    for ots in (4, 3, 2, 1):
        counts, lowers = hss_counts(wallets.replies(ots, 6, number, line), message)
        upper = list(lowers.values())
        bare = sum(counts) + sum(upper) + (1 + len(upper)) * tree_cost(ots, 5)
        (first, more, whole), compression = wallets.seconds(ots, 6, (1, 32, number), line, 5)
        told("%d lines `sign-hss`, types %d and 6" % (number, ots), whole, bare, compression)
        told("  the first of them", first, 2 * tree_cost(ots, 5) + upper[0] + counts[0], compression)
        told("  each of the 31 behind it", (more - first) / 31, sum(counts[1:32]) / 31, compression)


def signed_in(reply):
    """The public key that a request for an update reveals, what is signed, and the signature."""
    text = reply.partition(b'"signedData":"')[2].partition(b'"')[0]
    front, _, signature = text.rpartition(b".")
    payload = bytes_of(front.partition(b".")[2])
    return bytes_of(payload.partition(b'"pub":"')[2].partition(b'"')[0]), front, bytes_of(signature)


def requests(wallets):
    """Prints what an update takes, by the types of the key, and the tree that a run makes once."""
    line = "update %s - %s" % (SUFFIX, DELTA)
    for tree, number in ((5, 32), (6, 1000)):
        for ots in (4, 3, 2, 1):
            signed = [signed_in(reply) for reply in wallets.replies(ots, tree, number, line)]
            if not all(holds(*one) for one in signed[:32]):
                sys.exit("a signature does not hold")
            counts = [signing_cost(*one) for one in signed]
            (first, whole), compression = wallets.seconds(ots, tree, (1, number), line, 9 if tree == 5 else 3)
            told("the first `update` of a run, types %d and %d, with the tree" % (ots, tree), first,
                 tree_cost(ots, lms.HEIGHTS[tree]) + counts[0], compression)
            told("  each of the %d behind it" % (number - 1), (whole - first) / (number - 1), sum(counts[1:]) / (number - 1),
                 compression)


def told(what, seconds, count, compression):
    times = seconds / (count * compression)
    print("%s: %.3f ms, %.2f times its %d compressions (wanted: %.2f)%s" % (
        what, 1000 * seconds, times, count, WANTED, "" if times <= WANTED else ", MORE"), flush=True)


def main():
    words = sys.argv[1:]
    if len(words) > 2 or any(word.startswith("-") for word in words):
        sys.exit(__doc__.split("\n\n")[1])
    with tempfile.TemporaryDirectory() as built:
        program = os.path.abspath(words[0]) if words else node()[0]
        compress = os.path.abspath(words[1]) if words[1:] else build(built, ["compress_cost"])[0]
        with tempfile.TemporaryDirectory(dir="/dev/shm" if os.path.isdir("/dev/shm") else None) as folder:
            wallets = Wallets(program, compress, folder)
            two_levels(wallets, 1000)
            requests(wallets)


if __name__ == "__main__":
    main()
