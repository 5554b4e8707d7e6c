#!/usr/bin/env python3
"""What the dearest lines that were found cost: each is given to a node of its own, once what it needs is there.

usage: bench/dear.py

Prints for each the length of the line, the most memory that the node had and how many times the line's length that is
more than before it, what the node has afterwards, the processor time of the line, and the reply or the rule that `report` names. The program is the
built one, or the one that SIDETREE names in the environment.
"""
import os
import random
import sys

sys.dont_write_bytecode = True
sys.path.append(os.path.join(os.path.dirname(os.path.dirname(os.path.abspath(__file__))), "service"))
from client import Node
from formats import base64url, canonical, content_line, hash_text

LINE, FILE = 24_000_000, 17_999_994
ABC, NOTHING = hash_text(b"abc"), hash_text(b"")


def nested(opening, closing):
    """A value 120 deep, and a comma."""
    return opening * 120 + b"1" + closing * 120 + b","


SUFFIX_DATA = canonical({"deltaHash": ABC, "recoveryCommitment": NOTHING})
CREATE = b'{"type":"create","suffixData":%s,"delta":{"a":[' % SUFFIX_DATA
LISTS, OBJECTS = nested(b"[", b"]"), nested(b'{"":', b"}")


def many(front, item, end, size):
    """A text of items between a front and an end, as long as fits a size."""
    return front + item * ((size - len(front) - len(end)) // len(item)) + end


def submit(item, size=LINE, front=b"[", end=b"1]"):
    return ["submit " + many(front, item, end, size - 7).decode()]


def resolve(item, front=b"[", end=b"1]"):
    words = "resolve did:sidetree:%s:" % ABC
    return [words + base64url(many(front, item, end, (LINE - len(words)) // 4 * 3))]


def names(size):
    """Members whose names differ, the last name first, which are as many as fit a size."""
    members = [b'"%x":1,' % number for number in range(size // 11)]
    return b"".join(reversed(members))[:-1]


def two_names(size):
    """Members of two names that come in no order, as many as fit a size."""
    drawn, most = random.Random(1), b'"a":1'
    return b",".join(drawn.choices((b'"":1', most), k=size // (len(most) + 1)))


def core_proof(item):
    """An entry with a deactivate, and its proof file."""
    proof = many(b'{"operations":{"deactivate":[', item, item[:-1] + b"]}}", 16_000_000)
    core = canonical({"coreProofFileUri": hash_text(proof),
                      "operations": {"deactivate": [{"didSuffix": ABC, "revealValue": NOTHING}]}})
    return ["anchor 1 1." + hash_text(core), content_line(core), content_line(proof)]


def chunk(front, item, end):
    """An entry with a create, and its chunk file."""
    deltas = many(b'{"deltas":[' + front, item, b"1" + end + b"]}", 10_000_000)
    provisional = canonical({"chunks": [{"chunkFileUri": hash_text(deltas)}]})
    core = canonical({"provisionalIndexFileUri": hash_text(provisional),
                      "operations": {"create": [{"suffixData": {"deltaHash": ABC, "recoveryCommitment": NOTHING}}]}})
    return ["anchor 1 1." + hash_text(core), content_line(core), content_line(provisional), content_line(deltas)]


def core_index(item):
    core = many(b'{"operations":{"create":[', item, b"1]}}", 1_000_000)
    return ["anchor 1 1." + hash_text(core), content_line(core)]


LINES = {
    "submit, lists in lists": submit(LISTS),
    "submit, objects in objects": submit(OBJECTS),
    "submit, 12,000,000 numbers": submit(b"1,"),
    "submit, lists in lists, 65,536 bytes": submit(LISTS, 65_536),
    "submit, the same under names out of order": submit(LISTS, LINE, b'{"b":1,"a":[', b"1]}"),
    "submit, the same under a name that stands twice": submit(LISTS, LINE, b'{"a":1.5,"a":[', b"1]}"),
    "submit, the same and a number that isn't whole": submit(LISTS, LINE, b"[", b"1.5]"),
    "submit, the same and no end": submit(LISTS, LINE, b"[", b"1"),
    "submit, names out of order alone": ["submit {" + names(LINE - 9).decode() + "}"],
    "submit, names out of order in a list": ["submit [{" + names(LINE - 11).decode() + "}]"],
    "submit, the same two objects deep": ['submit {"b":1,"a":{"b":1,"a":{' + names(LINE - 40).decode() + "}}}"],
    "submit, one name 4,799,998 times": submit(b'"":1,', LINE, b"{", b'"":1}'),
    "submit, two names in no order": ["submit {" + two_names(LINE - 9).decode() + "}"],
    "submit, numbers under names out of order 100 deep": submit(b"1,", LINE, b'{"b":1,"a":' * 100 + b"[", b"1]" + b"}" * 100),
    "submit, a delta of lists in lists": submit(LISTS, LINE, CREATE, b"1]}}"),
    "resolve, lists in lists": resolve(LISTS),
    "resolve, a delta of lists in lists": resolve(LISTS, b'{"delta":{"a":[', b'1]},"suffixData":%s}' % SUFFIX_DATA),
    "core proof file, lists in lists": core_proof(LISTS),
    "core proof file, empty proofs": core_proof(b'{"signedData":""},'),
    "chunk file, 5,000,000 deltas": chunk(b"", b"1,", b""),
    "chunk file, one delta of lists in lists": chunk(b"[", LISTS, b"]"),
    "core index file, lists in lists": core_index(LISTS),
    "anchor": ["anchor 1 " + "a" * (LINE - 9)],
}


def of_process(node, name):
    """A figure of /proc: memory in MiB, or processor time in seconds."""
    if name == "time":
        with open("/proc/%d/stat" % node.process.pid, encoding="ascii") as file:
            return sum(map(int, file.read().split()[13:15])) / os.sysconf("SC_CLK_TCK")
    with open("/proc/%d/status" % node.process.pid, encoding="ascii") as file:
        return next(int(line.split()[1]) / 1024 for line in file if line.startswith(name + ":"))


def main():
    for name, lines in LINES.items():
        with Node() as node:
            for line in lines[:-1]:
                node.ask(line)
            began, before = of_process(node, "time"), of_process(node, "VmRSS")
            reply = node.ask(lines[-1])[0]
            took = of_process(node, "time") - began
            most = of_process(node, "VmHWM")
            times = (most - before) * 2 ** 20 / len(lines[-1])
            figures = len(lines[-1]), most, times, of_process(node, "VmRSS"), took
            if reply.startswith("have"):
                reply = node.ask("report 0")[0]
        print("%-56s %10d bytes %6.0f MiB %5.1f times %6.0f MiB stay %5.1f s  %s" % (name, *figures, reply[:60]), flush=True)


if __name__ == "__main__":
    main()
