#!/usr/bin/env python3
"""Reads a ledger and asks for identifiers, with the files on disk: an example of a program that drives a node.

usage: examples/ask.py FOLDER [WORD..]

FOLDER/anchors has the entries, FOLDER/files the files under any names, FOLDER/dids the identifiers. The node gets the
entries first, and then only those files for which it asks, until it wants none that is in the folder. An entry that gives
nothing is named, and the status is then 3. WORDs are the program's words in place of `node`. The program is the built one,
or the one that SIDETREE names in the environment.
"""
import json
import os
import sys

sys.dont_write_bytecode = True
sys.path.append(os.path.join(os.path.dirname(os.path.dirname(os.path.abspath(__file__))), "service"))
from client import Node, NodeEnded, Refused
from ledger import Files, fault_of_entry, feed_wanted, lines_of


def tell(node, did):
    """A line on an identifier."""
    word, _, rest = node.ask("resolve " + did)[0].partition(" ")
    if word == "unresolved":
        return "%s is %s" % (did, rest)
    result = json.loads(rest)
    if result["didDocumentMetadata"].get("deactivated", False):
        return did + " is deactivated"
    ends = [service["serviceEndpoint"] for service in result["didDocument"].get("service", [])]
    # An endpoint is a text or an object.
    return "%s has the services %s" % (did, " ".join(end if isinstance(end, str) else json.dumps(end) for end in ends))


def main(folder, *words):
    status = 0
    with Node(*words) as node:
        for line in lines_of(os.path.join(folder, "anchors")):
            n = int(node.expect("anchored", "anchor " + line))
            rule = fault_of_entry(node, n)
            if rule:
                print("ask.py: entry %d gives nothing (%s)" % (n, rule), file=sys.stderr)
                status = 3
        fed, left = feed_wanted(node, Files(os.path.join(folder, "files")))
        print("fed %s files, %d are still wanted" % (" and ".join(map(str, fed)) or "no", left))
        for did in lines_of(os.path.join(folder, "dids")):
            print(tell(node, did))
        return node.end() or status


if __name__ == "__main__":
    if len(sys.argv) < 2:
        sys.exit(__doc__.split("\n\n")[1])
    try:
        sys.exit(main(*sys.argv[1:]))
    except (Refused, NodeEnded, OSError) as stopped:
        sys.exit("ask.py: %s" % stopped)
