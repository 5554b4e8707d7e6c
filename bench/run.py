#!/usr/bin/env python3
"""Measures the built program and its libraries, and prints ratios, each of two times of this one run.

usage: bench/run.py [NAME..] [--from FOLDER] [--instructions]

NAME is one of

    content    content lines, against the bare decoding and hashing of the same bytes
    streams    whole streams, against the bare cost of their bytes and signatures; memory against files
    memory     the memory of many creates, against their files
    resolves   a resolve behind small and great ledgers and histories
    hostile    streams that are made to be costly, against ones of an eighth of the size
    reading    great files of a batch, against the bare reading of their JSON
    submit     requests and their batches, against the bare reading and hashing of the requests; a great flush
               against small ones
    durable    a node with a journal: its opening, against the same lines from standard input; its lines, against
               two syncs of the same disk; a restart
    messages   the messages of an exchange, against an eighth of them
    generate   a workload that a seed makes, against the bare compressions of its keys and signatures
    json, signatures, index, patches, journal    single libraries

and without one all are measured. --from FOLDER measures the streams NAME.in or NAME.in.xz of a folder in
place of generated ones. --instructions also counts instructions for content lines, which takes valgrind and
some minutes. Small programs of bench/programs are built beside a copy of the repository's crates. Times
are the best of three or five of whole processes. Nothing here is part of the gate.
"""
import argparse
import sys
import tempfile

sys.dont_write_bytecode = True
import content
import durable
import generating
import growth
import libraries
import messages
import reading
import streams
import submitting
from measuring import node


def main():
    parser = argparse.ArgumentParser(usage="bench/run.py [NAME..] [--from FOLDER] [--instructions]")
    parser.add_argument("names", nargs="*")
    parser.add_argument("--from", dest="origin")
    parser.add_argument("--instructions", action="store_true")
    options = parser.parse_args()
    measures = {"content": lambda folder: content.measure(folder, options.instructions),
                "streams": lambda folder: streams.measure(folder, options.origin), "memory": streams.memory,
                "resolves": growth.resolves, "hostile": growth.hostile, "reading": reading.measure,
                "submit": submitting.measure, "generate": generating.measure, "messages": messages.measure,
                 "durable": lambda folder: durable.measure(folder, node(), options.origin),
                "json": libraries.json, "signatures": libraries.signatures, "index": libraries.index,
                "patches": libraries.patches, "journal": libraries.journal}
    for name in options.names or measures:
        if name not in measures:
            parser.error("%s is none of %s" % (name, ", ".join(measures)))
    with tempfile.TemporaryDirectory() as folder:
        for name in options.names or measures:
            measures[name](folder)


if __name__ == "__main__":
    main()
