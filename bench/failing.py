#!/usr/bin/env python3
"""Fails each call of the system of the built program in turn, one run for each, over sessions of each command.

usage: bench/failing.py

The calls are reads of standard input, writes to standard output, each of at most 61 bytes, and whatever is done with the
file of the vault or of the journal. A run whose call fails must end with status 2, 3 or 4 by its kind, and a prefix of the
replies. The disk must have the records and the counters of the whole run, from the first on: those of the replies, and at
most one more. It needs gcc, and ends with status 1 where a run is wrong.
"""
import os
import subprocess
import sys
import tempfile

sys.dont_write_bytecode = True
from measuring import TOP, node
from refusing import Journalled, SIGNED, WORKLOAD, example, run, wallet_run

# The kinds of calls, each with the status of a run in which one fails.
KINDS = {"read": 2, "write": 3, "disk": 4}
# No session has lines of so many bytes alone, so lines are cut everywhere.
PIECES = "61"


def library(folder):
    made = os.path.join(folder, "failing.so")
    source = os.path.join(TOP, "bench", "programs", "failing.c")
    subprocess.run(["gcc", "-O1", "-shared", "-fPIC", "-o", made, source, "-ldl"], check=True)
    return made


def failed(command, given, shim, how, kind):
    """How many calls of the kind there are, and the first number whose run ends neither as it must nor whole."""
    status, whole = how(command, given, shim, 0)
    if status:
        sys.exit("the whole run ends with status %d" % status)
    number, missed = 0, 0
    while missed < 2:
        number += 1
        os.environ["FAILED"] = "%s %d" % (kind, number)
        ended, replies = how(command, given, shim, number)
        del os.environ["FAILED"]
        if ended == KINDS[kind] and whole.startswith(replies):
            missed = 0
        elif (ended, replies) == (0, whole):
            missed += 1
        else:
            return number, (ended, len(replies))
    return number - 2, None


def main():
    command, is_well = node(), True
    program = command[0]
    runs = [("a node", command, example("whole"), run),
            ("a node with a journal", [*command, "--journal"], example("life"), Journalled()),
            ("a wallet", [program, "wallet"], SIGNED, wallet_run),
            ("an exchange", [program, "exchange"], example("exchange"), run),
            ("a workload", [program, *WORKLOAD], b"", run)]
    with tempfile.TemporaryDirectory() as folder:
        shim = library(folder)
        os.environ["PIECES"] = PIECES
        for name, words, given, how in runs:
            for kind in KINDS:
                count, wrong = failed(words, given, shim, how, kind)
                if wrong is None:
                    print("%s: %d calls of the kind `%s`, each as it must be" % (name, count, kind))
                else:
                    is_well = False
                    print("%s: call %d of the kind `%s` ends with status %d and %d bytes" % (name, count, kind, *wrong))
    sys.exit(0 if is_well else 1)


if __name__ == "__main__":
    main()
