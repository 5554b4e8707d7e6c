#!/usr/bin/env python3
"""Shows what a stop costs: at most one counter of a wallet, and at most one record of a journal, without its reply.

usage: bench/stops.py [PROGRAM]

A wallet gets 30 requests at once, and a node with a journal 2,000 files. The reader goes away after the first reply, 20
times each, after another pause each time. A pipe holds replies that nobody has read, so the program is halted first,
the pipe is drained, and what was in it counts as written; then the pipe is closed, and the program goes on. PROGRAM is
the built node; without one it is built by the launcher. The status is 1 if a run spent or recorded more than one line
beyond the replies that it began to write, or fewer.
"""
import base64
import os
import signal
import subprocess
import sys
import tempfile
import time

sys.dont_write_bytecode = True
from measuring import node
from refusing import MAP_AT, records

RUNS = 20
REQUESTS, FILES = 30, 2_000
FORMAT = b"format 3 5 %s %s\n" % (b"01" * 16, b"23" * 32)
DELTA = (b'{"patches":[{"action":"add-services","services":[{"id":"home","type":"Site","serviceEndpoint":'
         b'"https://example.com/"}]}],"updateCommitment":"%s"}')
# Any hash text will do for a suffix: a wallet can't know which identifiers exist.
SUFFIX = b"EiDRLiRtCcHZplSvbRYklh6PNjh030q5zwRMZQPzhSLvzg"


def answered(command, folder, lines):
    """The replies to these lines, whole."""
    return subprocess.run(command, cwd=folder, input=lines, stdout=subprocess.PIPE, check=True).stdout


def begun_before_the_reader_went(command, folder, lines, pause):
    """How many replies were begun in all that the pipe was given before it was closed."""
    ended, lent = os.pipe()
    with subprocess.Popen(command, cwd=folder, stdin=subprocess.PIPE, stdout=lent) as run:
        os.close(lent)
        run.stdin.write(lines)
        run.stdin.close()
        replies = b""
        while b"\n" not in replies:
            replies += os.read(ended, 1)
        time.sleep(pause)
        # (`send_signal` would take in the status of a program that has ended, and nothing would be left to wait for)
        os.kill(run.pid, signal.SIGSTOP)
        os.waitid(os.P_PID, run.pid, os.WSTOPPED | os.WEXITED | os.WNOWAIT)
        os.set_blocking(ended, False)
        try:
            while piece := os.read(ended, 65_536):
                replies += piece
        except BlockingIOError:
            pass
        os.close(ended)
        run.send_signal(signal.SIGCONT)
    return replies.count(b"\n") + (not replies.endswith(b"\n"))


def wallet(command, folder, pause):
    """How many counters are spent, and how many replies were begun."""
    answered(command, folder, FORMAT)
    commitment = answered(command, folder, b"key -\n").split()[2]
    request = b"update %s - %s\n" % (SUFFIX, DELTA % commitment)
    begun = begun_before_the_reader_went(command, folder, request * REQUESTS, pause)
    with open(os.path.join(folder, "sidetree.vault"), "rb") as file:
        return sum(map(bool, file.read()[MAP_AT:])), begun


def journal(command, folder, pause):
    """How many lines are recorded, and how many replies were begun."""
    files = (base64.urlsafe_b64encode(b"file %d" % n).rstrip(b"=") for n in range(FILES))
    begun = begun_before_the_reader_went(command, folder, b"".join(b"content %s\n" % file for file in files), pause)
    return len(records(os.path.join(folder, "sidetree.journal"))), begun


def main():
    program = os.path.abspath(sys.argv[1]) if len(sys.argv) > 1 else node()[0]
    is_well = True
    for name, words, run, most, longest in (("a wallet", ["wallet"], wallet, REQUESTS, 0.02),
                                            ("a node with a journal", ["node", "--journal"], journal, FILES, 0.2)):
        left, early = [], 0
        for number in range(RUNS):
            with tempfile.TemporaryDirectory() as folder:
                done, begun = run([program, *words], folder, longest * number / RUNS)
            left.append(done - begun)
            early += begun < most
        is_well = is_well and all(0 <= one <= 1 for one in left)
        print("%s: %d of %d runs lost their reader before the last reply; lines done without a reply: %s"
              % (name, early, RUNS, " ".join(map(str, left))), flush=True)
        is_well = is_well and early > 0
    sys.exit(0 if is_well else 1)


if __name__ == "__main__":
    main()
