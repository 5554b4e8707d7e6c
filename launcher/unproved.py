#!/usr/bin/env python3
"""Runs the program, or all tests and example sessions, without any proof.

usage: launcher/unproved.py TOP try node [--limit=N] [--v2-at=H]
       launcher/unproved.py TOP try exchange
       launcher/unproved.py TOP test

TOP is the repository; the launcher has judged the words. `rt try` compiles what it runs each time, with all checks
and no optimization, and keeps nothing.

`try` reads a session from standard input to its end, and then writes its replies, and nothing else, to standard
output. It ends with the program's status, or with 9 if there was none.

`test` runs the tests of each crate and the example sessions, several crates side by side. It prints a line for each
crate and, above it, each failure with what `rt try` said of it. The last line is 'N passed, M failed'. It ends with 0
if nothing failed, else with 1. It leaves out the crate of slow tests, and says so.
"""
import glob
import os
import re
import shutil
import signal
import subprocess
import sys
import tempfile
import time

from build import Interrupted, clock, crates_of, die_of, has_room, interrupt, say, sources

PROGRAM = "st_cli"
# Its tests take minutes each without optimization. The gate runs them.
SLOW = "st_slow_tests"
# The seconds that a test or a session may take, on a machine that others use too, and the bytes of memory of a run.
LIMIT = "900"
A_TRY = 4_500_000_000


class Try:
    """A run of `rt try` in a crate's folder."""

    def __init__(self, top, crate, *words, **streams):
        self.crate, self.began = crate, time.time()
        self.process = subprocess.Popen(["rt", "try", "--seconds", LIMIT, *words],
                                        cwd=os.path.join(top, "crates", crate), **streams)

    def stop(self):
        """Ends it, with all that `rt` has started."""
        if self.process.poll() is None:
            self.process.terminate()
            self.process.wait()


def answer(top, *words):
    """Answers a session, and gives the status."""
    say("UNPROVED: this run proves nothing. The replies come one to three minutes after the end of the input")
    session = sys.stdin.buffer.read()
    run = Try(top, PROGRAM, "--", *words, stdin=subprocess.PIPE, stderr=subprocess.PIPE)
    try:
        said = run.process.communicate(session)[1].decode(errors="replace")
    finally:
        run.stop()
    ended = re.search(r"^(?:checked: .*\n)?run=ended status=([0-8]) .*\n\Z", said, re.M)
    print(said[:ended.start()] if ended else said, end="", file=sys.stderr)
    if not ended:
        say("UNPROVED: the run failed and gave no replies")
        return 9
    say("UNPROVED: these replies prove nothing. `sidetree %s` proves the program first" % " ".join(words))
    return int(ended[1])


def has_tests(crate):
    """Whether a crate has a test, by its text."""
    for file in sources(os.path.join(crate, "src")):
        with open(file, encoding="utf-8") as text:
            if re.search(r"^\s*#\[test\]", text.read(), re.M):
                return True
    return False


def lay_out(examples, folder):
    """Copies the example sessions to a folder, in the form that `rt try --cases` takes, and gives how many."""
    sessions = [given[:-len(".in")] for given in glob.glob(os.path.join(glob.escape(examples), "*.in"))]
    for session in sessions:
        case = os.path.join(folder, os.path.basename(session))
        shutil.copyfile(session + ".in", case)
        shutil.copyfile(session + ".out", case + ".stdout")
        if os.path.exists(session + ".args"):
            shutil.copyfile(session + ".args", case + ".args")
        else:
            with open(case + ".args", "w", encoding="utf-8") as words:
                words.write("node\n")
    return len(sessions)


class Trial(Try):
    """A run of tests or of sessions, whose outcomes are counted when it has ended."""

    def __init__(self, top, what, wanted, crate, *words):
        self.what, self.wanted, self.said = what, wanted, tempfile.TemporaryFile()
        super().__init__(top, crate, *words, stdin=subprocess.DEVNULL, stdout=self.said, stderr=self.said)

    def outcomes(self, said):
        """Of each test and session: its name, whether it passed, and what was said of it."""
        for name, word, more in re.findall(r"^test (\S+) \.\.\. (\S+)\n((?: {4}.*\n)*)", said, re.M):
            yield "%s %s" % (self.what, name), word == "ok", more
        for more, name, end in re.findall(r"((?:(?!case=).*\n)*)case=(\S+) (.*\n)", said):
            yield "examples/%s.in" % name, end.startswith("run=ended status=0 ") and "output=expected" in end, more + end

    def show(self):
        """Prints the failures and the crate's line, and gives how many passed and how many failed."""
        self.said.seek(0)
        said = self.said.read().decode(errors="replace")
        found = list(self.outcomes(said))
        failures = [(name, more) for name, passes, more in found if not passes]
        passed = len(found) - len(failures)
        told = re.search(r"^tests: (\d+)$", said, re.M)
        wanted = int(told[1]) if told else self.wanted
        if len(found) != wanted or (self.process.returncode and not failures):
            ran = "%d of %d ran" % (len(found), wanted) if found else "nothing ran"
            failures.append(("%s: %s, and rt ended with status %d" % (self.what, ran, self.process.returncode), said))
        for name, more in failures:
            print("failed %s\n%s" % (name, more.rstrip("\n")))
        print("%s: %d passed, %d failed, in %s" % (self.what, passed, len(failures), clock(time.time() - self.began)),
              flush=True)
        return passed, len(failures)


def test(top):
    """Tries all tests and sessions, the crates that take longest first, and gives the status."""
    began, running, passed, failed = time.time(), [], 0, 0
    crates = [crate for crate in reversed(list(crates_of(os.path.join(top, "crates.txt"))))
              if has_tests(os.path.join(top, "crates", crate))]
    with tempfile.TemporaryDirectory() as folder:
        sessions = lay_out(os.path.join(top, "examples"), folder)
        left = [("example sessions", sessions, PROGRAM, "--cases", folder)]
        crates.sort(key=lambda crate: crate != PROGRAM)
        left += [(crate, 1, crate, "--test") for crate in crates if crate != SLOW]
        say("UNPROVED: this run proves nothing. It runs `rt try` %d times, which takes minutes" % len(left))
        if SLOW in crates:
            say("%s is left out: its tests take minutes each without optimization. `.ci/run` runs them" % SLOW)
        try:
            while left or running:
                while left and has_room(running, A_TRY):
                    running.append(Trial(top, *left.pop(0)))
                time.sleep(0.1)
                for run in [one for one in running if one.process.poll() is not None]:
                    running.remove(run)
                    counted = run.show()
                    passed, failed = passed + counted[0], failed + counted[1]
        finally:
            for run in running:
                run.stop()
    say("UNPROVED: done in %s. `.ci/run` proves everything" % clock(time.time() - began))
    print("%d passed, %d failed" % (passed, failed), flush=True)
    return 1 if failed else 0


def main(top, form, *words):
    for number in (signal.SIGINT, signal.SIGTERM, signal.SIGHUP):
        signal.signal(number, interrupt)
    if shutil.which("rt") is None:
        say("the kit's command rt is not on the path")
        return 9
    try:
        return test(top) if form == "test" else answer(top, *words)
    except Interrupted as signalled:
        say("stopped")
        return die_of(signalled.args[0])
    except OSError as error:
        say(str(error))
        return 9


if __name__ == "__main__":
    sys.exit(main(*sys.argv[1:]))
