#!/usr/bin/env python3
"""Proves and builds a crate and those that it stands on, several side by side.

usage: launcher/build.py TOP NAME [COMMAND WORD..]

TOP is the repository, NAME a crate of its crates.txt. Where all is built it becomes the command, or ends with
status 0 where there is none; else it ends with status 9. What is going on is said on standard error.

A command `rt` locks the folders of all crates below the one that it works on, so two of them in one checkout
wait for each other. So each crate is proved in a lane: a folder of its own with copies of the crate and of the
crates below. What was built of those comes along as second names of the same files. What the lane leaves goes
into the checkout, where later commands find it done.

It forecasts from the file times beside it, which has the seconds that each crate took in a first build, as the lines
'NAME: built in M:SS' told them.
"""
import fcntl
import heapq
import os
import random
import shutil
import signal
import subprocess
import sys
import time

# The memory that a check may need, in bytes, and the seconds until it has taken most of it.
A_CHECK = 2_000_000_000
GROWING = 60
# The memory of the crate that needs most.
THE_LARGEST = 4_200_000_000
# Above so many seconds it names `try`.
WORTH_A_TRY = 180
# The seconds that `sorting` took on the machine of the file times.
SORTING = 0.068
# How many lines of a failing check are shown.
LAST_LINES = 30


# The levels of x86-64 that the program may be built for. The second has AVX2, and needs these flags of Linux.
PORTABLE, WITH_AVX2 = "x86-64-v2", "x86-64-v3"
FLAGS = {"avx2", "bmi1", "bmi2", "f16c", "fma", "abm", "movbe"}


def say(text):
    print("sidetree: " + text, file=sys.stderr, flush=True)


def clock(seconds):
    return "%d:%02d" % divmod(round(seconds), 60)


def minutes(seconds):
    """A forecast in words, by fives where it is long."""
    number = max(1, round(seconds / 60))
    number = number if number < 10 else round(number / 5) * 5
    return "about %d minute%s" % (number, "" if number == 1 else "s")


def sorting():
    """The seconds that a sort takes here: how fast one processor is."""
    numbers = random.Random(1)
    numbers = [numbers.random() for _ in range(200_000)]
    taken = []
    for _ in range(5):
        began = time.perf_counter()
        sorted(numbers)
        taken.append(time.perf_counter() - began)
    return min(taken)


def times_of(file):
    """The seconds of each crate in the file times."""
    with open(file, encoding="utf-8") as text:
        rows = [line.split() for line in text if not line.startswith("#")]
    return {name: float(seconds) for name, seconds in rows}


def crates_of(file):
    """The crates of crates.txt, each with its line and with the crates that it names, in the file's order."""
    lines = {}
    with open(file, encoding="utf-8") as text:
        for line in text:
            name, _, uses = line.partition("#")[0].partition(":")
            if name.strip():
                lines[name.split()[0]] = (line.strip(), uses.replace(",", " ").split())
    return {name: (line, [use for use in uses if use in lines]) for name, (line, uses) in lines.items()}


def below(crates, name, found=None):
    """The crates that this one stands on, itself among them."""
    found = set() if found is None else found
    if name not in found:
        found.add(name)
        for use in crates[name][1]:
            below(crates, use, found)
    return found


def sources(folder):
    """The files of a crate's folder that it is built of."""
    for at, folders, names in os.walk(folder):
        folders[:] = [name for name in folders if name != "out"]
        yield from (os.path.join(at, name) for name in names if name != "README.md")


def memory():
    """How many bytes are free, or None where the system doesn't tell."""
    try:
        with open("/proc/meminfo", encoding="ascii") as file:
            return next(int(line.split()[1]) * 1024 for line in file if line.startswith("MemAvailable:"))
    except (OSError, StopIteration):
        return None


def level_of_processor():
    """The level that SIDETREE_CPU asks for, else the highest that this machine has."""
    try:
        with open("/proc/cpuinfo", encoding="ascii") as file:
            flags = next((set(line.split()) for line in file if line.startswith("flags")), set())
    except OSError:
        flags = set()
    return os.environ.get("SIDETREE_CPU") or (WITH_AVX2 if FLAGS <= flags else PORTABLE)


def has_room(running, needed=A_CHECK):
    """Whether one more check fits beside those that are running: there is a processor, and memory for it and
    for those that have just begun."""
    growing = sum(time.time() - lane.began < GROWING for lane in running)
    free = memory()
    return not running or (len(running) < len(os.sched_getaffinity(0))
                           and (free is None or free > (growing + 1) * needed))


def second_name(one, other):
    """A copy that shares the file. Builds replace such files, and never write into them."""
    try:
        os.link(one, other)
    except OSError:
        shutil.copy2(one, other)


def second_name_of_proof(one, other):
    """The same for kept proofs, among which only those files are never written into."""
    if one.endswith(".oantt"):
        second_name(one, other)
    else:
        shutil.copy2(one, other)


def put_in_place(made, place):
    """Moves a file or folder to where an older one may be."""
    if os.path.isdir(place):
        shutil.rmtree(place)
    os.makedirs(os.path.dirname(place), exist_ok=True)
    os.replace(made, place)


class Lane:
    """A crate that is being proved, in a folder of its own."""

    def __init__(self, build, name):
        self.name, self.began = name, time.time()
        self.folder = os.path.join(build.lanes, name)
        self.crate = os.path.join(self.folder, "crates", name)
        self.place = os.path.join(build.crates_folder, name)
        self.log = os.path.join(self.folder, "log")
        self._copy(build)
        words = ["rt", "run", "--jobs", build.jobs(), *build.for_processor(), "--", "node"]
        if not os.path.exists(os.path.join(self.crate, "src", "main.rt")):
            words = ["rt", "lib", "--jobs", build.jobs()]
        with open(self.log, "wb") as log:
            self.process = subprocess.Popen(words, cwd=self.crate, stdin=subprocess.DEVNULL, stdout=log,
                                            stderr=subprocess.STDOUT, start_new_session=True)

    def _copy(self, build):
        names = below(build.crates, self.name)
        for name in names:
            origin, copy = (os.path.join(folder, name) for folder in (build.crates_folder, os.path.join(self.folder, "crates")))
            shutil.copytree(origin, copy, ignore=shutil.ignore_patterns("out"))
            if os.path.isdir(os.path.join(origin, "out", "rlib")):
                shutil.copytree(os.path.join(origin, "out", "rlib"), os.path.join(copy, "out", "rlib"), copy_function=second_name)
        kept = os.path.join(self.place, "out", "incremental")
        if os.path.isdir(kept):
            shutil.copytree(kept, os.path.join(self.crate, "out", "incremental"), copy_function=second_name_of_proof)
        with open(os.path.join(self.folder, "crates.txt"), "w", encoding="utf-8") as file:
            file.write("".join(line + "\n" for name, (line, _) in build.crates.items() if name in names))

    def hand_over(self):
        """Puts what was built into the checkout, as of the time at which the lane began."""
        stamp = os.path.join(self.crate, "out", "rlib", "stamp")
        if os.path.exists(stamp):
            os.utime(stamp, (self.began, self.began))
        for name in os.listdir(os.path.join(self.crate, "out")):
            put_in_place(os.path.join(self.crate, "out", name), os.path.join(self.place, "out", name))
        shutil.rmtree(self.folder)

    def last_lines(self):
        with open(self.log, encoding="utf-8", errors="replace") as log:
            return log.read().splitlines()[-LAST_LINES:]

    def stop(self):
        """Ends the check. What `rt` has started ends with it."""
        if self.process.poll() is None:
            self.process.terminate()
            self.process.wait()


class Build:
    """The crates that are left, and the lanes that are running."""

    def __init__(self, top, name):
        self.crates_folder = os.path.join(top, "crates")
        self.lanes = os.path.join(self.crates_folder, name, "out", "lanes")
        self.crates = crates_of(os.path.join(top, "crates.txt"))
        self.level = level_of_processor()
        self.names = below(self.crates, name)
        self.times = self._times()
        self.done = {one for one in self.crates if one in self.names and one != name and self.is_done(one)}
        # A crate counts as done only over crates that do.
        while True:
            kept = {one for one in self.done if set(self.crates[one][1]) <= self.done}
            if kept == self.done:
                break
            self.done = kept
        self.left = [one for one in self.crates if one in self.names - self.done]
        self.running = []
        self.whole = sum(self.times[one] for one in self.left)
        # The seconds of the file times that are over, and those that they took here. It begins with a guess for a minute.
        self.expected, self.took = 60, 60 * sorting() / SORTING
        self.chains = {}

    def _times(self):
        """The seconds of each crate in the file times, or by the size of its sources where it has none there."""
        known = times_of(os.path.join(os.path.dirname(os.path.abspath(__file__)), "times"))
        sizes = {one: sum(map(os.path.getsize, sources(self.folder_of(one)))) for one in self.names}
        both = [one for one in self.names if one in known]
        rate = sum(known[one] for one in both) / max(1, sum(sizes[one] for one in both)) or 1 / 1000
        return {one: known.get(one, sizes[one] * rate) for one in self.names}

    def folder_of(self, name):
        return os.path.join(self.crates_folder, name)

    def stamp_of(self, name):
        return os.path.join(self.folder_of(name), "out", "rlib", "stamp")

    def is_done(self, name):
        """Whether its library is newer than its sources and than the libraries below. `rt` looks at what they
        are, so a wrong yes costs time and nothing else."""
        try:
            made = os.path.getmtime(self.stamp_of(name))
            return all(os.path.getmtime(file) <= made for file in sources(self.folder_of(name))) and all(
                os.path.getmtime(self.stamp_of(use)) <= made for use in self.crates[name][1])
        except OSError:
            return False

    def chain(self, name):
        """The seconds along the longest chain that begins with this crate."""
        if name not in self.chains:
            above = [self.chain(one) for one in self.names if name in self.crates[one][1]]
            self.chains[name] = self.times[name] + max(above, default=0)
        return self.chains[name]

    def next_of(self, left, done):
        """The crate to begin with next of these, or None."""
        ready = [one for one in left if set(self.crates[one][1]) <= done]
        return max(ready, key=self.chain, default=None)

    def forecast(self):
        """The seconds that all that is left will take, with so many lanes as there are processors and memory for."""
        now, free, pace = time.time(), memory(), self.took / self.expected
        lanes = len(os.sched_getaffinity(0))
        if free is not None:
            lanes = min(lanes, max(1, len(self.running) + free // A_CHECK))
        ends = [(max(0, lane.began - now + self.times[lane.name] * pace), lane.name) for lane in self.running]
        heapq.heapify(ends)
        done, at = set(self.done), 0
        left = [one for one in self.left if all(lane.name != one for lane in self.running)]
        while ends or left:
            name = self.next_of(left, done) if len(ends) < lanes else None
            if name is None:
                at, name = heapq.heappop(ends)
                done.add(name)
            else:
                left.remove(name)
                heapq.heappush(ends, (at + self.times[name] * pace, name))
        return at

    def progress(self):
        """How much is done, and when the rest will be."""
        if not self.left:
            return "100% done"
        share = 1 - sum(self.times[one] for one in self.left) / self.whole
        return "%d%% done, %s left" % (100 * share, minutes(self.forecast()))

    def for_processor(self):
        """What `rt` is told of the processor that the program is for."""
        return [] if self.level == PORTABLE else ["--cpu=" + self.level]

    def jobs(self):
        """How many jobs the next check gets: a share of the processors."""
        return str(max(1, len(os.sched_getaffinity(0)) // (len(self.running) + 1)))

    def begin(self):
        """Begins whatever has room."""
        while has_room(self.running):
            running = [lane.name for lane in self.running]
            name = self.next_of([one for one in self.left if one not in running], self.done)
            if name is None:
                break
            say("%s: proving and building" % name)
            self.running.append(Lane(self, name))

    def end(self, lane):
        """Takes in a lane that has ended, and gives whether its crate was built."""
        self.running.remove(lane)
        seconds = time.time() - lane.began
        took = clock(seconds)
        if lane.process.returncode:
            say("%s failed after %s. Its last lines:" % (lane.name, took))
            print("\n".join(lane.last_lines()), file=sys.stderr, flush=True)
            return False
        lane.hand_over()
        self.left.remove(lane.name)
        self.done.add(lane.name)
        self.took, self.expected = self.took + seconds, self.expected + self.times[lane.name]
        say("%s: built in %s, %s" % (lane.name, took, self.progress()))
        return True

    def announce(self):
        """Says what the build takes on this machine, before it begins."""
        seconds, free = self.forecast(), memory()
        say("%d crate%s to prove and build, in %s on this machine. The largest takes %.1f GB of memory%s" % (
            len(self.left), "" if len(self.left) == 1 else "s", minutes(seconds), THE_LARGEST / 1e9,
            "" if free is None else "; %.1f GB are free" % (free / 1e9)))
        if seconds > WORTH_A_TRY:
            say("`sidetree try` answers a session in one to three minutes, without a proof")

    def run(self):
        """Gives whether all was built."""
        began = time.time()
        self.announce()
        shutil.rmtree(self.lanes, ignore_errors=True)
        try:
            while self.left:
                self.begin()
                time.sleep(0.1)
                for lane in [one for one in self.running if one.process.poll() is not None]:
                    if not self.end(lane):
                        return False
        finally:
            for lane in self.running:
                lane.stop()
            shutil.rmtree(self.lanes, ignore_errors=True)
        say("all is built, in %s" % clock(time.time() - began))
        return True


class Interrupted(Exception):
    """A signal that ends the launcher."""


def interrupt(number, _):
    raise Interrupted(number)


def die_of(number):
    signal.signal(number, signal.SIG_DFL)
    os.kill(os.getpid(), number)


def lock(file):
    """Keeps other launchers from building in this checkout, and gives the lock, or waits for the one that does
    and gives None."""
    held = open(file, "rb")
    try:
        fcntl.flock(held, fcntl.LOCK_EX | fcntl.LOCK_NB)
        return held
    except BlockingIOError:
        say("waiting for another launcher, which builds")
        fcntl.flock(held, fcntl.LOCK_EX)
        return None


def commit_of(top):
    """The commit of a checkout, with a word if files differ from it."""
    found = subprocess.run(["git", "-C", top, "describe", "--always", "--dirty"], stdout=subprocess.PIPE,
                           stderr=subprocess.DEVNULL, stdin=subprocess.DEVNULL, text=True, check=False) if shutil.which("git") else None
    return found.stdout.strip() if found and found.stdout.strip() else "of no commit that git knows"


def keep_origin(folder, commit, level):
    """Writes down of which commit the program is, for which processors, and which kit has proved it, for
    `sidetree --version`."""
    for what, text in (("commit", commit), ("level", level)):
        with open(os.path.join(folder, what), "w", encoding="utf-8") as kept:
            kept.write(text + "\n")
    with open(os.path.join(folder, "kit"), "wb") as kept:
        subprocess.run(["rt", "version"], stdout=kept, stdin=subprocess.DEVNULL, check=False)


def build(top, name):
    """Gives whether the crate is built, now or by another launcher."""
    if shutil.which("rt") is None:
        say("the kit's command rt is not on the path")
        return False
    held = lock(os.path.join(top, "crates.txt"))
    began, commit = time.time(), commit_of(top)
    work = Build(top, name) if held else None
    if work and not work.run():
        return False
    program = os.path.join(top, "crates", name, "out", name)
    if held and os.path.exists(program):
        # What is saved while it builds is newer, and is built next time.
        os.utime(program, (began, began))
        keep_origin(os.path.dirname(program), commit, work.level)
    return True


def main(top, name, *then):
    for number in (signal.SIGINT, signal.SIGTERM, signal.SIGHUP):
        signal.signal(number, interrupt)
    try:
        is_built = build(os.path.abspath(top), name)
    except Interrupted as signalled:
        say("stopped")
        return die_of(signalled.args[0])
    except OSError as error:
        say(str(error))
        is_built = False
    if is_built and then:
        os.execv(then[0], then)
    return 0 if is_built else 9


if __name__ == "__main__":
    sys.exit(main(*sys.argv[1:]))
