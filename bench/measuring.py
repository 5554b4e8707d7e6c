"""Times and memory of whole processes, and the small programs that ours is measured against."""
import os
import re
import resource
import shutil
import subprocess
import sys
import time

# A disk refuses a file that group may write, as some users make it.
os.umask(0o022)

TOP = os.path.dirname(os.path.dirname(os.path.abspath(__file__)))
# The programs of bench/programs, and what each stands on.
PROGRAMS = {"bare_cost": "base64 memchr sha2", "compress_cost": "sha2 anyhow", "json_cost": "st_base st_canon",
            "lms_cost": "st_base st_lms sha2 anyhow", "index_cost": "st_base st_opindex anyhow",
            "patch_cost": "st_base st_canon st_doc st_params anyhow",
            "files_cost": "st_base st_datafiles st_indexfiles st_params serde_json anyhow",
            "submit_cost": "serde_json sha2 anyhow", "disk_probe": "st_io",
            "journal_cost": "st_base st_io st_journal anyhow"}


def node():
    """The command of the built node. The launcher builds it, and is left out of what is measured."""
    subprocess.run([os.path.join(TOP, "sidetree"), "node"], stdin=subprocess.DEVNULL, check=True)
    return [os.path.join(TOP, "crates", "st_cli", "out", "st_cli"), "node"]


def build(folder, names):
    """The paths of these programs, each built once beside a copy of the repository's crates."""
    crates = os.path.join(folder, "crates")
    if not os.path.isdir(crates):
        shutil.copytree(os.path.join(TOP, "crates"), crates, ignore=shutil.ignore_patterns("out"))
    with open(os.path.join(TOP, "crates.txt")) as file:
        listed = file.read()
    for name in names:
        source = os.path.join(crates, name, "src")
        os.makedirs(source, exist_ok=True)
        shutil.copyfile(os.path.join(TOP, "bench", "programs", name + ".txt"), os.path.join(source, "main.rt"))
        listed += "%s: %s\n" % (name, PROGRAMS[name])
    with open(os.path.join(folder, "crates.txt"), "w") as file:
        file.write(listed)
    return [_built(os.path.join(crates, name)) for name in names]


def _built(crate):
    done = subprocess.run(["rt", "run"], cwd=crate, stdin=subprocess.DEVNULL, stdout=subprocess.PIPE, stderr=subprocess.STDOUT)
    path = os.path.join(crate, "out", os.path.basename(crate))
    if not os.path.exists(path):
        sys.exit("%s was not built:\n%s" % (crate, done.stdout.decode()[-2000:]))
    return path


def scheduled_seconds(pid):
    """The processor time of a process of one thread by the scheduler's count, or None where that isn't told."""
    try:
        with open("/proc/%d/schedstat" % pid, encoding="ascii") as file:
            return int(file.read().split()[0]) / 1e9
    except (OSError, ValueError, IndexError):
        return None


def processor_seconds(command, given=os.devnull, most=None, folder=None):
    """User and system time of one run in a folder, which is ended after `most` seconds. The scheduler's count is taken
    where there is one: what `getrusage` tells comes in steps of 10 ms on some machines."""
    before = resource.getrusage(resource.RUSAGE_CHILDREN)
    began = time.monotonic()
    with open(given, "rb") as source, open(os.devnull, "wb") as sink:
        run = subprocess.Popen(command, stdin=source, stdout=sink, cwd=folder)
    while os.waitid(os.P_PID, run.pid, os.WEXITED | os.WNOWAIT | os.WNOHANG) is None:
        if most is not None and time.monotonic() > began + most:
            run.kill()
            run.wait()
            raise subprocess.TimeoutExpired(command, most)
        time.sleep(0.001)
    counted = scheduled_seconds(run.pid)
    if run.wait():
        raise subprocess.CalledProcessError(run.returncode, command)
    after = resource.getrusage(resource.RUSAGE_CHILDREN)
    return counted or after.ru_utime - before.ru_utime + after.ru_stime - before.ru_stime


def best_times(runs, rounds=3):
    """The least processor time of each run, a command and the file that it is given. They take turns."""
    times = [[processor_seconds(*run) for run in runs] for _ in range(rounds)]
    return [min(column) for column in zip(*times)]


def peak(command, given=os.devnull, folder=None):
    """The most memory of the command, run in a folder, in bytes, looked at every millisecond. (What the system reports of a
    child that has ended is never less than this interpreter had.)"""
    most = 0
    with open(given, "rb") as source:
        run = subprocess.Popen(command, stdin=source, stdout=subprocess.DEVNULL, cwd=folder)
    while run.poll() is None:
        with open("/proc/%d/status" % run.pid) as file:
            found = re.search(r"VmHWM:\s+(\d+) kB", file.read())
        most = max(most, int(found.group(1)) * 1024 if found else 0)
        time.sleep(0.001)
    if run.returncode:
        raise subprocess.CalledProcessError(run.returncode, command)
    return most


def instructions(command, given):
    """How many instructions one run takes, as valgrind counts them: the same on a busy machine, and
    blind to what memory costs."""
    with open(given, "rb") as source:
        done = subprocess.run(["valgrind", "--tool=callgrind", "--callgrind-out-file=/dev/null", *command],
                              stdin=source, stdout=subprocess.DEVNULL, stderr=subprocess.PIPE, check=True)
    return int(re.search(rb"refs: *([\d,]+)", done.stderr).group(1).replace(b",", b""))


def rows(program):
    """What a program that takes its own times prints: rows of numbers."""
    out = subprocess.run([program], stdin=subprocess.DEVNULL, stdout=subprocess.PIPE, check=True).stdout.decode()
    return [[int(word) for word in line.split()] for line in out.splitlines()]


def write_lines(path, lines):
    """Writes lines, texts or bytes, and gives the path."""
    with open(path, "wb") as file:
        for line in lines:
            file.write((line if isinstance(line, bytes) else line.encode()) + b"\n")
    return path
