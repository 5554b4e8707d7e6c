"""Reading of the files of a batch: the time for a core index of 5,000 creates and for a chunk of
10,000,000 bytes, beside the bare reading of the same bytes by the kit's `serde_json`.

The program is bench/programs/files_cost.txt.
"""
import os
import subprocess

from formats import canonical, hash_text
from measuring import build

COUNT = 5_000
MOST = 10_000_000


def core_index():
    """A core index of so many creates, of which no two are alike."""
    commitment = hash_text(b"")
    return {"operations": {"create": [
        {"suffixData": {"deltaHash": hash_text(b"%d" % n), "recoveryCommitment": commitment}} for n in range(COUNT)]}}


def chunk():
    """A chunk of so many deltas that has nearly the greatest size."""
    def delta(n, filler):
        return {"patches": [{"action": "add-services", "services": [
            {"id": "s%04d" % n, "serviceEndpoint": "https://example.com/" + filler, "type": "T"}]}],
            "updateCommitment": hash_text(b"%d" % n)}
    frame = len(canonical(delta(0, "")))
    filler = "x" * ((MOST - 13) // COUNT - frame - 1)
    return {"deltas": [delta(n, filler) for n in range(COUNT)]}


def measure(folder):
    """Prints a line for each file."""
    given = os.path.join(folder, "given")
    (program,) = build(folder, ["files_cost"])
    for what, value in (("a core index of %d creates" % COUNT, core_index()), ("a chunk of %d deltas" % COUNT, chunk())):
        with open(given, "wb") as file:
            file.write(canonical(value))
        with open(given, "rb") as source:
            lines = subprocess.run([program], stdin=source, stdout=subprocess.PIPE, check=True).stdout.decode()
        ours, bare = (min(times) for times in zip(*(map(int, line.split()) for line in lines.splitlines())))
        print("%s, %d bytes: read in %.2f ms, %.2f times the bare reading of its JSON (%.2f ms)"
              % (what, os.path.getsize(given), ours / 1e6, ours / bare, bare / 1e6), flush=True)
