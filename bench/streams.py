"""Whole streams: the processor time of a node, beside the bare cost of decoding and hashing the bytes of all its
files once, and of as many compressions of SHA-256 as all else takes that has to be hashed for the replies: signatures,
the keys that they are under, suffix data, and deltas, but for those of identifiers that are created and neither changed
nor asked for. Then beside that with all deltas, beside the files and signatures alone, and its memory beside its files.

The bare programs are bench/programs/bare_cost.txt and compress_cost.txt, over the same kit crates.
"""
import functools
import json
import lzma
import math
import os

import lms
from formats import bytes_of, canonical, hash_text
from load import STREAMS, creates
from measuring import build, node, peak, processor_seconds, rows, write_lines

# How often each program runs, of which the least time counts.
ROUNDS = 9
# The proof files of an entry: which index names them, and by which member.
PROOFS = (("core", "coreProofFileUri"), ("provisional", "provisionalProofFileUri"))


def from_folder(folder):
    """The streams of a folder, NAME.in or NAME.in.xz."""
    for name in sorted(os.listdir(folder)):
        path = os.path.join(folder, name)
        if name.endswith(".in"):
            with open(path, "rb") as file:
                yield name[:-3], file.read().splitlines()
        elif name.endswith(".in.xz"):
            with lzma.open(path) as file:
                yield name[:-6], file.read().splitlines()


def generated():
    for name, make in STREAMS.items():
        yield name, [line.encode() for line in make()]


def blocks(value):
    """How many compressions the hash of the canonical text of a value takes."""
    return lms.blocks(len(canonical(value)))


@functools.lru_cache(None)
def verification(text):
    """How many compressions a signed text takes: its verification, the reveal value of its key, and what that
    has to meet."""
    front, _, signature = text.rpartition(".")
    payload = json.loads(bytes_of(front.partition(".")[2]))
    key = payload.get("updateKey") or payload.get("recoveryKey")
    return lms.verification(bytes_of(key["pub"]), front.encode(), bytes_of(signature)) + blocks(key) + 1


class Files:
    """The files of a stream by URI, and what the entries that name them cost to verify."""

    def __init__(self, lines):
        found = [bytes_of(line[8:].decode()) for line in lines if line.startswith(b"content ")]
        self.by_uri = {hash_text(file): file for file in found}
        self.size = sum(map(len, self.by_uri.values()))

    def said(self, uri):
        return json.loads(self.by_uri[uri]) if uri in self.by_uri else {}

    @functools.lru_cache(None)
    def signed(self, core):
        """The compressions of all signed texts of an entry with this core index file."""
        index = {"core": self.said(core)}
        index["provisional"] = self.said(index["core"].get("provisionalIndexFileUri"))
        proofs = [self.said(index[which].get(member)).get("operations", {}) for which, member in PROOFS]
        return sum(verification(entry["signedData"]) for lists in proofs for entries in lists.values() for entry in entries)

    def operations(self, core):
        """What an entry with this core index file says of operations, by their kinds."""
        index = self.said(core)
        return {**index.get("operations", {}), **self.said(index.get("provisionalIndexFileUri")).get("operations", {})}

    def deltas(self, core):
        """The deltas of the entry, those of its creates first."""
        chunks = self.said(self.said(core).get("provisionalIndexFileUri")).get("chunks", [])
        return [delta for chunk in chunks for delta in self.said(chunk["chunkFileUri"]).get("deltas", [])]

    def changed(self, core):
        """The suffixes that the entry changes."""
        listed = self.operations(core)
        return {one["didSuffix"] for kind in ("recover", "deactivate", "update") for one in listed.get(kind, [])}

    def parts(self, core, wanted):
        """The compressions of the suffix data and the deltas of the entry. Of its creates the deltas of the suffixes
        that are wanted count alone, or all where that is None."""
        made = [create["suffixData"] for create in self.operations(core).get("create", [])]
        deltas = self.deltas(core)
        return sum(map(blocks, made + deltas[len(made):])) + sum(
            blocks(delta) for data, delta in zip(made, deltas) if wanted is None or hash_text(canonical(data)) in wanted)


class Stream:
    """A stream that is measured: its lines in a file, the bytes of its files, and the compressions that its
    signatures take, and its suffix data and deltas."""

    def __init__(self, folder, name, lines):
        files = Files(lines)
        self.name, self.size = name, files.size
        cores = [line.rpartition(b".")[2].decode() for line in lines if line.startswith(b"anchor ")]
        asked = {line.split(b":")[2].decode() for line in lines if line.startswith(b"resolve did:sidetree:")}
        wanted = asked.union(*map(files.changed, cores))
        self.signed = sum(map(files.signed, cores))
        self.parts, self.all_parts = (sum(files.parts(core, which) for core in cores) for which in (wanted, None))
        self.given = write_lines(os.path.join(folder, "given-" + name), lines)
        self.times = [math.inf] * 2

    def take_turn(self, programs):
        self.times = list(map(min, self.times, (processor_seconds(program, self.given) for program in programs)))

    def say(self, one, memory):
        """Prints the figures, by the time of one compression and the memory at its peak."""
        time, hashing = self.times
        signing, parts, all_parts = self.signed * one, self.parts * one, self.all_parts * one
        bare = hashing + signing + parts
        print("%s: %.3f s of processor time, %.2f times the bare cost (%.3f s: the files' bytes %.4f, %d compressions of "
              "signatures %.3f, %d of suffix data and deltas %.4f); %.2f times it with all deltas (%d), %.2f times it "
              "without suffix data and deltas; %d MiB, %.1f times its files of %.1f MiB"
              % (self.name, time, time / bare, bare, hashing, self.signed, signing, self.parts, parts,
                 time / (hashing + signing + all_parts), self.all_parts, time / (hashing + signing),
                 memory >> 20, memory / self.size, self.size / 2 ** 20), flush=True)


def measure(folder, origin=None):
    """Prints a line for each stream: those of the folder `origin`, or else generated ones. All of them take turns,
    so that a slow time of the machine takes no stream's every round."""
    ours, (bare, compress) = node(), build(folder, ["bare_cost", "compress_cost"])
    streams = [Stream(folder, name, lines) for name, lines in (from_folder(origin) if origin else generated())
               if not any(line.startswith(b"submit ") for line in lines)]
    one = math.inf
    for _ in range(ROUNDS):
        one = min(one, min(row[0] for row in rows(compress)) / 1e12)
        for stream in streams:
            stream.take_turn([ours, [bare]])
    for stream in streams:
        stream.say(one, peak(ours, stream.given))


def memory(folder, few=8_000, many=80_000):
    """Prints what creates take in memory beside their files: few of them, many, and each byte of files more."""
    given = os.path.join(folder, "given")
    found = []
    for count in (few, many):
        lines = [line.encode() for line in creates(count, asked=0)]
        write_lines(given, lines)
        found.append((peak(node(), given), Files(lines).size))
    (least, small), (most, great) = found
    print("memory of creates: %d take %.1f times their files, %d take %.1f times, and each byte of files more %.2f bytes"
          % (few, least / small, many, most / great, (most - least) / (great - small)), flush=True)
