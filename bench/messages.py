"""The messages of an exchange: how the time grows with how many there are."""
import hashlib
import os

from formats import base64url, content_line, hash_text
from measuring import best_times, node, write_lines

TIMES = 8
ASKED = 1_000


def digest(number):
    return hashlib.sha256(b"%d" % number).digest()


def listing(kind, digests):
    return bytes([kind]) + len(digests).to_bytes(4, "big") + b"".join(digests)


def asked(count):
    """Nodes that want nothing ask, and each of these messages is delivered."""
    yield from ("ask 1 0" for _ in range(count))
    yield from ("deliver %d" % number for number in range(count))


def unwanted(count):
    """A file that nobody wants is sent so often, and delivered."""
    line = "inject 0 1 " + base64url(b"\x03" + b"x" * 100)
    yield from (line for _ in range(count))
    yield from ("deliver %d" % number for number in range(count))


def lists(count):
    """A message that names a thousand files, none of which is there, is delivered so often."""
    yield "inject 0 1 " + base64url(listing(1, [digest(number) for number in range(ASKED)]))
    yield from ("deliver 0" for _ in range(count))


def files(count):
    """So many files go from one node to another, which names them all in its ledger."""
    made = [b"file %d" % number for number in range(count)]
    for file in made:
        yield "at 0 " + content_line(file)
        yield "at 1 anchor 1 1." + hash_text(file)
    sent = 0
    for begin in range(0, count, ASKED):
        yield "ask 1 0"
        going = min(ASKED, count - begin)
        yield from ("deliver %d" % number for number in range(sent, sent + going + 1))
        sent += going + 1
    yield "at 1 wanted"


def measure(folder):
    """Prints what each stream takes beside one of an eighth of the size."""
    words = [node()[0], "exchange"]
    few, many = (os.path.join(folder, name) for name in ("few", "many"))
    for what, lines, count in (("messages of nodes that want nothing", asked, 100_000),
                               ("messages of a file that nobody wants", unwanted, 100_000),
                               ("deliveries of a message that names 1,000 files", lists, 10_000),
                               ("files from one node to another", files, 8_000)):
        write_lines(few, lines(count // TIMES))
        write_lines(many, lines(count))
        short, long = best_times([(words, few), (words, many)], 5)
        print("%d %s take %.3f s, %.1f times an eighth of them" % (count, what, long, long / short), flush=True)
