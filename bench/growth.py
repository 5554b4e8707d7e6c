"""How the time grows: of a `resolve` with the ledger and the updates behind it, and of streams that are made
to be costly."""
import os
import subprocess

import load
from formats import Batch, anchor_line, batch, canonical, content_line, create, delta, hash_text, key_of, short_form
from measuring import best_times, node, processor_seconds, write_lines

ASKED = 100_000
# How much greater the great one of two streams is, and the seconds that a run may take.
TIMES = 8
MOST = 300


def ledger(entries):
    """So many entries of one create each with all its files, and the line that asks for the middle one."""
    made = [load.Chain(number, 3, load.same_service) for number in range(entries)]
    lines = []
    for height, one in enumerate(made):
        files = batch([one.create])
        lines += [*load.contents(files), anchor_line(height, files)]
    return lines, load.question(made[entries // 2])


def resolves(folder):
    """Prints what a resolve takes behind a small and behind a great history, the document being alike."""
    ours = node()
    empty, asking = (os.path.join(folder, name) for name in ("empty", "asking"))

    def time_of(history):
        lines, ask = history
        write_lines(empty, lines)
        write_lines(asking, lines + [ask] * ASKED)
        without, whole = best_times([(ours, empty), (ours, asking)], 5)
        return (whole - without) / ASKED
    for what, small, great in (("entries in the ledger", 10, 10_000), ("updates of the identifier", 1, 500)):
        make = ledger if "ledger" in what else load.chain
        one, other = time_of(make(small)), time_of(make(great))
        print("a resolve with %d %s takes %.2f us, %.2f times that with %d" % (great, what, other * 1e6, other / one, small), flush=True)


def made_create(number, made):
    return create(key_of(load.secret(3), "r%d" % number), made)


def one_missing_file(entries):
    """Entries that all name one core index file, which comes last."""
    one = made_create(0, delta([], key_of(load.secret(3), "u")))
    made = batch([one])
    yield from (anchor_line(1, made) for _ in range(entries))
    yield "wanted"
    yield from load.contents(made)
    yield "resolve " + short_form(one)


def one_missing_provisional_file(entries):
    """Entries with core index files of their own that all name one provisional index file, which comes last."""
    made = delta([], key_of(load.secret(3), "u"))
    batches = [batch([made_create(number, made)]) for number in range(entries)]
    for one in batches:
        yield content_line(one.files["core"])
        yield anchor_line(1, one)
    yield "wanted"
    yield content_line(batches[0].files["chunk"])
    yield content_line(batches[0].files["provisional"])


def shared_chunk(entries, deltas=10):
    """Entries with creates of their own that all share one chunk file, which comes last."""
    made = [delta([load.new_service(n)], key_of(load.secret(3), "u%d" % n)) for n in range(deltas)]
    chunk = canonical({"deltas": made})
    provisional = canonical({"chunks": [{"chunkFileUri": hash_text(chunk)}]})
    for number in range(entries):
        creates = [made_create(number * deltas + n, one).entry for n, one in enumerate(made)]
        core = canonical({"operations": {"create": creates}, "provisionalIndexFileUri": hash_text(provisional)})
        yield content_line(core)
        yield anchor_line(1, Batch("%d.%s" % (deltas, hash_text(core)), {}))
    yield content_line(provisional)
    yield content_line(chunk)


def same_entry(entries):
    """One batch of ten creates that is anchored again and again, and whose chunk comes last."""
    made = batch([made_create(n, delta([load.new_service(n)], key_of(load.secret(3), "u"))) for n in range(10)])
    yield content_line(made.files["core"])
    yield content_line(made.files["provisional"])
    yield from (anchor_line(1, made) for _ in range(entries))
    yield content_line(made.files["chunk"])


def one_late_create(entries):
    """One create that is anchored again and again, and whose chunk comes last: each entry gives the same
    identifier, and what stands behind each is folded again."""
    made = batch([made_create(0, delta([load.new_service(0)], key_of(load.secret(3), "u")))])
    yield content_line(made.files["core"])
    yield content_line(made.files["provisional"])
    yield from (anchor_line(1, made) for _ in range(entries))
    yield content_line(made.files["chunk"])


def to_nothing_and_back(times):
    """Ten entries that are rolled back and anchored again."""
    chains, batches = load.rounds(2, 9)
    for made in batches:
        yield from load.contents(made)
    for _ in range(times):
        yield from (anchor_line(height, made) for height, made in enumerate(batches))
        yield "rollback 0"
    yield load.question(chains[0])


def last_entry_again(times):
    """A ledger of a thousand entries, the last of which is rolled back and anchored again."""
    lines, ask = ledger(1_000)
    yield from lines
    for _ in range(times):
        yield "rollback 999"
        yield lines[-1]
    yield ask


def many_missing(files):
    """Entries that each name a file that never comes, asked for ten times."""
    for number in range(files):
        yield "anchor 1 1." + hash_text(b"%d" % number)
    for _ in range(10):
        yield "wanted"


HOSTILE = (("entries that name one missing core index file", 10_000, one_missing_file),
           ("entries that name one missing provisional index file", 10_000, one_missing_provisional_file),
           ("entries that share one chunk file", 1_000, shared_chunk),
           ("anchors of one batch whose chunk comes last", 1_000, same_entry),
           ("entries of one create whose chunk comes last", 8_000, one_late_create),
           ("rollbacks to nothing and back", 1_000, to_nothing_and_back),
           ("rollbacks of the last of a thousand entries", 10_000, last_entry_again),
           ("missing files, listed ten times", 100_000, many_missing))


def hostile(folder):
    """Prints what such streams take, against ones of an eighth of the size."""
    ours = node()
    small, great = (os.path.join(folder, name) for name in ("small", "great"))
    for what, count, make in HOSTILE:
        write_lines(small, make(count // TIMES))
        write_lines(great, make(count))
        one = min(processor_seconds(ours, small, MOST) for _ in range(3))
        try:
            other = processor_seconds(ours, great, MOST)
            said = "%.2f s of processor time, %.1f times that of an eighth of them" % (other, other / one)
        except subprocess.TimeoutExpired:
            said = "no end within %d seconds, %.2f s for an eighth of them" % (MOST, one)
        print("%d %s: %s" % (count, what, said), flush=True)
