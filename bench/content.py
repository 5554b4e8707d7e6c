"""Content lines: the processor time of a node for them, beside the bare cost of decoding and hashing
the same bytes.

The bare program is bench/programs/bare_cost.txt, over the same kit crates. It keeps nothing, and
looks no URI up.
"""
import base64
import os
import random

from measuring import best_times, build, instructions, node, peak, write_lines

# How many lines, and the bytes of the smallest and of the greatest file among them.
LOADS = ((200_000, 8, 200), (14, 10_000_000, 10_000_000))


def lines(count, least, most):
    """So many content lines of files that all differ, of each size from `least` to `most` in turn."""
    body = random.Random(1).randbytes(most)
    for n in range(count):
        # 37 is prime to the 193 sizes of small files, so that neighbours differ in size.
        size = least + n * 37 % (most - least + 1)
        yield b"content " + base64.urlsafe_b64encode(n.to_bytes(8, "big") + body[:size - 8]).rstrip(b"=")


def measure(folder, counted=False):
    """Prints a line for each load, and where `counted` one more on instructions."""
    given = os.path.join(folder, "given")
    ours, (bare,) = node(), build(folder, ["bare_cost"])
    for count, least, most in LOADS:
        write_lines(given, lines(count, least, most))
        time, base = best_times([(ours, given), ([bare], given)], 5)
        sizes = "%d" % least if least == most else "%d to %d" % (least, most)
        print("%d content lines of files of %s bytes: %.2f s of processor time, %.2f times the bare cost (%.2f s); %d MiB for %d MiB of input"
              % (count, sizes, time, time / base, base, peak(ours, given) >> 20, os.path.getsize(given) >> 20), flush=True)
        if counted:
            print("  %.2f times its instructions" % (instructions(ours, given) / instructions([bare], given)), flush=True)
