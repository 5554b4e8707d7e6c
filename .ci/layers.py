"""Whether crates.txt, its layers and the map say the same: each crate uses crates that are listed before it, no chain is
longer than it may be, and docs/ARCHITECTURE.md shows the same crates in the same order."""

import functools
import re
import sys

# How many crates a chain may have.
LONGEST = 8


def crates():
    """Each crate of crates.txt with those of the repository that it uses, in the order of the file."""
    listed = {}
    with open("crates.txt", encoding="utf-8") as file:
        for line in file:
            name, colon, below = line.partition(":")
            if colon and not line.startswith("#"):
                listed[name.split()[0]] = [crate for crate in below.split() if crate.startswith("st_")]
    return listed


def faults():
    """What differs, a line each."""
    listed = crates()
    seen = []
    for crate, below in listed.items():
        yield from (f"{crate} uses {other}, which is not listed before it" for other in below if other not in seen)
        seen.append(crate)

    @functools.lru_cache(None)
    def chain(crate):
        return max((chain(other) for other in listed[crate]), key=len, default=()) + (crate,)

    for crate in listed:
        if len(chain(crate)) > LONGEST:
            yield f"a chain has more than {LONGEST} crates: {', '.join(chain(crate))}"
    with open("docs/ARCHITECTURE.md", encoding="utf-8") as file:
        shown = re.findall(r"^(?:[a-z]+)? +(st_\w+) ", file.read().partition("```text")[2].partition("```")[0], re.M)
    if shown != list(listed):
        yield f"the map shows other crates, or another order, than crates.txt: {sorted(set(shown) ^ set(listed)) or shown}"


found = list(faults())
for fault in found:
    print(f"layers: {fault}")
sys.exit(1 if found else 0)
