#!/usr/bin/env python3
"""Prints how many lines each crate has: of code, of tests, of definitions and of proofs; and how many must-fail edits.
All lines of a crate whose name ends in _tests are lines of tests.

usage: bench/lines.py
"""
import pathlib

TOP = pathlib.Path(__file__).resolve().parent.parent


def crates():
    """The crates of crates.txt, in its order."""
    for line in (TOP / "crates.txt").read_text(encoding="utf-8").splitlines():
        name, colon, _ = line.partition(":")
        if colon and not line.startswith("#"):
            yield TOP / "crates" / name.split()[0]


def lines(paths):
    return sum(path.read_bytes().count(b"\n") for path in paths)


def row(crate):
    sources = list((crate / "src").rglob("*.rt"))
    tests = [path for path in sources if path.name == "tests.rt" or "tests" in path.relative_to(crate / "src").parts[:-1]]
    definitions, proofs = (list((crate / folder).rglob("*.antt")) for folder in ("specs", "proofs"))
    edits = len(list((crate / "must-fail").glob("*.edit")))
    if crate.name.endswith("_tests"):
        return [0, lines(sources + definitions + proofs), 0, 0, edits]
    return [lines(sources) - lines(tests), lines(tests), lines(definitions), lines(proofs), edits]


def main():
    print("| crate | lines of code | of tests | of definitions | of proofs | edits |\n|---|---|---|---|---|---|")
    rows = {crate.name: row(crate) for crate in crates()}
    rows["all %d" % len(rows)] = [sum(numbers) for numbers in zip(*rows.values())]
    for name, numbers in rows.items():
        print("| %s | %s |" % (name, " | ".join("{:,}".format(number) for number in numbers)))


if __name__ == "__main__":
    main()
