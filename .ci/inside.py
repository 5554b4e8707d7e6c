"""Whether specs/ and specs/inside/ are kept apart, and whether lemmas and files have a size to be read. A definition outside
inside/ cites none inside; no clause of a public function names one; no lemma has more than eight arguments; few source files
have under 60 lines. Prints how many lines of definitions the contract of `run` cites."""

import pathlib
import re
import sys

sys.dont_write_bytecode = True
import cited

CRATES = pathlib.Path("crates")
# How many arguments a lemma may have, without the parameters of its section, and how many files may have how few lines.
ARGUMENTS, SMALL, LINES = 8, 80, 60
INSIDE = re.compile(r"^\s*(?:pub |ghost )*use Rattle\.st_\w+\.specs\.inside\.[\w.]+\.\{(.*)\}", re.M)
LEMMA = re.compile(r"^( *)(?:pub )?([^\s(){}:]+) : (.*(?:\n\1 +(?!--)\S.*)*)", re.M)
# A binder of a lemma, and its names.
BINDER = re.compile(r"[({]([^\s:(){}][^:(){}]*) : ")
# A public function in a file of a crate, up to its body.
PUBLIC = re.compile(r"^( *)pub (?:const )?fn (\w+).*?^\1\{", re.M | re.S)


def read(path):
    return path.read_text(encoding="utf-8")


def inside_words(text):
    """The names that a file imports from specs/inside/."""
    return {name.strip().rpartition(" as ")[2] for names in INSIDE.findall(text) for name in names.split(",")}


def exported(crate):
    """The names that a crate's root exports."""
    root = crate / "src/lib.rt"
    uses = re.findall(r"^pub use [\w:]+::(?:\{([^}]*)\}|(\w+));", read(root), re.M) if root.is_file() else [("run", "")]
    return {name.strip() for names in uses for name in (names[0] or names[1]).split(",")}


def arguments(signature):
    """How many names its binders bring, and how many premises it has."""
    total, names, depth = 0, 0, 0
    for at, sign in enumerate(signature):
        binder = BINDER.match(signature, at) if not depth else None
        names += len(binder.group(1).split()) if binder else 0
        depth += (sign in "({[⟦") - (sign in ")}]⟧")
        if sign == "→" and not depth:
            total, names = total + (names or 1), 0
    return total


def clauses(path):
    """The names of the public functions of a file that users can call, with their signatures."""
    text, names = read(path), exported(path.parent.parent)
    for block in re.split(r"^(?=\S.*\bimpl\b|impl\b|pub trait\b)", text, flags=re.M):
        owner = re.match(r"(?:impl(?:<.*?>)? (?:.* for )?|pub trait )&?(\w+)", block)
        for found in PUBLIC.finditer(block):
            if (owner.group(1) if owner and found.group(1) else found.group(2)) in names:
                yield found.group(2), found.group(0)


def faults():
    """What is wrong, a line each."""
    for path in sorted(CRATES.glob("*/specs/**/*.antt")):
        if "inside" not in path.parts and path.name != "Lib.antt" and INSIDE.search(read(path)):
            yield f"{path} imports a definition of specs/inside/"
    for path in sorted(CRATES.glob("*/src/*.rt")):
        words = inside_words(read(path))
        for name, signature in clauses(path) if words else ():
            if words & set(re.split(r"[\s(){};,.λ]+", signature)):
                yield f"{path}: a clause of {name} names a definition of specs/inside/"
    for path in sorted(CRATES.glob("*/proofs/**/*.antt")):
        text = re.sub(r"^ *--.*\n", "", read(path), flags=re.M)
        for _, name, signature in LEMMA.findall(text):
            if arguments(signature) > ARGUMENTS:
                yield f"{path}: {name} has {arguments(signature)} arguments"
    small = [path for path in CRATES.glob("*/src/*.rt") if not path.parts[1].endswith("_tests") and path.name not in ("lib.rt", "tests.rt")
             and len(read(path).splitlines()) < LINES]
    if len(small) > SMALL:
        yield f"{len(small)} source files have fewer than {LINES} lines"


found = list(faults())
for fault in found:
    print(f"inside: {fault}")
print("inside: the contract of `run` cites %d lines of definitions" % sum(cited.reached(cited.modules()).values()))
sys.exit(1 if found else 0)
