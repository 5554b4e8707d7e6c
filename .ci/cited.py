#!/usr/bin/env python3
"""Which definitions in specs/ `run` cites for `node`, itself or through others: what a reader has to believe.

usage: .ci/cited.py --write

The list in docs/READING.md is made of them. --write writes it anew. `.ci/pages.py` refuses another one, or other numbers by
more than a tenth.
"""
import pathlib
import re
import sys

PAGE = pathlib.Path("docs/READING.md")
FIRST = ("Rattle.st_cli.specs.Runs", "NodeRun")
HEAD, END = "| files in `crates/` | lines cited | say |\n|---|---|---|\n", "\n"
# The crates of a row, and what their definitions say. The files of the first rows are named, in the order in which `run`
# comes to them.
NAMED = (("st_cli st_drive st_io", "what a run promises"), ("st_node", "commands and replies"),
         ("st_observer st_ledger st_content", "ledger and files"), ("st_anchor", "which operations an entry gives"),
         ("st_apply", "how an identifier resolves"), ("st_resolve", "identifiers and results"))
OTHERS = (("st_indexfiles st_datafiles", "rules of files"), ("st_doc st_jsonpatch", "documents and patches"),
          ("st_ops st_batch st_cert", "requests, batches and verdicts"), ("st_lms st_jws", "keys and signatures"),
          ("st_base st_hash st_params st_plain st_scan", "lists, hashes, limits and JSON"))

USE = re.compile(r"^(?:pub )?use (Rattle\.st_[\w.]+)\.\{(.*)\}$", re.M)
START = re.compile(r"^( *)(?:(?:abbrev|unfoldable|pub|record|data) )+(?!mutual\b)([^\s:({]+)")
WORD = re.compile(r"[^\s(){};,.λ]+")


class Module:
    """A file of definitions: the lines of each, the constructors of types, and what it imports."""

    def __init__(self, path):
        text = path.read_text(encoding="utf-8")
        self.path, self.blocks, self.inside, self.imports = path, {}, {}, {}
        for module, names in USE.findall(text):
            for name in names.split(","):
                real, _, here = name.strip().partition(" as ")
                self.imports[here or real] = (module, real)
        name, indent, comment = None, 0, []
        for line in text.splitlines():
            start, deep = START.match(line), len(line) - len(line.lstrip())
            if line.lstrip().startswith("--") or not line.strip():
                # A comment belongs to the definition below it.
                comment = comment + [line] if line.strip() else []
            elif start and (name is None or deep <= indent):
                name, indent = start.group(2), deep
                self.blocks[name] = comment + [line]
                comment = []
            elif name and (deep > indent or not re.match(r" *(?:abbrev |unfoldable )?(?:module|mutual|use)\b", line)):
                self.blocks[name] += comment + [line]
                comment = []
                constructor = re.match(r" +(?:pub )?(\S+) :", line)
                if constructor and "pub data" in " ".join(self.blocks[name]):
                    self.inside.setdefault(constructor.group(1), name)
            else:
                name = None

    def cited(self, name):
        """The definitions that a definition names, as pairs of a module and a name."""
        words = set(WORD.findall("\n".join(line.partition("--")[0] for line in self.blocks[name])))
        words |= {">>="} if "←" in words else set()
        for there in [*self.blocks, *self.inside, *self.imports]:
            if there in words or ("◌" in there and set(filter(None, there.split("◌"))) <= words):
                yield self.imports.get(there) or (None, self.inside.get(there, there))


def modules():
    """Each file of definitions, under its name in imports."""
    return {"Rattle.%s.%s" % (path.parts[1], ".".join(path.with_suffix("").parts[2:])): Module(path)
            for path in sorted(pathlib.Path("crates").glob("*/specs/**/*.antt")) if path.name != "Lib.antt"}


def reached(there):
    """How many lines are cited of each file, in the order in which `run` comes to them."""
    todo, seen, lines = [FIRST], {FIRST}, {}
    for module, name in todo:
        while module not in there and module.count(".") > 3:
            # A constructor is imported from its type.
            module, _, name = module.rpartition(".")
        found = there.get(module)
        if found is None:
            continue
        name = found.inside.get(name, name)
        if name not in found.blocks:
            todo += [found.imports[name]] if name in found.imports else []
            continue
        lines.setdefault(found.path, {})[name] = len(found.blocks[name])
        for other, cited in found.cited(name):
            pair = (other or module, cited)
            if pair not in seen and pair[0].startswith("Rattle.st_"):
                seen.add(pair)
                todo.append(pair)
    return {path: sum(names.values()) for path, names in lines.items()}


def rows():
    """The cells of the list."""
    there = modules()
    lines, total = reached(there), sum(path.path.read_bytes().count(b"\n") for path in there.values())
    known = {crate for crates, _ in NAMED + OTHERS for crate in crates.split()}
    strange = sorted({path.parts[1] for path in lines} - known)
    if strange:
        raise SystemExit("cited: `run` cites %s, which no row of .ci/cited.py has" % " ".join(strange))
    for table in (NAMED, OTHERS):
        for crates, says in table:
            parts = []
            for crate in crates.split():
                files = [path.stem for path in lines if path.parts[1] == crate]
                parts += ["`%s`%s" % (crate, ": " + ", ".join(files) if table is NAMED else "")] if files else []
            count = sum(count for path, count in lines.items() if path.parts[1] in crates.split())
            yield "; ".join(parts) if table is NAMED else ", ".join(parts), count, says
    yield "all %d files" % len(lines), sum(lines.values()), "of {:,} lines in `specs/`".format(total)


def parts():
    """The page before the list, the list, and the page after it."""
    before, head, rest = PAGE.read_text(encoding="utf-8").partition(HEAD)
    table, end, after = rest.partition("\n" + END)
    return before + head, table + "\n", end[1:] + after


def faults():
    """What the list in the page says otherwise, a line each."""
    shown = [line.strip("| ").split(" | ") for line in parts()[1].splitlines()]
    if [row[0] for row in shown[:-1]] != [row[0] for row in list(rows())[:-1]]:
        yield "docs/READING.md lists other files than `run` cites: .ci/cited.py --write mends it"
        return
    for row, (files, count, _) in zip(shown, rows()):
        if abs(int(row[1].replace(",", "")) - count) > count / 10:
            yield "docs/READING.md says %s for %s, and `run` cites %d: .ci/cited.py --write mends it" % (row[1], files, count)


if __name__ == "__main__":
    if sys.argv[1:] != ["--write"]:
        sys.exit(__doc__)
    first, _, last = parts()
    PAGE.write_text(first + "".join("| %s | %s | %s |\n" % (files, "{:,}".format(count), says) for files, count, says in rows()) + last,
                    encoding="utf-8")
