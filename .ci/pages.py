"""Whether the pages name what is there: docs/RULES.md each file, each word in the file before it, and each edit; every page
each module of definitions or lemmas, each path, each page that it links to and the heading there. Whether the pages quote
the sources, and docs/READING.md lists what `run` cites. Whether each crate but those of tests has a README, one page alone
the table of statuses, and one those of the limits. Whether a merge was left half done in a page. Whether all pages together
have at most as many words as they may, and few of those that plain English does without."""

import pathlib
import re
import sys

sys.dont_write_bytecode = True
import cited

CRATES = pathlib.Path("crates")
EDITS = {path.stem for path in CRATES.glob("*/must-fail/*.edit")}
READMES = [crate / "README.md" for crate in sorted(CRATES.iterdir()) if not crate.name.endswith("_tests")]
PAGES = [*(pathlib.Path(name) for name in ("README.md", "CHANGELOG.md", "examples/README.md")),
         *sorted(pathlib.Path("docs").glob("*.md")), *READMES]
# A cell of a table's head, and the page that alone has such a table.
TABLES = {r"status(es)?|exit.*": "docs/PROTOCOL.md", r"limits?|version [0-9].*": "docs/FORMATS.md"}
# How many words the pages may have, without CHANGELOG.md and examples/, and how many of a thousand may be of the second line.
WORDS, ODD = 48_000, 2
ODD_WORDS = r"\b(?:stands?|stood|behind|comes (?:of|to|from|where)|is told|of whose|what is (?:left|wanted|written|kept))\b"
# All paths and their ends, by which pages name files.
NAMES = {"/".join(path.parts[at:]) for top in (CRATES, *map(pathlib.Path, ("docs", "examples", "launcher", "service", "bench", ".ci")))
         for path in top.glob("**/*") for at in range(len(path.parts))}


def read(path):
    return pathlib.Path(path).read_text(encoding="utf-8")


def rows():
    """The cells of each row of the rules, without the heads of the tables."""
    for line in read("docs/RULES.md").splitlines():
        cells = line.strip("|").split(" | ")
        if line.startswith("| ") and len(cells) == 5 and cells[1] != "definition":
            yield [re.findall(r"`([^`]+)`", cell) for cell in cells]


def declares(file, word):
    return re.search(rf"pub (?:record |data )?{re.escape(word)}\b", read(file))


def rule_faults():
    """What is wrong in the rules, a line each."""
    named = set()
    for _, definition, code, proof, edits in rows():
        file = CRATES
        for word in definition + code + proof:
            if word.endswith((".antt", ".rt")):
                file = CRATES / word if "/" in word else file.parent / word
                if not file.is_file():
                    yield f"docs/RULES.md: {file} is not there"
            elif word in definition and file.is_file() and not declares(file, word):
                yield f"docs/RULES.md: {file} does not declare {word}"
        named.update(edits)
    yield from (f"docs/RULES.md: the edit {edit} is not there" for edit in sorted(named - EDITS))
    yield from (f"docs/RULES.md: the edit {edit} turns no rule of the page" for edit in sorted(EDITS - named))


def headings(text):
    """The anchors of a page's headings, as its readers' programs make them."""
    text = re.sub(r"^```.*?^```$", "", text, flags=re.M | re.S)
    return {re.sub(r"[^\w\- ]", "", title.lower()).replace(" ", "-") for title in re.findall(r"^#+ (.*)$", text, re.M)}


def link_faults(page, text):
    """The links of a page that lead nowhere, a line each."""
    for link, heading in sorted(set(re.findall(r"\]\(([^)#:\s]*)(?:#([^)\s]+))?\)", text))):
        there = page.parent / link if link else page
        if not there.exists():
            yield f"{page}: {link} is not there"
        elif heading and heading not in headings(read(there)):
            yield f"{page}: {there} has no heading {heading}"


def page_faults(page):
    """What is wrong in a page, a line each."""
    text = read(page)
    for crate, folder, inside, module in sorted(set(re.findall(r"\b(st_\w+)\.(specs|proofs)\.(inside\.)?(\w+)", text))):
        if module != "declared" and not (CRATES / crate / folder / inside.strip(".") / f"{module}.antt").is_file():
            yield f"{page}: {crate}.{folder}.{inside}{module} is not there"
    paths = [CRATES / path for path in re.findall(r"`(?:crates/)?(st_\w+/[\w./-]+)`", text) if path.split("/")[1] != "out"]
    paths += map(pathlib.Path, re.findall(r"`((?:\.ci|bench|docs|examples|launcher|service)/[\w./-]*)`", text))
    yield from (f"{page}: {path} is not there" for path in sorted(set(paths)) if path.name != "NAME" and not path.exists())
    yield from link_faults(page, text)
    names = re.findall(r"`([\w./-]+\.(?:antt|rt|py|edit))`", text)
    yield from (f"{page}: no file is named {name}" for name in sorted(set(names)) if name not in NAMES and not re.search("[A-Z]{4}", name))
    for head in re.findall(r"^\|(.*)\|\n\|---", text, re.M):
        for cell, owner in TABLES.items():
            if any(re.fullmatch(cell, one.strip()) for one in head.split("|")) and str(page) != owner:
                yield f"{page}: the table '{head.strip()}' is in {owner} alone"
    if re.search(r"^(<<<<<<<|=======|>>>>>>>)( |$)", text, re.M):
        yield f"{page}: a merge was left half done"


def quote_faults():
    """What a page quotes otherwise than the sources have it, a line each."""
    files = [file for folder in ("src", "specs", "proofs") for file in CRATES.glob(f"*/{folder}/**/*") if file.suffix in (".rt", ".antt")]
    lines = {line.strip() for file in files for line in read(file).splitlines()} | {""}
    for page in filter(pathlib.Path.is_file, PAGES):
        for block in re.findall(r"```(?:rust|antt)\n(.*?)```", read(page), re.S):
            yield from (f"{page}: no source has '{line.strip()}'" for line in block.splitlines() if line.strip() not in lines)


def word_faults():
    """Whether the pages are too long, or in no plain English."""
    text = "\n".join(read(page) for page in PAGES if page.is_file() and page.name != "CHANGELOG.md" and page.parts[0] != "examples")
    count, odd = len(text.split()), len(re.findall(ODD_WORDS, text, re.I))
    if count > WORDS:
        yield f"the pages have {count} words, and may have {WORDS}"
    if 1_000 * odd > ODD * count:
        yield f"the pages have {odd} of these: {ODD_WORDS}"


found = [*word_faults(), *rule_faults(), *quote_faults(), *cited.faults()]
for page in PAGES:
    found += page_faults(page) if page.is_file() else [f"{page} is not there"]
for fault in found:
    print(f"pages: {fault}")
sys.exit(1 if found else 0)
