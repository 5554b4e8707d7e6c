"""The sessions that these pages quote: an indented `$ command`, the lines that are typed after `> `, and all that is
printed. A command that is not to be run here is on its page without the `$`."""
import os
import re
import subprocess

from frame import LONGEST, SERVICE, TOOLS, TOP, case, holds, same

PAGES = ("OPERATING.md", "VERIFYING.md", "WALLETS.md")


def quoted(page):
    """The commands of a page, each with the lines that are typed and the lines that are printed."""
    with open(page, encoding="utf-8") as file:
        for block in re.findall(r"^    \$ (.*(?:\n    .+)*)", file.read(), re.M):
            command, *lines = block.replace("\n    ", "\n").split("\n")
            typed = [line[2:] for line in lines if line.startswith("> ")]
            yield command, typed, [line for line in lines if not line.startswith("> ")]


def is_like(printed, line):
    """Whether a line is as the page has it, which marks a cut by '…'."""
    return re.fullmatch(".*".join(map(re.escape, line.split("…"))), printed)


@case("the sessions that the pages quote")
def sessions(folder):
    for name in TOOLS:
        os.symlink(os.path.join(SERVICE, name), os.path.join(folder, "sidetree-" + name))
    os.symlink(os.environ["SIDETREE"], os.path.join(folder, "sidetree"))
    path, found = {**os.environ, "PATH": "%s:%s" % (folder, os.environ["PATH"])}, 0
    for page in PAGES:
        for command, typed, wanted in quoted(os.path.join(TOP, "docs", page)):
            done = subprocess.run(command, shell=True, cwd=TOP, env=path, input="".join(line + "\n" for line in typed).encode(),
                                  stdout=subprocess.PIPE, stderr=subprocess.STDOUT, timeout=LONGEST, check=False)
            printed = done.stdout.decode().splitlines()
            same(len(printed), len(wanted), "the number of lines of `%s`, which printed %s" % (command, printed))
            # Standard output and standard error may be in any order.
            for line in wanted:
                holds(any(is_like(one, line) for one in printed), "`%s` prints no '%s', but %s" % (command, line, printed))
            found += 1
    holds(found >= 6, "there are sessions")
