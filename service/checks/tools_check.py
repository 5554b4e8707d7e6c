"""Words, help and pages of all tools; `tell`, `shell` and `why`."""
import os
import re
import subprocess

from delta_rules import Limits
from frame import SERVICE, TOOLS, TOP, Keeper, case, command, create, holds, same, table, tool
from meanings import KEEPER_LINES, LINES, REFUSALS, UNRESOLVED


@table("the words of", [(name, name) for name in TOOLS])
def words(folder, name):
    done = tool(name, "--help")
    same((done.status, done.err), (0, ""))
    holds("usage: %s" % name in done.out and "status 0" in done.out, done.out)
    for given in (["--no-such-option"], ["x"] * 9):
        done = tool(name, *given)
        same((done.status, done.err.count("\n")), (64, 1), done.err)
        holds(done.err.startswith(name + ": ") and "--help" in done.err, done.err)
    page = command(os.path.join(SERVICE, "manual"), os.path.join(SERVICE, name))
    holds(page.status == 0 and ".TH SIDETREE\\-%s 1" % name.upper() in page.out, page.out)
    if subprocess.run(["which", "man"], capture_output=True, check=False).returncode == 0:
        with open(os.path.join(folder, "page.1"), "w", encoding="utf-8") as file:
            file.write(page.out)
        shown = command("man", "--warnings", "-l", os.path.join(folder, "page.1"), env={**os.environ, "LC_ALL": "C.UTF-8", "MANWIDTH": "140"})
        same((shown.status, shown.err), (0, ""), "man")


@case("every option of a tool is in its help and in the completions")
def options(folder):
    completions = []
    for name in ("tools.bash", "_sidetree", "sidetree.fish"):
        with open(os.path.join(SERVICE, "completions", name), encoding="utf-8") as file:
            completions.append(file.read())
    for name in TOOLS:
        with open(os.path.join(SERVICE, name), encoding="utf-8") as file:
            text = file.read()
        found = set(re.findall(r'"(--[a-z0-9-]+)": (?:True|False)', text))
        for option in found:
            holds(option in text.split('"""')[1], "%s is in the help of %s" % (option, name))
            for completion in completions:
                holds(option.removeprefix("--") in completion, "%s of %s is in each completion" % (option, name))


@case("the completions are read by their shells")
def shells(folder):
    for shell, name, words in (("bash", "tools.bash", ["-n"]), ("zsh", "_sidetree", ["-n"]), ("fish", "sidetree.fish", ["-n"])):
        if subprocess.run(["which", shell], capture_output=True, check=False).returncode:
            continue
        same(command(shell, *words, os.path.join(SERVICE, "completions", name)).err, "", shell)
        if shell == "fish":
            script = "source %s; complete -C 'sidetree-journal sh'; complete -C 'sidetree node --j'"
            done = command("fish", "-c", script % os.path.join(SERVICE, "completions", name))
            same([line.split("\t")[0] for line in done.out.splitlines()], ["shorten", "--journal"], done.err)
    script = 'source "$0"; COMP_WORDS=("$@"); COMP_CWORD=$(($# - 1)); compopt() { :; }; _sidetree_tools "$1"; echo "${COMPREPLY[*]}"'
    done = command("bash", "-c", script, os.path.join(SERVICE, "completions", "tools.bash"), "sidetree-journal", "sh")
    same(done.out, "shorten\n")
    done = command("bash", "-c", script, os.path.join(SERVICE, "completions", "tools.bash"), "sidetree-registry", "d")
    same(done.out, "drain\n")


@case("tell prints replies, and names the lines that are refused")
def tells(folder):
    with Keeper(folder) as keeper:
        done = tool("tell", keeper.all, given=b"wanted\nanchor 1 x\n")
        same((done.status, done.out, done.err), (0, "wanted 0\nanchored 0\n", ""))
        done = tool("tell", keeper.all, given=b"wanted\nrollback 7\nnothing\nflush\nanchor 1 \xff\nwanted")
        same(done.status, 2)
        same(done.err, "tell: line 2: refused range\ntell: line 3: refused line command\ntell: line 4: refused nothing\n")
        same(done.out.splitlines()[-2:], ["anchored 1", "wanted 0"])
        same(tool("tell", keeper.all, given=b"explain did:x\nsubmit " + create("t").encode() + b"\nflush\nwanted").out.splitlines()[-1], "wanted 0")
        closed = subprocess.run("%s %s | head -n 1" % (os.path.join(SERVICE, "tell"), keeper.all), shell=True, input=b"wanted\n" * 50_000,
                                capture_output=True, check=False, timeout=60)
        same((closed.stdout, closed.stderr), (b"wanted 0\n", b""))
    done = tool("tell", keeper.all)
    same((done.status, done.err.count("\n")), (3, 1))


@case("shell explains each refusal, with and without a keeper")
def explains(folder):
    done = tool("shell", given="help\nanchor 1\nnothing\nsubmit {\"type\":\"x\"}\nresolve x\nwanted\n")
    holds(done.status == 0 and done.out.startswith(LINES) and done.out.endswith("wanted 0\n"), done.out)
    for text in (REFUSALS["line words"], REFUSALS["line command"], "type is none of create, update, recover, deactivate", UNRESOLVED["badDid"]):
        holds("shell: " + text in done.err, "%s is not in %s" % (text, done.err))
    with Keeper(folder) as keeper:
        done = tool("shell", keeper.ask, given="help\nflush\nhealth")
        holds(KEEPER_LINES in done.out and "health entries 0" in done.out and REFUSALS["keeper"] in done.err, done.err)
    same(tool("shell", keeper.ask).status, 2)


@case("each refusal of docs/PROTOCOL.md has a meaning")
def refusals(folder):
    with open(os.path.join(TOP, "docs", "PROTOCOL.md"), encoding="utf-8") as file:
        text = file.read()
    text = text[:text.index("\n## The wallet")]
    for word, known in (("refused", REFUSALS), ("unresolved", UNRESOLVED)):
        for cause in re.findall(r"`%s ((?:line )?[a-zA-Z]+)`" % word, text):
            holds(cause == "line" or cause in known, "%s %s" % (word, cause))


@case("why names the first rule that each example request breaks, as a node names its cause")
def why(folder):
    with open(os.path.join(TOP, "examples", "requests.in"), "rb") as file:
        given = file.read()
    found = tool("why", given=given)
    with open(os.path.join(SERVICE, "checks", "why.out"), encoding="utf-8") as file:
        same(found.out, file.read())
    same(found.status, 1)
    with open(os.path.join(TOP, "examples", "requests.out"), encoding="utf-8") as file:
        replies = file.read().splitlines()
    for said, reply in zip(found.out.splitlines(), replies):
        same(said.partition(":")[0], "fine" if reply.startswith("queued ") or reply == "refused alreadyQueued" else reply.removeprefix("refused "))


@case("why by version 2, and of requests that are fine")
def why_later(folder):
    same((tool("why", given=create("x")).status, tool("why", given=create("x")).out), (0, "fine\n"))
    later = create("y", later=True)
    same(tool("why", given=later).status, 1)
    same(tool("why", "--v2", given="submit " + later).out, "fine\n")
    same(Limits(2).delta, 2_000)
