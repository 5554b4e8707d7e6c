"""The keeper's words for a registry, and batches that are made again."""
import os
import shutil
import signal

from client import Kept
from frame import Batches, Keeper, asked, case, create, holds, pairs, same, tool, until


def queue(node, *names):
    for name in names:
        node.expect("queued", "submit " + create(name))


@case("batch N makes a batch once, and gives it again: at once, and after the end of the keeper and of the node")
def again(folder):
    made, anchors = [], Batches(1).anchors
    with Keeper(folder) as keeper:
        with Kept(keeper.all) as node:
            name = node.ask("batches")[0].split(" ")[1]
            same(node.ask("batches"), ["batches %s 0 0 -" % name])
            same(node.ask("batch 1 0"), ["refused nothing"])
            queue(node, "a", "b")
            made.append(node.ask("batch 1 0"))
            same(node.ask("batch 1 0"), made[0])
            queue(node, "c")
            # An entry and files between do not change what a batch is.
            node.expect("anchored", "anchor 5 " + anchors[0])
            node.expect("have", "content Zm9v")
            made.append(node.ask("flush"))
            queue(node, "d", "e")
            same(node.ask("batch 1 0"), made[0])
            same(node.ask("batch 2 2"), made[1])
            same([node.ask(line)[0] for line in ("batch 4 0", "batch 0 0", "batch x 0", "batch 1", "batch 1 0 0", "batches x")],
                 ["refused range", "refused range"] + ["refused line number"] * 3 + ["refused line words"])
            same(node.ask("batches"), ["batches %s 2 5 -" % name])
            made.append(node.ask("batch 3 3"))
        os.kill(keeper.node(), signal.SIGKILL)
        keeper.process.wait()
    with Keeper(folder) as keeper:
        with Kept(keeper.all) as node:
            same([node.ask("batch %d %d" % pair) for pair in ((1, 0), (2, 2), (3, 3))], made)
            same(node.ask("batches"), ["batches %s 3 5 -" % name])
            queue(node, "f")
        printed = tool("journal", "batches", keeper.journal)
        same((printed.status, printed.out), (0, "".join(line + "\n" for reply in made for line in reply)))
        keeper.kill(signal.SIGKILL)
    holds(len({reply[0] for reply in made}) == 3, "three batches")
    same(tool("journal", "batches", keeper.journal, "--limit=10").status, 4, "the status of a node that may read too little")
    # A copy of the folder has the same name, until that is removed.
    shutil.copytree(keeper.state, os.path.join(folder, "copy", "state"))
    with Keeper(os.path.join(folder, "copy")) as copy:
        same(asked(copy.all, "batches"), ["batches %s 3 6 -" % name])
    os.remove(os.path.join(copy.state, "name"))
    with Keeper(os.path.join(folder, "copy")) as copy:
        holds(asked(copy.all, "batches")[0].split(" ")[1] not in (name, "-"), "another name")


@case("more requests than a batch takes, across batches that are made again")
def many(folder):
    with Keeper(folder, "--v2-at=9") as keeper:
        with Kept(keeper.all) as node:
            queue(node, *("n%d" % n for n in range(1_003)))
            first = node.ask("batch 1 0")
            same(first[0].split(" ")[1].partition(".")[0], "1000")
            queue(node, "last")
            second = node.ask("batch 2 1000")
            same(second[0].split(" ")[1].partition(".")[0], "4")
            # Version 2 has larger batches: by which version one is made is in the journal.
            node.expect("anchored", "anchor 9 x")
            node.expect("queued", "submit " + create("later", later=True))
            third = node.ask("batch 3 1004")
        keeper.kill(signal.SIGKILL)
    with Keeper(folder, "--v2-at=9") as keeper:
        same([asked(keeper.all, "batch 1 0")[0], asked(keeper.all, "batch 2 1000")[0], asked(keeper.all, "batch 3 1004")[0]],
             [first[0], second[0], third[0]])


@case("taken knows a request again, and whether it is on the ledger")
def taken(folder):
    with Keeper(folder) as keeper:
        with Kept(keeper.all) as node:
            queue(node, "a", "b")
            node.expect("published", "published 1")
            same(pairs(asked(keeper.ask, "health")[0])["unpublished"], "1")
            queue(node, "c")
        asks = ["taken " + create(name) for name in ("a", "b", "c", "d")] + ["taken " + create("a") + " ", "taken", "taken x"]
        said = ["taken " + word for word in ("ledger", "journal", "journal", "no", "no", "no", "no")]
        same(asked(keeper.ask, *asks), said)
        keeper.kill(signal.SIGKILL)
    with Keeper(folder) as keeper:
        same(asked(keeper.ask, *asks), [word.replace("ledger", "journal") for word in said])
        asked(keeper.all, "published 1")
        same(asked(keeper.ask, *asks), said)
        same(asked(keeper.ask, "published 1", "batches", "batch 1 0", "store", "hold a b", "release a"), ["refused keeper"] * 6)
        same(asked(keeper.all, "published", "published x"), ["refused line number"] * 2)


@case("hold lets the keeper take no requests, also after a start, until each cause is released")
def held(folder):
    with Keeper(folder) as keeper:
        same(asked(keeper.all, "hold follow some words", "hold publish other words", "hold publish other words", "hold x", "hold"),
             ["held 1", "held 2", "held 2", "refused line words", "refused line words"])
        same(asked(keeper.ask, "submit " + create("a"), "wanted"), ["refused held", "wanted 0"])
        same(asked(keeper.all, "submit " + create("a")), ["refused held"])
        keeper.kill(signal.SIGKILL)
    with Keeper(folder) as keeper:
        same(pairs(asked(keeper.ask, "health")[0])["held"], "2")
        same(asked(keeper.all, "release follow", "submit " + create("a"), "release nobody", "release publish"),
             ["held 1", "refused held", "held 1", "held 0"])
        same(asked(keeper.ask, "submit " + create("a"))[0][:6], "queued")
        keeper.kill(signal.SIGKILL)
    with Keeper(folder) as keeper:
        same(pairs(asked(keeper.ask, "health")[0])["held"], "0")


@case("a folder remembers its store")
def store(folder):
    with Keeper(folder) as keeper:
        same(asked(keeper.all, "store", "store one", "store two", "store"), ["store -", "store one", "store one", "store one"])
    with Keeper(folder) as keeper:
        same(asked(keeper.all, "store"), ["store one"])


@case("a node that is stopped ends with its keeper, and frees the journal")
def frees(folder):
    with Keeper(folder) as keeper:
        node = keeper.node()
        os.kill(node, signal.SIGSTOP)
        keeper.kill(signal.SIGKILL)
        until(lambda: not os.path.exists("/proc/%d" % node))
    with Keeper(folder) as keeper:
        holds("ready after" in keeper.said(), keeper.said())
