"""What `resolve` answers, and its statuses."""
import json
import os
import re
import shutil

from frame import FOLDER, TOP, Keeper, case, copy_of_folder, create, holds, same, table, tool, write
from ledger import base64url, uri_of
from plain_json import canonical

FIRST, SECOND, *REST = open(os.path.join(FOLDER, "dids"), encoding="utf-8").read().split()
NOBODY = "did:sidetree:EiBEE2-jVbNnihFGrRb36GSelPtPwh_nfoMQwGD2HKr_ig"


def long_form(request):
    """The long form of a create's identifier."""
    value = json.loads(request)
    del value["type"]
    return "did:sidetree:%s:%s" % (uri_of(canonical(value["suffixData"])), base64url(canonical(value)))


LONG = long_form(create("long"))


def remove(name):
    return lambda folder: os.remove(os.path.join(folder, "files", name))


def edit(before, after):
    """Changes the list of entries."""
    def change(folder):
        path = os.path.join(folder, "anchors")
        with open(path, encoding="utf-8") as file:
            text = file.read()
        write(path, re.sub(before, after, text, flags=re.S))
    return change


def nothing(folder):
    pass


# An identifier over the example's folder, what is changed there, the status, and what standard error has.
ROWS = [
    ("one that is there", FIRST, nothing, [], 0, "ends with entry 2 at height 22, 0 files are missing"),
    ("a key of it", FIRST + "#sign", nothing, [], 0, ""),
    ("a service of it", FIRST + "#home", nothing, [], 0, ""),
    ("a fragment that it has not", FIRST + "#nosuchkey", nothing, [], 5, "nothing named #nosuchkey"),
    ("a query and a path", FIRST + "/path?service=home", nothing, [], 0, ""),
    ("one that is deactivated", SECOND, nothing, [], 4, "deactivated"),
    ("a fragment of one that is deactivated", SECOND + "#home", nothing, [], 4, "deactivated"),
    ("one that is deactivated, by an entry with a space after it", SECOND, edit(r"\n$", " \n"), [], 3, "entry 2 gives nothing (A3)"),
    ("the same, if such entries are of strangers", SECOND, edit(r"\n$", " \n"), ["--strangers"], 0, "entry 2 gives nothing (A3)"),
    ("with a garbage line", FIRST, edit(r"$", "23 1.garbage\n"), [], 3, "entry 3 gives nothing (A3)"),
    ("with carriage returns", FIRST, edit(r"\n", "\r\n"), [], 0, ""),
    ("with a height that falls", FIRST, edit(r"22 ", "2 "), [], 2, "refused height"),
    ("one that is not there", NOBODY, nothing, [], 1, "notFound"),
    ("no identifier", "did:other:x", nothing, [], 1, "badDid"),
    ("with a file missing", FIRST, remove("2-core.json"), [], 3, "1 files are missing"),
    ("with the file of its create missing", FIRST, remove("0-core.json"), [], 3, "notFound"),
    ("one that is not there, with a file missing", NOBODY, remove("0-core.json"), [], 3, "notFound"),
    ("a long form that no entry gives", LONG, nothing, [], 6, "no entry gives it"),
    ("a service of such a one", LONG + "#home", nothing, [], 6, "no entry gives it"),
    ("such a one over an empty ledger", LONG, edit(r".*", ""), [], 6, "ends with no entry"),
    ("such a one with a file missing", LONG, remove("2-core.json"), [], 3, "no entry gives it"),
    ("an option of the node", FIRST, nothing, ["--v2-at=0"], 0, ""),
    ("an option that is none", FIRST, nothing, ["--v3"], 64, "no option --v3"),
    ("no entries", FIRST, lambda folder: os.remove(os.path.join(folder, "anchors")), [], 2, "No such file"),
]


@table("resolve", ROWS)
def resolves(folder, did, change, options, status, said):
    ledger = copy_of_folder(folder)
    change(ledger)
    done = tool("resolve", ledger, did, *options)
    same(done.status, status, "the status (%s)" % done.err)
    holds(said in done.err, done.err)


@case("resolve prints the result, and of a fragment the one entry")
def prints(folder):
    with open(os.path.join(TOP, "examples", "feed.out"), encoding="utf-8") as file:
        wanted = next(line for line in file if FIRST in line)
    same("resolved " + tool("resolve", FOLDER, FIRST).out, wanted)
    same(json.loads(tool("resolve", FOLDER, FIRST + "#home").out)["id"], "#home")
    same(tool("resolve", FOLDER, FIRST + "#sign").out, '{"controller":"%s","id":"#sign","publicKeyJwk":{"crv":"Ed25519","kty":"OKP",'
         '"x":"11qYAYKxCrfVS_7TyWQHOg7hcvPapiMlrwIaaPcHURo"},"type":"JsonWebKey2020"}\n' % FIRST)
    same(tool("resolve", FOLDER, FIRST + "#none").out, "")


@case("resolve over a keeper's socket, and without one")
def kept(folder):
    ledger = copy_of_folder(folder)
    os.remove(os.path.join(ledger, "files", "2-core.json"))
    with Keeper(folder) as keeper:
        same(tool("feed", ledger, keeper.all).status, 3)
        same(tool("resolve", keeper.ask, FIRST).status, 3)
        shutil.copy(os.path.join(FOLDER, "files", "2-core.json"), os.path.join(ledger, "files", "x"))
        same(tool("follow", os.path.join(ledger, "anchors"), os.path.join(ledger, "files"), keeper.all).status, 0)
        for did, status in ((FIRST, 0), (FIRST + "#home", 0), (SECOND, 4), (NOBODY, 1), (LONG, 6), (FIRST + "#no", 5)):
            done = tool("resolve", keeper.ask, did)
            same(done.status, status, did)
            holds("the ledger ends with entry 2 at height 22, 0 files are missing" in done.err, done.err)
    same(tool("resolve", keeper.ask, FIRST).status, 2)


@case("resolve with a program that ends")
def ends(folder):
    done = tool("resolve", FOLDER, FIRST, env={**os.environ, "SIDETREE": "/bin/false"})
    same((done.status, done.err), (2, "resolve: the node ended with status 1: its words are invalid\n"))
