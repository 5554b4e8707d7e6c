"""The gateway over a kept node: statuses, representations and headers of identifiers, and of all that only asks."""
import base64
import hashlib
import json
import os
import re

from client import Kept
from frame import FOLDER, SERVICE, TOP, case, copy_of_folder, holds, same, tool
from meanings import UNRESOLVED
from resolves import FIRST, LONG, NOBODY, SECOND
from web import KeptWeb, has

RESOLUTION, DOCUMENT = "application/did-resolution", "application/did"
OLDER = 'application/ld+json;profile="https://w3id.org/did-resolution"'
SIDETREE, DRIVER = "/identifiers/", "/1.0/identifiers/"
TRUST = ("3", "22", "0")


def published():
    """The long form that the standard publishes."""
    with open(os.path.join(TOP, "examples", "published.in"), encoding="utf-8") as file:
        return file.readline().split()[1]


def results():
    """What the example's session says of its two identifiers."""
    with open(os.path.join(TOP, "examples", "feed.out"), encoding="utf-8") as file:
        return [line.removeprefix("resolved ").rstrip("\n") for line in file if line.startswith("resolved ")]


# A path, its header Accept, and the status and the error of the answer.
STATUSES = [
    (SIDETREE + FIRST, None, 200, None), (SIDETREE + LONG, None, 200, None), (SIDETREE + NOBODY, None, 404, "notFound"),
    (SIDETREE + SECOND, None, 410, None), (SIDETREE + FIRST + ":e30", None, 400, "invalidDid"),
    (SIDETREE + "did:sidetree:x", None, 400, "invalidDid"), (SIDETREE + "did:other:x", None, 400, "invalidDid"),
    (SIDETREE, None, 400, "invalidDid"), (SIDETREE + FIRST + "%23sign", None, 400, "invalidDid"),
    (SIDETREE + FIRST + "?versionId=1", None, 501, "featureNotSupported"),
    (DRIVER + FIRST, None, 200, None), (DRIVER + LONG, None, 200, None), (DRIVER + NOBODY, None, 404, "notFound"),
    (DRIVER + SECOND, None, 410, None), (DRIVER + FIRST + ":e30", None, 400, "invalidDid"),
    (DRIVER + "did:sidetree:x", None, 400, "invalidDid"), (DRIVER + "nothing", None, 400, "invalidDid"),
    (DRIVER + "did:other:x", None, 501, "methodNotSupported"), (DRIVER + FIRST + "?versionTime=2026-01-01", None, 501, "featureNotSupported"),
    (DRIVER + FIRST + "%3Fservice=home", None, 400, "invalidDid"), (DRIVER + FIRST + "%2Fpath", None, 400, "invalidDid"),
    (DRIVER + FIRST, "text/html", 406, "representationNotSupported"), (DRIVER + NOBODY, DOCUMENT, 404, "notFound"),
    (DRIVER + FIRST, "application/did;q=0", 406, "representationNotSupported"),
    (DRIVER + FIRST + "%23sign", None, 200, None), (DRIVER + FIRST + "%23home", None, 200, None),
    (DRIVER + FIRST + "%23none", None, 404, "notFound"), (DRIVER + FIRST + "%23", None, 404, "notFound"),
    (DRIVER + SECOND + "%23home", None, 410, None), (DRIVER + "did:sidetree:" + "x" * 4_077, None, 400, "invalidDid"),
    (DRIVER + "did:sidetree:" + "x" * 4_076, None, 400, "invalidDid"), (DRIVER + "x" * 8_200, None, 414, "tooLong"),
    ("/history/" + NOBODY, None, 200, None), ("/history/did:sidetree:x", None, 400, "invalidDid"),
    ("/nothing", None, 404, "noPath"), ("/identifiers", None, 404, "noPath"), ("/identifiers/" + FIRST + "/", None, 400, "invalidDid"),
]
# Bytes of an identifier that must not become bytes of a line.
HOSTILE = ["%0A", "%0D%0A", "%00", "%20", "%09", "%7F", "%C3%A9", "%FF", "%E2%80%AE", "%22", "%5C", "%2523sign", "+", "%0Aflush", "%0Awanted"]


@case("the gateway: the status of each path")
def statuses(folder):
    with KeptWeb(folder) as web:
        tool("feed", FOLDER, web.keeper.all)
        for path, accept, status, error in STATUSES:
            reply = web.ask(path, **({"Accept": accept} if accept else {}))
            same(reply.status, status, path)
            if error:
                has(reply, status, error=error)
            if path.startswith(DRIVER) and status not in (200, 410):
                same((reply.kind, reply.json()["didDocument"], reply.json()["didDocumentMetadata"]), (RESOLUTION, None, {}), path)
        has(web.ask(SIDETREE + FIRST + ":e30"), 400, cause="badLongForm", message=UNRESOLVED["badLongForm"])


@case("the gateway: no byte of an identifier ends its line or begins another")
def lines(folder):
    with KeptWeb(folder) as web:
        tool("feed", FOLDER, web.keeper.all)
        for byte in HOSTILE:
            for before in (SIDETREE, DRIVER, "/history/"):
                for path in (before + FIRST + byte, before + byte + FIRST, before + FIRST[:30] + byte + FIRST[30:]):
                    has(web.ask(path), 400, error="invalidDid")
        with Kept(web.keeper.ask) as node:
            answered = dict(zip(*[iter(node.expect("health", "health").split(" "))] * 2))["lines"]
        # The eleven lines of feeding, and one for the health.
        holds(int(answered) < 30, "the node has answered %s lines" % answered)


@case("the gateway: the representations, byte for byte as the node writes them")
def representations(folder):
    with KeptWeb(folder) as web:
        tool("feed", FOLDER, web.keeper.all)
        first, second = results()
        for did, text in ((FIRST, first), (SECOND, second)):
            reply = web.ask(SIDETREE + did)
            same((reply.body.decode(), reply.kind, reply.trust(), reply.headers["Cache-Control"]),
                 (text, "application/json", TRUST, "no-store"))
            whole = text[:-1] + ',"didResolutionMetadata":{"contentType": "application/did"}}'
            document = text[len('{"didDocument":'):text.index(',"didDocumentMetadata"')]
            for accept, kind, wanted in (
                    (None, RESOLUTION, whole), ("*/*", RESOLUTION, whole), ("application/*", RESOLUTION, whole), (RESOLUTION, RESOLUTION, whole),
                    (OLDER, OLDER, whole), (OLDER.replace(";", " ; ").replace('"', ""), OLDER, whole), ("application/ld+json", OLDER, whole),
                    (DOCUMENT, DOCUMENT, document), ("text/html, application/did;q=0.9, */*;q=0.1", DOCUMENT, document),
                    ("Application/DID", DOCUMENT, document), (RESOLUTION + ";q=0.2, " + DOCUMENT, DOCUMENT, document)):
                reply = web.ask(DRIVER + did, **({"Accept": accept} if accept else {}))
                same((reply.body.decode(), reply.kind, reply.trust()), (wanted, kind, TRUST), "with Accept %s" % accept)
        same(web.ask(DRIVER + FIRST, Accept='application/ld+json;profile="https://other.example"').status, 406)
        same(web.ask(DRIVER + FIRST + "%23sign").json(), json.loads(first)["didDocument"]["verificationMethod"][0])
        same(web.ask(DRIVER + FIRST + "%23shop").json()["serviceEndpoint"], "https://example.com/shop")
        same((web.ask(SIDETREE + NOBODY).trust(), web.ask(DRIVER + NOBODY).trust()), (TRUST, TRUST))


@case("the gateway: the long form that the standard publishes, through both paths")
def standard(folder):
    did = published()
    with KeptWeb(folder) as web:
        for before in (SIDETREE, DRIVER):
            reply = web.ask(before + did)
            document = reply.json()["didDocument"]
            same((reply.status, document["id"], reply.trust()), (200, did, ("0", "-", "0")))
            same(document["service"], [{"id": "#service1Id", "serviceEndpoint": "http://www.service1.com", "type": "service1Type"}])
            same(document["verificationMethod"][0]["publicKeyJwk"]["x"], "tXSKB_rubXS7sCjXqupVJEzTcW3MsjmEvq1YpXn96Zg")
            same(reply.json()["didDocumentMetadata"]["method"]["published"], False)


@case("the gateway: what is missing stands in each answer, and --strict refuses it")
def strict(folder):
    ledger = copy_of_folder(folder)
    os.remove(os.path.join(ledger, "files", "2-core.json"))
    with KeptWeb(folder, "--strict") as web:
        same(tool("feed", ledger, web.keeper.all).status, 3)
        for path in (SIDETREE + FIRST, DRIVER + FIRST, DRIVER + NOBODY):
            reply = has(web.ask(path), 503, error="filesMissing")
            same((reply.trust(), reply.headers["Retry-After"]), (("3", "22", "1"), "30"))
        same((web.ask("/health").status, web.ask("/health").json()["wanted"]), (503, 1))
        web.gateway.strict = False
        same((web.ask(SIDETREE + FIRST).status, web.ask(SIDETREE + FIRST).trust()), (200, ("3", "22", "1")))
        same((web.ask("/health").status, web.ask(DRIVER + NOBODY).trust()), (200, ("3", "22", "1")))


@case("the gateway: methods, what another origin may do, and HEAD")
def methods(folder):
    with KeptWeb(folder) as web:
        tool("feed", FOLDER, web.keeper.all)
        for path in (SIDETREE + FIRST, DRIVER + FIRST, "/", "/health", "/version"):
            for method in ("POST", "PUT", "DELETE", "TRACE", "PATCH", "BREW"):
                reply = has(web.ask(path, method), 405, error="methodNotAllowed")
                same(reply.headers["Allow"], "GET, HEAD, OPTIONS", path)
            reply = web.ask(path, "OPTIONS")
            same((reply.status, reply.body, reply.headers["Allow"], reply.headers["Access-Control-Allow-Methods"]),
                 (204, b"", "GET, HEAD, OPTIONS", "GET, HEAD"))
            whole, head = web.ask(path), web.ask(path, "HEAD")
            same((head.status, head.body, head.kind), (whole.status, b"", whole.kind))
            same((whole.headers["Access-Control-Allow-Origin"], whole.headers["X-Content-Type-Options"]), ("*", "nosniff"))
            if path != "/health":
                same(head.headers["Content-Length"], str(len(whole.body)), path)
        reply = web.ask("/operations", "GET")
        same((reply.status, reply.headers["Allow"], reply.headers["Access-Control-Allow-Origin"]), (405, "POST, OPTIONS", None))
        reply = web.ask("/operations", "OPTIONS")
        same((reply.status, reply.headers["Access-Control-Allow-Methods"]), (204, None))


@case("the gateway: version, health, metrics and history")
def state(folder):
    with KeptWeb(folder, keeper=["--v2-at=20"]) as web:
        tool("feed", FOLDER, web.keeper.all)
        found = {one["name"]: one["version"] for one in web.ask("/version").json()}
        same((found["sidetree"], found["limits"], set(found)), ("1.0.0", "2", {"sidetree", "program", "limits"}))
        found = web.ask("/health").json()
        same((found["entries"], found["height"], found["wanted"], found["queued"], found["journal"]),
             (3, 22, 0, 0, os.path.getsize(web.keeper.journal)))
        with Kept(web.keeper.ask) as node:
            wanted = [line.split(" ")[1:] for line in node.ask("explain " + SECOND)[1:]]
        found = web.ask("/history/" + SECOND).json()
        same([[str(one["entry"]), str(one["height"]), one["kind"], one["verdict"]] for one in found], wanted)
        same([one["verdict"] for one in found], ["created", "deactivated"])
        web.ask("/nothing")
        text = web.ask("/metrics").body.decode()
        for line in ("sidetree_entries 3", "sidetree_height 22", "sidetree_wanted 0", "sidetree_queued 0",
                     "sidetree_journal %d" % os.path.getsize(web.keeper.journal), 'sidetree_http_requests_total{status="200"} 3',
                     'sidetree_http_requests_total{status="404"} 1', 'sidetree_http_seconds_bucket{le="+Inf"} 4', "sidetree_http_seconds_count 4"):
            holds(line + "\n" in text, "%s in %s" % (line, text))
        holds(all(re.fullmatch(r'# TYPE \w+ \w+|\w+(\{\w+="[^"]+"\})? \S+', line) for line in text.splitlines()), text)


@case("the page: one file, under a policy that runs its own script and style alone")
def one_page(folder):
    with KeptWeb(folder) as web:
        web.ask("/")
        reply = web.ask("/?did=" + FIRST)
        same(len(reply.headers), len(set(reply.headers)), "the headers, each of which is there once")
        policy = dict(part.split(" ", 1) for part in reply.headers["Content-Security-Policy"].split("; "))
        text = reply.body.decode()
        for name in ("script", "style"):
            inside = re.findall("<%s[^>]*>(.*?)</%s>" % (name, name), text, re.S)
            same(len(inside), 1, "the elements " + name)
            same(policy[name + "-src"], "'sha256-%s'" % base64.b64encode(hashlib.sha256(inside[0].encode()).digest()).decode())
        same((policy["default-src"], policy["connect-src"], policy["base-uri"]), ("'none'", "'self'", "'none'"))
        holds("unsafe" not in reply.headers["Content-Security-Policy"], "no policy is unsafe")
        for word in ("http://", "https://", "innerHTML", "outerHTML", "insertAdjacent", "document.write", " src=", " style=", " onclick", "eval("):
            holds(word not in text.replace('"https:"', "").replace('"http:"', ""), "the page has %s" % word)
        with open(os.path.join(SERVICE, "gateway.html"), encoding="utf-8") as file:
            same(text, file.read())
