"""The gateway: requests that are posted, and what a keeper does that answers otherwise, late or not at all."""
import contextlib
import io
import json
import os
import signal
import time

from frame import SERVICE, TOP, Keeper, asked, case, create, holds, pairs, same
from meanings import REFUSALS
from records import Journal
from resolves import FIRST, long_form
from shortening import finish, new_file, write_record
from web import KeptWeb, StandIn, Web, has

TYPE = "application/json"
LONGEST = 65_529


def post(web, body, **headers):
    return web.ask("/operations", "POST", body, Content_Type=TYPE, **headers)


def submitted(path):
    """The requests that a journal has."""
    found, journal = [], Journal(path)
    journal.look(lambda record: found.append(journal.body(record)))
    journal.close()
    return [body.removeprefix(b"submit ") for body in found if body.startswith(b"submit ")]


def session(end):
    with open(os.path.join(TOP, "examples", "requests." + end), encoding="utf-8") as file:
        return file.read().splitlines()


@case("the gateway: a create has the result of its long form, and a request is queued byte for byte")
def creates(folder):
    with KeptWeb(folder, "--submit=SUBMIT") as web:
        request = create("one")
        reply = post(web, request)
        same((reply.status, reply.kind), (200, TYPE))
        result = reply.json()
        same((result["didDocument"]["id"], result["didDocument"]["service"][0]["serviceEndpoint"]), (long_form(request), "https://one.example/"))
        same(result, web.ask("/identifiers/" + long_form(request)).json())
        same(reply.headers["Sidetree-Request"], "journal")
        again = post(web, request)
        same((again.status, again.headers["Sidetree-Request"], again.json()), (200, "journal", result))
        has(post(web, request + " "), 400, error="alreadyQueued", message=REFUSALS["alreadyQueued"])
        # Members that come twice, spaces, a number's spelling and an escape stay as they are.
        spaced = create("two").replace('"type":"create"', '"type" :"up\\u0064ate",\t"type": "cre\\u0061te"').replace(":", ": ", 1)
        same(post(web, "\n" + spaced.replace(",", ",\n", 1) + "\r\n").json()["didDocument"]["service"][0]["serviceEndpoint"], "https://two.example/")
        same(submitted(web.keeper.journal), [request.encode(), (" " + spaced.replace(",", ", ", 1) + "\r ").encode()])
        same(pairs(asked(web.keeper.ask, "health")[0])["queued"], "2")


@case("the gateway: each example request that is refused, with its cause and the rule that `why` names")
def causes(folder):
    with open(os.path.join(SERVICE, "checks", "why.out"), encoding="utf-8") as file:
        rules = [line.rstrip("\n").partition(": ") for line in file]
    with KeptWeb(folder, "--submit=SUBMIT", "--submits=1000") as web:
        for line, reply, (cause, colon, rule) in zip(session("in"), session("out"), rules):
            found, word = post(web, line.removeprefix("submit ")), reply.partition(" ")
            if word[0] == "queued" or word[2] == "alreadyQueued":
                if '"type":"create"' in line:
                    same((found.status, "didDocument" in found.json()), (200, True), line[:60])
                else:
                    # No entry creates these identifiers here.
                    has(found, 409, error="notAwaited", awaits=None)
            else:
                has(found, 400, error=word[2], message=REFUSALS[word[2]])
                if colon:
                    same((found.json()["error"], found.json()["rule"]), (cause, rule))


@case("the gateway: a request by the limits of the node's version")
def later(folder):
    with KeptWeb(folder, "--submit=SUBMIT", keeper=["--v2-at=10"]) as web:
        request = create("later", later=True)
        same(has(post(web, request), 400, error="badDelta").json()["rule"], "patch 1 has an action that is none of version 1")
        asked(web.keeper.all, "anchor 10 x")
        same(post(web, request).json()["didDocument"]["alsoKnownAs"], ["https://later.example/"])


@case("the gateway: what is no request is refused, and changes nothing")
def refuses(folder):
    with KeptWeb(folder, "--submit=SUBMIT", "--submits=1000") as web:
        before = os.path.getsize(web.keeper.journal)
        has(post(web, '{"a":"x\ny"}'), 400, error="notJson", message="a string has a line feed")
        has(post(web, b'{"a":"x\\\ny"}'), 400, error="notJson")
        has(post(web, b'{}\\\nflush'), 400, error="notJson")
        for body in (b"", b"{}\nflush", b"\nflush\n", b"\xff\xfe", b"\x00", b'{"a":"\n', b"{" * 60_000, b'"\\"' * 21_000, b"1" * LONGEST):
            has(post(web, body), 400)
        has(post(web, b" " * (LONGEST + 1)), 413, error="tooLong")
        has(post(web, b" " * 2_000_000), 413, error="tooLong")
        has(web.ask("/operations", "POST", "{}", Content_Type="text/plain"), 415, error="noJson")
        has(web.ask("/operations", "POST", "{}"), 415, error="noJson")
        has(web.ask("/operations", "POST", iter([b"{}"]), Content_Type=TYPE), 411, error="noLength")
        head = b"POST /operations HTTP/1.1\r\nContent-Type: application/json\r\nContent-Length: %s\r\n\r\n"
        with Web(web.keeper.ask, "--submit=" + web.keeper.ask, checked=False) as other:
            for length in (b"-1", b"+5", b"5x", b"0x10", b"1" * 20):
                holds(other.raw(head % length + b"{}").startswith(b"HTTP/1.0 411 "), "a length %s" % length)
            holds(b'"cutOff"' in other.raw(head % b"100" + b"{}", ends=True), "a body that ends before its length")
        same(os.path.getsize(web.keeper.journal), before)
        same(pairs(asked(web.keeper.ask, "health")[0])["queued"], "0")


@case("the gateway: without --submit it takes none, and an address may post some in a minute")
def bound(folder):
    with KeptWeb(folder) as web:
        has(post(web, create("one")), 404, error="noOperations")
        with Web(web.keeper.ask, "--submit=" + web.keeper.ask, "--submits=2", "--forwarded") as other:
            minute = time.monotonic() // 60
            found = [post(other, "{", X_Forwarded_For=address).status for address in (
                "", "", "", "10.0.0.1", "127.0.0.1, 10.0.0.1", "10.0.0.2, 10.0.0.1", "10.0.0.1, 10.0.0.2",
                "2001:db8::1", "2001:db8::2", "2001:db8::ffff:3", "2001:db8:0:1::1")]
            if time.monotonic() // 60 == minute:
                same(found, [400, 400, 429, 400, 400, 429, 400, 400, 400, 429, 400])
                same(has(post(other, "{"), 429, error="tooMany").headers["Retry-After"], "60")
        same(submitted(web.keeper.journal), [])


@case("the gateway: a full queue is 503, and says when to come again")
def full(folder):
    path = os.path.join(folder, "state", "sidetree.journal")
    os.mkdir(os.path.dirname(path))
    with new_file(path) as file:
        for n in range(10_000):
            write_record(file, ("submit " + create("n%d" % n)).encode())
        finish(file, path)
    with KeptWeb(folder, "--submit=SUBMIT") as web:
        same(pairs(asked(web.keeper.ask, "health")[0])["queued"], "10000")
        same(has(post(web, create("one more")), 503, error="full").headers["Retry-After"], "60")
        has(post(web, create("n1") + " "), 400, error="alreadyQueued")
        same(post(web, create("n1")).status, 200, "a request that waits already")


# What a stand-in for a keeper says to a line, and the answers to a question and to a post.
ODD = [
    (b"refused full\n", 500, 503), (b"refused keeper\n", 500, 500), (b"refused nonsense\n", 500, 500), (b"nonsense\n", 500, 500),
    (b"verified entries 1 height 2 missing 0 resolved {\n", 500, 500), (b"verified entries 1 height\n", 500, 500),
    (b"\xff\xff\n", 500, 500), (None, 503, 503), (b"\n", 500, 500)]


@case("the gateway: a keeper's odd replies give a status, and never a traceback")
def odd(folder):
    for reply, question, posted in ODD:
        said = io.StringIO()
        with contextlib.redirect_stderr(said), StandIn(folder, lambda line: reply) as keeper, Web(
                keeper.path, "--submit=" + keeper.path) as web:
            for found, status in ((web.ask("/identifiers/" + FIRST), question), (web.ask("/1.0/identifiers/" + FIRST), question),
                                  (web.ask("/history/" + FIRST), question), (web.ask("/health"), question), (post(web, "{}"), posted)):
                has(found, status)
                holds(b"Traceback" not in found.body and b"File" not in found.body, found.body)
                if status == 500:
                    has(found, status, error="internalError", message="a fault of the gateway")
            if posted == 503:
                holds(post(web, "{}").headers["Retry-After"] in ("5", "60"), "a time to wait")
            same(web.ask("/metrics").status, 200 if question == 503 else 500)
        same(said.getvalue().count("a fault of this tool"), said.getvalue().count("\n"), "lines on standard error")
        os.unlink(keeper.path)


@case("the gateway: a late keeper is 504, one that has gone is 503, and it is asked again when it is back")
def gone(folder):
    def late(line):
        if line.startswith(b"verify did:sidetree:slow"):
            time.sleep(3)
        return b"verified entries 0 height - missing 0 unresolved notFound\n"
    with StandIn(folder, late) as keeper, Web(keeper.path, "--submit=" + keeper.path, "--patience=1") as web:
        has(web.ask("/identifiers/did:sidetree:fast"), 404)
        has(web.ask("/identifiers/did:sidetree:slow"), 504, error="nodeLate")
        # The late reply is nobody else's.
        time.sleep(2.5)
        has(web.ask("/identifiers/did:sidetree:fast"), 404)
        same(keeper.server.lines[0], b"verify did:sidetree:fast\n")
    with KeptWeb(folder, "--patience=1") as web:
        has(web.ask("/1.0/identifiers/" + FIRST), 404)
        os.kill(web.keeper.node(), signal.SIGSTOP)
        has(web.ask("/1.0/identifiers/" + FIRST), 504, error="nodeLate")
        os.kill(web.keeper.node(), signal.SIGCONT)
        has(web.ask("/1.0/identifiers/" + FIRST), 404)
    with Web(os.path.join(folder, "sockets", "ask")) as web:
        has(web.ask("/identifiers/" + FIRST), 503, error="nodeGone")
        for _ in range(2):
            with Keeper(folder):
                has(web.ask("/identifiers/" + FIRST), 404)
            same(has(web.ask("/1.0/identifiers/" + FIRST), 503, error="nodeGone").headers["Retry-After"], "5")


@case("the gateway: a post is given to the node once, whatever becomes of its connection")
def once(folder):
    with StandIn(folder, lambda line: None if line.startswith(b"submit") else b"health entries 0\n") as keeper:
        with Web(keeper.path, "--submit=" + keeper.path) as web:
            web.ask("/health")
            reply = has(post(web, "{}"), 503)
            holds(reply.json()["message"].endswith("the request may be queued"), reply.body)
            same([line for line in keeper.server.lines if line.startswith(b"submit")], [b"submit {}\n"])
