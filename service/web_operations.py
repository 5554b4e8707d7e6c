"""Requests that are posted: how they become lines, how many a client may post, and what is answered."""
import ipaddress
import re
import threading
import time

from client import Refused
from delta_rules import Broken, Limits
from ledger import base64url
from meanings import REFUSALS
from plain_json import canonical, read
from request_rules import look_at
from sockets import STRANGERS
from web_answers import BATCH_IS_MADE, JSON, MINUTE, Answer, Fault, media_type, retry_after
from web_identifiers import encoded
from web_registry import Posted, taken

LONGEST_REQUEST = STRANGERS["submit"] - len("submit ")


class Bound:
    """How many requests a client's address may post in a minute."""

    def __init__(self, most):
        self.most, self.lock, self.minute, self.counts = most, threading.Lock(), None, {}

    def count(self, address):
        """Counts a request of an address, or raises that it is one too many."""
        try:
            number = ipaddress.ip_address(address)
            # A client may have any address of its network of 64 bits.
            address = int(number) >> 64 if number.version == 6 else int(number)
        except ValueError:
            pass
        with self.lock:
            minute = int(time.monotonic() // MINUTE)
            if minute != self.minute:
                self.minute, self.counts = minute, {}
            self.counts[address] = self.counts.get(address, 0) + 1
            if self.counts[address] > self.most:
                raise Fault(429, "tooMany", "an address may post %d requests in a minute" % self.most, retry_after(MINUTE))


def body_of(environ):
    """The body of a request, which has a length and is JSON by its type."""
    length = environ.get("CONTENT_LENGTH") or ""
    if not re.fullmatch("[0-9]{1,12}", length):
        raise Fault(411, "noLength", "the request has no header Content-Length")
    if int(length) > LONGEST_REQUEST:
        raise Fault(413, "tooLong", "a request has at most %d bytes" % LONGEST_REQUEST)
    # A page of another origin can post other types without asking first.
    if media_type(environ.get("CONTENT_TYPE") or "")[0] != JSON:
        raise Fault(415, "noJson", "the header Content-Type is not %s" % JSON)
    try:
        body = environ["wsgi.input"].read(int(length))
    except TimeoutError:
        raise Fault(408, "tooSlow", "the body has not come in time") from None
    except OSError:
        body = b""
    if len(body) < int(length):
        raise Fault(400, "cutOff", "the body has ended before its length")
    return body


def one_line(body):
    """A body as one line: as it is, but for line feeds outside of strings, which become spaces."""
    parts, inside = [], False
    for part in re.split(rb'(\\.|["\n])', body, flags=re.S):
        inside ^= part == b'"'
        if b"\n" in part and (inside or part != b"\n"):
            raise Fault(400, "notJson", "a string has a line feed")
        parts.append(b" " if part == b"\n" else part)
    return b"".join(parts)


def broken_rule(body, cause, version):
    """The rule that a refused request breaks, or None if another cause is found than the node's."""
    try:
        look_at(body, Limits(version))
    except Broken as broken:
        return broken.args[1] if broken.args[0] == cause else None
    return None


def refusal(gateway, body, cause):
    """The fault of a request that the node refused."""
    if cause in ("full", "held"):
        return Fault(503, cause, REFUSALS[cause] if cause == "held" else "the queue is full", retry_after(BATCH_IS_MADE))
    if cause not in REFUSALS or cause == "keeper":
        return Refused("submit: %s" % (cause or "no reply that is known"))
    rule = broken_rule(body, cause, int(dict(gateway.asked.health())["version"]))
    return Fault(400, cause, REFUSALS[cause], **({"rule": rule} if rule else {}))


def result_of(gateway, body, suffix):
    """The result that the long form of a create has now. For another request there is none."""
    value = read(body)
    if value["type"] != "create":
        return b"{}"
    did = "did:sidetree:%s:%s" % (suffix, base64url(canonical({"delta": value["delta"], "suffixData": value["suffixData"]})))
    try:
        word, _, result = gateway.asked.use(lambda node: node.verify(did))[0].partition(" ")
    except Fault:
        # The request is queued all the same.
        return b"{}"
    return encoded(result) if word == "resolved" else b"{}"


def post(gateway, environ):
    """Queues a request."""
    if gateway.submitted is None:
        raise Fault(404, "noOperations", "this gateway takes no operations")
    gateway.bound.count(gateway.address(environ))
    body = one_line(body_of(environ))
    posted = Posted(body)
    place, suffix = taken(gateway, posted), posted.suffix
    if place is None:
        try:
            word, _, rest = gateway.submitted.use(lambda node: node.ask("submit " + posted.line), once=True)[0].partition(" ")
        except Fault as fault:
            fault.told["message"] += "; the request may be queued"
            raise
        if word == "queued":
            place, suffix = "journal", rest
        elif rest == "alreadyQueued":
            place = posted.place(gateway)
        if place is None:
            raise refusal(gateway, body, rest)
    return Answer(200, result_of(gateway, body, suffix), headers=[("Sidetree-Request", place)])
