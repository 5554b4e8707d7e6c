"""Requests that come again or too soon, as those of a wallet that had no answer, or that asks another node at once."""
import hashlib
import re

from checking import decoded
from delta_rules import Broken, Limits
from ledger import base64url, uri_of
from plain_json import canonical, read
from request_rules import look_at
from web_answers import BATCH_IS_MADE, Fault, retry_after

# Which commitment of its identifier the key of a request opens, and the hashes of multihashes.
AWAITED = {"update": "updateCommitment", "recover": "recoveryCommitment", "deactivate": "recoveryCommitment"}
HASHES = {b"\x12\x20": hashlib.sha256, b"\x13\x40": hashlib.sha512}


class Posted:
    """What a request says of its identifier. One without a suffix is no request, and the node refuses it."""

    def __init__(self, body):
        self.body, self.line = body, body.decode("utf-8", "surrogateescape")
        self.suffix = self.kind = self.commitment = None
        try:
            value = read(body)
            if value["type"] == "create":
                self.suffix = uri_of(canonical(value["suffixData"]))
            else:
                reveal = decoded(value["revealValue"].encode())
                self.kind = AWAITED[value["type"]]
                self.commitment = base64url(reveal[:2] + HASHES[reveal[:2]](reveal[2:]).digest())
                self.suffix = re.fullmatch("[A-Za-z0-9_-]{1,100}", value["didSuffix"])[0]
        except (ValueError, KeyError, TypeError, AttributeError, RecursionError):
            pass

    def place(self, gateway):
        """Where this very request is, if the node has queued it of late: `journal` or `ledger`; else None."""
        word = gateway.asked.use(lambda node: node.expect("taken", "taken " + self.line))
        return None if word == "no" else word

    def is_sound(self, gateway):
        """Whether it breaks no rule of requests. The node names the cause of one that does."""
        try:
            look_at(self.body, Limits(int(dict(gateway.asked.health())["version"])))
        except Broken:
            return False
        return True


def taken(gateway, posted):
    """Where a request is that need not be queued again, or None. It is a fault if it reveals a key that its identifier does
    not await here. Nodes bring requests of one identifier to the ledger in any order, so one that needs another is taken
    only when that one is there."""
    if posted.suffix is None:
        return None
    found = gateway.asked.use(lambda node: node.resolve("did:sidetree:" + posted.suffix))
    awaits = found["didDocumentMetadata"]["method"].get(posted.kind) if found else None
    if awaits == posted.commitment if posted.kind else not found:
        return None
    place = posted.place(gateway)
    if place or posted.kind is None or not posted.is_sound(gateway):
        return place
    raise Fault(409, "notAwaited", "the identifier awaits another key here: this one was used, or what goes before has not come"
                if found else "the identifier is not known here yet", retry_after(BATCH_IS_MADE), awaits=awaits)
