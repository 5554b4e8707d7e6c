"""Identifiers over HTTP: Sidetree's own path, the driver of a Universal Resolver, and the history."""
import json
import re

from client import named
from meanings import UNRESOLVED
from sockets import STRANGERS
from web_answers import DOCUMENT, FILES_COME, JSON, OLDER_RESOLUTION, RESOLUTION, Answer, Fault, choose, retry_after

DID = re.compile(r"did:([a-z0-9]+):[A-Za-z0-9._:-]+", re.ASCII)
# The longest identifier that the keeper's lines have room for.
LONGEST_DID = STRANGERS["verify"] - len("verify ")
HEAD, MIDDLE = '{"didDocument":', ',"didDocumentMetadata":'
DECODER = json.JSONDecoder()


class Found:
    """What the node says of an identifier, and on what that rests."""

    def __init__(self, reply, entries, height, missing):
        self.word, _, self.rest = reply.partition(" ")
        self.missing = missing
        self.trust = [("Sidetree-Entries", str(entries)), ("Sidetree-Height", height), ("Sidetree-Missing", str(missing))]
        if self.word == "resolved":
            document, end = DECODER.raw_decode(self.rest, len(HEAD))
            self.document, self.text = document, self.rest[len(HEAD):end]
            self.metadata = json.loads(self.rest[end + len(MIDDLE):-1])

    @property
    def status(self):
        return 410 if self.metadata.get("deactivated") else 200


def identifier(text, other_method=(400, "invalidDid")):
    """An identifier of this method, or else a fault. No other text may become a part of a line."""
    method = DID.fullmatch(text)
    if not method:
        raise Fault(400, "invalidDid", "this is no identifier")
    if method[1] != "sidetree":
        raise Fault(*other_method, "only identifiers that begin with did:sidetree: are resolved here")
    if len(text) > LONGEST_DID:
        raise Fault(400, "invalidDid", "an identifier has at most %d bytes" % LONGEST_DID)
    return text


def look_up(gateway, did, query):
    """Resolves an identifier, or raises why there is no result."""
    # An option that is passed over would make an answer to another question.
    if query:
        raise Fault(501, "featureNotSupported", "no option of resolution is known here, as versionId or versionTime")
    found = Found(*gateway.asked.use(lambda node: node.verify(did)))
    if gateway.strict and found.missing:
        raise Fault(503, "filesMissing", "%d files are missing here, so there may be operations that this node does not know"
                    % found.missing, found.trust + retry_after(FILES_COME))
    if found.word == "unresolved":
        status, error = (404, "notFound") if found.rest == "notFound" else (400, "invalidDid")
        raise Fault(status, error, UNRESOLVED[found.rest], found.trust, cause=found.rest)
    return found


def resolve(gateway, text, environ):
    """Sidetree's own path: the result as the node writes it."""
    found = look_up(gateway, identifier(text), environ.get("QUERY_STRING"))
    return Answer(found.status, encoded(found.rest), JSON, found.trust)


def drive(gateway, text, environ):
    """The driver: the result, the document alone, or what a fragment names."""
    kind = choose(environ.get("HTTP_ACCEPT"), (RESOLUTION, OLDER_RESOLUTION, DOCUMENT))
    if kind is None:
        raise Fault(406, "representationNotSupported", "an answer is %s, %s or %s" % (RESOLUTION, OLDER_RESOLUTION, DOCUMENT))
    did, mark, fragment = text.partition("#")
    found = look_up(gateway, identifier(did, (501, "methodNotSupported")), environ.get("QUERY_STRING"))
    if mark and found.status == 200:
        one = named(found.document, fragment)
        if one is None:
            raise Fault(404, "notFound", "the document has nothing of the fragment's name", found.trust)
        return Answer(200, encoded(json.dumps(one, ensure_ascii=False)), JSON, found.trust)
    if kind == DOCUMENT:
        return Answer(found.status, encoded(found.text), kind, found.trust)
    metadata = ',"didResolutionMetadata":%s}' % json.dumps({"contentType": DOCUMENT})
    return Answer(found.status, encoded(found.rest[:-1] + metadata), kind, found.trust)


def history(gateway, text, environ):
    """What became of each operation of an identifier, as `explain` says it."""
    did = identifier(text)
    head, *lines = gateway.asked.use(lambda node: node.ask("explain " + did))
    word, _, cause = head.partition(" ")
    if word != "explained":
        raise Fault(400, "invalidDid", UNRESOLVED[cause], cause=cause)
    items = [line.split(" ") for line in lines]
    return Answer(200, [{"entry": int(entry), "height": int(height), "kind": kind, "verdict": verdict}
                        for _, entry, height, kind, verdict in items])


def encoded(text):
    return text.encode("utf-8", "surrogateescape")
