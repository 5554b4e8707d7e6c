"""Answers to HTTP requests, the faults that are answers too, and the types that a client may ask for."""
import json
from http import HTTPStatus

JSON, DOCUMENT, RESOLUTION = "application/json", "application/did", "application/did-resolution"
OLDER_RESOLUTION = 'application/ld+json;profile="https://w3id.org/did-resolution"'
# What every answer has besides its own headers.
HEADERS = [("Cache-Control", "no-store"), ("X-Content-Type-Options", "nosniff"), ("Referrer-Policy", "no-referrer")]
NO_CONTENT = ("Content-Security-Policy", "default-src 'none'; frame-ancestors 'none'")
# How many seconds a client does well to wait, by what it waits for.
NODE_STARTS, FILES_COME, BATCH_IS_MADE, MINUTE = 5, 30, 60, 60


class Answer:
    """An answer, as a WSGI application gives it."""

    def __init__(self, status, body, kind=JSON, headers=()):
        self.status, self.kind = status, kind
        self.body = body if isinstance(body, bytes) else json.dumps(body).encode()
        self.headers = headers

    def give(self, start, is_head, more):
        """Starts the answer with more headers, and gives its body."""
        headers = [*HEADERS, *self.headers, *more]
        if self.status != HTTPStatus.NO_CONTENT:
            headers = [("Content-Type", self.kind), ("Content-Length", str(len(self.body)))] + headers
        if not any(name == NO_CONTENT[0] for name, _ in headers):
            headers.append(NO_CONTENT)
        start("%d %s" % (self.status, HTTPStatus(self.status).phrase), headers)
        return [] if is_head else [self.body]


class Fault(Exception):
    """Why a request has another answer than it asks for: a status, a name for programs, and a sentence for people. `more`
    has further members of the body."""

    def __init__(self, status, error, message, headers=(), **more):
        super().__init__(message)
        self.status, self.headers, self.told = status, headers, {"error": error, "message": message, **more}

    def answer(self, is_resolution=False):
        """The fault as an answer; as a result of resolution, if a driver was asked."""
        if is_resolution:
            return Answer(self.status, {"didDocument": None, "didDocumentMetadata": {}, "didResolutionMetadata": self.told},
                          RESOLUTION, self.headers)
        return Answer(self.status, self.told, JSON, self.headers)


def retry_after(seconds):
    return [("Retry-After", str(seconds))]


def media_type(text):
    """The name of a media type in small letters, and its parameters."""
    name, *rest = text.split(";")
    pairs = [one.partition("=") for one in rest]
    return name.strip().lower(), {key.strip().lower(): value.strip().strip('"') for key, _, value in pairs}


def preference(accept, offer):
    """How much a header Accept wants an offer, from 0 to 1: what its most exact range says."""
    kind, parameters = media_type(offer)
    found = (-1, 0.0)
    for part in accept.split(","):
        name, asked = media_type(part)
        try:
            quality = float(asked.pop("q", "1"))
        except ValueError:
            quality = 0.0
        if name in ("*/*", kind.partition("/")[0] + "/*"):
            found = max(found, (int(name != "*/*"), quality))
        elif name == kind and asked.items() <= parameters.items():
            found = max(found, (2 + len(asked), quality))
    return found[1]


def choose(accept, offers):
    """The offer that a header Accept wants most, the first one of equals, or None."""
    wanted = {offer: preference(accept or "*/*", offer) for offer in offers}
    best = max(offers, key=wanted.get)
    return best if wanted[best] > 0 else None
