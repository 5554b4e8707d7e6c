"""Operations, files and lines, as docs/FORMATS.md has them, for generated sessions and streams.

Texts are ASCII here, so that Python's order of names is that of canonical JSON.
"""
import base64
import hashlib
import json
from typing import NamedTuple, Optional

ROLES = ("core", "coreProof", "provisional", "provisionalProof", "chunk")


def base64url(data):
    return base64.urlsafe_b64encode(data).rstrip(b"=").decode()


def bytes_of(text):
    """The bytes of a base64url text."""
    return base64.urlsafe_b64decode(text + "=" * (-len(text) % 4))


def canonical(value):
    return json.dumps(value, sort_keys=True, separators=(",", ":"), ensure_ascii=False).encode()


def hash_text(data):
    return base64url(b"\x12\x20" + hashlib.sha256(data).digest())


class Key(NamedTuple):
    """A key as JSON: one LMS key gives several by their nonces."""
    secret: object
    nonce: bytes

    def json(self):
        return {"alg": "LMS", "kty": "LMS", "nonce": base64url(self.nonce), "pub": base64url(self.secret.public)}

    def reveal(self):
        return hash_text(canonical(self.json()))

    def commitment(self):
        return hash_text(hashlib.sha256(canonical(self.json())).digest())


def key_of(secret, name):
    """The key of this secret whose nonce is made of a name."""
    return Key(secret, hashlib.sha256(name.encode()).digest()[:16])


class Operation(NamedTuple):
    """`entry` is what an index file says of it."""
    kind: str
    suffix: str
    entry: dict
    signed: Optional[str] = None
    delta: Optional[dict] = None


def signed_text(key, number, payload):
    """The payload, signed with the one-time key of this number."""
    text = base64url(canonical({"alg": "LMS"})) + "." + base64url(canonical(payload))
    return text + "." + base64url(key.secret.sign(number, text.encode()))


def delta(patches, next_key):
    return {"patches": patches, "updateCommitment": next_key.commitment()}


def create(recovery_key, made):
    """A create with this delta."""
    data = {"deltaHash": hash_text(canonical(made)), "recoveryCommitment": recovery_key.commitment()}
    return Operation("create", hash_text(canonical(data)), {"suffixData": data}, None, made)


def update(suffix, key, number, made):
    entry = {"didSuffix": suffix, "revealValue": key.reveal()}
    payload = {"updateKey": key.json(), "deltaHash": hash_text(canonical(made))}
    return Operation("update", suffix, entry, signed_text(key, number, payload), made)


def request(operation):
    """The text that asks for an operation."""
    members = {"type": operation.kind, **operation.entry}
    if operation.signed is not None:
        members["signedData"] = operation.signed
    if operation.delta is not None:
        members["delta"] = operation.delta
    return canonical(members).decode()


def short_form(operation):
    return "did:sidetree:" + operation.suffix


def long_form(operation):
    """The long form of a create's identifier."""
    parts = {"delta": operation.delta, "suffixData": operation.entry["suffixData"]}
    return short_form(operation) + ":" + base64url(canonical(parts))


class Batch(NamedTuple):
    """The anchor string, and the bytes of the files by role."""
    anchor: str
    files: dict


def batch(operations, **more):
    """A batch of these operations. `more` are further members of the core index file."""
    of = {kind: [one for one in operations if one.kind == kind] for kind in ("create", "recover", "deactivate", "update")}
    files = {}

    def lists(kinds, what):
        return {kind: [what(one) for one in of[kind]] for kind in kinds if of[kind]}

    def entry(one):
        return one.entry

    def proof(one):
        return {"signedData": one.signed}
    core = dict(more)
    if of["recover"] or of["deactivate"]:
        files["coreProof"] = canonical({"operations": lists(("recover", "deactivate"), proof)})
        core["coreProofFileUri"] = hash_text(files["coreProof"])
    if of["create"] or of["recover"] or of["update"]:
        files["chunk"] = canonical({"deltas": [one.delta for kind in ("create", "recover", "update") for one in of[kind]]})
        provisional = {"chunks": [{"chunkFileUri": hash_text(files["chunk"])}]}
        if of["update"]:
            files["provisionalProof"] = canonical({"operations": lists(("update",), proof)})
            provisional["provisionalProofFileUri"] = hash_text(files["provisionalProof"])
            provisional["operations"] = lists(("update",), entry)
        files["provisional"] = canonical(provisional)
        core["provisionalIndexFileUri"] = hash_text(files["provisional"])
    core_lists = lists(("create", "recover", "deactivate"), entry)
    if core_lists:
        core["operations"] = core_lists
    files["core"] = canonical(core)
    anchor = "%d.%s" % (len(operations), hash_text(files["core"]))
    return Batch(anchor, {role: files[role] for role in ROLES if role in files})


def content_line(file):
    return "content " + base64url(file)


def anchor_line(height, made):
    return "anchor %d %s" % (height, made.anchor)


def submit_line(operation):
    return "submit " + request(operation)


def service(name, endpoint):
    return {"id": name, "type": "LinkedDomains", "serviceEndpoint": endpoint}


def add_services(*services):
    return {"action": "add-services", "services": list(services)}


def add_keys(*keys):
    return {"action": "add-public-keys", "publicKeys": list(keys)}
