"""Which rule a delta breaks, by its form and by its hash."""
import base64
import hashlib

from plain_json import canonical, depth, exactly

PURPOSES = ("authentication", "assertionMethod", "keyAgreement", "capabilityInvocation", "capabilityDelegation")
BASE64URL = set("ABCDEFGHIJKLMNOPQRSTUVWXYZabcdefghijklmnopqrstuvwxyz0123456789-_")


class Broken(Exception):
    """A rule that is broken: the cause, and the rule."""


class Limits:
    def __init__(self, version):
        self.version = version
        self.delta = 1_000 if version == 1 else 2_000
        self.delta_depth, self.signed, self.document, self.document_depth = 64, 13_000, 16_384, 32
        self.codes = {0x12: hashlib.sha256} if version == 1 else {0x12: hashlib.sha256, 0x13: hashlib.sha512}


def bytes_of(text):
    """The bytes of a base64url text, or None where it has another spelling."""
    if not isinstance(text, str) or not set(text) <= BASE64URL or len(text) % 4 == 1:
        return None
    data = base64.urlsafe_b64decode(text + "=" * (-len(text) % 4))
    return data if base64.urlsafe_b64encode(data).rstrip(b"=").decode() == text else None


def is_hash(text, limits):
    data = bytes_of(text)
    return data is not None and len(data) > 2 and data[0] in limits.codes and (
        data[1] == len(data) - 2 == limits.codes[data[0]]().digest_size)


def hash_as(text, data):
    """The hash text of bytes, by the algorithm of this hash text."""
    code = bytes_of(text)[0]
    digest = {0x12: hashlib.sha256, 0x13: hashlib.sha512}[code](data).digest()
    return base64.urlsafe_b64encode(bytes([code, len(digest)]) + digest).rstrip(b"=").decode()


def fails(cause, what, why):
    """Raises where there is a reason why."""
    if why:
        raise Broken(cause, "%s %s" % (what, why))


def text_fault(value, most):
    if not isinstance(value, str):
        return "is no text"
    return None if 1 <= len(value.encode()) <= most else "has %d bytes, and may have 1 to %d" % (len(value.encode()), most)


def id_fault(value):
    return None if isinstance(value, str) and 1 <= len(value) <= 50 and set(value) <= BASE64URL else (
        "is no text of 1 to 50 characters of base64url")


def entry_fault(entry, kind):
    """What keeps a value from being a key or a service."""
    optional = ("purposes", "controller") if kind == "key" else ()
    why = exactly(entry, ("id", "type", "publicKeyJwk" if kind == "key" else "serviceEndpoint"), optional)
    if why:
        return why
    faults = [("id", id_fault(entry["id"])), ("type", text_fault(entry["type"], 100 if kind == "key" else 30))]
    if kind == "key":
        faults.append(("publicKeyJwk", None if isinstance(entry["publicKeyJwk"], dict) else "is no object"))
        purposes = entry.get("purposes", [])
        right = isinstance(purposes, list) and all(one in PURPOSES for one in purposes) and (
            len(set(purposes)) == len(purposes))
        faults.append(("purposes", None if right else "is no list, without repeats, of the five purposes"))
        faults.append(("controller", text_fault(entry["controller"], 200) if "controller" in entry else None))
    elif not isinstance(entry["serviceEndpoint"], dict):
        faults.append(("serviceEndpoint", text_fault(entry["serviceEndpoint"], 100)))
    return next(("has a member %s that %s" % fault for fault in faults if fault[1]), None)


def entries_fault(entries, kind):
    if not isinstance(entries, list):
        return "is no list"
    for n, entry in enumerate(entries):
        why = entry_fault(entry, kind)
        if why:
            return "has an entry %d that %s" % (n, why)
    ids = [entry["id"] for entry in entries]
    return None if len(set(ids)) == len(ids) else "has an id twice"


def names_fault(names, once):
    if not isinstance(names, list):
        return "is no list"
    for n, name in enumerate(names):
        why = text_fault(name, 100)
        if why:
            return "has an entry %d that %s" % (n, why)
    return "has a name twice" if once and len(set(names)) != len(names) else None


def ids_fault(ids):
    return "is no list of ids" if not isinstance(ids, list) or any(map(id_fault, ids)) else None


def document_fault(document, limits):
    names = ("publicKeys", "services") + (("alsoKnownAs",) if limits.version > 1 else ())
    why = exactly(document, (), names)
    if why:
        return why
    read_as = {"publicKeys": document.get("publicKeys", []), "services": document.get("services", [])}
    faults = [("publicKeys", entries_fault(read_as["publicKeys"], "key")),
              ("services", entries_fault(read_as["services"], "service"))]
    if document.get("alsoKnownAs", []) != []:
        faults.append(("alsoKnownAs", names_fault(document["alsoKnownAs"], True)))
        read_as["alsoKnownAs"] = document["alsoKnownAs"]
    for fault in faults:
        if fault[1]:
            return "has a member %s that %s" % fault
    if len(canonical(read_as)) > limits.document:
        return "has a canonical text of more than %d bytes" % limits.document
    return "nests deeper than %d" % limits.document_depth if depth(read_as) > limits.document_depth else None


def pointer_fault(text):
    if not isinstance(text, str):
        return "is no text"
    if text and not text.startswith("/"):
        return "does not begin with /"
    return "has a ~ before something else than 0 or 1" if "~" in text.replace("~0", "").replace("~1", "") else None


STEPS = {"add": ("value",), "remove": (), "replace": ("value",), "move": ("from",), "copy": ("from",), "test": ("value",)}


def step_fault(step):
    if not isinstance(step, dict):
        return "is no object"
    op = step.get("op")
    if not isinstance(op, str) or op not in STEPS:
        return "has an op that is none"
    for name in ("path",) + STEPS[op]:
        if name not in step:
            return "has no member %s" % name
        if name != "value" and pointer_fault(step[name]):
            return "has a member %s that %s" % (name, pointer_fault(step[name]))
    return None


def steps_fault(steps):
    if not isinstance(steps, list):
        return "is no list"
    return next(("has a step %d that %s" % (n, step_fault(step)) for n, step in enumerate(steps) if step_fault(step)), None)


ACTIONS = {
    "add-public-keys": ("publicKeys", lambda value, limits: entries_fault(value, "key")),
    "remove-public-keys": ("ids", lambda value, limits: ids_fault(value)),
    "add-services": ("services", lambda value, limits: entries_fault(value, "service")),
    "remove-services": ("ids", lambda value, limits: ids_fault(value)),
    "replace": ("document", document_fault),
    "ietf-json-patch": ("patches", lambda value, limits: steps_fault(value)),
}
LATER_ACTIONS = {
    "add-also-known-as": ("uris", lambda value, limits: names_fault(value, True)),
    "remove-also-known-as": ("uris", lambda value, limits: names_fault(value, False)),
}


def patch_fault(patch, limits):
    if not isinstance(patch, dict):
        return "is no object"
    actions = ACTIONS if limits.version == 1 else {**ACTIONS, **LATER_ACTIONS}
    action = patch.get("action")
    if not isinstance(action, str) or action not in actions:
        return "has an action that is none of version %d" % limits.version
    member, fault = actions[action]
    why = exactly(patch, ("action", member))
    if why:
        return why
    why = fault(patch[member], limits)
    return "has a member %s that %s" % (member, why) if why else None


def look_at_delta(delta, wanted, limits):
    text = canonical(delta)
    if len(text) > limits.delta:
        raise Broken("badDelta", "its canonical text has %d bytes, and may have %d" % (len(text), limits.delta))
    fails("badDelta", "the delta", exactly(delta, ("patches", "updateCommitment")))
    fails("badDelta", "patches", None if isinstance(delta["patches"], list) else "is no list")
    if not is_hash(delta["updateCommitment"], limits):
        raise Broken("badDelta", "updateCommitment is no hash text of version %d" % limits.version)
    if depth(delta) > limits.delta_depth:
        raise Broken("badDelta", "the delta nests deeper than %d" % limits.delta_depth)
    for n, patch in enumerate(delta["patches"]):
        fails("badDelta", "patch %d" % n, patch_fault(patch, limits))
    found = hash_as(wanted, text)
    if found != wanted:
        raise Broken("badDelta", "the delta's hash is %s, and the request says %s" % (found, wanted))
