"""Which rule a request breaks: the first one, as `submit` looks for it. It reads the formats by itself and asks no node."""
from delta_rules import Broken, bytes_of, fails, hash_as, is_hash, look_at_delta
from lms_signatures import HEIGHTS, OTS, verify
from plain_json import canonical, exactly, read, whole

SIGNED = ("didSuffix", "revealValue", "signedData")
MEMBERS = {"create": ("suffixData", "delta"), "update": SIGNED + ("delta",), "recover": SIGNED + ("delta",),
           "deactivate": SIGNED}
CLAIMS = {"update": ("updateKey", "deltaHash"), "recover": ("recoveryKey", "recoveryCommitment", "deltaHash"),
          "deactivate": ("recoveryKey", "didSuffix")}


def look_at_form(value):
    fails("badForm", "the request", None if isinstance(value, dict) else "is no object")
    kind = value.get("type")
    if not isinstance(kind, str) or kind not in MEMBERS:
        raise Broken("badForm", "type is none of create, update, recover, deactivate")
    fails("badForm", "the request", exactly(value, ("type",) + MEMBERS[kind]))
    for name in SIGNED:
        if name in value and not isinstance(value[name], str):
            raise Broken("badForm", "%s is no text" % name)
    if "suffixData" in value:
        data = value["suffixData"]
        fails("badForm", "suffixData", exactly(data, ("deltaHash", "recoveryCommitment")))
        for name, text in data.items():
            fails("badForm", name, None if isinstance(text, str) else "is no text")
    if "delta" in value and not isinstance(value["delta"], dict):
        raise Broken("badForm", "delta is no object")


def look_at_hashes(value, limits):
    own = {**value.get("suffixData", {}), **{name: value[name] for name in ("didSuffix", "revealValue") if name in value}}
    for name, text in own.items():
        fails("badHash", name, None if is_hash(text, limits) else "is no hash text of version %d" % limits.version)


def part(text, what):
    """A part of a signed text that is an object with whole numbers."""
    try:
        value = read(text)
    except ValueError as error:
        raise Broken("badProof", "the %s is no JSON: %s" % (what, error)) from None
    fails("badProof", "the " + what, None if whole(value) else "has a number that is not whole")
    fails("badProof", "the " + what, None if isinstance(value, dict) else "is no object")
    return value


def key_fault(key):
    why = exactly(key, ("alg", "kty", "pub"), ("nonce",))
    if why:
        return why
    if key["alg"] != "LMS" or key["kty"] != "LMS":
        return "has another alg or kty than LMS"
    public = bytes_of(key["pub"])
    if public is None or len(public) != 56:
        return "has a pub that is not the base64url of 56 bytes"
    if int.from_bytes(public[:4], "big") not in HEIGHTS or int.from_bytes(public[4:8], "big") not in OTS:
        return "has a pub with types that are not in the tables"
    if "nonce" in key and len(bytes_of(key["nonce"]) or b"") != 16:
        return "has a nonce that is not the base64url of 16 bytes"
    return None


def look_at_proof(value, limits):
    """The delta hash of what was signed, or None."""
    text, kind = value["signedData"], value["type"]
    if len(text.encode()) > limits.signed:
        raise Broken("badProof", "signedData has %d bytes, and may have %d" % (len(text.encode()), limits.signed))
    parts = [bytes_of(one) for one in text.split(".")]
    if len(parts) != 3 or None in parts:
        raise Broken("badProof", "signedData is not three texts in base64url, joined by two dots")
    header = part(parts[0], "header")
    fails("badProof", "the header", exactly(header, ("alg",), ("kid",)))
    if header["alg"] != "LMS" or not isinstance(header.get("kid", ""), str):
        raise Broken("badProof", "the header's alg is not LMS, or its kid is no text")
    payload = part(parts[1], "payload")
    keys = [name for name in ("updateKey", "recoveryKey") if name in payload]
    if len(keys) != 1:
        raise Broken("badProof", "the payload has not exactly one of updateKey and recoveryKey")
    key = payload[keys[0]]
    fails("badProof", keys[0], key_fault(key))
    fails("badProof", "the signature", verify(bytes_of(key["pub"]), text.rpartition(".")[0].encode(), parts[2]))
    fails("badProof", "the payload of this %s" % kind, exactly(payload, CLAIMS[kind]))
    for name in CLAIMS[kind][1:]:
        if not is_hash(payload[name], limits):
            raise Broken("badProof", "the payload's %s is no hash text of version %d" % (name, limits.version))
    reveal = hash_as(value["revealValue"], canonical(key))
    if reveal != value["revealValue"]:
        raise Broken("badProof", "revealValue is that of another key: it is %s for the key that signed" % reveal)
    if kind == "deactivate" and payload["didSuffix"] != value["didSuffix"]:
        raise Broken("badProof", "the payload's didSuffix is another one")
    return payload.get("deltaHash")


def look_at(data, limits):
    """Raises with the first rule that a request breaks."""
    try:
        value = read(data)
    except (ValueError, RecursionError) as error:
        raise Broken("notJson", str(error).partition("\n")[0]) from None
    if not whole(value):
        raise Broken("notWhole", "a number has a fraction or an exponent, is -0, or lies beyond 2^53 - 1")
    look_at_form(value)
    look_at_hashes(value, limits)
    wanted = look_at_proof(value, limits) if "signedData" in value else value["suffixData"]["deltaHash"]
    if "delta" in value:
        look_at_delta(value["delta"], wanted, limits)
