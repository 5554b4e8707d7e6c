#!/usr/bin/env python3
"""Writes the inputs of examples/: the sessions, and the folder that service/feed reads.

usage: bench/examples.py [FOLDER]

They go to examples/, or to FOLDER. The requests are signed by the wallet of the program, each person's with a vault
of its own; only what the wallet refuses to sign is signed here. The program is the built one,
or the one that SIDETREE names in the environment. What the sessions must print stands beside them in NAME.out. It comes from another program,
which reads the formats in its own way, and is not written here.
"""
import hashlib
import json
import os
import sys
import tempfile

sys.dont_write_bytecode = True
TOP = os.path.dirname(os.path.dirname(os.path.abspath(__file__)))
EXAMPLES = os.path.join(TOP, "examples")
sys.path.append(os.path.join(TOP, "service"))
import lms
from client import Node
from formats import (Batch, Operation, add_keys, add_services, anchor_line, batch, bytes_of, canonical, content_line,
                     hash_text, key_of, long_form, service, short_form, submit_line)
import formats

HOME = service("home", "https://example.com/")
SHOP = service("shop", "https://example.com/shop")
# The example of a long form that DIF Sidetree v1.0.0 publishes.
PUBLISHED = (
    "did:sidetree:EiDyOQbbZAa3aiRzeCkV7LOx3SERjjH93EXoIM3UoN4oWg:eyJkZWx0YSI6eyJwYXRjaGVzIjpbeyJhY3Rpb24iOiJyZXBsYWNlIiwi"
    "ZG9jdW1lbnQiOnsicHVibGljS2V5cyI6W3siaWQiOiJwdWJsaWNLZXlNb2RlbDFJZCIsInB1YmxpY0tleUp3ayI6eyJjcnYiOiJzZWNwMjU2azEiLCJr"
    "dHkiOiJFQyIsIngiOiJ0WFNLQl9ydWJYUzdzQ2pYcXVwVkpFelRjVzNNc2ptRXZxMVlwWG45NlpnIiwieSI6ImRPaWNYcWJqRnhvR0otSzAtR0oxa0hZ"
    "SnFpY19EX09NdVV3a1E3T2w2bmsifSwicHVycG9zZXMiOlsiYXV0aGVudGljYXRpb24iLCJrZXlBZ3JlZW1lbnQiXSwidHlwZSI6IkVjZHNhU2VjcDI1"
    "NmsxVmVyaWZpY2F0aW9uS2V5MjAxOSJ9XSwic2VydmljZXMiOlt7ImlkIjoic2VydmljZTFJZCIsInNlcnZpY2VFbmRwb2ludCI6Imh0dHA6Ly93d3cu"
    "c2VydmljZTEuY29tIiwidHlwZSI6InNlcnZpY2UxVHlwZSJ9XX19XSwidXBkYXRlQ29tbWl0bWVudCI6IkVpREtJa3dxTzY5SVBHM3BPbEhrZGI4Nm5Z"
    "dDBhTnhTSFp1MnItYmhFem5qZEEifSwic3VmZml4RGF0YSI6eyJkZWx0YUhhc2giOiJFaUNmRFdSbllsY0Q5RUdBM2RfNVoxQUh1LWlZcU1iSjluZmlx"
    "ZHo1UzhWRGJnIiwicmVjb3ZlcnlDb21taXRtZW50IjoiRWlCZk9aZE10VTZPQnc4UGs4NzlRdFotMkotOUZiYmpTWnlvYUFfYnFENHpoQSJ9fQ")


class Key:
    """A key of a wallet, as its line `key` shows it."""

    def __init__(self, nonce, shown):
        self.nonce = nonce
        self._reveal, self._commitment, text = shown.split(" ", 2)
        self._json = json.loads(text)

    def json(self):
        return self._json

    def reveal(self):
        return self._reveal

    def commitment(self):
        return self._commitment


class Person:
    """The keys of one identifier, in a vault of its own, whose wallet signs."""

    def __init__(self, name):
        self.folder = tempfile.TemporaryDirectory()
        self.wallet = Node("wallet", folder=self.folder.name)
        key = [hashlib.sha256(what + name.encode()).digest() for what in (b"id ", b"seed ")]
        self.wallet.expect("formatted", "format 4 5 %s %s" % (key[0][:16].hex(), key[1].hex()))

    def key(self, name):
        nonce = hashlib.sha256(name.encode()).digest()[:16].hex()
        return Key(nonce, self.wallet.expect("key", "key " + nonce))

    def _request(self, line):
        """The operation that the wallet's request asks for."""
        suffix, _, text = self.wallet.expect("request", line).partition(" ")
        asked = json.loads(text)
        kind, signed, made = (asked.pop(name, None) for name in ("type", "signedData", "delta"))
        return Operation(kind, suffix, asked, signed, made)

    def delta(self, next_key, *patches):
        return canonical(formats.delta(list(patches), self.key(next_key))).decode()

    def create(self, *patches):
        return self._request("create %s %s" % (self.key("recovery 0").nonce, self.delta("update 0", *patches)))

    def update(self, suffix, n, *patches):
        """The update that reveals update key n and commits to the next."""
        return self.update_to(suffix, "update %d" % n, "update %d" % (n + 1), *patches)

    def update_to(self, suffix, name, next_name, *patches):
        return self._request("update %s %s %s" % (suffix, self.key(name).nonce, self.delta(next_name, *patches)))

    def recover(self, suffix, n, *patches):
        keys = self.key("recovery %d" % n).nonce, self.key("recovery %d" % (n + 1)).nonce
        return self._request("recover %s %s %s %s" % (suffix, *keys, self.delta("update after recovery %d" % n, *patches)))

    def deactivate(self, suffix, n):
        return self._request("deactivate %s %s" % (suffix, self.key("recovery %d" % n).nonce))


def contents(made, *left_out):
    return [content_line(file) for role, file in made.files.items() if role not in left_out]


def life():
    """A create, an update whose chunk comes late, a rollback, and the long form throughout."""
    alice = Person("Alice")
    one = alice.create(add_services(HOME))
    short, long = "resolve " + short_form(one), "resolve " + long_form(one)
    first = batch([one])
    second = batch([alice.update(one.suffix, 0, add_services(SHOP))])
    return [
        long, short,
        anchor_line(10, first), "wanted", *contents(first), long, short,
        anchor_line(11, second), *contents(second, "chunk"), "report 1", "wanted", short,
        content_line(second.files["chunk"]), "report 1", "wanted", short, long,
        "rollback 1", short,
        anchor_line(12, second), "report 1", short]


def recovery():
    """A recover that takes a new key and a new service, a deactivate, and a recover after that."""
    bob = Person("Bob")
    key = {"id": "sign", "type": "JsonWebKey2020", "publicKeyJwk": bob.key("sign").json(), "purposes": ["authentication"]}
    one = bob.create(add_keys(key))
    batches = [batch([one]), batch([bob.recover(one.suffix, 0, add_services(HOME))]),
               batch([bob.deactivate(one.suffix, 1)]), batch([bob.recover(one.suffix, 1)])]
    lines = []
    for n, made in enumerate(batches):
        lines += [anchor_line(n, made), *contents(made), "report %d" % n, "resolve " + short_form(one)]
    return lines


def rejected():
    """Entries with files that are rejected, each for another cause, and lines that are refused."""
    carol = Person("Carol")
    one = carol.create(add_services(HOME))
    short = "resolve " + short_form(one)
    good = batch([one])
    chunk = canonical({"deltas": []})
    provisional = canonical({"chunks": [{"chunkFileUri": hash_text(chunk)}]})
    core = canonical({"operations": {"create": [one.entry]}, "provisionalIndexFileUri": hash_text(provisional)})
    short_chunk = Batch("1." + hash_text(core), {"core": core, "provisional": provisional, "chunk": chunk})
    odd = batch([one], extra=1)
    no_json = b"{"
    return [
        "anchor 5 0." + hash_text(good.files["core"]), "report 0",
        anchor_line(5, odd), content_line(odd.files["core"]), "report 1",
        "anchor 5 1." + hash_text(no_json), content_line(no_json), "report 2",
        short,
        anchor_line(5, short_chunk), *contents(short_chunk), "report 3", short,
        "anchor 5 some other text", "report 4",
        "report 5", "anchor 4 " + good.anchor, "rollback 6", "rollback -1", "content AB", "content", "Wanted",
        "resolve did:other:abc", "resolve " + short_form(one) + ":e30", "wanted"]


def names():
    """Names are of version 2: the same update has no effect below height 100, and acts from there on. The wallet signs
    deltas of version 1 alone, so this one is signed here."""
    dora = Person("Dora")
    one = dora.create(add_services(HOME))
    patch = {"action": "add-also-known-as", "uris": ["https://dora.example/", "did:example:dora"]}
    signer = lms.Secret(4, 5, b"Dora")
    made = formats.delta([patch], key_of(signer, "update 1"))
    first, second = batch([one]), batch([formats.update(one.suffix, key_of(signer, "update 0"), 0, made)])
    short = "resolve " + short_form(one)
    return [*contents(first), *contents(second),
            anchor_line(99, first), anchor_line(99, second), "report 1", short,
            "rollback 1", anchor_line(100, second), "report 1", short]


def whole():
    """From requests to results: two creates in a batch, then an update and a recover in another, which is
    rolled back and anchored again."""
    gina, hugo = Person("Gina"), Person("Hugo")
    one, other = gina.create(add_services(HOME)), hugo.create()
    creates = batch([one, other])
    operations = [gina.update(one.suffix, 0, add_services(SHOP)), hugo.recover(other.suffix, 0, add_services(HOME))]
    changes = batch(operations)
    asked = ["resolve " + short_form(one), "resolve " + short_form(other)]
    return [
        "flush", submit_line(one), submit_line(other), submit_line(one), "flush", "flush", *asked,
        anchor_line(30, creates), "wanted", "report 0", *asked,
        *map(submit_line, operations), "flush", asked[0],
        anchor_line(31, changes), "report 1", *asked,
        "rollback 1", *asked,
        anchor_line(32, changes), *asked]


def explained():
    """One identifier whose operations come to each of the ends that an operation can come to: before its create, its
    create, an update whose chunk comes late, the create and the update anchored again, an update that another signed,
    a recover whose chunk comes late, an update behind it, a deactivate, and a recover after that."""
    ines, other = Person("Ines"), Person("Other")
    one = ines.create(add_services(HOME))
    early = ines.update(one.suffix, 0)
    added = ines.update(one.suffix, 0, add_services(SHOP))
    forged = other.update(one.suffix, 0, add_services(HOME))
    forged = forged._replace(entry={**forged.entry, "revealValue": ines.key("update 1").reveal()})
    recovered = ines.recover(one.suffix, 0, add_services(HOME))
    behind = ines.update_to(one.suffix, "update after recovery 0", "update again", add_services(SHOP))
    batches = [batch([operation]) for operation in (
        early, one, added, one, added, forged, recovered, behind, ines.deactivate(one.suffix, 1), ines.recover(one.suffix, 1))]
    asked = "explain " + short_form(one)
    late = [batches[2], batches[6]]
    fed = dict.fromkeys(line for made in batches for line in contents(made, *["chunk"] * (made in late)))
    return [
        *[anchor_line(40 + n, made) for n, made in enumerate(batches)], asked, "explain " + long_form(one),
        *fed, asked, *[content_line(made.files["chunk"]) for made in late], asked,
        "rollback 8", asked, "resolve " + short_form(one), "explain did:other:abc", "explain"]


def signature_changed(signed):
    """A signed text with another last byte of the signature."""
    front, _, signature = signed.rpartition(".")
    data = bytes_of(signature)
    return front + "." + formats.base64url(data[:-1] + bytes([data[-1] ^ 1]))


def requests():
    """Requests that are queued, and one for each rule that a request breaks easily. service/why names the rule."""
    kim, other = Person("Kim"), Person("Other")
    one, two, three = (kim.create(*[add_services(HOME)] * n) for n in (0, 1, 2))
    changed = kim.update(one.suffix, 0, add_services(SHOP))
    recovered, ended = kim.recover(two.suffix, 0), kim.deactivate(two.suffix, 0)
    create, update, recover, deactivate = (json.loads(formats.request(each)) for each in (three, changed, recovered, ended))
    key = {"id": "sign", "type": "JsonWebKey2020", "publicKeyJwk": kim.key("sign").json()}

    def patched(*patches):
        """A create with these patches, whose delta hash is right."""
        made = formats.delta(list(patches), kim.key("update 0"))
        return {**create, "delta": made, "suffixData": {**create["suffixData"], "deltaHash": hash_text(canonical(made))}}

    header, payload, signature = update["signedData"].split(".")
    broken = [
        "{", '{"type":"create","height":1.5}', "[]", {"type": "Create"},
        {name: member for name, member in create.items() if name != "delta"}, {**create, "signedData": ""},
        {**create, "delta": []}, {**update, "didSuffix": 1}, {**create, "suffixData": {"deltaHash": hash_text(b"")}},
        {**update, "didSuffix": short_form(one)}, {**update, "revealValue": update["revealValue"] + "="},
        {**update, "signedData": header + "." + payload},
        {**update, "signedData": payload + "." + payload + "." + signature},
        {**update, "signedData": header + "." + header + "." + signature},
        {**update, "signedData": header + "." + payload + "." + signature[:-3]},
        {**update, "signedData": signature_changed(update["signedData"])},
        {**update, "signedData": recover["signedData"]}, {**update, "revealValue": other.key("update 0").reveal()},
        {**deactivate, "didSuffix": one.suffix},
        {**update, "delta": {**update["delta"], "patches": []}},
        patched(add_services({**HOME, "serviceEndpoint": "https://example.com/" + "x" * 1000})),
        patched({"action": "add-also-known-as", "uris": ["https://example.com/"]}), patched(add_services(HOME, HOME)),
        patched(add_services({**HOME, "type": "T" * 31})), patched(add_services({**HOME, "id": "a b"})),
        patched(add_keys({**key, "purposes": ["signing"]})), patched(add_keys({**key, "publicKeyJwk": "key"})),
        patched({"action": "remove-services", "ids": "home"}), patched({"action": "replace", "document": {"keys": []}}),
        patched({"action": "ietf-json-patch", "patches": [{"op": "remove", "path": "services"}]}),
        patched({"action": "ietf-json-patch", "patches": [{"op": "add", "path": "/services/-"}]})]
    return ["submit " + (each if isinstance(each, str) else canonical(each).decode()) for each in broken] + [
        *map(submit_line, (one, changed, recovered, three)), submit_line(ended)]


def folder(path):
    """Two identifiers in three batches: their files, the list of entries, the identifiers. The first one has a key, the
    example of RFC 8037."""
    key = {"id": "sign", "type": "JsonWebKey2020", "purposes": ["authentication", "assertionMethod"],
           "publicKeyJwk": {"kty": "OKP", "crv": "Ed25519", "x": "11qYAYKxCrfVS_7TyWQHOg7hcvPapiMlrwIaaPcHURo"}}
    people = [Person("Erin"), Person("Frank")]
    creates = [one.create(add_services(HOME)) for one in people]
    batches = [batch(creates), batch([people[0].update(creates[0].suffix, 0, add_services(SHOP), add_keys(key))]),
               batch([people[1].deactivate(creates[1].suffix, 0)])]
    os.makedirs(os.path.join(path, "files"), exist_ok=True)
    for n, made in enumerate(batches):
        for role, file in made.files.items():
            write(os.path.join(path, "files", "%d-%s.json" % (n, role)), file)
    write(os.path.join(path, "anchors"), "".join("%d %s\n" % (20 + n, made.anchor) for n, made in enumerate(batches)).encode())
    write(os.path.join(path, "dids"), "".join(short_form(one) + "\n" for one in creates).encode())


def write(path, data):
    with open(path, "wb") as file:
        file.write(data)


def published():
    """The long form that DIF Sidetree v1.0.0 publishes as its example; then a fragment behind it, and other bytes in it."""
    return ["resolve " + PUBLISHED, "resolve " + PUBLISHED + "#publicKeyModel1Id", "resolve " + PUBLISHED[:-1] + "R",
            "resolve " + PUBLISHED.rpartition(":")[0]]


def main(path=EXAMPLES):
    for make in (life, recovery, rejected, names, whole, explained, published, requests):
        write(os.path.join(path, make.__name__ + ".in"), "".join(line + "\n" for line in make()).encode())
    folder(os.path.join(path, "folder"))


if __name__ == "__main__":
    main(*sys.argv[1:2])
