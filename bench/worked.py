#!/usr/bin/env python3
"""Whether the worked values of docs/FORMATS.md are right: computes each of them here, has the wallet and a node answer
the same, and looks that the page shows nothing else.

usage: bench/worked.py

The program is the built one, or the one that SIDETREE names in the environment. The last line is 'N values'; what is
otherwise is told before, and then the status is 1.
"""
import hashlib
import os
import re
import sys
import tempfile

sys.dont_write_bytecode = True
TOP = os.path.dirname(os.path.dirname(os.path.abspath(__file__)))
sys.path.append(os.path.join(TOP, "service"))
import lms
from client import Node
from formats import (Key, add_services, base64url, batch, bytes_of, canonical, create, delta, hash_text, request, short_form,
                     update)

ID, SEED = bytes(range(16)), bytes(range(32, 64))
FIRST, SECOND = bytes.fromhex("0123456789abcdef" * 2), bytes.fromhex("fedcba9876543210" * 2)
HOME = {"id": "home", "type": "Home", "serviceEndpoint": "https://example.com/"}
SECTIONS = ("A worked key", "A worked batch")
# What a key of two levels signs in the page.
MESSAGE = b"abc"


class Bare(Key):
    """A key without a nonce."""

    def json(self):
        return {name: member for name, member in super().json().items() if name != "nonce"}


def child(ots, n):
    """Child n of the key of this identifier and seed, which is a key of two levels' top or lower key."""
    halves = [lms.hashed(ID, lms.u(n, 4), lms.u(what, 2), SEED) for what in (0xFFF0, 0xFFF1)]
    return lms.Secret.of(ots, 5, halves[0][:16], halves[1])


def of_two_levels():
    """The public key of two levels, and the signature of the message with counter 0."""
    top, lower = child(4, 0), child(4, 1)
    parts = lms.u(1, 4), top.sign(0, lower.public), lower.public, lower.sign(0, MESSAGE)
    return lms.u(2, 4) + top.public, b"".join(parts)


class Worked:
    """The values, as this program computes them."""

    def __init__(self):
        secret = lms.Secret.of(4, 5, ID, SEED)
        self.public = base64url(secret.public)
        self.keys = {"-": Bare(secret, b""), FIRST.hex(): Key(secret, FIRST), SECOND.hex(): Key(secret, SECOND)}
        recovery, first, second = self.keys.values()
        self.create = create(recovery, delta([add_services(HOME)], first))
        made = delta([{"action": "remove-services", "ids": ["home"]}], second)
        self.update = update(self.create.suffix, first, 0, made)
        self.batches = [batch([self.create]), batch([self.update])]
        self.two_levels, self.signed = of_two_levels()

    def sizes(self):
        """The lengths that the page tells: of the update's request, of its signing input, of its signature."""
        signed, _, signature = self.update.signed.rpartition(".")
        return len(request(self.update)), len(signed), len(bytes_of(signature))

    def result(self):
        """What the identifier resolves to once both batches are anchored."""
        did = short_form(self.create)
        recovery, _, second = self.keys.values()
        return {"didDocument": {"id": did}, "didDocumentMetadata": {"canonicalId": did, "method": {
            "published": True, "recoveryCommitment": recovery.commitment(), "updateCommitment": second.commitment()}}}

    def texts(self):
        """Whatever a page may show of these."""
        yield from (self.public, ID.hex(), SEED.hex(), "none", self.create.suffix)
        for nonce, key in self.keys.items():
            yield from (nonce, canonical(key.json()).decode(), key.reveal(), key.commitment())
        for operation in (self.create, self.update):
            yield from (request(operation), hash_text(request(operation).encode()))
        header, payload, signature = self.update.signed.split(".")
        yield from (header + "." + payload, bytes_of(header).decode(), bytes_of(payload).decode())
        yield from (hash_text(bytes_of(signature)), bytes_of(signature)[:40].hex(" ", 4), short_form(self.create))
        for made in self.batches:
            yield made.anchor
            for file in made.files.values():
                yield from (hash_text(file), file.decode())
        yield canonical(self.result()).decode()
        yield from (MESSAGE.decode(), base64url(self.two_levels), hashlib.sha256(self.signed).hexdigest())


def shown(page):
    """The values that the page shows in its worked parts: what stands in code, and lines that are indented."""
    parts = [r"^### %s\n(.*?)(?=^##|\Z)" % name for name in SECTIONS]
    parts.append(r"^## Keys of two levels\n.*?\n(The key of the types.*?)(?=^##|\Z)")
    for part in parts:
        text = re.search(part, page, re.M | re.S)
        if text is None:
            raise SystemExit("docs/FORMATS.md has no part as '%s'" % part)
        yield from re.findall(r"^    (.*)$", text[1], re.M)
        words = re.findall(r"`([^`]+)`", re.sub(r"^    .*$", "", text[1], flags=re.M))
        yield from (word for word in words if word == MESSAGE.decode() or not re.fullmatch(r"[a-z/]+(\.py)?", word))


def is_one(text, texts):
    """Whether a text that is shown is one of these, as a whole or cut at `…`."""
    if "…" not in text:
        return text in texts
    front, _, end = text.partition("…")
    return any(one.startswith(front) and one.endswith(end) for one in texts)


def answered(worked):
    """What the program answers otherwise."""
    first, second = FIRST.hex(), SECOND.hex()
    with (tempfile.TemporaryDirectory() as folder, Node("wallet", folder=folder) as wallet, Node() as node,
          tempfile.TemporaryDirectory() as other, Node("wallet", folder=other) as tall):
        asked = [(wallet, "format 4 5 %s %s" % (ID.hex(), SEED.hex()), "formatted " + worked.public)]
        for nonce, key in worked.keys.items():
            text = canonical(key.json()).decode()
            asked.append((wallet, "key " + nonce, "key %s %s %s" % (key.reveal(), key.commitment(), text)))
        suffix = worked.create.suffix
        asked += [
            (wallet, "create - " + canonical(worked.create.delta).decode(),
             "request %s %s" % (suffix, request(worked.create))),
            (wallet, "update %s %s %s" % (suffix, first, canonical(worked.update.delta).decode()),
             "request %s %s" % (suffix, request(worked.update)))]
        for height, (operation, made) in enumerate(zip((worked.create, worked.update), worked.batches), 1):
            files = "".join("\nfile %s %s %s" % (role, hash_text(file), base64url(file))
                            for role, file in made.files.items())
            asked += [(node, "submit " + request(operation), "queued " + suffix),
                      (node, "flush", "batch %s %d%s" % (made.anchor, len(made.files), files)),
                      (node, "anchor %d %s" % (height, made.anchor), "anchored %d" % (height - 1))]
        asked.append((node, "resolve " + short_form(worked.create), "resolved " + canonical(worked.result()).decode()))
        asked += [(tall, "format 4 6 %s %s" % (ID.hex(), SEED.hex()), None),
                  (tall, "sign-hss " + base64url(MESSAGE),
                   "hss %s %s" % (base64url(worked.two_levels), base64url(worked.signed)))]
        for one, line, wanted in asked:
            reply = "\n".join(one.ask(line))
            if wanted is not None and reply != wanted:
                yield "%s: %s" % (line[:60], reply[:100])


def main():
    worked = Worked()
    texts = set(worked.texts())
    with open(os.path.join(TOP, "docs", "FORMATS.md"), encoding="utf-8") as file:
        page = file.read()
    values = list(shown(page))
    faults = ["docs/FORMATS.md: " + text for text in values if not is_one(text, texts)] + list(answered(worked))
    told = ["{:,} bytes".format(size) for size in worked.sizes()]
    faults += ["docs/FORMATS.md has not '%s'" % size for size in told if size not in page]
    for fault in faults:
        print(fault)
    print("%d values" % len(values))
    return 1 if faults else 0


if __name__ == "__main__":
    if sys.argv[1:] == ["--show"]:
        print("\n".join(Worked().texts()))
        sys.exit(0)
    sys.exit(main())
