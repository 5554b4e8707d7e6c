"""Clients of a registry: each makes identifiers and changes them by HTTP, and remembers what was acknowledged."""
import collections
import json
import os
import random
import threading
import time

from client import Node

# A vault has 32 signatures.
IDENTIFIERS_OF_A_VAULT = 4
LIVES = (["update"] * 3, ["update", "recover", "update"], ["update", "update", "recover", "update", "deactivate"], ["recover"], [])
# How long a client waits for the effect of a request, and how often it repeats one when it is to stop, at most.
PATIENCE, REPEATS = 120, 40
ACTED = ("created", "updated", "recovered", "deactivated")


class Identifier:
    """What its acknowledged operations make of an identifier, and one more if no answer to it came."""

    def __init__(self, suffix):
        self.suffix, self.did, self.acknowledged, self.open = suffix, "did:sidetree:" + suffix, 0, None
        self.services, self.ended = None, False

    def expect(self, services, ended):
        """What the open operation will make."""
        self.open = (services, ended)

    def take(self):
        """The open operation was acknowledged."""
        (self.services, self.ended), self.open = self.open, None
        self.acknowledged += 1

    def fits(self, result, state=None):
        """Whether a result is what the operations make."""
        services, ended = state or (self.services, self.ended)
        if ended or result["didDocumentMetadata"].get("deactivated"):
            return ended == bool(result["didDocumentMetadata"].get("deactivated"))
        return result["didDocumentMetadata"]["method"]["published"] and [
            one["id"].strip("#") for one in result["didDocument"].get("service", [])] == services

    def is_lost(self, reply, verdicts):
        """Whether an acknowledged operation did not act, or one that nobody knows of did."""
        acted = sum(line.rpartition(" ")[2] in ACTED for line in verdicts)
        if acted not in ((self.acknowledged, self.acknowledged + 1) if self.open else (self.acknowledged,)):
            return True
        state = self.open if acted > self.acknowledged else (self.services, self.ended)
        return acted > 0 and not self.fits(json.loads(reply.partition(" ")[2]), state)


class Writer(threading.Thread):
    """One client. It posts to any machine, and repeats a request that had no answer, as it is, at any other."""

    def __init__(self, folder, number, machines, stopping, seed):
        super().__init__(daemon=True)
        self.folder, self.machines, self.stopping = os.path.join(folder, "w%d" % number), machines, stopping
        self.random, self.made, self.counts, self.identifiers = random.Random(seed * 1000 + number), 0, collections.Counter(), []
        self.wallet, self.fault = None, None

    def run(self):
        try:
            while not self.stopping.is_set():
                self.live()
        except Exception as fault:
            self.fault = fault
        finally:
            if self.wallet:
                self.wallet.end()

    def key(self, kind, n):
        return "%016x%08x%08x" % (self.made, kind, n)

    def commitment(self, kind, n):
        return self.wallet.ask("key " + self.key(kind, n))[0].split(" ")[2]

    def delta(self, n):
        return json.dumps({"patches": [{"action": "add-services", "services": [
            {"id": "s%d" % n, "type": "S", "serviceEndpoint": "https://example.com/%d" % n}]}], "updateCommitment": self.commitment(0, n)})

    def new_vault(self):
        if self.wallet:
            self.wallet.end()
        folder = os.path.join(self.folder, str(self.made))
        os.makedirs(folder)
        self.wallet = Node("wallet", folder=folder)
        self.wallet.expect("formatted", "format 3 5 %s %s" % (os.urandom(16).hex(), os.urandom(32).hex()))

    def live(self):
        """The life of an identifier."""
        if self.made % IDENTIFIERS_OF_A_VAULT == 0:
            self.new_vault()
        self.made += 1
        suffix, request = self.wallet.ask("create %s %s" % (self.key(1, 0), self.delta(0)))[0].split(" ", 2)[1:]
        did, n, recovery = Identifier(suffix), 0, 0
        self.identifiers.append(did)
        did.expect(["s0"], False)
        done = self.does(did, "create", request)
        for kind in self.random.choice(LIVES):
            if not done or self.stopping.is_set():
                return
            n += 1
            if kind == "update":
                line = "update %s %s %s" % (suffix, self.key(0, n - 1), self.delta(n))
                did.expect(did.services + ["s%d" % n], False)
            elif kind == "recover":
                line = "recover %s %s %s %s" % (suffix, self.key(1, recovery), self.key(1, recovery + 1), self.delta(n))
                did.expect(["s%d" % n], False)
                recovery += 1
            else:
                line = "deactivate %s %s" % (suffix, self.key(1, recovery))
                did.expect(did.services, True)
            done = self.does(did, kind, self.wallet.expect("request", line).split(" ", 1)[1])

    def does(self, did, kind, request):
        """Posts a request until it is acknowledged, and waits until a machine shows its effect. Whether both came."""
        machine, told = self.random.choice(self.machines), 0
        while True:
            status, body, _ = machine.http("POST", "/operations", request)
            self.counts["answer %s" % status] += 1
            if status == 200:
                did.take()
                break
            if status == 400 and "alreadyQueued" not in body:
                raise AssertionError("%s is refused: %s" % (kind, body))
            if status == 409 and told and self.shows(machine, did, did.open):
                # It came through although no answer did. Nobody has acknowledged it, but it is done.
                did.take()
                self.counts["done before it was acknowledged"] += 1
                return True
            told += 1
            if self.stopping.is_set() and told > REPEATS:
                return False
            time.sleep(0.1 + self.random.random())
            machine = self.random.choice(self.machines)
        self.counts["acknowledged"] += 1
        end = time.monotonic() + PATIENCE
        while time.monotonic() < end:
            if self.shows(self.random.choice(self.machines), did):
                return True
            time.sleep(0.3)
        self.counts["no effect for %d s" % PATIENCE] += 1
        return False

    def shows(self, machine, did, state=None):
        status, body, _ = machine.http("GET", "/identifiers/" + did.did)
        return status in (200, 410) and did.fits(json.loads(body), state)
