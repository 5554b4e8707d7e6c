"""Streams of lines such as a node meets: creates, updates in order, late files, rollbacks, a long chain.

The keys are few, and their numbers are used again: what a verification costs depends on neither.
"""
import functools
import random

import lms
from formats import add_keys, add_services, anchor_line, batch, content_line, create, delta, key_of, service, short_form, update


@functools.lru_cache(None)
def secret(ots):
    return lms.Secret(ots, 5, b"load")


class Chain:
    """One identifier: a create, and updates of which each reveals what the one before committed to."""

    def __init__(self, number, ots, patch):
        self.number, self.ots, self.patch = number, ots, patch
        self.create = create(self.key("recovery"), delta([patch(0)], self.key("0")))

    def key(self, name):
        return key_of(secret(self.ots), "%d %s" % (self.number, name))

    def update(self, n):
        """The update number n, from 1 on."""
        made = delta([self.patch(n)], self.key("%d" % n))
        return update(self.create.suffix, self.key("%d" % (n - 1)), n % 32, made)


def contents(made):
    return [content_line(file) for file in made.files.values()]


def question(chain):
    return "resolve " + short_form(chain.create)


def new_service(n):
    """A service for each update: the document grows."""
    return add_services(service("s%d" % n, "https://example.com/%d" % n))


def same_service(n):
    """The same service with another place each time: the document keeps its size."""
    return add_services(service("s", "https://example.com/%06d" % n))


def full_create(number):
    """A create with a key and a service."""
    key = {"id": "k", "type": "JsonWebKey2020", "publicKeyJwk": key_of(secret(3), "k%d" % number).json(),
           "purposes": ["authentication", "assertionMethod"]}
    made = delta([add_keys(key), new_service(number)], key_of(secret(3), "u%d" % number))
    return create(key_of(secret(3), "r%d" % number), made)


def creates(count=8_000, size=1_000, asked=800):
    """Creates with a key and a service, in batches with their chunks, then resolves."""
    all_made = [full_create(number) for number in range(count)]
    for height in range(0, count // size):
        one = batch(all_made[height * size:(height + 1) * size])
        yield from contents(one)
        yield anchor_line(height, one)
    for one in random.Random(1).sample(all_made, asked):
        yield "resolve " + short_form(one)


@functools.lru_cache(None)
def rounds(identifiers, updates):
    """The chains, and a batch of creates with a batch for each round of updates."""
    # One in ten has the type whose signatures are shorter and take longer to verify.
    chains = [Chain(number, 4 if number % 10 == 9 else 3, new_service) for number in range(identifiers)]
    batches = [batch([one.create for one in chains])]
    batches += [batch([one.update(n) for one in chains]) for n in range(1, updates + 1)]
    return chains, batches


def updates(identifiers=80, count=20):
    """Creates and rounds of signed updates in order, then a resolve of each identifier."""
    chains, batches = rounds(identifiers, count)
    for height, made in enumerate(batches):
        yield from contents(made)
        yield anchor_line(height, made)
    yield from map(question, chains)


def late(identifiers=80, count=20):
    """The same, all anchors first, then the files but for the chunks, then the chunks in reverse order."""
    chains, batches = rounds(identifiers, count)
    for height, made in enumerate(batches):
        yield anchor_line(height, made)
    for made in batches:
        yield from (content_line(file) for role, file in made.files.items() if role != "chunk")
    for made in reversed(batches):
        yield content_line(made.files["chunk"])
    yield "wanted"
    yield from map(question, chains)


def rollbacks(identifiers=80, count=20, times=8, entries=10):
    """The same in order, then the last entries rolled back and anchored again so many times."""
    chains, batches = rounds(identifiers, count)
    yield from list(updates(identifiers, count))[:-len(chains)]
    kept = len(batches) - entries
    for n in range(times):
        yield "rollback %d" % kept
        yield from map(question, chains[n * 4:n * 4 + 4])
        for height in range(kept, len(batches)):
            yield anchor_line(height, batches[height])
    yield from map(question, chains)


def chain(count, patch=same_service):
    """One identifier with so many updates, each in an entry of its own, and the line that asks for it."""
    one = Chain(0, 3, patch)
    lines = []
    for height, operation in enumerate([one.create] + [one.update(n) for n in range(1, count + 1)]):
        made = batch([operation])
        lines += [*contents(made), anchor_line(height, made)]
    return lines, question(one)


def long_chain(count=500, asked=10_000):
    """One identifier with many updates, then many resolves of it."""
    lines, ask = chain(count)
    return lines + [ask] * asked


STREAMS = {"creates": creates, "updates": updates, "late": late, "rollbacks": rollbacks, "resolve-long": long_chain}
