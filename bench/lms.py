"""LMS keys and signatures (RFC 8554, SHA-256), for generated sessions and streams.

It keeps no count of the numbers that are used: whoever calls `sign` twice with one number and two
messages gives the key away. Nothing but measuring and examples may use it.
"""
import hashlib

# By LM-OTS type: the bits of a digit, how many digits there are, the shift of the checksum.
OTS = {1: (1, 265, 7), 2: (2, 133, 6), 3: (4, 67, 4), 4: (8, 34, 0)}
# By LMS type: the height of the tree.
HEIGHTS = {5: 5, 6: 10}


def u(number, size):
    return number.to_bytes(size, "big")


def hashed(*parts):
    return hashlib.sha256(b"".join(parts)).digest()


def digits(string, w, count):
    """The first groups of w bits, from the most significant bit on."""
    return [(string[i * w // 8] >> (8 - w - i * w % 8)) & (2 ** w - 1) for i in range(count)]


def message_digits(ots, front, randomizer, message):
    """The digits of a message's hash, and of their checksum."""
    w, p, shift = OTS[ots]
    digest = hashed(front, b"\x81\x81", randomizer, message)
    checksum = sum(2 ** w - 1 - digit for digit in digits(digest, w, 256 // w)) << shift
    return digits(digest + u(checksum, 2), w, p)


def chained(front, i, value, first, end):
    """The value after the steps of chain i from `first` on, before `end`."""
    prefix = front + u(i, 2)
    for j in range(first, end):
        value = hashlib.sha256(prefix + bytes([j]) + value).digest()
    return value


class Secret:
    """A key whose one-time keys come from one seed (RFC 8554, appendix A)."""

    def __init__(self, ots, tree, name):
        self._make(ots, tree, hashed(b"id ", name)[:16], hashed(b"seed ", name))

    @classmethod
    def of(cls, ots, tree, identifier, seed):
        """The key of this identifier and seed."""
        secret = cls.__new__(cls)
        secret._make(ots, tree, identifier, seed)
        return secret

    def _make(self, ots, tree, identifier, seed):
        self.ots, self.tree, self.id, self.seed = ots, tree, identifier, seed
        height = HEIGHTS[tree]
        self.nodes = {2 ** height + q: self._leaf(q) for q in range(2 ** height)}
        for r in range(2 ** height - 1, 0, -1):
            self.nodes[r] = hashed(self.id, u(r, 4), b"\x83\x83", self.nodes[2 * r], self.nodes[2 * r + 1])
        self.public = u(tree, 4) + u(ots, 4) + self.id + self.nodes[1]

    def _value(self, front, i):
        return hashed(front, u(i, 2), b"\xff", self.seed)

    def _leaf(self, q):
        w, p, _ = OTS[self.ots]
        front = self.id + u(q, 4)
        ends = [chained(front, i, self._value(front, i), 0, 2 ** w - 1) for i in range(p)]
        return hashed(self.id, u(2 ** HEIGHTS[self.tree] + q, 4), b"\x82\x82", hashed(front, b"\x80\x80", *ends))

    def sign(self, q, message):
        """The signature of a message with the one-time key of this number."""
        front = self.id + u(q, 4)
        randomizer = self._value(front, 0xFFFD)
        steps = message_digits(self.ots, front, randomizer, message)
        values = [chained(front, i, self._value(front, i), 0, step) for i, step in enumerate(steps)]
        path, r = [], 2 ** HEIGHTS[self.tree] + q
        while r > 1:
            path.append(self.nodes[r ^ 1])
            r //= 2
        return b"".join([u(q, 4), u(self.ots, 4), randomizer, *values, u(self.tree, 4), *path])


def blocks(length):
    """How many compressions the hash of so many bytes takes."""
    return (length + 9 + 63) // 64


def verification(public, message, signature):
    """How many compressions a verification takes that looks at the whole signature."""
    tree, ots = int.from_bytes(public[:4], "big"), int.from_bytes(public[4:8], "big")
    w, p, _ = OTS[ots]
    steps = message_digits(ots, public[8:24] + signature[:4], signature[8:40], message)
    chains = sum(2 ** w - 1 - step for step in steps)
    return chains + blocks(22 + 32 + len(message)) + blocks(22 + 32 * p) + blocks(22 + 32) + HEIGHTS[tree] * blocks(22 + 64)
