"""Whether an LMS signature holds (RFC 8554, SHA-256)."""
import hashlib

# By LM-OTS type the bits of a digit, the number of chains, and the shift of the sum; by LMS type the height.
OTS = {1: (1, 265, 7), 2: (2, 133, 6), 3: (4, 67, 4), 4: (8, 34, 0)}
HEIGHTS = {5: 5, 6: 10}


def u(value, size):
    return value.to_bytes(size, "big")


def hashed(*parts):
    return hashlib.sha256(b"".join(parts)).digest()


def verify(public, message, signature):
    """What keeps a signature from holding under a public key of 56 bytes, or None."""
    tree, ots = int.from_bytes(public[:4], "big"), int.from_bytes(public[4:8], "big")
    (w, p, shift), height = OTS[ots], HEIGHTS[tree]
    name, root = public[8:24], public[24:]
    size = 40 + 32 * p + 4 + 32 * height
    if len(signature) != size:
        return "has %d bytes, and with the types %d and %d a signature has %d" % (len(signature), ots, tree, size)
    if signature[4:8] != u(ots, 4) or signature[40 + 32 * p:44 + 32 * p] != u(tree, 4):
        return "has other types than the key"
    q = int.from_bytes(signature[:4], "big")
    if q >= 2 ** height:
        return "has the number %d, and the key has %d" % (q, 2 ** height)
    front = name + u(q, 4)
    digest = hashed(front, b"\x81\x81", signature[8:40], message)
    digits = [digest[i * w // 8] >> (8 - w - i * w % 8) & (2 ** w - 1) for i in range(256 // w)]
    digest += u(sum(2 ** w - 1 - digit for digit in digits) << shift, 2)
    ends = []
    for i in range(p):
        value = signature[40 + 32 * i:72 + 32 * i]
        for j in range(digest[i * w // 8] >> (8 - w - i * w % 8) & (2 ** w - 1), 2 ** w - 1):
            value = hashed(front, u(i, 2), bytes([j]), value)
        ends.append(value)
    r = 2 ** height + q
    node = hashed(name, u(r, 4), b"\x82\x82", hashed(front, b"\x80\x80", *ends))
    for level in range(height):
        other = signature[44 + 32 * (p + level):76 + 32 * (p + level)]
        pair = (other, node) if r % 2 else (node, other)
        r //= 2
        node = hashed(name, u(r, 4), b"\x83\x83", *pair)
    return None if node == root else "does not hold: other bytes were signed, or by another key"
