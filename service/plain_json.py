"""JSON as a node reads it: whether a text is JSON, whether its numbers are whole, and the canonical text of a value."""
import json

GREATEST = 2 ** 53 - 1


class Float:
    """A number that is not whole, or lies beyond the bounds."""


def number(text):
    if abs(float(text)) == float("inf"):
        raise ValueError("the number %s… is greater than any that is kept" % text[:20])
    whole = text.lstrip("-").isdigit() and text != "-0" and len(text) < 18
    return int(text) if whole and abs(int(text)) <= GREATEST else Float()


def nesting(text):
    """The greatest number of brackets that are open at once, outside of texts."""
    depth = deepest = 0
    inside = escaped = False
    for character in text:
        if escaped:
            escaped = False
        elif inside:
            escaped, inside = character == "\\", character != '"'
        elif character == '"':
            inside = True
        elif character in "[{":
            depth += 1
            deepest = max(deepest, depth)
        elif character in "]}":
            depth -= 1
    return deepest


def no_constant(name):
    raise ValueError("%s is no JSON" % name)


def surrogates(value):
    """Whether a text has a half of a pair, which no UTF-8 can write."""
    if isinstance(value, str):
        return any("\ud800" <= character <= "\udfff" for character in value)
    if isinstance(value, list):
        return any(map(surrogates, value))
    return isinstance(value, dict) and any(surrogates(name) or surrogates(one) for name, one in value.items())


def read(data):
    """The value of a JSON text, whose numbers may be floats."""
    text = data.decode("utf-8")
    if text.startswith("\ufeff"):
        raise ValueError("it begins with a byte order mark")
    if nesting(text) > 127:
        raise ValueError("it nests deeper than 127")
    value = json.loads(text, parse_int=number, parse_float=number, parse_constant=no_constant)
    if surrogates(value):
        raise ValueError("a text has half of a surrogate pair")
    return value


def whole(value):
    if isinstance(value, list):
        return all(map(whole, value))
    if isinstance(value, dict):
        return all(map(whole, value.values()))
    return not isinstance(value, Float)


def canonical(value):
    """The canonical text: members in the order of their names as UTF-16."""
    if isinstance(value, list):
        return b"[" + b",".join(map(canonical, value)) + b"]"
    if isinstance(value, dict):
        names = sorted(value, key=lambda name: name.encode("utf-16-be"))
        return b"{" + b",".join(canonical(name) + b":" + canonical(value[name]) for name in names) + b"}"
    return json.dumps(value, ensure_ascii=False).encode()


def depth(value):
    inner = value if isinstance(value, list) else value.values() if isinstance(value, dict) else ()
    return 1 + max(map(depth, inner), default=0)


def exactly(value, names, optional=()):
    """What keeps a value from being an object with these members, or None."""
    if not isinstance(value, dict):
        return "is no object"
    for name in names:
        if name not in value:
            return "has no member %s" % name
    for name in value:
        if name not in names and name not in optional:
            return "has a member %s, which is none of its own" % name
    return None
