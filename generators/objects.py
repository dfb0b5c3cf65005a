"""Tuples and objects for the scripts that ask another implementation."""


def varint(n, choose=lambda forms: forms[0]):
    """A varint, in the form that is chosen among those that hold n, the shortest of them first."""
    forms = [(w, p) for w, p in ((1, 0), (2, 1), (4, 2), (8, 3)) if n < 1 << (8 * w - 2)]
    w, p = choose(forms)
    return (n | p << (8 * w - 2)).to_bytes(w, "big")


def zigzag(n):
    return 2 * n if n >= 0 else -2 * n - 1


def raw(i, b):
    return varint(i) + varint(len(b)) + b


def whole(header, block, payload=b""):
    return varint(header) + varint(len(block)) + block + payload
