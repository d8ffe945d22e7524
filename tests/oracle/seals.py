"""Seals and receipts, as RFC 6962 defines the head of a tree and an audit path."""
import hashlib


def leaf_hash(line):
    return hashlib.sha256(b"\0" + line).digest()


def half(count):
    """The largest power of two below a count of leaves."""
    return 1 << ((count - 1).bit_length() - 1)


def head_of(lines):
    """The head of the tree of these lines."""
    if len(lines) < 2:
        return leaf_hash(lines[0]) if lines else hashlib.sha256().digest()
    left, right = lines[: half(len(lines))], lines[half(len(lines)) :]
    return hashlib.sha256(b"\1" + head_of(left) + head_of(right)).digest()


def path_of(index, lines):
    """The audit path of a leaf, from the leaf up."""
    if len(lines) < 2:
        return []
    left, right = lines[: half(len(lines))], lines[half(len(lines)) :]
    if index < len(left):
        return path_of(index, left) + [head_of(right).hex()]
    return path_of(index - len(left), right) + [head_of(left).hex()]


def seal_of(lines):
    return f"{len(lines)} sha256:{head_of(lines).hex()}\n"


def receipt_of(entry, lines):
    """The receipt of an entry under the seal of these lines, as a dictionary."""
    return {
        "entry": entry,
        "head": head_of(lines).hex(),
        "line": lines[entry - 1].decode(),
        "path": path_of(entry - 1, lines),
        "size": len(lines),
    }
