"""Spellings (siad's doc/Encoding.md), the digest and the trees over it."""

import hashlib

LEAF = 64
"""The size of a leaf of a file's tree, in bytes."""


def digest(data):
    return hashlib.blake2b(data, digest_size=32).digest()


def number(value):
    return value.to_bytes(8, "little")


def boolean(value):
    return bytes([value])


def byte_string(data):
    return number(len(data)) + data


def currency(value):
    """The big-endian digits without leading zeros; they are as many as the value needs, also where the ledger allows fewer."""
    return byte_string(value.to_bytes((value.bit_length() + 7) // 8, "big"))


def listed(items):
    """A list of what is spelled already."""
    items = list(items)
    return number(len(items)) + b"".join(items)


def label(text):
    return text.encode("ascii").ljust(16, b"\0")


def left_part(count):
    """How many of so many leaves, two at least, are in a tree's left part: the largest power of two below their count."""
    return 1 << (count - 1).bit_length() - 1


def root(leaves):
    """The root over leaves; of none it is 32 zero bytes."""
    return node_root([digest(b"\x00" + leaf) for leaf in leaves])


def node_root(hashes):
    if len(hashes) <= 1:
        return hashes[0] if hashes else bytes(32)
    left = left_part(len(hashes))
    return digest(b"\x01" + node_root(hashes[:left]) + node_root(hashes[left:]))


def leaves_of(data):
    """The leaves of a file, of which the last may be short."""
    return [data[at : at + LEAF] for at in range(0, len(data), LEAF)]


def path(leaves, place):
    """The hashes beside the way from a leaf to the root, lowest first."""
    if len(leaves) == 1:
        return []
    left = left_part(len(leaves))
    if place < left:
        return [*path(leaves[:left], place), root(leaves[left:])]
    return [*path(leaves[left:], place - left), root(leaves[:left])]
