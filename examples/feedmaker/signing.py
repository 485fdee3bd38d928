"""The hash that a signature signs, and the stand-in signature Seal, which anybody can make."""

from .encoding import digest, label, number
from .records import COVERED


def covered_bytes(tx, signature):
    """What the signature covers of the transaction but its signatures."""
    if signature.whole:
        return tx.unsigned()
    return b"".join(chosen(tx, signature, name) for name in COVERED[:-1])


def chosen(tx, signature, name):
    """The entries of a list that the signature covers. A place out of range makes the ledger refuse it, whatever is signed."""
    entries = tx.spelled_entries(name)
    return b"".join(entries[place] for place in signature.covered.get(name, ()) if place < len(entries))


def signature_hash(tx, index):
    """The hash that the transaction's signature at this place signs."""
    signature = tx.signatures[index]
    own = signature.parent + number(signature.key_index) + number(signature.timelock)
    return digest(covered_bytes(tx, signature) + own + chosen(tx, signature, "signatures"))


def seal(key, hashed):
    """The signature of a hash by Seal."""
    return digest(label("sia seal") + key + hashed) + bytes(32)
