"""The lines that `sia-v1 show` prints of a transaction or a block."""

from .records import payout_identifier


def transaction_lines(tx):
    yield f"transaction {tx.identifier().hex()}"
    yield from (f"input {one.parent.hex()} {one.conditions.address().hex()}" for one in tx.coin_inputs)
    yield from entry_lines(tx, "output", "siacoin output", tx.coin_outputs)
    for index, one in enumerate(tx.contracts):
        identifier = tx.entry_identifier("file contract", index).hex()
        yield f"contract {identifier} {one.size} {one.root.hex()} {one.start} {one.end} {one.payout} {one.number}"
        yield from term_lines(one)
    for one in tx.revisions:
        yield f"revision {one.parent.hex()} {one.number} {one.size} {one.root.hex()} {one.start} {one.end}"
        yield from term_lines(one)
    yield from (f"proof {one.parent.hex()} {len(one.hashes)}" for one in tx.proofs)
    yield from (f"fundinput {one.parent.hex()} {one.claim_address.hex()}" for one in tx.fund_inputs)
    yield from entry_lines(tx, "fundoutput", "siafund output", tx.fund_outputs)
    yield from (f"fee {value}" for value in tx.fees)
    yield from (f"note {len(note)}" for note in tx.notes)
    for one in tx.signatures:
        yield f"signature {one.parent.hex()} {one.key_index} {one.timelock} {int(one.whole)}"


def entry_lines(tx, word, kind, outputs):
    for index, output in enumerate(outputs):
        yield f"{word} {tx.entry_identifier(kind, index).hex()} {output.value} {output.address.hex()}"


def term_lines(terms):
    yield from (f"valid {output.value} {output.address.hex()}" for output in terms.valid)
    yield from (f"missed {output.value} {output.address.hex()}" for output in terms.missed)


def block_lines(block):
    identifier = block.identifier()
    yield f"block {identifier.hex()} {block.parent.hex()} {block.timestamp}"
    for index, payout in enumerate(block.payouts):
        yield f"payout {payout_identifier(identifier, index).hex()} {payout.value} {payout.address.hex()}"
    for tx in block.transactions:
        yield from transaction_lines(tx)
