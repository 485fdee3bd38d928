"""Transactions, blocks and their parts, as siad's package types has them. Each record spells its fields in order."""

from dataclasses import dataclass, field

from .encoding import boolean, byte_string, currency, digest, label, listed, number, root

SEAL = label("seal")  # the name of the stand-in signature's algorithm


@dataclass(frozen=True)
class Conditions:
    """What unlocks an output: so many signatures of keys, and a height from which on they hold."""

    keys: tuple
    required: int = 1
    timelock: int = 0

    def key_records(self):
        return [SEAL + byte_string(key) for key in self.keys]

    def encode(self):
        return number(self.timelock) + listed(self.key_records()) + number(self.required)

    def address(self):
        """The unlock hash: a root over leaves of their own lengths."""
        return root([number(self.timelock), *self.key_records(), number(self.required)])


@dataclass
class CoinOutput:
    value: int
    address: bytes

    def encode(self):
        return currency(self.value) + self.address


@dataclass
class FundOutput:
    value: int
    address: bytes
    claim_start: int = 0

    def encode(self):
        return currency(self.value) + self.address + currency(self.claim_start)


@dataclass
class CoinInput:
    parent: bytes
    conditions: Conditions

    def encode(self):
        return self.parent + self.conditions.encode()


@dataclass
class FundInput:
    parent: bytes
    conditions: Conditions
    claim_address: bytes

    def encode(self):
        return self.parent + self.conditions.encode() + self.claim_address


@dataclass
class FileContract:
    size: int
    root: bytes
    start: int
    end: int
    payout: int
    valid: list
    missed: list
    address: bytes
    number: int

    def encode(self):
        head = number(self.size) + self.root + number(self.start) + number(self.end) + currency(self.payout)
        return head + spelled(self.valid) + spelled(self.missed) + self.address + number(self.number)


@dataclass
class Revision:
    parent: bytes
    conditions: Conditions
    number: int
    size: int
    root: bytes
    start: int
    end: int
    valid: list
    missed: list
    address: bytes

    def encode(self):
        head = self.parent + self.conditions.encode() + number(self.number) + number(self.size) + self.root
        return head + number(self.start) + number(self.end) + spelled(self.valid) + spelled(self.missed) + self.address


@dataclass
class StorageProof:
    parent: bytes
    leaf: bytes
    hashes: list

    def encode(self):
        return self.parent + self.leaf + listed(self.hashes)


COVERED = (
    *("coin_inputs", "coin_outputs", "contracts", "revisions", "proofs"),
    *("fund_inputs", "fund_outputs", "fees", "notes", "signatures"),
)
"""The lists of a transaction in their order: a signature may cover places of each."""


@dataclass
class Signature:
    parent: bytes
    key_index: int
    timelock: int
    whole: bool
    covered: dict = field(default_factory=dict)
    bytes: bytes = b""

    def encode(self):
        places = b"".join(listed(map(number, self.covered.get(name, ()))) for name in COVERED)
        return self.parent + number(self.key_index) + number(self.timelock) + boolean(self.whole) + places + byte_string(self.bytes)


@dataclass
class Transaction:
    coin_inputs: list = field(default_factory=list)
    coin_outputs: list = field(default_factory=list)
    contracts: list = field(default_factory=list)
    revisions: list = field(default_factory=list)
    proofs: list = field(default_factory=list)
    fund_inputs: list = field(default_factory=list)
    fund_outputs: list = field(default_factory=list)
    fees: list = field(default_factory=list)
    notes: list = field(default_factory=list)
    signatures: list = field(default_factory=list)
    kept: bytes = None  # the spelling of the fields but the signatures, once they change no more

    def keep(self):
        self.kept = self.unsigned()

    def spelled_entries(self, name):
        """The spellings of a list's entries."""
        of = {"fees": currency, "notes": byte_string}.get(name, lambda entry: entry.encode())
        return list(map(of, getattr(self, name)))

    def unsigned(self):
        """The spelling of all fields but the signatures."""
        return self.kept or b"".join(listed(self.spelled_entries(name)) for name in COVERED[:-1])

    def encode(self):
        return self.unsigned() + listed(self.spelled_entries("signatures"))

    def identifier(self):
        return digest(self.unsigned())

    def entry_identifier(self, kind, index):
        """The identifier of the entry of the kind `siacoin output`, `siafund output` or `file contract`."""
        return digest(label(kind) + self.unsigned() + number(index))


@dataclass
class Block:
    parent: bytes
    nonce: int
    timestamp: int
    payouts: list
    transactions: list

    def head(self):
        return self.parent + number(self.nonce) + number(self.timestamp)

    def encode(self):
        return self.head() + spelled(self.payouts) + spelled(self.transactions)

    def identifier(self):
        return digest(self.head() + root([part.encode() for part in (*self.payouts, *self.transactions)]))


def spelled(records):
    return listed(record.encode() for record in records)


def payout_identifier(block, index):
    return digest(block + number(index))


def claim_identifier(fund):
    return digest(label("claim output") + fund)


def settlement_identifier(contract, is_valid, index):
    return digest(label("storage proof") + contract + boolean(is_valid) + number(index))


def proof_place(trigger, contract, leaf_count):
    """Which leaf has to be proved: the first 8 bytes of a digest, as a big-endian number, modulo their count."""
    return int.from_bytes(digest(trigger + contract)[:8], "big") % leaf_count
