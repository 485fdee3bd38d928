"""What a description speaks of: parties, files, names of outputs and contracts, and the blocks that it makes."""

from .blocks import BlockDraft
from .chain import Chain
from .description import records_of
from .encoding import digest, label, leaves_of, number, root
from .records import Conditions, settlement_identifier

ZERO_ADDRESS = bytes(32)


class World:
    def __init__(self, config):
        self.chain = Chain(config)
        self.conditions = {}  # by address
        self.parties, self.files, self.names = {}, {}, {}
        for index in range(len(config["chain"]["siafund"])):
            self.names[f"fund{index}"] = digest(label("siafund output") + self.chain.genesis + number(index))

    def records(self, text):
        """The encoded records of the description, while the chain follows them; a revert has no block."""
        for record in records_of(text):
            kind, words = record.head.kind, record.head.words
            if kind in ("party", "data"):
                getattr(self, f"add_{kind}")(record.head)
                continue
            count = 1
            if kind.endswith("s"):
                kind, count, record.head.words = kind[:-1], int(words[0]), words[1:]
            for _ in range(count):
                yield self.block(record) if kind == "block" else self.revert(record)

    def add_party(self, line):
        options = line.options(1, "key", "keys", "required", "timelock")
        if "key" in options:
            keys = [key_of(options["key"])]
        else:
            keys = [key for name in options["keys"].split(",") for key in self.party(name).keys]
        party = Conditions(tuple(keys), int(options.get("required", len(keys))), int(options.get("timelock", 0)))
        self.parties[line.words[0]] = party
        self.conditions[party.address()] = party

    def add_data(self, line):
        seed = int(line.options(2, "seed").get("seed", 0))
        self.files[line.words[0]] = bytes((place * place + seed) % 251 for place in range(int(line.words[1])))

    def party(self, name):
        return self.known(self.parties, name, "party")

    def data(self, name):
        return self.known(self.files, name, "data")

    def identifier(self, name):
        return bytes.fromhex(name) if len(name) == 64 else self.known(self.names, name, "output or contract")

    def known(self, held, name, what):
        if name not in held:
            raise ValueError(f"no {what} is named {name}")
        return held[name]

    def data_of(self, terms, line):
        """The file that the contract holds."""
        for data in self.files.values():
            if (len(data), root(leaves_of(data))) == (terms.size, terms.root):
                return data
        return line.fail("no file has the contract's root")

    def address(self, who):
        """The address of a party, or one that is written out; the zero address where nobody is named."""
        if who is None:
            return ZERO_ADDRESS
        return bytes.fromhex(who) if len(who) == 64 else self.party(who).address()

    def name_settlement(self, name, contract, is_valid, count):
        kind = "valid" if is_valid else "missed"
        for index in range(count):
            self.names[f"{name}.{kind}{index}"] = settlement_identifier(contract, is_valid, index)

    def revert(self, record):
        record.head.options(0)
        self.chain.revert()
        return None

    def block(self, record):
        """The block of a record, done on the chain."""
        draft = BlockDraft(self)
        for line in record.body:
            draft.read(line)
        return draft.finish(record.head)


def key_of(word):
    """A key of 32 bytes; two digits stand for one byte that is repeated."""
    key = bytes.fromhex(word)
    return key * 32 if len(key) == 1 else key
