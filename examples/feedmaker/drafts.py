"""A transaction while its lines are read: amounts that are the rest of others, names that wait for identifiers, signatures."""

from .chain import tax
from .description import amount
from .encoding import LEAF, leaves_of, path, root
from .records import (
    CoinInput,
    CoinOutput,
    FileContract,
    FundInput,
    FundOutput,
    Revision,
    Signature,
    StorageProof,
    Transaction,
    claim_identifier,
    proof_place,
)
from .signing import seal, signature_hash


class Draft:
    """A transaction that is being written. The world knows parties, files, names and the chain."""

    def __init__(self, world):
        self.world, self.tx = world, Transaction()
        self.names = []  # of entries: the name, the kind of its identifier, its index
        self.terms = None  # the contract or revision to which lines of outputs belong
        self.signs_all, self.orders = True, []

    def read(self, line):
        reader = getattr(self, f"read_{line.kind}", None)
        if reader is None:
            line.fail("no such line")
        reader(line)

    def name(self, kind, entries, name):
        """The next of the entries is to have the name, where there is one."""
        if name:
            self.names.append((name, kind, len(entries)))

    def conditions(self, options, address, line):
        """The conditions that a need shows: those of the address, or of another party."""
        if "with" in options:
            return self.world.party(options["with"])
        return self.world.conditions.get(address) or line.fail("nobody's conditions are known for")

    def read_input(self, line):
        options, parent = line.options(1, "with"), self.world.identifier(line.words[0])
        conditions = self.conditions(options, self.world.chain.seen[parent].address, line)
        self.tx.coin_inputs.append(CoinInput(parent, conditions))

    def read_output(self, line):
        options = line.options(1, "to", "as")
        self.name("siacoin output", self.tx.coin_outputs, options.get("as"))
        self.tx.coin_outputs.append(CoinOutput(amount(line.words[0]), self.world.address(options.get("to"))))

    def read_fundinput(self, line):
        options, parent = line.options(1, "to", "with"), self.world.identifier(line.words[0])
        conditions = self.conditions(options, self.world.chain.seen[parent].address, line)
        self.tx.fund_inputs.append(FundInput(parent, conditions, self.world.address(options.get("to"))))
        self.world.names[f"{line.words[0]}.claim"] = claim_identifier(parent)

    def read_fundoutput(self, line):
        options = line.options(1, "to", "as", "start")
        self.name("siafund output", self.tx.fund_outputs, options.get("as"))
        start = int(options.get("start", 0))
        self.tx.fund_outputs.append(FundOutput(amount(line.words[0]), self.world.address(options.get("to")), start))

    def read_contract(self, line):
        options = line.options(1, "holds", "start", "end", "payout", "unlock", "number")
        data = self.world.data(options.get("holds"))
        self.name("file contract", self.tx.contracts, line.words[0])
        self.terms = FileContract(
            size=len(data),
            root=root(leaves_of(data)),
            start=int(options["start"]),
            end=int(options["end"]),
            payout=amount(options["payout"]),
            valid=[],
            missed=[],
            address=self.world.address(options.get("unlock")),
            number=int(options.get("number", 0)),
        )
        self.tx.contracts.append(self.terms)

    def read_revision(self, line):
        options = line.options(1, "number", "holds", "start", "end", "unlock", "with")
        parent = self.world.identifier(line.words[0])
        old = self.world.chain.seen[parent]
        data = self.world.data(options["holds"]) if "holds" in options else None
        self.terms = Revision(
            parent=parent,
            conditions=self.conditions(options, old.address, line),
            number=int(options["number"]),
            size=old.size if data is None else len(data),
            root=old.root if data is None else root(leaves_of(data)),
            start=int(options.get("start", old.start)),
            end=int(options.get("end", old.end)),
            valid=[],
            missed=[],
            address=self.world.address(options["unlock"]) if "unlock" in options else old.address,
        )
        self.tx.revisions.append(self.terms)

    def read_valid(self, line):
        self.add_term(line, "valid")

    def read_missed(self, line):
        self.add_term(line, "missed")

    def add_term(self, line, kind):
        if self.terms is None:
            line.fail("no contract or revision stands above")
        output = CoinOutput(amount(line.words[0]), self.world.address(line.options(1, "to").get("to")))
        getattr(self.terms, kind).append(output)

    def read_proof(self, line):
        options, parent = line.options(1, "of", "place"), self.world.identifier(line.words[0])
        terms = self.world.chain.seen[parent]
        data = self.world.data(options["of"]) if "of" in options else self.world.data_of(terms, line)
        leaves = leaves_of(data)
        trigger = self.world.chain.block_at(terms.start - 1)  # None where the window hasn't begun
        place = int(options["place"]) if "place" in options else proof_place(trigger or bytes(32), parent, len(leaves) or 1)
        leaf, hashes = (leaves[place], path(leaves, place)) if leaves else (b"", [])
        self.tx.proofs.append(StorageProof(parent, leaf.ljust(LEAF, b"\0"), hashes))

    def read_fee(self, line):
        line.options(1)
        self.tx.fees.append(amount(line.words[0]))

    def read_note(self, line):
        self.tx.notes.append(" ".join(line.words).encode())

    def read_filler(self, line):
        line.options(1)
        self.tx.notes.append(bytes(int(line.words[0])))

    def read_unsigned(self, line):
        line.options(0)
        self.signs_all = False

    def read_signature(self, line):
        self.signs_all = False
        self.orders.append((self.world.identifier(line.words[0]), line.options(1, "key", "timelock", "by", "covers")))

    def finish(self):
        """The transaction, done on the chain, its entries named."""
        self.fill_terms()
        self.fill_rests()
        self.tx.keep()
        self.sign()
        self.name_entries()
        self.world.chain.transact(self.tx)
        return self.tx

    def fill_terms(self):
        """What contracts and revisions leave to be filled: amounts, and a revision's outputs."""
        for revision in self.tx.revisions:
            old = self.world.chain.seen[revision.parent]
            revision.valid = revision.valid or old.valid
            revision.missed = revision.missed or old.missed
            fill(revision.valid, old.payout - tax(old.payout))
            fill(revision.missed, old.payout - tax(old.payout))
        for contract in self.tx.contracts:
            fill(contract.valid, contract.payout - tax(contract.payout))
            fill(contract.missed, contract.payout - tax(contract.payout))

    def fill_rests(self):
        tx, seen = self.tx, self.world.chain.seen
        coins = sum(seen[one.parent].value for one in tx.coin_inputs)
        fill(tx.coin_outputs, coins - sum(tx.fees) - sum(one.payout for one in tx.contracts))
        fill(tx.fund_outputs, sum(seen[one.parent].value for one in tx.fund_inputs))

    def needs(self):
        """The conditions of each need, by its parent."""
        tx = self.tx
        return {need.parent: need.conditions for need in (*tx.coin_inputs, *tx.revisions, *tx.fund_inputs)}

    def sign(self):
        for parent, conditions in self.needs().items() if self.signs_all else ():
            for index in range(conditions.required):
                self.add_signature(Signature(parent, index, 0, True), conditions.keys[index])
        for parent, options in self.orders:
            covered = covered_of(options.get("covers", "whole"))
            is_whole = covered.pop("whole", None) is not None
            index = int(options.get("key", 0))
            conditions = self.needs().get(parent)
            keys = self.world.party(options["by"]).keys if "by" in options else conditions.keys[index : index + 1]
            self.add_signature(Signature(parent, index, int(options.get("timelock", 0)), is_whole, covered), keys[0])

    def add_signature(self, signature, key):
        self.tx.signatures.append(signature)
        signature.bytes = seal(key, signature_hash(self.tx, len(self.tx.signatures) - 1))

    def name_entries(self):
        for name, kind, index in self.names:
            identifier = self.tx.entry_identifier(kind, index)
            self.world.names[name] = identifier
            if kind == "file contract":
                contract = self.tx.contracts[index]
                for is_valid, outputs in ((True, contract.valid), (False, contract.missed)):
                    self.world.name_settlement(name, identifier, is_valid, len(outputs))


def fill(outputs, whole):
    """Gives the output that is the rest what the others leave of the whole."""
    rests = [output for output in outputs if output.value is None]
    for output in rests[:1]:
        output.value = max(whole - sum(other.value for other in outputs if other is not output), 0)


def covered_of(word):
    """The lists that a word covers, with their places."""
    pairs = (part.partition("=") for part in word.split(";"))
    return {name: [int(place) for place in places.split(",") if place] for name, _, places in pairs}
