"""A block while its lines are read."""

from .chain import subsidy
from .description import amount
from .drafts import Draft
from .records import Block, CoinOutput, payout_identifier


class BlockDraft:
    """A block that is being written. The world knows parties, files, names and the chain."""

    def __init__(self, world):
        self.world, self.payouts, self.payout_names, self.transactions, self.draft = world, [], [], [], None

    def read(self, line):
        if line.kind == "payout":
            options = line.options(1, "to", "as")
            self.pay(amount(line.words[0]), options)
        elif line.kind == "transaction":
            line.options(0)
            self.finish_transaction()
            self.draft = Draft(self.world)
        elif self.draft:
            self.draft.read(line)
        else:
            line.fail("no transaction stands above")

    def finish_transaction(self):
        if self.draft:
            self.transactions.append(self.draft.finish())

    def pay(self, value, options):
        self.payouts.append(CoinOutput(value, self.world.address(options.get("to"))))
        self.payout_names.append(options.get("as"))

    def finish(self, head):
        """The block, done on the chain, its payouts named. The head is the line that began it."""
        options = head.options(0, "to", "pays", "as", "nonce", "time", "parent")
        chain = self.world.chain
        height = chain.height + 1
        self.finish_transaction()
        if not self.payouts:
            due = subsidy(height) + sum(sum(tx.fees) for tx in self.transactions)
            self.pay(amount(options["pays"]) if "pays" in options else due, options)
        parent = bytes.fromhex(options["parent"]) if "parent" in options else chain.tip
        nonce, time = int(options.get("nonce", height)), int(options.get("time", height))
        block = Block(parent, nonce, time, self.payouts, self.transactions)
        chain.close(block)
        self.name_payouts(block.identifier(), height)
        return block

    def name_payouts(self, identifier, height):
        self.world.names[f"payout@{height}"] = payout_identifier(identifier, 0)
        for index, name in enumerate(self.payout_names):
            if name:
                self.world.names[name] = payout_identifier(identifier, index)
