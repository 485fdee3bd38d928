"""The genesis and the blocks behind it: what lives on the chain, kept so that the last block can be dropped again."""

from dataclasses import dataclass, replace

from .encoding import digest, label, listed, number
from .records import FundOutput, claim_identifier, payout_identifier, settlement_identifier

COIN = 10**24  # hastings in a siacoin
FUNDS = 10_000  # siafunds of a chain
DEFAULT_MATURITY = 144
REVISED = ("number", "size", "root", "start", "end", "valid", "missed", "address")  # what a revision changes of a contract


def subsidy(height):
    return max(300_000 - height, 30_000) * COIN


def tax(payout):
    """39 thousandths of a contract's payout, rounded down to a multiple of the siafunds."""
    taxed = payout * 39 // 1000
    return taxed - taxed % FUNDS


@dataclass
class Coin:
    value: int
    address: bytes
    ripe: int  # the height from which on it can be spent


class Chain:
    """What stands on the chain, block by block; `objection` is the first that was seen of what the ledger refuses. That is
    not all that it refuses: only dead parents, unripe coins and amounts that don't add up are looked for."""

    def __init__(self, config):
        chain = config.get("chain", {})
        self.maturity = chain.get("maturity", DEFAULT_MATURITY)
        funds = [FundOutput(fund["value"], bytes.fromhex(fund["to"])) for fund in chain["siafund"]]
        self.genesis = digest(label("genesis") + listed(fund.encode() for fund in funds))
        self.coins, self.funds, self.running = {}, {}, {}  # by identifier; the contracts with their present terms
        self.pool = 0
        self.blocks = []  # each with its identifier, the pool before it, and what it changed
        self.begin()
        self.seen = {}  # each output that was ever made, by its identifier
        self.objection = None
        for index, fund in enumerate(funds):
            self.put(self.funds, digest(label("siafund output") + self.genesis + number(index)), fund)
        self.begin()

    @property
    def height(self):
        return len(self.blocks)

    @property
    def tip(self):
        return self.block_at(self.height)

    def block_at(self, height):
        """The identifier of the block at a height, or None above the tip."""
        if height > self.height:
            return None
        return self.blocks[height - 1][0] if height > 0 else self.genesis

    def expect(self, is_so, otherwise):
        if not is_so and self.objection is None:
            self.objection = f"block {self.height + 1}: {otherwise}"

    def put(self, held, key, value):
        """Changes what is held, None being nothing."""
        self.changes.append((held, key, held.get(key)))
        if value is None:
            held.pop(key, None)
        else:
            held[key] = value
            self.seen[key] = value

    def begin(self):
        """From here on changes belong to the next block."""
        self.pool_before, self.changes = self.pool, []

    def create(self, identifier, output, ripe):
        self.put(self.coins, identifier, Coin(output.value, output.address, ripe))

    def spend(self, held, identifier, what):
        """Takes a live output away, and gives it; a dead one is told."""
        self.expect(identifier in held, f"no live {what} {identifier.hex()}")
        spent = held.get(identifier)
        self.put(held, identifier, None)
        return spent

    def settle(self, identifier, is_valid, height):
        terms = self.spend(self.running, identifier, "contract")
        for index, output in enumerate((terms.valid if is_valid else terms.missed) if terms else ()):
            if output.value:
                self.create(settlement_identifier(identifier, is_valid, index), output, height + self.maturity)

    def transact(self, tx):
        """What a transaction does, in the order of its fields."""
        height = self.height + 1
        self.spend_coins(tx, height)
        for index, output in enumerate(tx.coin_outputs):
            self.create(tx.entry_identifier("siacoin output", index), output, height)
        for index, one in enumerate(tx.contracts):
            self.pool += tax(one.payout)
            self.put(self.running, tx.entry_identifier("file contract", index), one)
        for one in tx.revisions:
            self.revise(one)
        for proof in tx.proofs:
            self.settle(proof.parent, True, height)
        self.spend_funds(tx, height)

    def spend_coins(self, tx, height):
        inputs = [self.spend(self.coins, one.parent, "siacoin output") for one in tx.coin_inputs]
        self.expect(all(coin is None or coin.ripe <= height for coin in inputs), "a coin isn't ripe")
        out = sum(one.value for one in tx.coin_outputs) + sum(one.payout for one in tx.contracts) + sum(tx.fees)
        self.expect(sum(coin.value for coin in inputs if coin) == out, "siacoins don't balance")

    def revise(self, one):
        """The contract goes on with the revision's terms, its payout alone being the old one."""
        old = self.spend(self.running, one.parent, "contract")
        if old:
            self.put(self.running, one.parent, replace(old, **{name: getattr(one, name) for name in REVISED}))

    def spend_funds(self, tx, height):
        spent = 0
        for one in tx.fund_inputs:
            fund = self.spend(self.funds, one.parent, "siafund output")
            claim = self.claim(fund) if fund else 0
            spent += fund.value if fund else 0
            if claim:
                coin = Coin(claim, one.claim_address, height + self.maturity)
                self.put(self.coins, claim_identifier(one.parent), coin)
        for index, output in enumerate(tx.fund_outputs):
            made = FundOutput(output.value, output.address, self.pool)
            self.put(self.funds, tx.entry_identifier("siafund output", index), made)
        self.expect(spent == sum(one.value for one in tx.fund_outputs), "siafunds don't balance")

    def claim(self, fund):
        return fund.value * (self.pool - fund.claim_start) // FUNDS

    def close(self, block):
        """The end of a block whose transactions were done: missed settlements, then its payouts."""
        height = self.height + 1
        self.expect(block.parent == self.tip, "another parent than the tip")
        fees = sum(sum(tx.fees) for tx in block.transactions)
        paid = sum(payout.value for payout in block.payouts)
        self.expect(paid == subsidy(height) + fees, "payouts that aren't the subsidy with the fees")
        for identifier in sorted(identifier for identifier, terms in self.running.items() if terms.end == height):
            self.settle(identifier, False, height)
        identifier = block.identifier()
        for index, payout in enumerate(block.payouts):
            self.create(payout_identifier(identifier, index), payout, height + self.maturity)
        self.blocks.append((identifier, self.pool_before, self.changes))
        self.begin()

    def revert(self):
        """Drops the last block; the genesis can't be dropped."""
        self.expect(self.blocks, "no block to drop")
        if self.blocks:
            _, self.pool, changes = self.blocks.pop()
            for held, key, value in reversed(changes):
                held.pop(key, None) if value is None else held.update({key: value})
            self.begin()

    def sums(self):
        """The lines that the command `ledger` prints of this chain."""
        rows = [
            ("height", self.height),
            ("tip", self.tip.hex()),
            ("outputs", sum(coin.value for coin in self.coins.values())),
            ("immature", sum(coin.value for coin in self.coins.values() if coin.ripe > self.height + 1)),
            ("escrow", sum(terms.payout - tax(terms.payout) for terms in self.running.values())),
            ("pool", self.pool % 2**128),
            ("unclaimed", sum(map(self.claim, self.funds.values()))),
            ("issued", sum(map(subsidy, range(1, self.height + 1)))),
        ]
        return "".join(f"{name} {value}\n" for name, value in rows)
