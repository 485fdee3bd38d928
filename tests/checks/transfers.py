"""The command `ledger` over chains on which coins and siafunds are spent."""

from .ledger import check_example
from .running import CONFIG, FEEDS, MARKET, check_refused, check_run, sums, written

FIRST_SUBSIDY = 299_999 * 10**24
MOST = 2**128 - 1
BLOCK_LIMIT = 2_000_000

# Five blocks with a maturity of 3: Alice's wages and Bob's earnings can be spent in the next one, the sixth.
BEGIN = """\
party alice key 01
party bob key 02
party both keys alice,bob
party late keys alice timelock 7
block to alice as wages
block to bob as earnings
blocks 2
block to bob as savings
"""

# What follows BEGIN, by what it shows, and how it is refused; the sixth block is the first one below.
REFUSED = {
    "a part of a transaction that sums past 128 bits": (
        f"block\ntransaction\ninput wages\noutput {MOST}\noutput 1",
        "block 6 B4 SumTooLarge 0",
    ),
    "siafunds that sum past 128 bits": (f"block\ntransaction\nfundoutput {MOST}\nfundoutput 1", "block 6 B4 SumTooLarge 0"),
    "payouts that sum past 128 bits": (f"block\npayout {MOST}\npayout 1\ntransaction", "block 6 B4 SumTooLarge 1"),
    "fees that sum past 128 bits with the subsidy": (f"block pays 1\ntransaction\nfee {MOST}", "block 6 B4 SumTooLarge 1"),
    "an output of 0": ("block\ntransaction\ntransaction\ninput wages\noutput 0\noutput rest", "block 6 B5 BadValue 1"),
    "a fee of 0": ("block\ntransaction\nfee 0", "block 6 B5 BadValue 0"),
    "a siafund output of 0": ("block\ntransaction\nfundoutput 0", "block 6 B5 BadValue 0"),
    "a siafund output that writes a claim start": ("block\ntransaction\nfundoutput 1 start 1", "block 6 B5 BadValue 0"),
    "a payout of 0": ("block\npayout 0\npayout 299994SC\ntransaction", "block 6 B5 BadValue 1"),
    "a fee that no payout pays out": (
        "block pays 299994SC\ntransaction\ninput wages\noutput rest\nfee 9",
        f"block 6 B6 PayoutSum {299_994 * 10**24 + 9} {299_994 * 10**24}",
    ),
    "an output spent twice by one transaction": ("block\ntransaction\ninput wages\ninput wages\noutput rest", "block 6 B8 Repeated 0"),
    "siafunds spent twice by one transaction": ("block\ntransaction\nfundinput fund0\nfundinput fund0", "block 6 B8 Repeated 0"),
    "an output spent twice in one block": (
        "block\ntransaction\ninput wages\noutput rest\ntransaction\ninput earnings\ninput wages\noutput rest",
        "block 6 B9 NoCoin 1 1",
    ),
    "an output that a reverted block made": (
        "block\ntransaction\ninput wages\noutput rest to bob as gift\nrevert\nblock\ntransaction\ninput gift\noutput rest",
        "block 6 B9 NoCoin 0 0",
    ),
    "a payout one block early": ("block\nblock\ntransaction\ninput savings\noutput rest", "block 7 B10 Immature 0 0 8"),
    "siafunds spent twice in one block": (
        "block\ntransaction\nfundinput fund0\nfundoutput rest\ntransaction\nfundinput fund0\nfundoutput rest",
        "block 6 B12 NoFund 1 0",
    ),
    "coins spent with another one's conditions": ("block\ntransaction\ninput wages with bob\noutput rest", "block 6 B13 Conditions 0 0"),
    "siafunds spent with another one's conditions": (
        "block\ntransaction\ninput wages\noutput rest\nfundinput fund1 with alice\nfundoutput rest",
        "block 6 B13 Conditions 0 1",
    ),
    "coins that are locked until the next block": (
        "block\ntransaction\ninput wages\noutput rest to late as saved\ntransaction\ninput saved\noutput rest",
        "block 6 B14 Locked 1 0",
    ),
    "outputs above the inputs": (
        "block\ntransaction\ninput wages\noutput 300000SC",
        f"block 6 B22 Balance 0 0 {FIRST_SUBSIDY} {300_000 * 10**24}",
    ),
    "siafund outputs below the inputs": ("block\ntransaction\nfundinput fund0\nfundoutput 5999", "block 6 B22 Balance 0 1 6000 5999"),
}

# The transaction that each signature fault stands in, and what is signed in it.
SPEND = "block\ntransaction\ninput wages\noutput 5\noutput rest to both as ours\nfee 1\n"
SPEND_OURS = SPEND + "transaction\ninput ours\noutput rest\n"

SIGNATURES = {
    "no signature": ("unsigned", SPEND, "0 MissingSig 0"),
    "one signature of two": ("signature ours", SPEND_OURS, "1 MissingSig 0"),
    "a signature by another key": ("signature wages by bob", SPEND, "0 BadSig 0"),
    "a signature that isn't in force yet": ("signature wages timelock 7", SPEND, "0 Timelock 0"),
    "a signature for nothing that is spent": ("signature earnings by bob", SPEND, "0 Frivolous 0"),
    "a signature by a key that isn't there": ("signature wages key 1 by bob", SPEND, "0 Frivolous 0"),
    "a second signature by one key": ("signature ours\nsignature ours", SPEND_OURS, "1 Frivolous 1"),
    "more signatures than are needed": ("signature wages\nsignature wages key 1 by bob", SPEND, "0 Frivolous 1"),
    "covered places out of order": ("signature wages covers coin_outputs=1,0", SPEND, "0 Frivolous 0"),
    "a covered place that isn't there": ("signature wages covers coin_outputs=0,2", SPEND, "0 Frivolous 0"),
    "a signature over all and a part": ("signature wages covers whole;fees=0", SPEND, "0 Frivolous 0"),
}

ACCEPTED = {
    "a signature that covers parts": SPEND + "signature wages covers coin_inputs=0;coin_outputs=0,1;fees=0",
    "a signature that covers nothing": SPEND + "signature wages covers fees=",
    "a signature that covers an earlier one": SPEND_OURS + "signature ours\nsignature ours key 1 covers whole;signatures=0",
    "a signature that is in force from this block on": SPEND + "signature wages timelock 6",
    "locked coins at their height": "block\ntransaction\ninput wages\noutput rest to late as saved\nblock\ntransaction\ninput saved\noutput rest",
    "a payout at its height": "blocks 2\nblock\ntransaction\ninput savings\noutput rest",
    "a payout that is split": "block\npayout 299900SC\npayout 94SC",
    "a transaction of notes alone": "block\ntransaction\nnote hello\ntransaction\nfiller 0",
}


def check_transfers(folder):
    check_example(CONFIG, "transfer")
    check_refused("a payout that isn't mature", ["ledger", CONFIG, FEEDS / "immature.feed"], "block 2 B10 Immature 0 0 145")
    for name, text in ACCEPTED.items():
        description, feed = written(folder, "accepted", BEGIN + text, MARKET)
        check_run(name, ["ledger", MARKET, feed], 0, out=sums(description, MARKET))
    for name, (text, case) in REFUSED.items():
        _, feed = written(folder, "refused", BEGIN + text, MARKET)
        check_refused(name, ["ledger", MARKET, feed], case)
    for name, (line, text, case) in SIGNATURES.items():
        _, feed = written(folder, "signed", BEGIN + text + line, MARKET)
        check_refused(name, ["ledger", MARKET, feed], f"block 6 B23 Signature {case}")


def wanderings():
    """Blocks in which twenty coins go from hand to hand, and are brought back by reverts."""
    yield BEGIN + "block\ntransaction\ninput wages"
    yield from (f"output {lane + 1}SC to alice as coin{lane}@6" for lane in range(20))
    yield "output rest to bob"
    for height in range(7, 37):
        who = ("alice", "bob", "both")[height % 3]
        yield "block"
        for lane in range(20):
            name, start = f"coin{lane}@{height}", f"coin{lane}@{height - 1}"
            yield f"transaction\ninput {start}\noutput rest to {who} as {name}\nfee {lane + 1}\nnote {height}"
        if height % 10 == 0:  # two blocks are dropped and made anew, but for their nonces
            yield "reverts 2\nblock nonce 99"
            yield from (f"transaction\ninput coin{lane}@{height - 2}\noutput rest to {who} as coin{lane}@{height - 1}" for lane in range(20))
            yield "block nonce 99"
            yield from (f"transaction\ninput coin{lane}@{height - 1}\noutput rest to {who} as coin{lane}@{height}" for lane in range(20))


def check_wandering_coins(folder):
    description, feed = written(folder, "wandering", "\n".join(wanderings()), MARKET)
    check_run("600 transfers with reverts", ["ledger", MARKET, feed], 0, out=sums(description, MARKET))


def check_block_limit(folder):
    """A block of 2,000,000 bytes is accepted, and one of a byte more refused."""

    def filled(size):
        return written(folder, "filled", f"block\ntransaction\nfiller 1000000\nfiller {size}", CONFIG)

    empty = len(filled(0)[1].read_bytes()) - 1  # without the byte in front of the block
    description, feed = filled(BLOCK_LIMIT - empty)
    check_run("a block of 2,000,000 bytes", ["ledger", CONFIG, feed], 0, out=sums(description))
    _, feed = filled(BLOCK_LIMIT - empty + 1)
    check_refused("a block of 2,000,001 bytes", ["ledger", CONFIG, feed], f"block 1 B2 TooLarge {BLOCK_LIMIT + 1}")


def check_feed_order(folder):
    """A feed's records are read and done in turn, and the first refusal decides."""
    one = (FEEDS / "one_block.feed").read_bytes()
    refused = (FEEDS / "refused.feed").read_bytes()
    too_much = f"block 1 B6 PayoutSum {FIRST_SUBSIDY} {FIRST_SUBSIDY + 1}"
    cases = {
        "a feed that is cut off": (one[:-1], f"feed at {len(one) - 8}"),
        "an odd record": (one + b"\x03", f"feed at {len(one)}"),
        "an odd record behind a refused block": (refused + b"\x03", too_much),
        "an odd record behind a revert too much": (b"\x02\x00", "feed NoBlock"),
        "a refused block behind an odd record": (b"\x00" + refused, "feed at 0"),
        "a block that ends in its nonce": (one + one[:40], f"feed at {len(one) + 33}"),
        "a list above the limit": (one[:49] + (BLOCK_LIMIT + 1).to_bytes(8, "little") + one[57:], "feed at 49"),
        "a currency with a leading zero byte": (one[:57] + bytes([14]) + one[58:65] + b"\0" + one[65:], "feed at 57"),
    }
    for name, (content, case) in cases.items():
        feed = folder / "odd.feed"
        feed.write_bytes(content)
        check_refused(name, ["ledger", CONFIG, feed], case)
