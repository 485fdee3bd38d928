"""The command `ledger` over chains on which file contracts are formed, revised, proved and missed."""

from .ledger import check_example
from .running import MARKET, check_refused, check_run, sums, written

# Block 6 forms a contract, whose window is [8, 10]: the next block is the seventh.
BEGIN = """\
party alice key 01
party bob key 02
party both keys alice,bob
data photo 1000
data nothing 0
block to alice as wages
block to bob as earnings
blocks 3
"""
FORM = """\
block
transaction
input wages
contract deal holds photo start 8 end 10 payout 1040000 unlock both
valid 700000 to alice
valid rest to bob
missed 1000000
output rest to alice as change
"""


def formation(words, outputs="valid rest\nmissed rest"):
    return f"block\ntransaction\ninput wages\ncontract deal holds photo unlock both {words}\n{outputs}\noutput rest to alice as change\n"


def revision(words, outputs=""):
    return f"{FORM}block\ntransaction\nrevision deal {words}\n{outputs}\n"


PROVE = "block\ntransaction\nproof deal\n"

REFUSED = {
    "valid outputs that sum past 128 bits": (
        formation("start 8 end 10 payout 1040000", f"valid {2**128 - 1}\nvalid 1\nmissed rest"),
        "block 6 B4 SumTooLarge 0",
    ),
    "a contract that pays nothing": (formation("start 8 end 10 payout 0"), "block 6 B5 BadValue 0"),
    "a proof beside an output": (FORM + PROVE + "output 1", "block 7 B7 ProofMix 0"),
    "a proof beside a revision": (revision("number 1") + "proof deal", "block 7 B7 ProofMix 0"),
    "one contract revised twice": (revision("number 1") + "revision deal number 2", "block 7 B8 Repeated 0"),
    "a contract that was proved before": (FORM + "block\n" + PROVE + PROVE, "block 9 B11 NoContract 0 0"),
    "a contract that was missed before": (FORM + "blocks 4\n" + PROVE, "block 11 B11 NoContract 0 0"),
    "a contract that a reverted block formed": (FORM + "revert\n" + PROVE, "block 6 B11 NoContract 0 0"),
    "a revision with another one's conditions": (revision("number 1 with bob"), "block 7 B13 Conditions 0 0"),
    "a contract that begins at once": (formation("start 6 end 10 payout 1040000"), "block 6 B15 FormWindow 0 0"),
    "a contract that ends where it begins": (formation("start 8 end 8 payout 1040000"), "block 6 B15 FormWindow 0 0"),
    "valid outputs that keep the tax": (
        formation("start 8 end 10 payout 1040000", "valid 1040000\nmissed rest"),
        "block 6 B16 FormSum 0 0",
    ),
    "missed outputs below the payout": (
        formation("start 8 end 10 payout 1040000", "valid rest\nmissed 999999"),
        "block 6 B16 FormSum 0 0",
    ),
    "a revision with the present number": (revision("number 0"), "block 7 B17 RevNumber 0 0 0"),
    "a revision whose number falls": (
        revision("number 5") + "block nonce 9\ntransaction\nrevision deal number 4",
        "block 8 B17 RevNumber 0 0 5",
    ),
    "a revision that begins at once": (revision("number 1 start 7"), "block 7 B18 RevWindow 0 0"),
    "a revision in the window": (FORM + "block\nblock\ntransaction\nrevision deal number 1", "block 8 B18 RevWindow 0 0"),
    "a revision that pays more": (revision("number 1", "valid 1000001"), "block 7 B19 RevSum 0 0"),
    "a revision that misses less": (revision("number 1", "missed 999999"), "block 7 B19 RevSum 0 0"),
    "a proof one block early": (FORM + PROVE, "block 7 B20 ProofWindow 0 0 8"),
    "a proof of another leaf": (FORM + "block\nblock\ntransaction\nproof deal place 15", "block 8 B21 BadProof 0 0"),
    "a proof of what isn't stored": (FORM + "data other 1000 seed 1\nblock\nblock\ntransaction\nproof deal of other", "block 8 B21 BadProof 0 0"),
    "a payout that isn't paid in": (
        "block\ntransaction\ncontract deal holds nothing start 8 end 10 payout 1 unlock both\nvalid 1\nmissed 1",
        "block 6 B22 Balance 0 0 0 1",
    ),
    "a revision with one signature": (revision("number 1") + "signature deal", "block 7 B23 Signature 0 MissingSig 0"),
}

ACCEPTED = {
    "a formation": FORM,
    "a contract without tax": formation("start 8 end 10 payout 256410"),
    "a contract with the least tax": formation("start 8 end 10 payout 256411"),
    "outputs of 0": formation("start 8 end 10 payout 1040000", "valid rest\nvalid 0\nmissed rest\nmissed 0") + "blocks 5",
    "a proof in the window's first block": FORM + "block\n" + PROVE,
    "a proof in the window's last block": FORM + "blocks 3\n" + PROVE,
    "a missed contract": FORM + "blocks 4",
    "a contract of no bytes proves nothing": formation("holds nothing start 8 end 10 payout 1040000") + "block\n" + PROVE,
    "a revision of all": revision("number 9 holds nothing start 9 end 11 unlock bob", "valid rest to bob\nmissed rest") + "block\n" + PROVE,
    "two revisions, each signed by those of the one before": revision("number 1 unlock bob") + "transaction\nrevision deal number 2",
    "a proof, dropped, and proved anew": FORM + "block\n" + PROVE + "reverts 2\nblock nonce 77\n" + PROVE,
    "a formation, dropped": FORM + "revert",
    "what was missed is spent": formation("start 8 end 10 payout 1040000", "valid rest\nmissed rest to alice")
    + "blocks 6\nblock\ntransaction\ninput deal.missed0\noutput rest",
}


def check_contracts(folder):
    check_example(MARKET, "siafunds")
    check_example(MARKET, "contracts")
    for name, text in ACCEPTED.items():
        description, feed = written(folder, "accepted", BEGIN + text, MARKET)
        check_run(name, ["ledger", MARKET, feed], 0, out=sums(description, MARKET))
    for name, (text, case) in REFUSED.items():
        _, feed = written(folder, "refused", BEGIN + text, MARKET)
        check_refused(name, ["ledger", MARKET, feed], case)
