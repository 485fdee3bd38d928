"""The language of descriptions: lines of words, and the records that they stand in."""

from dataclasses import dataclass

from .chain import COIN

HELP = """\
A description has one thing a line; what follows a '#' is a comment, and spaces in front are for the eye.

Parties and files:
  party NAME key K           a party with a key of Seal: 64 hexadecimal digits, or 2 that are repeated
  party NAME keys A,B        a party of several parties' keys; `required N` (else all) and `timelock N` may follow
  data NAME BYTES            a file of so many bytes; `seed N` may follow and makes another one

Records:
  block                      a block that pays its subsidy and the fees to the zero address
  block to WHO               .. to this party, or this address of 64 hexadecimal digits
  block pays N               .. that pays N hastings, whatever it should
  block as NAME              .. whose payout has this name (payout@H, H being its height, is always its name)
  block nonce N time N       .. with this nonce and timestamp (else both are the block's height)
  block parent HASH          .. on this parent (else on the tip)
  blocks N                   N blocks; the words of 'block' may follow
  revert                     drops the last block
  reverts N                  drops the last N blocks

What stands below a block is in it:
  payout N to WHO as NAME    one of several payouts, in place of the one
  transaction                begins a transaction, to which what follows belongs; all its needs are signed, by the first
                             keys of their conditions and over the whole transaction, but where a line says another thing
  input NAME                 spends an output by its name; `with PARTY` shows another party's conditions
  output N to WHO as NAME    makes an output; N `rest` is what the inputs leave
  fundinput NAME to WHO      spends siafunds, their claim going to WHO and being named NAME.claim; `with` as above
  fundoutput N to WHO as NAME   N may be `rest`; `start N` writes a claim start
  contract NAME holds DATA start H end H payout N unlock WHO     forms a contract; `number N` may follow
  revision NAME number N     revises it; `holds`, `start`, `end` and `unlock` change what they say, and `with` is as above
  valid N to WHO             an output of the contract or revision above for a proof; N `rest` is what payout less tax
  missed N to WHO            leaves; .. for a missed proof. A revision without any keeps the old ones
  proof NAME                 proves a contract; `of DATA` by another file, `place N` for another place
  fee N
  note TEXT
  filler N                   a note of N bytes
  unsigned                   only the signatures that stand below are made
  signature NAME             a signature for the need of this name; `key N`, `timelock N`, `by PARTY` and `covers WHAT`
                             may follow. WHAT is lists with their places, as coin_inputs=0;coin_outputs=0,1 (else `whole`)

Genesis siafunds are named fund0, fund1 and so on; what a contract pays is named NAME.valid0 or NAME.missed0 and so on. An
amount is a number of hastings, or of siacoins with SC behind it. The words behind a name may stand in any order.
"""

RECORDS = ("block", "blocks", "revert", "reverts")
PREAMBLE = ("party", "data")


@dataclass
class Line:
    """The words of a line."""

    text: str
    kind: str
    words: list

    def fail(self, why):
        raise ValueError(f"{why}: {self.text}")

    def options(self, skipped, *names):
        """The words behind the first ones, as pairs of a name and a value."""
        rest = self.words[skipped:]
        if len(rest) % 2 or len(self.words) < skipped:
            self.fail("a word without its value")
        pairs = dict(zip(rest[::2], rest[1::2]))
        if unknown := set(pairs) - set(names):
            self.fail(f"no word is known as {' '.join(sorted(unknown))}")
        return pairs


@dataclass
class Record:
    """A block, a revert or a preamble line, with the lines below it."""

    head: Line
    body: list


def lines_of(text):
    for raw in text:
        words = raw.split("#")[0].split()
        if words:
            yield Line(raw.strip(), words[0], words[1:])


def records_of(text):
    """The description's records."""
    record = None
    for line in lines_of(text):
        if line.kind in RECORDS or line.kind in PREAMBLE:
            if record:
                yield record
            record = Record(line, [])
        elif record and record.head.kind in ("block", "blocks"):
            record.body.append(line)
        else:
            line.fail("no record")
    if record:
        yield record


def amount(word):
    """The hastings of a word, None for `rest`."""
    if word == "rest":
        return None
    return int(word[:-2]) * COIN if word.endswith("SC") else int(word)
