"""The texts that stand behind identifiers, roots, conditions and signatures of a feed, each once, as examples/make_feed makes
them; and the time that the proved digest takes for them."""

import hashlib
import sys
import tomllib

from common import TOP, run_timed

sys.path.insert(0, str(TOP / "examples"))
from feedmaker import encoding
from feedmaker.world import World

BLOCK = 128  # bytes that BLAKE2b compresses at a time
MARKET = TOP / "examples" / "market.toml"


class Recorder:
    """Stands in for hashlib, and keeps each text that is hashed."""

    def __init__(self):
        self.texts = set()

    def blake2b(self, data, digest_size):
        self.texts.add(data)
        return hashlib.blake2b(data, digest_size=digest_size)


def feed_and_texts(description, config=MARKET):
    """The blocks of a description, and the texts that were hashed for them."""
    recorder = Recorder()
    encoding.hashlib = recorder
    with open(config, "rb") as file:
        world = World(tomllib.load(file))
    blocks = list(world.records(description.splitlines()))
    encoding.hashlib = hashlib
    return blocks, recorder.texts


def feed_of(blocks):
    return b"".join(b"\x01" + block.encode() for block in blocks)


def write_padded(texts, path):
    """Writes the texts, each filled up to whole blocks: the digest of all of it compresses as many blocks as theirs do."""
    with open(path, "wb") as file:
        for text in texts:
            file.write(text.ljust(-(-max(len(text), 1) // BLOCK) * BLOCK, b"\0"))


def digest_seconds(program, path, runs):
    """The processor seconds of one digest of a file by sia_bench, the least of several runs, its start and reading taken off."""
    times = {1: [], 5: []}
    for _ in range(runs):
        for count, spent in times.items():
            _, (_, processor) = run_timed([program, "digest", path, str(count)])
            spent.append(processor)
    return max(min(times[5]) - min(times[1]), 1e-9) / 4
