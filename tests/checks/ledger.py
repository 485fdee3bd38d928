"""The command `ledger` over blocks that pay their miners, and its configuration."""

from .running import CONFIG, FEEDS, check, check_refused, check_run, make_feed, sums, written

FIRST_SUBSIDY = 299_999 * 10**24


def check_example(config, name):
    """A feed of examples/ is what its description says, and its sums are those that make_feed computes."""
    description, feed = FEEDS / f"{name}.txt", FEEDS / f"{name}.feed"
    check(f"{feed.name} is what its description says", make_feed(config, description) == feed.read_bytes())
    check_run(f"the sums of {feed.name}", ["ledger", config, feed], 0, out=sums(description, config))


def check_examples():
    for name in ("empty", "one_block", "three_blocks_and_a_revert"):
        check_example(CONFIG, name)
    case = f"block 1 B6 PayoutSum {FIRST_SUBSIDY} {FIRST_SUBSIDY + 1}"
    check_refused("a block that pays too much", ["ledger", CONFIG, FEEDS / "refused.feed"], case)


def check_feeds(folder):
    long = "blocks 1200\nreverts 300\nblocks 1000 nonce 7\nreverts 100\nblocks 200 nonce 9\n"
    description, feed = written(folder, "long", long)
    check_run("2,000 blocks with reverts", ["ledger", CONFIG, feed], 0, out=sums(description))
    _, feed = written(folder, "revert_of_the_genesis", "block\nrevert\nrevert\n")
    check_refused("a revert of the genesis", ["ledger", CONFIG, feed], "feed NoBlock")
    _, feed = written(folder, "other_parent", f"block parent {'11' * 32}\n")
    tip = sums(FEEDS / "empty.txt").splitlines()[1].split()[1]
    check_refused("a block on another parent", ["ledger", CONFIG, feed], f"block 1 B1 BadParent {tip}")


def check_long_chain(folder):
    """A body that compares each new identifier with all earlier ones makes 10^10 comparisons here."""
    _, feed = written(folder, "there_and_back", "blocks 100000\nreverts 100000\n")
    check_run("100,000 blocks and as many reverts", ["ledger", CONFIG, feed], 0, out=sums(FEEDS / "empty.txt"))


def check_configurations(folder):
    def of(name, text):
        path = folder / name
        path.write_bytes(text)
        return path

    feed = FEEDS / "empty.feed"
    fund = b"[[chain.siafund]]\nto = '%s'\nvalue = %d\n"
    zero = b"00" * 32
    refused = {
        "no document": (b"[chain", "config text"),
        "no siafunds": (b"", "config chain.siafund"),
        "a maturity of 0": (b"[chain]\nmaturity = 0\n" + fund % (zero, 10000), "config chain.maturity"),
        "siafunds that sum to 9,999": (fund % (zero, 9999), "config chain.siafund"),
        "a sector of too many bytes": (b"[chain]\nsector_exp = 17\n" + fund % (zero, 10000), "config chain.sector_exp"),
        "an amount with a leading zero": (b"host.base = '01'\n" + fund % (zero, 10000), "config host.base"),
        "a short file limit": (b"renter.file_limit = 1023\n" + fund % (zero, 10000), "config renter.file_limit"),
    }
    for name, (text, case) in refused.items():
        check_refused(f"a configuration with {name}", ["ledger", of("refused.toml", text), feed], case)
    padded = CONFIG.read_bytes().ljust(65_536, b"#")
    empty_sums = sums(FEEDS / "empty.txt")
    check_run("a configuration of 65,536 bytes", ["ledger", of("full.toml", padded), feed], 0, out=empty_sums)
    long = of("long.toml", padded + b"#")
    check_run("a configuration of 65,537 bytes", ["ledger", long, feed], 8, err="sia-v1: input too long\n")
    two = of("two.toml", b"[chain]\nmaturity = 1\n" + fund % (b"Ab" * 32, 1) + fund % (zero, 9999))
    description = FEEDS / "one_block.txt"
    one = folder / "one.feed"
    one.write_bytes(make_feed(two, description))
    check_run("two siafunds and a short maturity", ["ledger", two, one], 0, out=sums(description, two))
