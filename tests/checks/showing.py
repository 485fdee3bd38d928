"""The command `show`: the parts of feeds, each in a file of its own."""

from .running import CONFIG, EXAMPLES, FEEDS, MARKET, check, check_outside, check_refused, check_run, check_usage, make_feed

LIMIT = 2_000_000  # bytes of an input


def check_parts(folder, name, config, blocks):
    """Blocks of an example, by their number from 1, and each of their transactions, of which the count stands behind it."""
    description = FEEDS / f"{name}.txt"
    for block, transactions in blocks.items():
        check_part(folder, f"block {block} of {name}", "block", [config, description, "--block", str(block)])
        for at in range(transactions):
            words = [config, description, "--block", str(block), "--transaction", str(at)]
            check_part(folder, f"transaction {at} in block {block} of {name}", "transaction", words)


def check_part(folder, name, kind, words):
    path = folder / "shown"
    path.write_bytes(make_feed(*words))
    check_run(f"show of {name}", ["show", kind, path], 0, out=make_feed(*words, "--show").decode())


def check_example_parts():
    """The parts in examples/ are those of a feed there."""
    for name, kind, words in (
        ("formation", "transaction", ["--block", "6", "--transaction", "0"]),
        ("proof", "block", ["--block", "11"]),
    ):
        path = EXAMPLES / "parts" / f"{name}.{kind}"
        words = [MARKET, FEEDS / "contracts.txt", *words]
        check(f"{path.name} is what its description says", make_feed(*words) == path.read_bytes())
        check_run(f"show of {path.name}", ["show", kind, path], 0, out=make_feed(*words, "--show").decode())


def check_show(folder):
    check_parts(folder, "one_block", CONFIG, {1: 0})
    check_parts(folder, "transfer", CONFIG, {1: 0, 145: 2, 146: 1})
    check_parts(folder, "siafunds", MARKET, {5: 1, 6: 1, 9: 2})
    check_parts(folder, "contracts", MARKET, {6: 2, 7: 1, 11: 1, 15: 1})


def check_show_faults(folder):
    words = [MARKET, FEEDS / "contracts.txt", "--block", "6"]
    block = make_feed(*words)
    transaction = make_feed(*words, "--transaction", "0")
    path = folder / "part"

    def check_bytes(name, kind, content, case):
        path.write_bytes(content)
        check_refused(f"show {kind} of {name}", ["show", kind, path], case)

    check_bytes("no bytes", "transaction", b"", "input at 0")
    check_bytes("a transaction that is cut off", "transaction", transaction[:-1], f"input at {len(transaction) - 64}")
    check_bytes("a transaction and a byte", "transaction", transaction + b"\0", f"input at {len(transaction)}")
    check_bytes("a count above the limit", "transaction", (LIMIT + 1).to_bytes(8, "little") + transaction[8:], "input at 0")
    check_bytes("a block that is cut off", "block", block[:39], "input at 32")
    check_bytes("a block and a byte", "block", block + b"\0", f"input at {len(block)}")
    check_bytes("a payout with a leading zero byte", "block", block[:56] + bytes([13]) + block[57:64] + b"\0" + block[64:], "input at 56")
    path.write_bytes(bytes(LIMIT + 1))
    check_run("show of more than 2,000,000 bytes", ["show", "transaction", path], 8, err="sia-v1: input too long\n")
    check_outside("show of a file that doesn't open", ["show", "block", folder / "absent"])
    for name, usage in {
        "nothing named": ["show"],
        "no file named": ["show", "block"],
        "another kind": ["show", "feed", path],
        "a word too many": ["show", "block", path, path],
    }.items():
        check_usage(f"show with {name}", usage)


def check_long_show(folder):
    """A block of almost as many bytes as there may be."""
    description = folder / "long.txt"
    lines = [f"transaction\nnote {'x' * 900}\noutput 5\noutput 7\n" for _ in range(1_700)]
    description.write_text("block\n" + "".join(lines))
    check_part(folder, "a block of 1,700 transactions", "block", [CONFIG, description, "--block", "1"])
