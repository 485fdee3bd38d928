"""The words of commands, and what they do where a file or a stream fails."""

import subprocess

from .running import CONFIG, FEEDS, PROGRAM, check, check_outside, check_usage


def check_words():
    check_usage("no words", [])
    check_usage("an unknown command", ["ledgers", CONFIG, CONFIG])
    check_usage("a word too few", ["ledger", CONFIG])
    check_usage("a file that isn't named", ["root"])
    check_usage("a word too many", ["ledger", CONFIG, CONFIG, CONFIG])


def check_faults(folder):
    feed = FEEDS / "empty.feed"
    check_outside("a FEED that doesn't open", ["ledger", CONFIG, folder / "absent.feed"])
    check_outside("a CONFIG that doesn't open", ["ledger", folder / "absent.toml", feed])
    check_outside("a FEED that is a folder", ["ledger", CONFIG, folder])
    with open("/dev/full", "wb") as full:
        done = subprocess.run([PROGRAM, "ledger", CONFIG, feed], stdout=full, stderr=subprocess.PIPE)
    check("a full standard output", (done.returncode, done.stderr) == (3, b"sia-v1: outside fault\n"), f"  got {done}")
    with open("/dev/full", "wb") as full:
        done = subprocess.run([PROGRAM, "ledger"], stdout=subprocess.PIPE, stderr=full)
    check("a full standard error changes no status", (done.returncode, done.stdout) == (1, b""), f"  got {done}")
