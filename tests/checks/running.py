"""Runs of the program, compared and counted."""

import hashlib
import subprocess
import sys
from pathlib import Path

TOP = Path(__file__).resolve().parent.parent.parent
PROGRAM = Path(sys.argv[1]).resolve() if sys.argv[1:] else TOP / "sia-v1"
EXAMPLES = TOP / "examples"
FEEDS = EXAMPLES / "feeds"
CONFIG = EXAMPLES / "chain.toml"
MARKET = EXAMPLES / "market.toml"
MAKE_FEED = EXAMPLES / "make_feed"

results = []


def check(name, condition, detail=""):
    results.append(bool(condition))
    print(f"{'ok' if condition else 'FAILED'} {name}" + ("" if condition else f"\n{detail}"))


def run(*words):
    done = subprocess.run([PROGRAM, *words], stdin=subprocess.DEVNULL, capture_output=True, timeout=600)
    return done.returncode, done.stdout.decode(), done.stderr.decode()


def check_run(name, words, status, out="", err=""):
    got = run(*words)
    check(name, got == (status, out, err), f"  wanted {(status, out, err)}\n  got    {got}")


def check_usage(name, words):
    check_run(name, words, 1, err="sia-v1: usage\n")


def check_refused(name, words, case):
    check_run(name, words, 2, err=f"sia-v1: refused {case}\n")


def check_outside(name, words):
    check_run(name, words, 3, err="sia-v1: outside fault\n")


def make_feed(*words):
    return subprocess.run([MAKE_FEED, *words], check=True, capture_output=True).stdout


def sums(description, config=CONFIG):
    return make_feed("--sums", config, description).decode()


def written(folder, name, text, config=CONFIG):
    """The paths of a description and of the feed that is made of it."""
    description, feed = folder / f"{name}.txt", folder / f"{name}.feed"
    description.write_text(text)
    feed.write_bytes(make_feed(config, description))
    return description, feed


def digest(data):
    return hashlib.blake2b(data, digest_size=32).digest()
