"""The commands `root` and `prove`."""

import os
import shutil
import subprocess
from pathlib import Path

from .running import TOP, check, check_outside, check_refused, check_run, check_usage, digest, run


def tree_root(hashes):
    """The root over hashes, by the split at the largest power of two below their number."""
    if len(hashes) <= 1:
        return hashes[0] if hashes else bytes(32)
    left = 1 << ((len(hashes) - 1).bit_length() - 1)
    return digest(b"\x01" + tree_root(hashes[:left]) + tree_root(hashes[left:]))


SIZES = (0, 1, 63, 64, 65, 127, 128, 129, 1_000, 65_535, 65_536, 65_537, 4_194_304)


def file_of(folder, size):
    path = folder / f"{size}.bytes"
    path.write_bytes(bytes(i * i % 251 for i in range(size)))
    return path


def check_roots(folder):
    for size in SIZES:
        path = file_of(folder, size)
        content = path.read_bytes()
        leaves = [content[at : at + 64] for at in range(0, size, 64)]
        root = tree_root([digest(b"\x00" + leaf) for leaf in leaves]).hex()
        check_run(f"the root of {size} bytes", ["root", path], 0, out=f"root {root} leaves {len(leaves)} bytes {size}\n")
    check_outside("the root of a file that doesn't open", ["root", folder / "absent"])


def check_go_library(folder):
    """The same roots by Sia's own Go library, of Debian's packages."""
    source = Path("/usr/share/gocode/src")
    libraries = (source / "github.com/NebulousLabs/merkletree", source / "golang.org/x/crypto/blake2b")
    if not shutil.which("go") or not all(path.exists() for path in libraries):
        print("skipped: the roots of Sia's Go library, which isn't installed")
        return
    program = folder / "go_root"
    environment = {**os.environ, "GO111MODULE": "off", "GOPATH": str(source.parent), "GOCACHE": str(folder / "gocache")}
    subprocess.run(["go", "build", "-o", program, TOP / "bench" / "peers" / "root.go"], check=True, env=environment)
    for size in SIZES[1:]:  # the library has no root of no leaves
        path = file_of(folder, size)
        theirs = subprocess.run([program, path], check=True, capture_output=True).stdout.decode().split()[0]
        check(f"the Go library's root of {size} bytes", run("root", path)[1].split()[1] == theirs, f"  theirs {theirs}")


def cover(count, start, end):
    """The largest segments of a tree of so many leaves that have none from start to end, from left to right."""
    segments = []
    for width in (1 << level for level in reversed(range(count.bit_length()))):
        for low in range(0, count - width + 1, width):
            is_outside = low + width <= start or end <= low
            is_new = not any(first <= low and low + width <= last for first, last in segments)
            if is_outside and is_new:
                segments.append((low, low + width))
    return sorted(segments)


def check_proofs(folder):
    size = 100 * 64 - 5
    content = bytes(i * 7 % 256 for i in range(size))
    path = folder / "proved.bytes"
    path.write_bytes(content)
    hashes = [digest(b"\x00" + content[at : at + 64]) for at in range(0, size, 64)]
    for start, end in ((0, 1), (99, 100), (0, 100), (33, 34), (31, 65), (64, 96), (1, 99)):
        lines = [f"root {tree_root(hashes).hex()} leaves 100"]
        lines += [f"hash {tree_root(hashes[first:last]).hex()}" for first, last in cover(100, start, end)]
        check_run(f"the proof of {start} to {end}", ["prove", path, str(start), str(end)], 0, out="".join(f"{line}\n" for line in lines))
    for start, end in ((3, 3), (4, 3), (99, 101), (100, 101)):
        check_refused(f"no proof of {start} to {end}", ["prove", path, str(start), str(end)], "range")
    for number in ("x", "+1", "01", "-1", str(2**64), "\udcff"):
        check_usage(f"the number {number!a}", ["prove", path, number, "50"])
    check_outside("a proof over a file that doesn't open", ["prove", folder / "absent", "0", "1"])
