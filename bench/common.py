"""What scripts in this folder share: building the programs, a folder for their files, and runs in turns."""

import os
import resource
import statistics
import subprocess
import sys
import tempfile
import time
from pathlib import Path

TOP = Path(__file__).resolve().parent.parent
MEMORY_FILE_SYSTEMS = ("tmpfs", "ramfs")


def build_bench():
    """Proves and builds sia_bench, and gives its path."""
    folder = TOP / "crates" / "sia_bench"
    done = subprocess.run(["rt", "run", "--", "turn", "1", "1"], cwd=folder, stdout=subprocess.PIPE, stderr=subprocess.STDOUT)
    if done.returncode != 0:
        sys.exit(done.stdout.decode(errors="replace") + f"{sys.argv[0]}: sia_bench does not build")
    return folder / "out" / "sia_bench"


def has_kernel(program, name):
    """Whether sia_bench has a kernel of this name; it tells them where its words are wrong."""
    told = subprocess.run([program], stdin=subprocess.DEVNULL, stdout=subprocess.PIPE, stderr=subprocess.STDOUT).stdout.decode()
    return f" {name} " in f" {told} "


def build_program():
    """Proves and builds the program as the gate does, for any processor, unless it is there, and gives its path."""
    folder = TOP / "crates" / "sia_v1"
    program = folder / "out" / "sia_v1"
    if not program.exists():
        subprocess.run(["rt", "run"], cwd=folder, stdin=subprocess.DEVNULL, stdout=subprocess.DEVNULL, stderr=subprocess.DEVNULL)
    return program if program.exists() else sys.exit(f"{sys.argv[0]}: sia_v1 does not build")


def on_disk(where):
    """A temporary folder on a disk, which is removed at the end. A file system in memory is refused."""
    folder = tempfile.TemporaryDirectory(prefix="sia_bench_", dir=where)
    if file_system(folder.name).split()[0] in MEMORY_FILE_SYSTEMS:
        sys.exit(f"{sys.argv[0]}: {folder.name} lies in memory; name a folder on a disk by --folder")
    return folder


def file_system(path):
    """The type of the file system that a path lies on, and its device."""
    out = subprocess.run(["df", "--output=fstype,source", path], check=True, stdout=subprocess.PIPE).stdout
    return " ".join(out.decode().splitlines()[1].split())


def machine():
    """How many processors there are, and how busy they are."""
    return f"{os.cpu_count()} processors, load {os.getloadavg()[0]:.1f}"


def children_time():
    used = resource.getrusage(resource.RUSAGE_CHILDREN)
    return used.ru_utime + used.ru_stime


def run_timed(command):
    """What the command prints, and the seconds that it takes: by the clock, and of the processors."""
    processor, clock = children_time(), time.perf_counter()
    out = subprocess.run(command, check=True, stdout=subprocess.PIPE).stdout.decode()
    return out, (time.perf_counter() - clock, children_time() - processor)


def ratio(ours, peers):
    """How much faster we are than a peer, from as many turns of each: by the medians of the turns' ratios, and by the least times."""
    return statistics.median(peer / our for our, peer in zip(ours, peers)), min(peers) / min(ours)
