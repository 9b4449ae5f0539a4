#!/usr/bin/env python3
"""Times the proved reading and writing of a tree of 1,000,000 nodes, against `sha256sum` of the same bytes.

Prints the milliseconds, the megabytes at most, and both as ratios: of the time to that of `sha256sum`, of the memory to
the bytes. It takes no words and changes no file of the repository. Ends with 1 where a limit is missed. The program is
built by `rt run -- tree:1000` in crates/pj_speed, or by `rt ci`.
"""
import os
import subprocess
import sys
import tempfile

from timing import program, timed

NODES = 1_000_000
MOST_SECONDS = 1.0
MOST_MEMORY = 40
TURNS = 3


def main():
    reader = program("pj_speed")
    with tempfile.TemporaryDirectory() as folder:
        tree = os.path.join(folder, "tree")
        subprocess.run([reader, f"tree:{NODES}:{tree}"], stdout=subprocess.DEVNULL, check=True)
        size = os.path.getsize(tree)
        with open(os.path.join(folder, "printed"), "w+b") as printed:
            took, memory, status = min(timed([reader, f"tree:{NODES}"], printed) for _ in range(TURNS))
            printed.seek(0)
            same = all(line.endswith(b"the same: true") for line in printed.read().splitlines())
            summed = min(timed(["sha256sum", tree], printed)[0] for _ in range(TURNS))
    print(f"{NODES} nodes, {size} bytes")
    print(f"read and written: {took * 1000:.0f} ms, {took / summed:.1f} times sha256sum's {summed * 1000:.0f} ms")
    print(f"memory: {memory / 2**20:.0f} MB, {memory / size:.1f} times the bytes")
    if status != 0 or not same or took >= MOST_SECONDS or memory >= MOST_MEMORY * size:
        sys.exit("a limit is missed, or the bytes differ")


main()
