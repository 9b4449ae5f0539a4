#!/usr/bin/env python3
"""Times the proved program on packages: a large one is precompiled and loaded, and 1,024 small ones are loaded.

The large package has 10,000 functions and 10,000 constants. Prints the seconds of processor time and the megabytes at most of
its building and of a run that uses it; that run's time as a ratio to what `sha256sum` takes on the image; what a second
`using` adds; and what an image costs among the first and among the last of 1,024. It takes no words and changes no file of the
repository. Ends with 1 where a limit is missed. The program is built by ./vojstrep or by `rt ci`.
"""
import os
import sys
import tempfile

from timing import program, timed

COUNT = 10_000
IMAGES = 1_024
TURNS = 5
MOST_BUILDING = 3.0
MOST_LOADING = 3.0


def large():
    """The text of the large package."""
    functions = "".join(f"f{n}(x::Int64) = x * {n} + 1\n" for n in range(COUNT))
    constants = "".join(f"const K{n} = f{n}({n})\n" for n in range(COUNT))
    return f"module Large\n{functions}{constants}end\n"


def write(folder, name, text):
    with open(os.path.join(folder, name), "w", encoding="ascii") as file:
        file.write(text)


def least(command, folder):
    """The least time of some turns, and the most memory. Ends this program where the command fails."""
    seconds, memory = [], 0
    for _ in range(TURNS):
        with open(os.devnull, "wb") as printed:
            took, bytes_taken, status = timed(command, printed, folder)
        if status:
            sys.exit(f"{' '.join(command)} ended with {status}")
        seconds.append(took)
        memory = max(memory, bytes_taken)
    return min(seconds), memory


def main():
    vojstrep = program("pj_cli")
    missed = False
    with tempfile.TemporaryDirectory() as folder:
        write(folder, "Large.jl", large())
        building, memory = least([vojstrep, "precompile", "1000000", "Large"], folder)
        size = os.path.getsize(os.path.join(folder, "Large.pimg"))
        print(f"built: {building:.2f} s, {memory / 1e6:.0f} MB, an image of {size / 1e6:.2f} MB (wanted: {MOST_BUILDING} s)")
        missed |= building > MOST_BUILDING

        write(folder, "nothing.jl", "")
        write(folder, "once.jl", "using Large\n")
        write(folder, "twice.jl", "using Large\n" * 2)
        start, _ = least([vojstrep, "run", "0", "nothing.jl"], folder)
        once, memory = least([vojstrep, "run", "0", "once.jl"], folder)
        twice, _ = least([vojstrep, "run", "0", "twice.jl"], folder)
        digest, _ = least(["sha256sum", "Large.pimg"], folder)
        ratio = once / digest
        print(f"loaded: {once * 1e3:.1f} ms, {memory / 1e6:.0f} MB, {ratio:.1f} times sha256sum's {digest * 1e3:.1f} ms (wanted: {MOST_LOADING})")
        print(f"without it: {start * 1e3:.1f} ms; used twice: {twice * 1e3:.1f} ms")
        missed |= ratio > MOST_LOADING

        for n in range(IMAGES):
            write(folder, f"Q{n}.jl", f"module Q{n}\nend\n")
            _, _, status = timed([vojstrep, "precompile", "1", f"Q{n}"], None, folder)
            if status:
                sys.exit(f"Q{n} wasn't built")
        costs = []
        for first, last in ((0, 256), (0, IMAGES - 256), (0, IMAGES)):
            write(folder, "many.jl", "".join(f"using Q{n}\n" for n in range(first, last)))
            costs.append(least([vojstrep, "run", "0", "many.jl"], folder)[0])
        print(f"an image costs {(costs[0] - start) / 256 * 1e6:.0f} microseconds among the first 256, and {(costs[2] - costs[1]) / 256 * 1e6:.0f} among the last")
    sys.exit(1 if missed else 0)


if __name__ == "__main__":
    main()
