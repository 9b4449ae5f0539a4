#!/usr/bin/env python3
"""Times the proved program on a long script: 20,000 definitions and 20,000 lines that print.

Prints the milliseconds and the megabytes that it took at its most. It takes no words and changes no file of the
repository. The program is built by ./vojstrep or by `rt ci`.
"""
import os
import sys
import tempfile

from timing import program, timed

LENGTH = 1_048_576
LINES = 20_000
STEPS = 10_000_000


def script():
    """The text, which is as long as a text may be, and what it has to print."""
    lines = []
    for n in range(LINES):
        lines.append(f"f{n:05}(x::Int64) = x * 10")
    printed = []
    for n in range(LINES):
        lines.append(f"println(f{n:05}({n:05}))")
        printed.append(f"{n * 10}\n")
    text = "\n".join(lines) + "\n"
    # Blanks fill the text up to its greatest length, as many on each line as on any other.
    more, rest = divmod(LENGTH - len(text), len(lines))
    lines = [line + " " * (more + (1 if n < rest else 0)) for n, line in enumerate(lines)]
    text = "\n".join(lines) + "\n"
    assert len(text) == LENGTH
    return text, "".join(printed)


def main():
    runner = program("pj_cli")
    text, expected = script()
    with tempfile.TemporaryDirectory() as folder:
        with open(os.path.join(folder, "long.jl"), "w", encoding="ascii") as file:
            file.write(text)
        with open(os.path.join(folder, "printed"), "w+b") as printed:
            took, memory, status = timed([runner, "run", str(STEPS), "long.jl"], printed, folder)
            printed.seek(0)
            right = printed.read() == expected.encode("ascii")
    print(f"{len(text)} bytes: {took * 1000:.0f} ms, {memory / 2**20:.0f} MB")
    if status != 0 or not right:
        sys.exit(f"the program ended with {status}, and what it printed is {'right' if right else 'wrong'}")


main()
