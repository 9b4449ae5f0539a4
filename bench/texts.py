#!/usr/bin/env python3
"""Times the proved reading of texts of the greatest length, one of each kind, and of texts of a quarter of it.

Each text is a script that does nothing, or one of no form that runs today, or has a fault: so it is read and nothing more. Prints the
milliseconds and megabytes of each, and the ratio of its time to that of the quarter. It takes no words and changes no
file of the repository. Ends with 1 where a limit is missed. The program is built by ./vojstrep or by `rt ci`.
"""
import os
import random
import sys
import tempfile

from timing import program, timed

LENGTH = 1_048_576
MOST_SECONDS = 1.0
MOST_MEMORY = 300 * 2**20
MOST_RATIO = 5.0
TURNS = 3


def filled(before, piece, behind, length):
    """As many pieces as fit between a beginning and an end."""
    count = (length - len(before.encode()) - len(behind.encode())) // len(piece.encode())
    return before + piece * count + behind


def garbage(length):
    """Bytes of signs, words and letters, in an order that stays the same."""
    source = random.Random(1)
    pieces = ["x", "end", "if", "(", ")", "=", "==", " ", "\n", ";", '"', "1", "é", "function", ".", ",", "::", "@eval", "#"]
    return "".join(source.choice(pieces) for _ in range(length)).encode()[:length].decode(errors="ignore")


def texts(length):
    return {
        "one long sum": filled("x = 1", " + 1", "\n", length),
        "one long comparison with operators of all strengths": filled("x = 1", " * 2 - y == 3 && z || a.b", "\n", length),
        "statements": filled("", "x\n", "", length),
        "assignments": filled("", "x = y.z\n", "", length),
        "many short methods": filled("", "f(x::Int64) = x\n", "", length),
        "methods with blocks": filled("", "function f(x)\nif x\nreturn 1\nelse\ny = x\nend\nend\n", "", length),
        "branches in a chain": filled("if x\n", "elseif y\nz\n", "end\n", length),
        "arguments of calls": filled("", "f(1, x, \"a\", g(y))\n", "", length),
        "types": filled("", "struct S <: T\nx::Int64\nend\n", "", length),
        "nested comments": filled("", "#= ", "", length // 2) + filled("", " =#", "", length // 2),
        "line comments": filled("", "# a comment that is of no use\n", "", length),
        "strings": filled("x = ", '"a string with \\n in it"; ', "1", length),
        "one long string": filled('x = "', "é", '"', length),
        "line ends": filled("", "\n", "x = 1", length),
        "names of 255 bytes": filled("", "a" * 255 + "\n", "", length),
        "numbers": filled("", "1234567890\n", "", length),
        "payloads": filled("", "@eval x = 1\n", "", length),
        "uses": filled("", "using P, Q\n", "", length),
        "garbage": garbage(length),
        "an early end": filled("function f()\n", "x = 1\n", "", length),
    }


def measured(runner, folder, text, printed):
    with open(os.path.join(folder, "m.jl"), "w", encoding="utf-8", newline="") as file:
        file.write(text)
    took, memory, status = min(timed([runner, "run", "1", "m.jl"], printed, folder) for _ in range(TURNS))
    return took, memory, status


def main():
    runner = program("pj_cli")
    quarters = texts(LENGTH // 4)
    missed = False
    with tempfile.TemporaryDirectory() as folder:
        for what, text in texts(LENGTH).items():
            with open(os.path.join(folder, "printed"), "w+b") as printed:
                took, memory, status = measured(runner, folder, text, printed)
                printed.seek(0)
                said = printed.readline().decode().strip()
                quarter = measured(runner, folder, quarters[what], printed)[0]
            print(f"{what}, {len(text.encode())} bytes: {said or status}")
            print(f"  {took * 1000:.0f} ms, {memory / 2**20:.0f} MB, {took / quarter:.1f} times a quarter of it")
            missed |= took > MOST_SECONDS or memory > MOST_MEMORY or took > MOST_RATIO * quarter
    if missed:
        sys.exit("a limit is missed")


if __name__ == "__main__":
    main()
