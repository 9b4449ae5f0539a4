#!/usr/bin/env python3
"""Runs the cases of crates/pj_cases/data with the built program, as a user would: each in a new folder, its files written
there, its commands run as processes, and their status and standard output compared with what the rows state.

    tools/cases.py [PROGRAM]

PROGRAM is crates/pj_cli/out/pj_cli where none is given. Cases in which a call is to fail, and those on sessions, depots and
sinks, are skipped and counted. Prints each row that came out otherwise, and how many there were; ends with 1 where one did.
crates/pj_cases/README.md says what the lines mean.
"""
import glob
import os
import re
import subprocess
import sys
import tempfile

TOP = os.path.dirname(os.path.dirname(os.path.abspath(__file__)))
SKIPPED = {
    "fault", "load", "loads", "loaded", "images", "start", "sink", "read", "write", "put", "faults", "folder", "sure", "print",
}
LETTERS = {"n": "\n", "t": "\t", "r": "\r"}


def unescaped(line):
    """The text that a line writes."""
    def character(found):
        if found.group(1) is not None:
            return chr(int(found.group(1), 16))
        return LETTERS.get(found.group(2), found.group(2))
    return re.sub(r"\\(?:u\{([0-9a-fA-F]*)\}|(.))", character, line)


class Case:
    """A folder, and what came of the commands that were run in it."""

    def __init__(self, program, folder):
        self.program = program
        self.folder = folder
        self.status = 0
        self.output = b""
        self.answer = ""

    def path(self, name):
        return os.path.join(self.folder, name)

    def bytes(self, name):
        with open(self.path(name), "rb") as file:
            return file.read()

    def write(self, name, content):
        with open(self.path(name), "wb") as file:
            file.write(content)

    def run(self, words):
        ended = subprocess.run([self.program, *words], cwd=self.folder, stdin=subprocess.DEVNULL, stdout=subprocess.PIPE)
        self.status = ended.returncode
        self.output += ended.stdout

    def change(self, name, place):
        content = bytearray(self.bytes(name))
        content[int(place)] ^= 1
        self.write(name, content)

    def packages(self, count):
        for number in range(int(count)):
            self.write(f"Q{number}.jl", f"module Q{number}\nend\n".encode())
            self.run(["precompile", "100", f"Q{number}"])
            if self.status != 0:
                sys.exit(f"no image of Q{number}")

    def length(self, name):
        return str(os.path.getsize(self.path(name))) if os.path.exists(self.path(name)) else "none"

    def act(self, verb, rest):
        """Does a line that states nothing."""
        name, _, more = rest.partition(" ")
        if verb == "do":
            self.run(rest.split(" ") if rest else [])
        elif verb == "file":
            self.write(name, more.encode())
        elif verb == "bytes":
            self.write(name, self.bytes(name) + bytes.fromhex(more))
        elif verb == "cut":
            self.write(name, self.bytes(name)[:int(more)])
        elif verb == "change":
            self.change(name, more)
        elif verb == "rename":
            os.replace(self.path(name), self.path(more))
        elif verb == "spaces":
            self.write(name, b" " * int(more))
        elif verb == "packages":
            self.packages(name)
        elif verb == "uses":
            self.write(name, "".join(f"using Q{number}\n" for number in range(int(more))).encode())
        elif verb == "same":
            self.answer = str(self.bytes(name) == self.bytes(more)).lower()
        elif verb == "filled":
            self.answer = str(bool(self.bytes(name))).lower()
        elif verb == "length":
            self.answer = self.length(name)
        else:
            sys.exit(f"no line begins with {verb}")

    def state(self, verb, rest):
        """What came where a line states something else, or None."""
        if verb == "gives":
            return None if rest == self.answer else self.answer
        status, _, output = rest.partition(" ")
        if int(status) == self.status and output.encode() == self.output:
            return None
        return f"{self.status} {self.output.decode(errors='replace')!r}"


def cases_of(file):
    """The cases of a file: each with the lines that it begins with, and its name first."""
    with open(file, encoding="utf-8", newline="\n") as text:
        groups = text.read().split("\n== ")[1:]
    for group in groups:
        begin, *cases = group.split("\ncase ")
        for case in cases:
            name, *lines = case.rstrip("\n").split("\n")
            yield name, begin.split("\n")[1:] + lines


def verb_of(line):
    return line.split(" ", 1)[0]


def run_case(program, name, lines):
    """Runs a case. How many rows it has, and how many of them came out otherwise."""
    rows = wrong = 0
    with tempfile.TemporaryDirectory() as folder:
        case = Case(program, folder)
        for line in lines:
            verb, _, rest = unescaped(line).partition(" ")
            if verb in ("", "#"):
                continue
            if verb not in ("is", "gives"):
                try:
                    case.act(verb, rest)
                except (FileNotFoundError, IndexError) as error:
                    print(f"{name}: {line}: {error}")
                    return rows, wrong + 1
                continue
            rows += 1
            came = case.state(verb, rest)
            if came is not None:
                wrong += 1
                print(f"{name}: wanted: {line}: came: {came}")
    return rows, wrong


def main():
    program = os.path.abspath(sys.argv[1]) if len(sys.argv) > 1 else os.path.join(TOP, "crates/pj_cli/out/pj_cli")
    if not os.access(program, os.X_OK):
        sys.exit("the program isn't built: run ./vojstrep or rt ci first, or name it")
    ran = skipped = rows = wrong = 0
    for file in sorted(glob.glob(os.path.join(TOP, "crates/pj_cases/data/*.txt"))):
        for name, lines in cases_of(file):
            if SKIPPED.intersection(map(verb_of, lines)):
                skipped += 1
                continue
            ran += 1
            had, came_wrong = run_case(program, name, lines)
            rows += had
            wrong += came_wrong
    print(f"{ran} cases with {rows} rows, {wrong} wrong; {skipped} cases skipped")
    if wrong:
        sys.exit(1)


if __name__ == "__main__":
    main()
