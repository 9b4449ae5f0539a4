#!/usr/bin/env python3
"""Runs a command of the built program once for each of its allocations, which fails there.

    tools/fail_alloc.py [--program PATH] [--on] FOLDER WORDS..

FOLDER has the files of the command, and each run gets a copy of it. WORDS are the words of the command: for instance
`tools/fail_alloc.py examples run 100 first.jl`. PATH is crates/pj_cli/out/pj_cli where none is given. With --on all later
allocations fail too. Wanted is, for each number, status 9 with a prefix of the output and every file as it was, or the
output, the status and the files that come where none fails. Prints each number with which something else comes, and how many
numbers there are; ends with 1 where something else came.

The allocations of the C library are replaced by ones that fail at a number, which `cc` compiles: so this needs Linux and `cc`.
"""
import argparse
import os
import shutil
import subprocess
import sys
import tempfile

TOP = os.path.dirname(os.path.dirname(os.path.abspath(__file__)))
NO_MEMORY = 9
SECONDS = 60
SOURCE = r"""
#define _GNU_SOURCE
#include <dlfcn.h>
#include <errno.h>
#include <fcntl.h>
#include <stdlib.h>
#include <unistd.h>

static long calls;

/* Whether this call is to fail. The first that does leaves a file as a mark. */
static int fails(void) {
    const char *number = getenv("FAIL_ALLOC");
    const char *mark = getenv("FAIL_MARK");
    if (!number || !mark) return 0;
    long asked = atol(number);
    long call = __atomic_add_fetch(&calls, 1, __ATOMIC_SEQ_CST);
    if (call == asked) {
        int file = open(mark, O_WRONLY | O_CREAT, 0600);
        if (file >= 0) close(file);
    }
    if (call == asked || (call > asked && getenv("FAIL_ON"))) {
        errno = ENOMEM;
        return 1;
    }
    return 0;
}

static void *library(const char *name) { return dlsym(RTLD_NEXT, name); }

void *malloc(size_t size) {
    static void *(*real)(size_t);
    if (!real) real = library("malloc");
    return fails() ? NULL : real(size);
}

void *realloc(void *old, size_t size) {
    static void *(*real)(void *, size_t);
    if (!real) real = library("realloc");
    return fails() ? NULL : real(old, size);
}

void *aligned_alloc(size_t align, size_t size) {
    static void *(*real)(size_t, size_t);
    if (!real) real = library("aligned_alloc");
    return fails() ? NULL : real(align, size);
}

int posix_memalign(void **out, size_t align, size_t size) {
    static int (*real)(void **, size_t, size_t);
    if (!real) real = library("posix_memalign");
    return fails() ? ENOMEM : real(out, align, size);
}
"""


def files_in(folder):
    """The files of a folder with their bytes."""
    files = {}
    for name in os.listdir(folder):
        with open(os.path.join(folder, name), "rb") as file:
            files[name] = file.read()
    return files


class Command:
    """A command over a folder, and the library that lets allocations fail."""

    def __init__(self, program, words, folder, scratch, goes_on):
        self.words = [program, *words]
        self.folder = folder
        self.scratch = scratch
        self.goes_on = goes_on
        self.mark = os.path.join(scratch, "mark")
        self.library = os.path.join(scratch, "fail.so")
        source = os.path.join(scratch, "fail.c")
        with open(source, "w") as file:
            file.write(SOURCE)
        subprocess.run(["cc", "-O1", "-shared", "-fPIC", "-o", self.library, source, "-ldl"], check=True)

    def run(self, number):
        """Status, output and files where the allocation of this number fails, and whether there is one; 0 is none."""
        here = os.path.join(self.scratch, "here")
        shutil.copytree(self.folder, here)
        environment = {"LD_PRELOAD": self.library, "FAIL_ALLOC": str(number), "FAIL_MARK": self.mark}
        if self.goes_on:
            environment["FAIL_ON"] = "1"
        if number == 0:
            environment = {}
        try:
            ended = subprocess.run(
                self.words, cwd=here, env=environment, stdin=subprocess.DEVNULL, stdout=subprocess.PIPE, timeout=SECONDS)
            return (ended.returncode, ended.stdout, files_in(here)), self.was_reached()
        except subprocess.TimeoutExpired:
            return (None, b"", files_in(here)), self.was_reached()
        finally:
            shutil.rmtree(here)

    def was_reached(self):
        reached = os.path.exists(self.mark)
        if reached:
            os.remove(self.mark)
        return reached


def is_wanted(before, whole, came):
    """Whether what came is the whole answer, or status 9 with a prefix of its output and no file changed."""
    status, output, files = came
    return came == whole or (status == NO_MEMORY and whole[1].startswith(output) and files == before)


def main():
    parser = argparse.ArgumentParser(usage=__doc__)
    parser.add_argument("--program", default=os.path.join(TOP, "crates/pj_cli/out/pj_cli"))
    parser.add_argument("--on", action="store_true")
    parser.add_argument("folder")
    parser.add_argument("words", nargs=argparse.REMAINDER)
    asked = parser.parse_args()
    program = os.path.abspath(asked.program)
    if not os.access(program, os.X_OK):
        sys.exit("the program isn't built: run ./vojstrep or rt ci first, or name it")
    with tempfile.TemporaryDirectory() as scratch:
        before = files_in(asked.folder)
        command = Command(program, asked.words, os.path.abspath(asked.folder), scratch, asked.on)
        whole, _ = command.run(0)
        number = without = wrong = 0
        while True:
            came, reached = command.run(number + 1)
            if not reached:
                break
            number += 1
            if not is_wanted(before, whole, came):
                wrong += 1
                print(f"allocation {number}: status {came[0]}, output {came[1]!r}")
            without += came[0] == NO_MEMORY
    print(f"{number} allocations; {without} times status 9, {wrong} times something else than is wanted")
    if wrong or number == 0:
        sys.exit(1)


if __name__ == "__main__":
    main()
