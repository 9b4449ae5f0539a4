#!/usr/bin/env python3
"""Times the proved decoding of an image of the greatest length, against `sha256sum` of the same bytes.

The image has as many functions as fit; a second one is damaged in its last entry. Prints the milliseconds, the megabytes
at most, and both as ratios: of the time to that of `sha256sum`, of the memory to the bytes. It takes no words and changes
no file of the repository. Ends with 1 where a limit is missed. The program is built by `rt ci`, or by `rt run` in
crates/pj_speed.
"""
import hashlib
import itertools
import multiprocessing
import os
import string
import sys
import tempfile

from timing import program, timed

LONGEST = 67_108_864
MOST_TIME = 3
MOST_MEMORY = 8
TURNS = 3


def number(n):
    return n.to_bytes(4, "little")


def section(asked, payload):
    return number(asked) + number(len(payload)) + payload


def image(names, entries):
    """An image of these functions, with this payload of its last section."""
    strings = number(len(names)) + b"".join(number(len(n)) + n for n in names)
    functions = number(len(names)) + b"".join(map(number, range(len(names))))
    payloads = [number(1) + b"P" + number(0), strings, number(0), functions] + [number(0)] * 7 + [entries]
    body = b"PJIMAGE1" + number(1) + b"".join(section(k + 1, p) for k, p in enumerate(payloads))
    return body + hashlib.sha256(body).digest()


def longest(entries):
    """The image of as many functions as the greatest length has room for. Each name has five characters, and none is reserved."""
    room = LONGEST - len(image([], entries))
    endings = itertools.product((string.ascii_letters + string.digits + "_").encode(), repeat=4)
    return image([b"z" + bytes(e) for e in itertools.islice(endings, room // 13)], entries)


def write(file, entries):
    with open(file, "wb") as out:
        out.write(longest(entries))


def main():
    decoder = program("pj_speed")
    missed = False
    with tempfile.TemporaryDirectory() as folder:
        file = os.path.join(folder, "P.pimg")
        for what, entries in (("decoded", number(0)), ("refused", number(1))):
            # In a process of its own, since what this one takes would be counted as taken by the commands that it starts.
            writer = multiprocessing.Process(target=write, args=(file, entries))
            writer.start()
            writer.join()
            size = os.path.getsize(file)
            with open(os.path.join(folder, "printed"), "w+b") as printed:
                took, memory, status = min(timed([decoder, f"image:P:{file}"], printed) for _ in range(TURNS))
                printed.seek(0)
                answer = printed.readline().decode().strip()
                summed = min(timed(["sha256sum", file], printed)[0] for _ in range(TURNS))
            print(f"{size} bytes, {what}: {answer}")
            print(f"  {took * 1000:.0f} ms, {took / summed:.1f} times sha256sum's {summed * 1000:.0f} ms")
            print(f"  {memory / 2**20:.0f} MB, {memory / size:.1f} times the bytes")
            missed |= status != 0 or took > MOST_TIME * summed or memory > MOST_MEMORY * size
    if missed:
        sys.exit("a limit is missed")


if __name__ == "__main__":
    main()
