#!/usr/bin/env python3
"""Proves the crates below a program side by side, as many as there are processors.

    tools/first_build.py [--jobs N] [NAME]     NAME is the crate on top: pj_cli where it is left out

A crate is begun once those on which it stands are done, the one with the longest chain above it first. Each line says how far the
build is. The status is 0 where all crates are proved, else 1, behind the end of the log of the crate that failed.
"""
import concurrent.futures
import os
import pathlib
import subprocess
import sys
import time

TOP = pathlib.Path(__file__).resolve().parent.parent
LOGS = TOP / 'crates'


def stands_on():
    """The crates of the repository, each with those of them on which it stands."""
    lines = [line.split('#')[0].strip() for line in (TOP / 'crates.txt').read_text().splitlines()]
    pairs = [line.split(':') for line in lines if line]
    names = {left.split()[0] for left, _ in pairs}
    return {left.split()[0]: [word for word in right.split() if word in names] for left, right in pairs}


def below(crates, top):
    """A crate and all on which it stands."""
    found = {top}
    for name in crates[top]:
        found |= below(crates, name)
    return found


def weight(name):
    """How long a crate takes, roughly: its lines of code, of which each takes about as long as ten lines of proof."""
    def count(pattern):
        return sum(path.read_bytes().count(b'\n') for path in (LOGS / name).rglob(pattern) if 'out' not in path.parts)
    return count('*.rt') * 10 + count('*.antt')


def chains(crates, names):
    """For each crate the weight of the longest chain that begins with it and goes up."""
    weights = {name: weight(name) for name in names}
    found = {}

    def chain(name):
        if name not in found:
            found[name] = weights[name] + max([chain(other) for other in names if name in crates[other]], default=0)
        return found[name]

    return {name: chain(name) for name in names}


def prove(name):
    """Proves one crate over its work so far. Answers whether it is proved, its output and its seconds."""
    start = time.monotonic()
    folder = LOGS / name
    command = ['rt', 'lib'] if (folder / 'src' / 'lib.rt').exists() else ['rt', 'check']
    done = subprocess.run(command, cwd=folder, stdin=subprocess.DEVNULL, stdout=subprocess.PIPE, stderr=subprocess.STDOUT, text=True)
    return done.returncode == 0, done.stdout, time.monotonic() - start


def build(crates, names, jobs):
    """Proves crates side by side. Answers whether all are proved."""
    order = chains(crates, names)
    waiting, done, running, start = set(names), set(), {}, time.monotonic()
    with concurrent.futures.ThreadPoolExecutor(jobs) as pool:
        while waiting or running:
            ready = [name for name in waiting if all(other in done for other in crates[name])]
            for name in sorted(ready, key=lambda name: -order[name])[:jobs - len(running)]:
                waiting.remove(name)
                running[pool.submit(prove, name)] = name
            finished, _ = concurrent.futures.wait(running, return_when=concurrent.futures.FIRST_COMPLETED)
            for job in finished:
                name = running.pop(job)
                proved, text, seconds = job.result()
                if not proved:
                    print('\n'.join(text.splitlines()[-30:]) + f'\n{name} is not proved', file=sys.stderr, flush=True)
                    return False
                done.add(name)
                minutes = (time.monotonic() - start) / 60
                print(f'crate {len(done)} of {len(names)}: {name} in {seconds:.0f} s; {minutes:.1f} minutes so far', file=sys.stderr, flush=True)
    return True


def main():
    words = sys.argv[1:]
    jobs = os.cpu_count() or 1
    if words[:1] == ['--jobs'] and len(words) > 1 and words[1].isdigit() and int(words[1]) > 0:
        jobs, words = int(words[1]), words[2:]
    crates = stands_on()
    if len(words) > 1 or (words and words[0] not in crates):
        sys.exit(__doc__)
    names = below(crates, words[0] if words else 'pj_cli')
    sys.exit(0 if build(crates, names, jobs) else 1)


if __name__ == '__main__':
    main()
