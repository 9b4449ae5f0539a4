#!/usr/bin/env python3
"""Tries the edits of crates/NAME/more-edits, each of which the prover has to refuse.

    tools/more_edits.py NAME..            tries the edits of these crates
    tools/more_edits.py --applies [NAME..]   only looks whether each edit of must-fail and more-edits can be applied

The edits of more-edits aren't tried by the gate. Here they are tried in a new clone of what is committed, in place of those of
must-fail, over the work that `rt check` kept: so run `rt check` in the crate first. Prints each edit that was not refused or
could not be tried, and ends with 1 where there is one.
"""
import pathlib
import shutil
import subprocess
import sys
import tempfile

TOP = pathlib.Path(__file__).resolve().parent.parent


def edits_of(crate):
    return sorted(crate.glob('must-fail/*.edit')) + sorted(crate.glob('more-edits/*.edit'))


def fault_of(crate, edit):
    """Why an edit can't be applied, or None."""
    texts, file, old = {}, None, None
    for line in edit.read_text().splitlines():
        word, _, rest = line.partition(' ')
        if word == 'file:':
            file = rest
        elif word == 'old:':
            old = rest
        elif word == 'new:':
            text = texts.get(file) or (crate / file).read_text()
            if text.count(old) != 1:
                return f'its text stands {text.count(old)} times in {file}'
            texts[file] = text.replace(old, rest)
    return None if texts else 'it changes nothing'


def applies(names):
    """Says which edits can't be applied. Answers how many."""
    crates = [TOP / 'crates' / name for name in names] or sorted((TOP / 'crates').iterdir())
    wrong = 0
    for crate in crates:
        for edit in edits_of(crate):
            fault = fault_of(crate, edit)
            if fault:
                wrong += 1
                print(f'{crate.name} {edit.stem}: {fault}')
    return wrong


def try_edits(names):
    """Tries the edits of crates in a clone. Answers whether each was refused."""
    with tempfile.TemporaryDirectory() as folder:
        clone = pathlib.Path(folder) / 'clone'
        subprocess.run(['git', 'clone', '-q', str(TOP), str(clone)], check=True)
        for name in names:
            crate = clone / 'crates' / name
            shutil.rmtree(crate / 'must-fail', ignore_errors=True)
            (crate / 'more-edits').rename(crate / 'must-fail')
            kept = TOP / 'crates' / name / 'out'
            if kept.exists():
                shutil.copytree(kept, crate / 'out', symlinks=True)
        done = subprocess.run(['rt', 'must-fail', *names], cwd=clone, stdin=subprocess.DEVNULL)
        return done.returncode == 0


def main():
    words = sys.argv[1:]
    if words[:1] == ['--applies']:
        sys.exit(1 if applies(words[1:]) else 0)
    if not words:
        sys.exit(__doc__)
    for name in words:
        if not (TOP / 'crates' / name / 'more-edits').is_dir():
            sys.exit(f'{name} has no more-edits')
    sys.exit(0 if not applies(words) and try_edits(words) else 1)


if __name__ == '__main__':
    main()
