#!/usr/bin/env python3
"""What a gate costs: the processor minutes of each crate, for its proof and for its edits.

    tools/gate_cost.py --watch LOG [FOLDER]   run beside `rt ci` of this clone, or of the one in FOLDER: looks each second at the prover's
                                              processes that this gate started, and writes to LOG what each took. Ends where no such
                                              gate has run for half a minute
    tools/gate_cost.py LOG                    prints the table for docs/PROOFS.md from such a log

A line of the log has the crate, `proof` or `edits`, the process and its seconds. The last line of a process counts. Where proofs ran
beside edits, each has its own time; what links programs and runs them isn't counted.
"""
import os
import pathlib
import sys
import time

TOP = pathlib.Path(__file__).resolve().parent.parent
TICKS = os.sysconf('SC_CLK_TCK')


def words_of(process):
    return pathlib.Path(f'/proc/{process}/cmdline').read_bytes().decode(errors='replace').split('\0')


def seconds_of(process):
    """The processor seconds of a process and of those of its children that ended."""
    fields = pathlib.Path(f'/proc/{process}/stat').read_text().rsplit(')', 1)[1].split()
    return sum(int(field) for field in fields[11:15]) / TICKS


def folder_of(process):
    return os.readlink(f'/proc/{process}/cwd')


def kind_of(place, gates, folder):
    """What a process in this place does for one of these gates, if it does something: an edit is tried in a folder named by its gate."""
    if 'rt-edit-' in place:
        return 'edits' if place.split('rt-edit-')[1].split('-')[0] in gates else None
    return 'proof' if place.startswith(f'{folder}/') else None


def look(seen, folder):
    """Notes what each process of a gate in the folder took until now. Answers whether one runs."""
    gates, provers = set(), []
    for process in filter(str.isdigit, os.listdir('/proc')):
        try:
            words, place = words_of(process), folder_of(process)
            if 'ci' in words and any(word.endswith('/rt') for word in words) and place == folder:
                gates.add(process)
            if words[0].endswith('/rattle') and '--crate-name' in words:
                provers.append((process, words[words.index('--crate-name') + 1], place, seconds_of(process)))
        except OSError:
            continue
    for process, crate, place, seconds in provers:
        kind = kind_of(place, gates, folder)
        if kind:
            seen[crate, kind, process] = seconds
    return bool(gates)


def watch(log, folder):
    seen, quiet = {}, 0
    while quiet < 30:
        quiet = 0 if look(seen, folder) else quiet + 1
        lines = [f'{crate} {kind} {process} {seconds:.2f}\n' for (crate, kind, process), seconds in seen.items()]
        pathlib.Path(log).write_text(''.join(lines))
        time.sleep(1)


def crates():
    lines = [line.split('#')[0] for line in (TOP / 'crates.txt').read_text().splitlines()]
    return [line.split()[0].rstrip(':') for line in lines if line.strip()]


def count(crate, folder):
    return len(list((TOP / 'crates' / crate / folder).glob('*.edit')))


def table(log):
    sums = {}
    for line in pathlib.Path(log).read_text().splitlines():
        crate, kind, _, seconds = line.split()
        sums[crate, kind] = sums.get((crate, kind), 0) + float(seconds) / 60
    print('| Crate | Proof, minutes | Edits, minutes | Edits in the gate | More edits |\n|---|---|---|---|---|')
    for crate in crates():
        proof, edits = sums.get((crate, 'proof'), 0), sums.get((crate, 'edits'), 0)
        print(f'| `{crate}` | {proof:.1f} | {edits:.1f} | {count(crate, "must-fail")} | {count(crate, "more-edits")} |')
    totals = [sum(minutes for (_, kind), minutes in sums.items() if kind == wanted) for wanted in ('proof', 'edits')]
    print(f'| all | {totals[0]:.0f} | {totals[1]:.0f} | | |')


def main():
    if len(sys.argv) in (3, 4) and sys.argv[1] == '--watch':
        watch(sys.argv[2], str(pathlib.Path((sys.argv[3:] or [TOP])[0]).resolve()))
    elif len(sys.argv) == 2 and not sys.argv[1].startswith('-'):
        table(sys.argv[1])
    else:
        sys.exit(__doc__)


if __name__ == '__main__':
    main()
