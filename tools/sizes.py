#!/usr/bin/env python3
"""Prints the table of docs/SIZES.md: for each crate its functions, its lines that are not blank, and its must-fail edits.

usage: tools/sizes.py LOG..   (what `rt ci` printed, oldest first, for the number of functions that the prover counts)
"""
import pathlib, re, sys

ROOT = pathlib.Path(__file__).parent.parent
# proofs that stand in specs/, since an impl takes a law's proof from there
PROOFS_IN_SPECS = {'Keeps', 'FlatKeeps', 'CardKeeps', 'TableKeeps', 'QueueKeeps', 'PageWrites', 'Search'}


def is_proof(path):
    return 'proofs' in path.parts or path.stem in PROOFS_IN_SPECS and path.parts[-3] != 'store'


def lines(path):
    return sum(1 for line in path.read_text().splitlines() if line.strip())


def functions(log):
    """The functions of each crate, by the line that the prover prints before `rt: NAME proved`."""
    counts, last = {}, None
    for line in log.splitlines():
        if m := re.match(r'logic=proved functions=(\d+)', line):
            last = int(m[1])
        elif (m := re.match(r'rt: (\w+) proved', line)) and last is not None:
            counts[m[1]], last = last, None
    return counts


def main():
    counts = {}
    for log in sys.argv[1:]:
        counts.update(functions(pathlib.Path(log).read_text()))
    rows = []
    for line in (ROOT / 'crates.txt').read_text().splitlines():
        name = line.split(':')[0]
        crate = ROOT / 'crates' / name
        antt = sorted(crate.glob('specs/**/*.antt')) + sorted(crate.glob('proofs/**/*.antt'))
        rows.append((name, counts.get(name, 0),
                     sum(map(lines, crate.glob('src/**/*.rt'))),
                     sum(lines(p) for p in antt if not is_proof(p)),
                     sum(lines(p) for p in antt if is_proof(p)),
                     len(list(crate.glob('must-fail/*.edit')))))
    print('| crate | functions | code | spec | proof | must-fail edits |\n|---|---|---|---|---|---|')
    for row in rows:
        print('| ' + ' | '.join(map(str, row)) + ' |')
    print('| **all** | ' + ' | '.join(str(sum(r[i] for r in rows)) for i in range(1, 6)) + ' |')


main()
