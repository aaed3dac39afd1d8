#!/usr/bin/env python3
"""Times the operations of `bench` on both sides, one after another on one machine, and prints a table.

  compare/bench/times.py OURS RUST [REPEATS]

OURS and RUST are commands that run `bench` and `rust_bench` (their words separated by blanks; `-` for no Rust). A figure is the user time of REPEATS calls
(2000 if not given) less that of none, the least of nine runs each, in microseconds a call."""
import resource
import subprocess
import sys

SIZES = [16, 64, 200, 256]
OURS = ['edit', 'pick', 'manual', 'overlap', 'lookup', 'search', 'base', 'bases', 'cut', 'advance', 'form', 'write', 'read']
RUST = ['edit', 'pick', 'manual', 'overlap', 'lookup', 'base', 'cut', 'write', 'read']


def least(command):
    best = 1e9
    for _ in range(9):
        before = resource.getrusage(resource.RUSAGE_CHILDREN)
        subprocess.run(command, stdout=subprocess.DEVNULL, check=True)
        after = resource.getrusage(resource.RUSAGE_CHILDREN)
        best = min(best, after.ru_utime - before.ru_utime + after.ru_stime - before.ru_stime)
    return best


def call(command, operation, files, repeats):
    words = command + [operation, str(files)]
    return (least(words + [str(repeats)]) - least(words + ['0'])) / repeats * 1e6


def main():
    ours, rust = sys.argv[1].split(), sys.argv[2].split()
    repeats = int(sys.argv[3]) if len(sys.argv) > 3 else 2000
    print('| operation | ' + ' | '.join('%d files' % n for n in SIZES) + ' |')
    print('|---' * (len(SIZES) + 1) + '|')
    for op in OURS:
        row = ['%.2f' % call(ours, op, n, repeats) for n in SIZES]
        print('| %s | %s |' % (op, ' | '.join(row)), flush=True)
        if op in RUST and rust != ['-']:
            row = ['%.2f' % call(rust, op, n, 4 * repeats) for n in SIZES]
            print('| the Rust | %s |' % ' | '.join(row), flush=True)


if __name__ == '__main__':
    main()
