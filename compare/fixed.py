#!/usr/bin/env python3
"""Makes the fixed list that the gate runs: crates/shell/stdin and crates/shell/stdout.

  compare/fixed.py RUST [COMMANDS]

The cases of compare/cases.txt and stores.py, then scripts of gen.py, at least COMMANDS commands in all (3420 if not given), then the cases of differ.py, to which the Rust has
no answer. Each other answer is the Rust's; where document 01 differs the answer is document 01's, and a comment before the command says why. Nothing of the shell's own
answers goes in."""
import pathlib
import sys

from differ import rows as request_rows
from gen import Gen, Rust
from stores import rows as long_rows

HERE = pathlib.Path(__file__).resolve().parent
SHELL = HERE.parent / 'crates' / 'shell'


def cases(rust):
    for line in (HERE / 'cases.txt').read_text().splitlines():
        if not line or line.startswith('#'):
            continue
        command, _, rest = line.partition(' => ')
        if rest:
            answer, _, mark = rest.partition(' | ')
            yield command, answer, mark
            continue
        if command.startswith(('snapshot', 'load')):
            raise SystemExit('the Rust has no ' + command)
        answer = rust.ask(command)
        if answer in ('panic', '') or answer.startswith('bad'):
            raise SystemExit('%s: the Rust says %s' % (command, answer))
        yield command, 'refused 10' if answer == 'none' and command.startswith(('pick', 'range')) else answer, ''


def main():
    rust = Rust(sys.argv[1])
    wanted = int(sys.argv[2]) if len(sys.argv) > 2 else 3420
    rows = list(cases(rust)) + list(long_rows())
    seed = 1000001
    while len(rows) < wanted:
        rows += Gen(seed, rust, 60).script()
        seed += 1
    rows += request_rows()
    told = []
    for command, answer, mark in rows:
        if mark:
            told.append('# document %s: %s' % ('02' if mark.startswith('request') else '01', mark))
        told.append(command)
    (SHELL / 'stdin').write_text('\n'.join(told) + '\n')
    (SHELL / 'stdout').write_text('\n'.join(a for _, a, _ in rows) + '\n')
    marked = sum(1 for r in rows if r[2])
    print('%d commands: %d answers are the Rust\'s, %d are the documents\'' % (len(rows), len(rows) - marked, marked))


if __name__ == '__main__':
    main()
