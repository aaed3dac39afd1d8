#!/usr/bin/env python3
"""Counts the lines of this repository that are neither blank nor comments: code, definitions, laws and proofs; and its functions.

  compare/lines.py

A module of specs/ whose name ends in `Laws`, the crate `lemmas` and the modules that LAWS names are laws; the other modules of specs/ are definitions.
A law that stands among definitions is named, and the status is 1 then. A definition is a record, a data type, an `abbrev` or `unfoldable`; all else is a law."""
import pathlib
import re
import sys

LAWS = {('model', name) for name in ['Formed', 'ByNumber', 'Reading', 'Demand3', 'Examples', 'DifferenceExamples']}
ROOT = pathlib.Path(__file__).resolve().parent.parent / 'crates'


def counted(path, comment):
    lines = [line.strip() for line in path.read_text().split('\n')]
    return sum(1 for line in lines if line and not line.startswith(comment))


def laws_among(path):
    """The names that a module of definitions gives to laws: signatures at its top or in a `module _`, without `unfoldable` or `abbrev`."""
    inside = ''
    for line in path.read_text().split('\n'):
        if line and not line.startswith((' ', '--')):
            inside = line
        head = re.match(r'( *)((?:pub |unfoldable |abbrev )*)([^\s:(]+) :\s', line)
        if head and 'unfoldable' not in head[2] and 'abbrev' not in head[2] and (not head[1] or inside.startswith('module')):
            yield head[3]


def main():
    lines = dict(code=0, definitions=0, laws=0, proofs=0)
    functions = public = bare = mixed = 0
    for path in sorted(ROOT.glob('*/src/**/*.rt')):
        lines['code'] += counted(path, '//')
        for head in re.findall(r'^ *((?:pub(?:\([a-z]+\))? )?fn .*?) ?\{$', path.read_text(), re.M | re.S):
            functions += 1
            public += head.startswith('pub ')
            bare += head.startswith('pub ') and 'ensures' not in head
    for path in sorted(ROOT.glob('*/specs/**/*.antt')):
        crate, module = path.relative_to(ROOT).parts[0], path.stem
        law = crate == 'lemmas' or module.endswith('Laws') or (crate, module) in LAWS
        lines['laws' if law else 'definitions'] += counted(path, '--')
        for name in [] if law else laws_among(path):
            print('%s/specs/%s.antt: the law %s stands among definitions' % (crate, module, name), file=sys.stderr)
            mixed += 1
    for path in sorted(ROOT.glob('*/proofs/**/*.antt')):
        lines['proofs'] += counted(path, '--')
    print(', '.join('%s %d' % pair for pair in lines.items()))
    print('functions %d, pub %d, of these without ensures %d' % (functions, public, bare))
    sys.exit(1 if mixed else 0)


if __name__ == '__main__':
    main()
