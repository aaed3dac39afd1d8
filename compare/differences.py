#!/usr/bin/env python3
"""Compares machines by the shell and by compare/differ.py, which reads docs/FORMATS.md a second time.

  compare/differences.py SHELL PAIRS [SEED]      SHELL a command line, as "./gromedult shell"

Each pair of machines, one often made of the other by some changes, is asked of `diff`, `differences`, `patch` and `apply`; the list is then damaged in one place, and
applied to other machines. Prints each kind of difference with its first case; its status is 1 if there is any."""
import random
import subprocess
import sys

import differ


def key(r):
    user = bytes(r.choice(b'abc') for _ in range(r.choice((1, 1, 2, 3, 32))))
    return user + (r.randrange(4) * 256 + r.randrange(2)).to_bytes(8, 'little')


def some_file(r):
    a, b = sorted((key(r), key(r)), key=differ.rank)
    return r.choice((0, 1, 2, 2**40)), a, b


def machine(r):
    """A well-formed machine with few files or many."""
    counters = [r.choice((0, 1, 2, 9, 2**56 - 1)) for _ in range(5)]
    pointers = {l: key(r) for l in range(7) if r.random() < .3}
    levels = [{} for _ in range(7)]
    for n in r.sample(range(1, 60), r.choice((0, 1, 3, 8, 20))) + r.sample([2**64 - 1, 2**63, 2**32], r.randrange(2)):
        l = r.choice((0, 0, 1, 2, 6))
        levels[l][n] = some_file(r)
        if not differ.is_level(l, levels[l]):
            del levels[l][n]
    return counters, pointers, levels


def changed(r, m):
    """The machine with some changes."""
    counters, pointers, levels = list(m[0]), dict(m[1]), [dict(fs) for fs in m[2]]
    for _ in range(r.randrange(4)):
        what, l = r.randrange(5), r.randrange(7)
        if what == 0:
            counters[r.randrange(5)] = r.choice((0, 3, 2**56 - 1))
        elif what == 1:
            pointers.pop(l, None) if r.random() < .5 else pointers.update({l: key(r)})
        elif levels[l]:
            n = r.choice(sorted(levels[l]))
            f = levels[l].pop(n)
            if what == 2:
                levels[l][n] = (f[0], f[1][:-8] + bytes([f[1][-8] ^ 1]) + f[1][-7:], f[2])
            elif what == 3:
                levels[r.randrange(7)][n] = f
    s = counters, pointers, levels
    return s if differ.is_state(s) and differ.decode(differ.encode(s)) else m


def damaged(r, b):
    b = bytearray(b)
    what = r.randrange(4)
    if what == 0 and b:
        b[r.randrange(len(b))] = r.choice((0, 1, 2, 7, 8, 40, 255))
    elif what == 1 and b:
        del b[r.randrange(len(b))]
    elif what == 2:
        b.insert(r.randrange(len(b) + 1), r.randrange(3))
    return bytes(b)


def rows(r, pairs):
    """Commands with what differ.py answers."""
    for _ in range(pairs):
        a = machine(r)
        b = changed(r, a) if r.random() < .7 else machine(r)
        x, y = differ.encode(a), differ.encode(b)
        if r.random() < .1:
            x = damaged(r, x)
        if r.random() < .1:
            y = damaged(r, y)
        words = '%s %s' % (x.hex() or '-', y.hex() or '-')
        yield 'diff ' + words, differ.diff(x, y)
        yield 'differences ' + words, differ.list_of(x, y)
        yield 'patch ' + words, differ.patch(x, y)
        d = differ.listed(differ.differences(a, b))
        for z in (d, damaged(r, d), damaged(r, damaged(r, d))):
            w = differ.encode(machine(r)) if r.random() < .3 else x
            yield 'apply %s %s' % (w.hex() or '-', z.hex() or '-'), differ.apply(w, z)


def main():
    if len(sys.argv) not in (3, 4):
        sys.exit(__doc__)
    r = random.Random(int(sys.argv[3]) if len(sys.argv) == 4 else 1)
    asked = [row for row in rows(r, int(sys.argv[2])) if len(row[0]) < 65000]
    said = subprocess.run(sys.argv[1].split(), input=''.join(q + '\n' for q, _ in asked), capture_output=True, text=True).stdout.split('\n')
    kinds, answers = {}, {}
    for (q, want), got in zip(asked, said):
        word = q.split()[0]
        answers[word, want.split()[0] if want.startswith(('same', 'refused')) else 'given'] = answers.get((word, want.split()[0] if want.startswith(('same', 'refused')) else 'given'), 0) + 1
        if got != want:
            kinds.setdefault(word, (q, want, got))
    for kind, (q, want, got) in sorted(kinds.items()):
        print('%s\n  wanted %s\n  got    %s' % (q, want, got))
    print('%d commands, kinds of difference: %d' % (min(len(asked), len(said)), len(kinds)))
    print(', '.join('%s %s %d' % (w, a, n) for (w, a), n in sorted(answers.items())))
    sys.exit(1 if kinds or len(said) < len(asked) else 0)


if __name__ == '__main__':
    main()
