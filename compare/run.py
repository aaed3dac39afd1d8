#!/usr/bin/env python3
"""Runs scripts on the Rust and on the shell and prints each kind of difference with its smallest case.

  compare/run.py [--rows] RUST SHELL [COMMANDS [FIRST_SEED]]

RUST is compare/build.sh's `rust`, SHELL a command that runs the shell (its words separated by blanks). COMMANDS is how many commands to run at least
(100000 if not given). With --rows files stand in rows in every script, whose neighbours often share the user key where one ends and the next begins; without it in two of
five. A script's answers are those of the Rust, and the documents' where the two differ (gen.py says which)."""
import collections
import subprocess
import sys

from gen import Gen, Rust

LENGTHS = [20, 60, 60, 120, 300]


def told(shell, lines):
    done = subprocess.run(shell, input='\n'.join(lines) + '\n', stdout=subprocess.PIPE, text=True)
    return done.stdout.split('\n')[:-1], done.returncode


def shrunk(shell, script, at):
    """The lines up to the one that differs, without those that can go and leave the difference."""
    keep = script[:at + 1]
    i = len(keep) - 2
    while i > 0:
        fewer = keep[:i] + keep[i + 1:]
        got, _ = told(shell, [l for l, _, _ in fewer])
        # an answer in the middle may change with what is gone; only the last is asked to differ still
        if len(got) == len(fewer) and got[-1] == told_at and all(x == y[1] for x, y in zip(got, fewer[:-1])):
            keep = fewer
        i -= 1
    return [l for l, _, _ in keep]


def main():
    args = [a for a in sys.argv[1:] if a != '--rows']
    rows = len(args) < len(sys.argv) - 1
    rust, shell = Rust(args[0]), args[1].split()
    wanted = int(args[2]) if len(args) > 2 else 100000
    seed = int(args[3]) if len(args) > 3 else 1
    commands, marks, kinds, smallest = 0, collections.Counter(), collections.Counter(), {}
    words, refusals = collections.Counter(), collections.Counter()
    global told_at
    while commands < wanted:
        scripts = []
        while sum(map(len, scripts)) < 5000:
            scripts.append(Gen(seed, rust, LENGTHS[seed % len(LENGTHS)], rows).script())
            seed += 1
        flat = [x for s in scripts for x in s]
        got, status = told(shell, [l for l, _, _ in flat])
        if status or len(got) != len(flat):
            print('the shell ended with status %d after %d of %d answers' % (status, len(got), len(flat)))
            print('\n'.join(l for l, _, _ in flat[max(0, len(got) - 3):len(got) + 1]))
            return 1
        at = 0
        for s in scripts:
            for i, (line, answer, mark) in enumerate(s):
                words[line.split()[0]] += 1
                refusals[got[at + i]] += got[at + i].startswith('refused')
                marks[mark or 'as the Rust'] += 1
                if got[at + i] != answer:
                    kind = '%s: %s for %s' % (line.split()[0], got[at + i].split()[0], answer.split()[0])
                    kinds[kind] += 1
                    if kind not in smallest or i < smallest[kind][1]:
                        smallest[kind] = (s, i, got[at + i])
                    break
            at += len(s)
        commands += len(flat)
    print('%d commands, seeds up to %d' % (commands, seed - 1))
    print('answers: ' + ', '.join('%s %d' % x for x in sorted(marks.items())))
    print('commands: ' + ', '.join('%s %d' % x for x in sorted(words.items())))
    print('refusals: ' + ', '.join('%s %d' % (k, n) for k, n in sorted(refusals.items()) if n))
    print('%d kinds of difference' % len(kinds))
    for kind, n in kinds.most_common():
        s, i, told_at = smallest[kind]
        print('\n%s (%d times)\nexpected %s\nfound    %s' % (kind, n, s[i][1], told_at))
        print('\n'.join(shrunk(shell, s, i)))
    return 1 if kinds else 0


if __name__ == '__main__':
    sys.exit(main())
