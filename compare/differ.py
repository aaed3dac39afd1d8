"""Request 1 in Python, from docs/FORMATS.md alone: what bytes are a snapshot, what differs between two, the list of that, what a list makes of a snapshot.
The cases of the shell's commands keep, diff, differences, patch, apply, save and open. Where an answer is short it is spelled out here by hand, and checked against that."""
import struct

from paper import key
from stores import place

MARK = 'request 1'
LEVELS, ROOM, TOP = 7, 256, 2**56 - 1
NAMES = ('next', 'manifest', 'seq', 'log', 'prev')


# ---- bytes
class Bytes:
    def __init__(self, b):
        self.b, self.at = b, 0

    def take(self, n):
        if self.at + n > len(self.b):
            raise ValueError('too short')
        self.at += n
        return self.b[self.at - n:self.at]

    def number(self, n):
        return int.from_bytes(self.take(n), 'little')

    def key(self):
        k = self.take(self.number(1))
        if not (9 <= len(k) <= 40 and k[-8] < 2):
            raise ValueError('no key')
        return k

    def file(self):
        n, size, a, b = self.number(8), self.number(8), self.key(), self.key()
        if size > 2**40 or rank(a) > rank(b):
            raise ValueError('no file')
        return n, (size, a, b)

    def end(self):
        if self.at != len(self.b):
            raise ValueError('bytes left')


def rank(k):
    return k[:-8], -(int.from_bytes(k[-8:], 'little') >> 8)


def rising(xs):
    return all(x < y for x, y in zip(xs, xs[1:]))


def is_level(l, files):
    """Whether files of a level are apart, above level 0."""
    fs = sorted(files.values(), key=lambda f: rank(f[1]))
    return l == 0 or all(rank(f[2]) < rank(g[1]) for f, g in zip(fs, fs[1:]))


def is_state(s):
    counters, pointers, levels = s
    numbers = [n for l in levels for n in l]
    return len(numbers) <= ROOM and len(set(numbers)) == len(numbers) and all(is_level(l, fs) for l, fs in enumerate(levels))


def decode(b):
    """Counters, pointers by level, files by number at each level; None where the bytes are no snapshot."""
    try:
        r = Bytes(b)
        if r.number(2) != 5:
            return None
        counters = [r.number(8) for _ in range(5)]
        pointers = [(r.number(1), r.key()) for _ in range(r.number(2))]
        levels = [[r.file() for _ in range(r.number(2))] for _ in range(LEVELS)]
        r.end()
    except ValueError:
        return None
    if max(counters) > TOP or not rising([l for l, _ in pointers]) or any(l >= LEVELS for l, _ in pointers):
        return None
    if not all(rising([n for n, _ in fs]) for fs in levels):
        return None
    s = counters, dict(pointers), [dict(fs) for fs in levels]
    return s if is_state(s) else None


def key_bytes(k):
    return bytes([len(k)]) + k


def file_bytes(n, f):
    return struct.pack('<QQ', n, f[0]) + key_bytes(f[1]) + key_bytes(f[2])


def section(parts):
    return struct.pack('<H', len(parts)) + b''.join(parts)


def encode(s):
    counters, pointers, levels = s
    return section([struct.pack('<Q', c) for c in counters]) + section([bytes([l]) + key_bytes(k) for l, k in sorted(pointers.items())]) + \
        b''.join(section([file_bytes(n, f) for n, f in sorted(fs.items())]) for fs in levels)


# ---- what differs
def differences(left, right):
    """Entries: (mark, level, number, file or None), ('p', level, key or b''), ('c', place, number)."""
    found = []
    for l in range(LEVELS):
        xs, ys = left[2][l], right[2][l]
        for n in sorted(set(xs) | set(ys)):
            if n not in ys:
                found.append(('<', l, n, None))
            elif n not in xs:
                found.append(('>', l, n, ys[n]))
            elif xs[n] != ys[n]:
                found.append(('~', l, n, ys[n]))
    found += [('p', l, right[1].get(l, b'')) for l in range(LEVELS) if left[1].get(l) != right[1].get(l)]
    return found + [('c', i, right[0][i]) for i in range(5) if left[0][i] != right[0][i]]


def told(found):
    """The line of `diff`."""
    def word(e):
        if e[0] == '<':
            return '<,%d,%d' % e[1:3]
        if e[0] == 'p':
            return 'p,%d,%s' % (e[1], e[2].hex() or '-')
        if e[0] == 'c':
            return 'c,%s,%d' % (NAMES[e[1]], e[2])
        return '%s,%d,%d,%d,%s,%s' % (e[:3] + (e[3][0], e[3][1].hex(), e[3][2].hex()))
    return ' '.join(map(word, found)) or 'same'


def listed(found):
    """The bytes of the list."""
    files = [bytes(['<>~'.index(e[0]), e[1]]) + (struct.pack('<Q', e[2]) if e[0] == '<' else file_bytes(e[2], e[3])) for e in found if e[0] in '<>~']
    pointers = [bytes([e[1]]) + key_bytes(e[2]) for e in found if e[0] == 'p']
    counters = [bytes([e[1]]) + struct.pack('<Q', e[2]) for e in found if e[0] == 'c']
    return section(files) + section(pointers) + section(counters)


def read_list(b):
    """The entries of a list; None where the bytes are none."""
    found = []
    try:
        r = Bytes(b)
        for _ in range(r.number(2)):
            kind, l = r.number(1), r.number(1)
            found.append(('<', l, r.number(8), None) if kind == 0 else ('>~'[kind - 1], l) + r.file())
        for _ in range(r.number(2)):
            l, n = r.number(1), r.number(1)
            r.at -= 1
            found.append(('p', l, r.key() if n else r.take(1)[1:]))
        for _ in range(r.number(2)):
            found.append(('c', r.number(1), r.number(8)))
        r.end()
    except (ValueError, IndexError):
        return None
    places = [(0 if e[0] in '<>~' else 'pc'.index(e[0]) + 1, e[1], e[2] if e[0] in '<>~' else 0) for e in found]
    if not rising(places) or any(e[1] >= (5 if e[0] == 'c' else LEVELS) or e[0] == 'c' and e[2] > TOP for e in found):
        return None
    return found


def applied(left, b):
    """The bytes that a list makes of a state; None where it is none, or its outcome is no well-formed state."""
    found = read_list(b)
    if found is None:
        return None
    counters, pointers, levels = list(left[0]), dict(left[1]), [dict(fs) for fs in left[2]]
    for e in found:
        if e[0] == 'c':
            counters[e[1]] = e[2]
        elif e[0] == 'p':
            pointers.pop(e[1], None)
            if e[2]:
                pointers[e[1]] = e[2]
        else:
            levels[e[1]].pop(e[2], None)
            if e[3]:
                levels[e[1]][e[2]] = e[3]
    s = counters, pointers, levels
    return encode(s) if is_state(s) else None


# ---- answers of the commands on two words
def diff(a, b):
    x, y = decode(a), decode(b)
    return 'refused 14' if x is None or y is None else told(differences(x, y))


def list_of(a, b):
    x, y = decode(a), decode(b)
    return 'refused 14' if x is None or y is None else listed(differences(x, y)).hex()


def patch(a, b):
    return 'refused 14' if decode(a) is None or decode(b) is None else b.hex()


def apply(a, b):
    made = None if decode(a) is None else applied(decode(a), b)
    return 'refused 14' if made is None else made.hex()


ANSWERS = {'diff': diff, 'differences': list_of, 'patch': patch, 'apply': apply}


# ---- cases
class Day:
    """Rows of a script: what is kept under each letter, and the store's snapshot, which loads set."""

    def __init__(self):
        self.out, self.kept = [], {}

    def say(self, command, answer):
        self.out.append((command, answer, MARK))

    def load(self, b):
        self.say('load ' + b.hex(), 'ok')
        self.store = b

    def keep(self, letter):
        self.say('keep ' + letter, 'ok')
        self.kept[letter] = self.store

    def ask(self, command, a, b, answer=None):
        """A command on two words; the answer by hand, if it is given, must be the one that is worked out."""
        words = [self.kept[w[1]] if w.startswith('$') else b'' if w == '-' else bytes.fromhex(w) for w in (a, b)]
        right = ANSWERS[command](*words)
        assert answer is None or answer == right, (command, a, b, answer, right)
        self.say('%s %s %s' % (command, a, b), right)


def state(files, pointers=(), counters=(2, 0, 0, 0, 0)):
    """The snapshot of files (level, number, size, smallest, largest), pointers (level, key) and counters."""
    levels = [{} for _ in range(LEVELS)]
    for l, n, size, a, b in files:
        levels[l][n] = size, a, b
    b = encode((list(counters), dict(pointers), levels))
    assert decode(b) is not None
    return b


def k(text):
    """The key of a text, as the shell takes it: text@SEQ, `d` after it for a deletion."""
    user, _, seq = text.partition('@')
    return key(user.encode(), int(seq.rstrip('d')), 0 if seq.endswith('d') else 1)


def helped(d):
    for command, text in (('keep', "keep a/b -> ok: the store's snapshot is kept under the letter, as $a or $b; it outlives new"),
                          ('differences', 'differences HEX HEX -> left, right: the bytes of the list of what differs, in hex'),
                          ('open', 'open NAME -> ok: the store is what the file holds; NAME is one word')):
        d.say('help ' + command, text)


def malformed(d):
    bytes_wanted = ': bytes: hex digits, two each, or -, or $a or $b for what keep kept'
    d.say('echo nothing is kept yet, and words that are none', 'nothing is kept yet, and words that are none')
    d.say('diff $a $b', "bad word 2 '$a': after keep of that letter only")
    d.say('apply - $b', "bad word 3 '$b': after keep of that letter only")
    d.load(state([]))
    d.keep('a')
    for command in ANSWERS:
        d.say('%s $a $b' % command, "bad word 3 '$b': after keep of that letter only")
    d.say('diff $a', "bad word 3 ''" + bytes_wanted)
    d.say('diff', "bad word 2 ''" + bytes_wanted)
    d.say('patch $c $a', "bad word 2 '$c'" + bytes_wanted)
    d.say('diff 0 $a', "bad word 2 '0'" + bytes_wanted)
    d.say('differences $a $ab', "bad word 3 '$ab'" + bytes_wanted)
    d.say('diff $a $a $a', "bad word 4 '$a': the end of the line")
    d.say('load $a', "bad word 2 '$a': bytes: hex digits, two each, or -")
    d.say('keep', "bad word 2 '': a letter: a or b")
    d.say('keep c', "bad word 2 'c': a letter: a or b")
    d.say('keep a b', "bad word 3 'b': the end of the line")


def entries(d):
    d.say('echo each kind of entry', 'each kind of entry')
    a, b, c, e, f, g = (k(x) for x in ('a@5', 'b@5', 'c@5', 'd@5', 'e@5', 'f@5'))
    left = state([(0, 3, 10, a, b), (1, 4, 20, a, b), (1, 5, 30, c, e), (2, 6, 40, a, b)], [(1, a), (2, b)])
    right = state([(0, 3, 10, a, b), (1, 5, 31, c, e), (1, 7, 70, f, g), (2, 6, 40, a, k('b@4'))], [(1, c), (2, b), (3, e)], (3, 4, 9, 1, 2))
    d.load(left)
    d.keep('a')
    d.load(right)
    d.keep('b')
    d.ask('diff', '$a', '$b', '<,1,4 ~,1,5,31,630105000000000000,640105000000000000 >,1,7,70,650105000000000000,660105000000000000 '
          '~,2,6,40,610105000000000000,620104000000000000 p,1,630105000000000000 p,3,640105000000000000 c,next,3 c,manifest,4 c,seq,9 c,log,1 c,prev,2')
    d.ask('diff', '$b', '$a', '>,1,4,20,610105000000000000,620105000000000000 ~,1,5,30,630105000000000000,640105000000000000 <,1,7 '
          '~,2,6,40,610105000000000000,620105000000000000 p,1,610105000000000000 p,3,- c,next,2 c,manifest,0 c,seq,0 c,log,0 c,prev,0')
    d.ask('diff', '$a', '$a', 'same')
    d.ask('diff', left.hex(), '$a', 'same')
    d.ask('diff', left.hex(), right.hex())
    d.ask('differences', '$a', '$a', '000000000000')
    d.ask('differences', '$b', '$a')
    d.ask('differences', state([]).hex(), state([(6, 9, 1, a, a)], [(0, a)], (2, 0, 0, 0, 7)).hex(),
          '0100' '0106' '0900000000000000' '0100000000000000' '09610105000000000000' '09610105000000000000' '0100' '00' '09610105000000000000' '0100' '04' '0700000000000000')
    for x, y in ('ab', 'ba', 'aa'):
        d.ask('patch', '$' + x, '$' + y)
        d.ask('apply', '$' + x, listed(differences(decode(d.kept[x]), decode(d.kept[y]))).hex(), d.kept[y].hex())


def subtle(d):
    a, b, c, e = (k(x) for x in ('a@5', 'b@5', 'c@5', 'd@5'))
    d.say('echo ties at level 0, a moved file, a type alone, a pointer that only the left has', 'ties at level 0, a moved file, a type alone, a pointer that only the left has')
    # both files of level 0 begin with a@5: 12 was added first, so it stands first in its level; the list goes by number
    d.say('new', 'ok')
    d.say('edit a,0,12,1,a@5,b@5', 'ok')
    d.say('edit a,0,11,1,a@5,c@5', 'ok')
    d.say('live', '11,12')
    d.store = state([(0, 11, 1, a, c), (0, 12, 1, a, b)])
    d.say('snapshot', d.store.hex())
    d.keep('a')
    d.ask('diff', '$a', state([(0, 10, 1, a, b), (0, 11, 1, a, b), (0, 12, 1, a, c)]).hex(),
          '>,0,10,1,610105000000000000,620105000000000000 ~,0,11,1,610105000000000000,620105000000000000 ~,0,12,1,610105000000000000,630105000000000000')
    # the same file, one level deeper
    d.load(state([(1, 4, 9, a, b)]))
    d.keep('a')
    d.load(state([(2, 4, 9, a, b)]))
    d.keep('b')
    d.ask('diff', '$a', '$b', '<,1,4 >,2,4,9,610105000000000000,620105000000000000')
    d.ask('patch', '$a', '$b')
    # a value, and a deletion with its sequence: equal in order, other bytes
    d.ask('diff', '$a', state([(1, 4, 9, k('a@5d'), b)]).hex(), '~,1,4,9,610005000000000000,620105000000000000')
    d.ask('diff', state([], [(2, e)]).hex(), state([], [(2, k('d@5d'))]).hex(), 'p,2,640005000000000000')
    d.ask('patch', state([], [(2, e)]).hex(), state([], [(2, k('d@5d'))]).hex())
    d.ask('diff', state([], [(2, e), (6, a)]).hex(), state([], [(6, a)]).hex(), 'p,2,-')
    d.ask('differences', state([], [(2, e), (6, a)]).hex(), state([], [(6, a)]).hex(), '0000' '0100' '0200' '0000')
    # what is kept outlives new, and is replaced by what is kept next
    d.say('new', 'ok')
    d.store = state([])
    d.ask('diff', '$a', '$b', '<,1,4 >,2,4,9,610105000000000000,620105000000000000')
    d.keep('b')
    d.ask('diff', '$a', '$b', '<,1,4')


def refused(d):
    d.say('echo what is no snapshot, and what is no list', 'what is no snapshot, and what is no list')
    a, b = k('a@5'), k('b@5')
    d.load(state([(1, 4, 9, a, b)]))
    d.keep('a')
    good = d.store.hex()
    for bad in '-', '00', good[:-2], good + '00':
        for command in ANSWERS:
            d.ask(command, bad, '$a', 'refused 14')
            d.ask(command, '$a', bad, 'refused 14')
    d.ask('diff', '-', '-', 'refused 14')
    # an entry too many, too few or out of order; a kind that is none; a level that is none; a file that the left has already, which then stands twice
    one = '0001' '0400000000000000'
    for bad in ('0200' + one + '00000000', '0000' + one + '00000000', '0200' + one + one + '00000000', '0100' '03' + one[2:] + '00000000',
                '0100' '0007' + one[4:] + '00000000', '0000' '0000' '0100' '05' '0000000000000000', '0100' '0102' '0400000000000000' '0900000000000000'
                '09610105000000000000' '09620105000000000000' '0000' '0000', '0000' '0100' '0708' + '00' * 8 + '0000'):
        d.ask('apply', '$a', bad, 'refused 14')
    # a list that names what is not there changes nothing by that
    d.ask('apply', '$a', '0100' '0001' '0500000000000000' '0000' '0000', good)
    d.ask('apply', '$a', '0100' + one + '0000' '0000', state([]).hex())
    d.ask('apply', '$a', '000000000000', good)


def full(first):
    """A full store with the longest keys: 256 files at level 1, numbers of 20 digits, the largest size, each pointer and counter."""
    return state([(1, 2**64 - 1 - 256 * first - n, 2**40 - first, place(256 * first + n, True), place(256 * first + n, True)) for n in range(256)],
                 [(l, place(1000 * first + l, True)) for l in range(7)], [TOP - 10 * first - i for i in range(5)])


def longest(d):
    d.say('echo full stores with nothing in common: the longest snapshots, list and answer', 'full stores with nothing in common: the longest snapshots, list and answer')
    for letter, first in ('a', 0), ('b', 1):
        d.load(full(first))
        assert len(d.store) == 25440
        d.keep(letter)
    d.ask('diff', '$a', '$b')
    assert len(d.out[-1][1]) == 58577
    d.ask('differences', '$a', '$b')
    assert len(d.out[-1][1]) == 2 * 28505
    d.ask('patch', '$a', '$b')
    d.ask('apply', '$a', list_of(d.kept['a'], d.kept['b']))
    # one byte more than the longest, and many more: a word that is cut where the room ends must not pass
    d.ask('diff', '$a', d.store.hex() + '00', 'refused 14')
    d.ask('diff', d.store.hex() + '00' * 5000, '$a', 'refused 14')
    d.ask('apply', '$a', list_of(d.kept['a'], d.kept['b']) + '00', 'refused 14')


def on_files(d):
    d.say('echo files', 'files')
    a, b = k('a@5'), k('b@5')
    d.say('open day', 'bad cannot read day')
    d.load(state([(1, 4, 9, a, b)]))
    d.say('save day', 'ok')
    d.say('new', 'ok')
    d.say('open day', 'ok')
    d.say('snapshot', d.store.hex())
    d.load(state([(2, 5, 9, a, b)], [(1, a)]))
    d.say('save day', 'ok')
    d.say('new', 'ok')
    d.say('range 1 - -', 'refused 2')
    d.say('open ./day', 'ok')
    d.say('snapshot', d.store.hex())
    # a pick stays, as after load
    d.say('range 2 a@9 b@1', 'level=2 cause=manual in0=5 in1=- gp=- manual=1 trivial=0 ptr=620105000000000000 edel=2:5')
    d.say('open day', 'ok')
    d.say('stop a@5', 'n:0:0:1')
    d.say('snapshot', d.store.hex())
    # what is no snapshot, and what cannot be read or written: the store stays
    d.say('open /dev/null', 'refused 14')
    d.say('open /dev/zero', 'bad /dev/zero is too long')
    d.say('open .', 'bad cannot read .')
    d.say('open ' + 'x' * 300, 'bad cannot read ' + 'x' * 300)
    d.say('save .', 'bad cannot write .')
    d.say('save missing/day', 'bad cannot write missing/day')
    d.say('save day/day', 'bad cannot write day/day')
    d.say('snapshot', d.store.hex())
    d.say('save', "bad word 2 '': a file's name, 1 to 4088 bytes")
    d.say('open ' + 'x' * 4089, "bad word 2 '%s..': a file's name, 1 to 4088 bytes" % ('x' * 40))
    d.say('save my day', "bad word 3 'day': the end of the line")
    d.say('open day day', "bad word 3 'day': the end of the line")


def rows():
    d = Day()
    d.say('new', 'ok')
    d.say('maxsize 2097152', 'ok')
    helped(d)
    malformed(d)
    entries(d)
    subtle(d)
    refused(d)
    longest(d)
    on_files(d)
    d.say('new', 'ok')
    return d.out
