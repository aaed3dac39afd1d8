"""Cases whose lines are long, so that they are made here and not spelled in cases.txt: full stores, the longest snapshot, snapshots damaged in one place.
The answers are paper.py's, and of a damaged snapshot document 01's: "what bytes read as" must be well-formed and write these very bytes."""
from paper import File, State, key

MARK = 'added by the port'

# a store with pointers at levels 1 and 2, two files at level 1 and one at level 2: 188 bytes. What is changed: the place, the byte there; and why the bytes are refused
DAMAGES = [(0, 4, "the counters' count is 4"), (9, 1, 'next is beyond 2^56 - 1'), (42, 3, "the pointers' count is 3"), (55, 1, 'a pointer twice'),
           (55, 7, 'a pointer of level 7'), (45, 8, 'a key of 8 bytes'), (47, 2, 'a key of type 2'), (68, 3, "a level's count is off"),
           (70, 6, 'numbers do not rise'), (70, 9, 'numbers fall'), (144, 6, 'a number at two levels'), (83, 2, 'a size beyond 2^40'),
           (87, ord('z'), 'smallest after largest'), (97, ord('c'), 'files collide')]


def line(items):
    words = {'p': lambda i: 'p,%d,%s' % (i[1], i[2].hex()), 'd': lambda i: 'd,%d,%d' % i[1:],
             'a': lambda i: 'a,%d,%d,%d,%s,%s' % (i[1], i[2].num, i[2].size, i[2].small.hex(), i[2].large.hex())}
    return ' '.join(['edit'] + [words[i[0]](i) for i in items])


def edit(s, items):
    n = s.edit(items)
    return line(items), 'refused %d' % n if n else 'ok', MARK


def told(s):
    """The bytes of levels 1 and 2, and the snapshot."""
    for l in (1, 2):
        yield 'bytes %d' % l, '%d %d' % (len(s.files[l]), sum(f.size for f in s.files[l])), MARK
    yield 'snapshot', s.snapshot().hex(), MARK


def place(n, long):
    """The key of the n-th of 65,536 places, of two bytes or of the longest."""
    return key(n.to_bytes(2, 'big') + bytes(30 if long else 0), 9)


def files(level, first, long):
    return [('a', level, File(n + 10, 1000, place(n, long), place(n, long))) for n in range(first, first + 64)]


def filled(s, long):
    for first in (0, 64, 128, 192):
        yield edit(s, files(1, first, long))


def full():
    """256 files, one more, all of them replaced by one edit that has as many entries as an edit may have; 257 files in a snapshot."""
    s = State()
    yield 'echo a full store, and an edit of 256 deletions, 64 additions and 16 pointers', 'a full store, and an edit of 256 deletions, 64 additions and 16 pointers', ''
    yield 'new', 'ok', ''
    yield from filled(s, False)
    yield edit(s, [('a', 0, File(1, 1, place(0, False), place(0, False)))])
    yield from told(s)
    yield 'load ' + s.snapshot().hex(), 'ok', MARK
    more = State()
    more.files[1] = s.files[1] + [File(266, 1000, place(256, False), place(256, False))]
    yield 'load ' + more.snapshot().hex(), 'refused 14', '257 files'
    yield edit(s, [('d', 1, n + 10) for n in range(256)] + [('p', j % 7, place(j, False)) for j in range(16)] + files(2, 0, False))
    yield from told(s)


def longest():
    """"The longest is 25440"."""
    s = State()
    yield 'echo the longest snapshot, 25440 bytes', 'the longest snapshot, 25440 bytes', ''
    yield 'new', 'ok', ''
    yield edit(s, [('p', j, place(j, True)) for j in range(7)])
    yield from filled(s, True)
    assert len(s.snapshot()) == 25440
    yield from told(s)
    yield 'load ' + s.snapshot().hex(), 'ok', MARK
    yield 'bytes 1', '256 256000', MARK


def damaged():
    s = State()
    yield 'echo a snapshot damaged in one place at a time', 'a snapshot damaged in one place at a time', ''
    yield 'new', 'ok', ''
    yield edit(s, [('p', 1, key(b'a', 9)), ('p', 2, key(b'b', 9))] +
               [('a', l, File(n, 1, key(a, 9), key(b, 5))) for l, n, a, b in ((1, 5, b'a', b'b'), (1, 6, b'c', b'd'), (2, 7, b'a', b'b'))])
    good = s.snapshot()
    assert len(good) == 188
    yield 'snapshot', good.hex(), MARK
    yield 'load ' + good.hex(), 'ok', MARK
    yield 'load ' + good[:-1].hex(), 'refused 14', 'one byte less'
    yield 'load ' + good.hex() + '00', 'refused 14', 'one byte more'
    for at, b, why in DAMAGES:
        yield 'load ' + (good[:at] + bytes([b]) + good[at + 1:]).hex(), 'refused 14', why
    yield 'snapshot', good.hex(), 'on a refusal the store is as it was'
    yield 'load ' + (good[:78] + b'\2' + good[79:]).hex(), 'ok', 'another size is another store'
    s.files[1][0].size = 2
    yield from told(s)


def rows():
    yield from full()
    yield from longest()
    yield from damaged()
    yield 'new', 'ok', ''
