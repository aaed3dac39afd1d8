"""Scripts that seek edges, with the answers to expect: the Rust's, or the documents' where the two differ.

A script is a list of (line, answer, mark). The Rust answers while the script is made, so that a compaction can follow its pick.
`mark` is empty where the answer is the Rust's, else it names the row of docs/DIFFERENCES.md or the refusal; such a line is not put to the Rust,
except where the row is about its answer alone."""
import random
import subprocess

from paper import File, State, good, key, order, pick_line, stop_line, user

SIZES = [0, 1, 2, 3, 100, 16383, 16384, 1638400, 1654783, 1654784, 2097151, 2097152, 2097153, 10485759, 10485760,
         10485761, 20971519, 20971520, 20971521, 26214400, 52428799, 104857599, 104857600, 1048576000, 10485760000,
         104857600000, 2**40]

# the mark of an answer that the rule of files that share an edge key changes
EDGES = 'request 2 (D19)'


class Rust:
    """The Rust as a running process: one line in, one line out."""

    def __init__(self, path):
        self.p = subprocess.Popen([path, '-i'], stdin=subprocess.PIPE, stdout=subprocess.PIPE, text=True, bufsize=1)

    def ask(self, line):
        self.p.stdin.write(line + '\n')
        self.p.stdin.flush()
        return self.p.stdout.readline().rstrip('\n')


class Gen:
    def __init__(self, seed, rust, length, rows=False):
        r = self.r = random.Random(seed)
        self.rust, self.length = rust, length
        self.s = State()
        self.out = []
        self.num = 2
        self.scored = False
        self.picked = None
        self.asked = b''
        pre = r.choice([b'', b'', b'm', b'machine07', b'm1/axis03/', bytes(30), b'\xff' * 28])
        tails = [b'a', b'b', b'c', b'd', b'e', b'aa', b'ab', b'a\x00', b'\x00', b'\xff', b'\xff\xff', b'\x80', b'\x7f']
        r.shuffle(tails)
        n = r.choice([2, 3, 4, 6, 9, 40, 200])
        if n > 13:
            tails = [b'%03d' % i for i in range(n)]
        self.users = sorted({(pre + t)[:32] for t in tails[:n]})
        if pre and r.random() < .3:
            self.users = sorted(set(self.users) | {pre[:32]})
        self.seqs = r.choice([[5], [1, 2], [0, 1, 5, 9], [0, 3, 2**32, 2**56 - 1]])
        self.kinds = r.choice([[1], [0, 1]])
        self.sizes = r.choice([[1], [1, 2, 3], SIZES, SIZES[8:20], [2097152, 1048576], [5242880, 10485760],
                               [2621440, 10485760], [10485760], [1, 10485760, 20971520]])
        self.levels = r.choice([[0, 0, 0, 1, 1, 1, 2, 2, 3, 3, 4, 5, 6], [0], [0, 0, 1, 1, 2], [1, 2, 3],
                                [1, 1, 1, 2, 2, 2, 3, 3], [2, 3, 4], [3, 4, 5], [4, 5, 6], [5, 6]])
        self.m = r.choice([2097152, 2097152, 2097152, 1, 100, 1048576, 2**32])
        # in some scripts files stand in rows, whose neighbours often share the user key where one ends and the next begins
        self.rows = r.choice([.12, .2] if rows else [0, 0, 0, .12, .2])
        if self.rows:
            self.seqs = list(range(r.choice([6, 12, 40])))
            self.users = self.users[:r.choice([2, 3, 6, 40])]

    # ---- lines
    def both(self, line):
        a = self.rust.ask(line)
        self.out.append((line, a, ''))
        return a

    def ours(self, line, answer, mark):
        self.out.append((line, answer, mark))

    def beside(self, line, answer, row):
        """Put to the Rust too; document 01's answer counts."""
        a = self.rust.ask(line)
        self.out.append((line, answer, '' if a == answer else row))

    # ---- words
    def key(self):
        r = self.r
        return key(r.choice(self.users), r.choice(self.seqs), r.choice(self.kinds))

    def word(self, k):
        u = user(k)
        if self.r.random() < .5 and u.isalnum():
            t = int.from_bytes(k[-8:], 'little')
            return '%s@%d%s' % (u.decode(), t >> 8, '' if t & 1 else 'd')
        return k.hex()

    def size(self):
        s = self.r.choice(self.sizes)
        return min(2**40, max(0, s + self.r.choice([0, 0, 0, -1, 1])))

    def number(self):
        if self.r.random() < .02:
            return self.r.choice([1, 5, 2**63, 2**64 - 1])
        self.num += self.r.choice([1, 1, 1, 2])
        return self.num

    def level(self):
        return self.r.choice(self.levels + list(range(7)))

    def some_file(self):
        every = [(l, f) for l, fs in enumerate(self.s.files) for f in fs]
        return self.r.choice(every) if every else None

    # ---- edits
    def item_word(self, i):
        if i[0] == 'p':
            return 'p,%d,%s' % (i[1], self.word(i[2]) if good(i[2]) else i[2].hex() or '-')
        if i[0] == 'd':
            return 'd,%d,%d' % i[1:]
        if i[0] == 'l':
            return 'l,%d' % i[1]
        f = i[2]
        ks = [self.word(k) if good(k) else k.hex() or '-' for k in (f.small, f.large)]
        return 'a,%d,%d,%d,%s,%s' % (i[1], f.num, f.size, ks[0], ks[1])

    def put_edit(self, items):
        line = ' '.join(['edit'] + [self.item_word(i) for i in items])
        n, _ = self.s.try_edit(items)
        if n:
            return self.ours(line, 'refused %d' % n, 'refusal %d' % n)
        self.s.edit(items)
        self.scored = True
        self.picked = None if self.picked is None else self.picked
        self.both(line)

    def addition(self, l):
        a, b = sorted([self.key(), self.key()], key=order)
        return ('a', l, File(self.number(), self.size(), a, b))

    def fits(self, items):
        return self.s.try_edit(items)[0] == 0

    def edit(self):
        r, items = self.r, []
        for _ in range(r.choice([0, 0, 0, 1, 2])):
            items.append(('p', r.randrange(7), self.key()))
        for _ in range(r.choice([0, 0, 1, 1, 3])):
            f = self.some_file()
            items.append(('d', f[0], f[1].num) if f else ('d', r.randrange(7), r.randrange(9)))
        for _ in range(r.choice([0, 1, 1, 2, 4, 6, 12])):
            i = self.addition(r.choice(self.levels))
            if self.fits(items + [i]) or r.random() < .05:
                items.append(i)
        if r.random() < .1:
            items.append(('l', max(0, r.choice([self.s.log, self.s.next - 1, self.s.next, 0]))))
        if r.random() < .08:
            items = self.spoiled(items)
        r.shuffle(items) if r.random() < .1 else None
        self.put_edit(items)

    def spoiled(self, items):
        """One thing wrong, or near it."""
        r, f = self.r, self.some_file()
        k = self.key()
        wrong = [('a', 7, File(self.number(), 1, k, k)), ('d', 7, 1), ('p', 7, k), ('p', 1, b'ab'), ('p', 1, k[:-8] + b'\x02' + k[-7:]),
                 ('a', 1, File(self.number(), 2**40 + 1, k, k)), ('a', 2, File(self.number(), 1, b'', k)), ('a', 2, File(self.number(), 1, k, k * 5)),
                 ('l', 2**56), ('a', 0, File(self.number(), 2**40, k, k))]
        a, b = sorted([self.key(), self.key()], key=order)
        wrong.append(('a', r.choice(self.levels), File(self.number(), 1, b, a)))
        if f:
            wrong += [('a', f[0], File(f[1].num, 1, k, k)), ('a', r.randrange(7), File(f[1].num, 1, k, k)), ('a', f[0], File(self.number(), 1, f[1].large, f[1].large))]
        if r.random() < .1:
            return items + [('d', r.randrange(8), i) for i in range(r.choice([256, 257, 300]))]
        if r.random() < .1:
            return items + [('p', r.randrange(7), k) for _ in range(17)]
        if r.random() < .1:
            return items + [self.addition(0) for _ in range(65)]
        return items + [r.choice(wrong) for _ in range(r.choice([1, 1, 2]))]

    def grow(self):
        """Many files apart at a level, to fill the room."""
        r, l = self.r, self.r.choice([1, 2, 3, 4])
        us = [b'z%03d%s' % (i, t) for i in range(250) for t in (b'', b'x')]
        at = r.randrange(150)
        items = []
        for i in range(r.choice([10, 64])):
            j = 2 * (at + i)
            if j + 1 < len(us):
                items.append(('a', l, File(self.number(), self.size(), key(us[j], 5), key(us[j + 1], 5))))
        self.put_edit([i for i in items[:64]])

    def row(self):
        """Files side by side at a level, from keys that stand close."""
        r, l = self.r, self.r.choice([1, 1, 1, 2, 2, 3, 4, 5, 6])
        ks = sorted({order(k): k for k in (self.key() for _ in range(r.choice([4, 8, 16, 30])))}.values(), key=order)
        items = []
        while len(ks) > 1:
            n = r.choice([1, 2, 2, 2, 3])
            one, ks = ks[:n], ks[n:]
            i = ('a', l, File(self.number(), self.size(), one[0], one[-1]))
            if r.random() < .9 and self.fits(items + [i]):
                items.append(i)
        self.put_edit(items[:64])

    # ---- picks
    def pick(self, line, span=None):
        a = self.rust.ask(line)
        if a == 'none':
            self.out.append((line, 'refused 10', ''))
            return
        w = dict(x.split('=', 1) for x in a.split())
        l, cause = int(w['level']), w['cause']
        plain = pick_line(l, self.m, cause, self.s.picked(l, self.m, span, edges=False))
        if plain != a:
            raise SystemExit('paper.py and the Rust differ at a pick that completes no list:\n%s\n%s\n%s' % (line, plain, a))
        lists = self.s.picked(l, self.m, span)
        own = pick_line(l, self.m, cause, lists)
        self.out.append((line, own, '' if own == a else EDGES))
        w = dict(x.split('=', 1) for x in own.split())
        self.s.ptrs[l] = bytes.fromhex(w['ptr'])
        if own != a:
            # the Rust is given the pointer that the completed list leaves
            self.rust.ask('edit p,%d,%s' % (l, w['ptr']))
        self.picked, self.asked, self.grand, self.alike = w, b'', lists[2], own == a
        if self.r.random() < .6:
            self.stop()
        if self.r.random() < .6:
            self.base()
        if self.r.random() < .5:
            self.compact(w, l)

    def compact(self, w, l):
        gone = [('d',) + tuple(map(int, x.split(':'))) for x in w['edel'].split(',')]
        fs = [f for j in (l, l + 1) for f in self.s.files[j] if ('d', j, f.num) in gone]
        low = min((f.small for f in fs), key=order)
        high = max((f.large for f in fs), key=order)
        items = gone + [('a', l + 1, File(self.number(), self.size(), low, high))]
        if self.fits(items):
            self.put_edit(items)

    def stop(self):
        ks = [self.key() for _ in range(self.r.randrange(1, 7))]
        if self.r.random() < .7:
            ks.sort(key=order)
        line, own = 'stop ' + ' '.join(self.word(k) for k in ks), stop_line(self.m, self.grand, ks)
        a = self.rust.ask(line)
        if self.alike and a != own:
            raise SystemExit('paper.py and the Rust differ:\n%s\n%s\n%s' % (line, own, a))
        self.out.append((line, own, '' if own == a else EDGES))

    def base(self):
        us = sorted(u for u in (self.r.choice(self.users) for _ in range(self.r.randrange(1, 5))) if u >= self.asked)
        if us:
            self.asked = us[-1]
            self.both('base ' + ' '.join(u.hex() for u in us))
            if self.asked > min(self.users) and self.r.random() < .1:
                self.ours('base ' + min(self.users).hex(), 'refused 12', 'D13')

    # ---- questions
    def question(self):
        r, s = self.r, self.s
        q = r.choice(['files', 'ptrs', 'score', 'pick', 'pick', 'pick', 'pick', 'range', 'range', 'range', 'overlap', 'overlap', 'inlevel', 'inlevel', 'lookup', 'lookup',
                      'find', 'mem', 'mem', 'live', 'newnum', 'reuse', 'mark', 'getrange', 'bytes', 'counters', 'set', 'snapshot', 'cmp', 'parse', 'refused'])
        l, a, b = self.level(), self.key(), self.key()
        u, v = r.choice(self.users), r.choice(self.users)
        if q in ('files', 'bytes'):
            return self.both('%s %d' % (q, l))
        if q == 'score':
            return self.both(q) if self.scored else self.beside(q, 'level=0 bits=0000000000000000 needs=0', 'D11')
        if q == 'pick':
            return self.pick(q)
        if q == 'range':
            line = 'range %d %s %s' % (l, self.word(a), self.word(b))
            return self.ours(line, 'refused 11', 'D10') if l == 6 else self.pick(line, (a, b))
        if q == 'overlap':
            return self.both('overlap %d %s %s' % (l, self.word(a), self.word(b)))
        if q == 'inlevel':
            line = 'inlevel %d %s %s' % (l, u.hex(), v.hex())
            return self.beside(line, str(int(s.in_level(l, u, v))), 'D1') if l == 0 else self.both(line)
        if q == 'mem':
            return self.beside('mem %s %s' % (u.hex(), v.hex()), str(s.mem(u, v)), 'D1')
        if q == 'lookup':
            return self.both('lookup %s' % self.word(a))
        if q == 'find':
            line = 'find %d %s' % (l, self.word(a))
            return self.beside(line, s.find(0, a), 'D14') if l == 0 else self.both(line)
        if q == 'getrange':
            return self.both('getrange %d' % l) if s.files[l] else self.ours('getrange %d' % l, 'none', 'D9')
        if q == 'newnum':
            s.next += 1
            return self.both(q)
        if q in ('reuse', 'mark'):
            n = max(0, s.next + r.choice([-2, -1, 0, 1, 7]))
            s.next = n if q == 'reuse' and n + 1 == s.next else max(s.next, n + 1) if q == 'mark' else s.next
            return self.both('%s %d' % (q, n))
        if q == 'set':
            what, n = r.choice(['seq', 'manifest', 'prev']), r.choice([0, 7, 2**32, 2**56 - 1])
            setattr(s, what, n)
            return self.both('set %s %d' % (what, n))
        if q == 'cmp':
            return self.both('cmp %s %s' % (self.word(a), self.word(b)))
        if q == 'parse':
            return self.both('parse %s' % self.word(a))
        if q == 'snapshot':
            return self.snapshot()
        if q == 'refused':
            return self.refused(l, a)
        return self.both(q)

    def snapshot(self):
        r, bs = self.r, self.s.snapshot()
        self.ours('snapshot', bs.hex(), 'added by the port')
        if r.random() < .3 and not self.s.ties():
            self.ours('load ' + bs.hex(), 'ok', 'added by the port')
        if r.random() < .5:
            i = r.randrange(len(bs))
            cut = r.choice([bs[:-1], bs + b'\0', bs[:i] + bs[i + 1:], b'', bs[:1] + b'\1' + bs[2:]])
            self.ours('load ' + (cut.hex() or '-'), 'refused 14', 'added by the port')

    def refused(self, l, k):
        r, w = self.r, self.word(k)
        self.ours(*r.choice([('files 7', 'refused 1'), ('bytes 9', 'refused 1'), ('overlap 7 %s %s' % (w, w), 'refused 1'), ('range 7 %s %s' % (w, w), 'refused 1'),
                             ('overlap %d - %s' % (l, w), 'refused 2'), ('range %d %s ab' % (l, w), 'refused 2'), ('inlevel %d - =a' % l, 'refused 2'), ('inlevel 7 =a =b', 'refused 1'),
                             ('lookup %s' % (k[:-8] + b'\2' + k[-7:]).hex(), 'refused 2'), ('find 7 %s' % w, 'refused 1'), ('find %d ab' % l, 'refused 2'), ('mem - =a', 'refused 2'),
                             ('cmp %s -' % w, 'refused 2'), ('parse %s' % ('61' * 33 + '0100000000000000'), 'refused 2'), ('mark %d' % (2**56 - 1), 'refused 9'),
                             ('reuse %d' % (2**64 - 1), 'next=%d' % self.s.next), ('set seq %d' % 2**56, 'refused 9'), ('getrange 7', 'refused 1')]), 'a refusal')

    def beyond(self):
        """A maximum file size that is none."""
        m = self.r.choice([0, 2**32 + 1, 2**64 - 1])
        self.ours('maxsize %d' % m, 'ok', 'D15')
        self.ours('pick', 'refused 9', 'D15')
        self.ours('maxsize %d' % self.m, 'ok', 'D15')

    def script(self):
        self.both('new')
        self.both('maxsize %d' % self.m)
        filling = self.r.random() < .15
        while len(self.out) < self.length:
            x = self.r.random()
            if filling and x < .2:
                self.grow()
            elif self.rows and x < .2 + self.rows:
                self.row()
            elif x < .35:
                self.edit()
            elif x < .36:
                self.beyond()
            else:
                self.question()
        for l in range(7):
            self.both('files %d' % l)
        self.both('ptrs')
        return self.out
