"""Document 01's rules of edits, picks, snapshots and a few questions, and document 02's of files that share an edge key, in Python: what the
generator needs to know which edits are accepted, and what to expect where the documents and the Rust differ."""
import struct

ROOM, LEVELS, TOP = 256, 7, 2**56 - 1
LIMITS = {'p': 16, 'd': 256, 'a': 64}


def key(user, seq, kind=1):
    return user + struct.pack('<Q', seq * 256 + kind)


def user(k):
    return k[:-8]


def order(k):
    return (k[:-8], -(struct.unpack('<Q', k[-8:])[0] >> 8))


def good(k):
    return 9 <= len(k) <= 40 and k[-8] in (0, 1)


class File:
    def __init__(self, num, size, small, large):
        self.num, self.size, self.small, self.large = num, size, small, large

    def meets(self, a, b):
        return user(self.large) >= a and user(self.small) <= b


class State:
    def __init__(self):
        self.files = [[] for _ in range(LEVELS)]
        self.ptrs = [None] * LEVELS
        self.next, self.manifest, self.seq, self.log, self.prev = 2, 0, 0, 0, 0

    def count(self):
        return sum(map(len, self.files))

    def try_edit(self, items):
        """The number of the refusal and None, or 0 and what the edit leaves. An item is (kind, ..)."""
        for k, most in LIMITS.items():
            if sum(i[0] == k for i in items) > most:
                return 3, None
        logs = [i[1] for i in items if i[0] == 'l']
        if logs and not self.log <= logs[-1] < self.next:
            return 9, None
        for kind in 'pda':
            for i in items:
                if i[0] == kind:
                    n = self.bad(i)
                    if n:
                        return n, None
        added = {(l, f.num) for k, l, f in (i for i in items if i[0] == 'a')}
        gone = {(i[1], i[2]) for i in items if i[0] == 'd'} - added
        files = []
        for l in range(LEVELS):
            fs = [f for f in self.files[l] if (l, f.num) not in gone]
            fs += [i[2] for i in items if i[0] == 'a' and i[1] == l]
            files.append(sorted(fs, key=lambda f: order(f.small)))
        every = [f.num for fs in files for f in fs]
        if len(set(every)) < len(every):
            return 6, None
        if len(every) > ROOM:
            return 8, None
        for fs in files[1:]:
            if any(order(f.large) >= order(g.small) for f, g in zip(fs, fs[1:])):
                return 7, None
        return 0, files

    @staticmethod
    def bad(i):
        if i[1] >= LEVELS:
            return 1
        if i[0] == 'p':
            return 0 if good(i[2]) else 2
        if i[0] == 'd':
            return 0
        f = i[2]
        if not (good(f.small) and good(f.large)):
            return 2
        if order(f.small) > order(f.large):
            return 4
        return 5 if f.size > 2**40 else 0

    def edit(self, items):
        n, files = self.try_edit(items)
        if n == 0:
            self.files = files
            for i in items:
                if i[0] == 'p':
                    self.ptrs[i[1]] = i[2]
                if i[0] == 'l':
                    self.log = i[1]
        return n

    def snapshot(self):
        out = struct.pack('<H5Q', 5, self.next, self.manifest, self.seq, self.log, self.prev)
        set_ = [(l, k) for l, k in enumerate(self.ptrs) if k is not None]
        out += struct.pack('<H', len(set_))
        for l, k in set_:
            out += bytes([l, len(k)]) + k
        for fs in self.files:
            out += struct.pack('<H', len(fs))
            for f in sorted(fs, key=lambda f: f.num):
                out += struct.pack('<QQB', f.num, f.size, len(f.small)) + f.small + bytes([len(f.large)]) + f.large
        return out

    def ties(self):
        """Whether two files of level 0 have smallest keys equal in order: a snapshot read back may order them anew."""
        ks = [order(f.small) for f in self.files[0]]
        return len(set(ks)) < len(ks)

    def in_level(self, l, a, b):
        return any(f.meets(a, b) for f in self.files[l])

    def mem(self, a, b):
        l = 0
        if not self.in_level(0, a, b):
            while l < 2 and not self.in_level(l + 1, a, b) and \
                    sum(f.size for f in self.files[l + 2] if f.meets(a, b)) <= 20971520:
                l += 1
        return l

    def find(self, l, k):
        return next((str(i) for i, f in enumerate(self.files[l]) if order(f.large) >= order(k)), 'none')

    # ---- picks
    def overlapping(self, l, a, b):
        """The level's files that overlap a range of user keys, in level order; at level 0 its least widening."""
        fs = [f for f in self.files[l] if f.meets(a, b)]
        while l == 0 and fs:
            low, high = min([a] + [user(f.small) for f in fs]), max([b] + [user(f.large) for f in fs])
            if (low, high) == (a, b):
                break
            a, b = low, high
            fs = [f for f in self.files[l] if f.meets(a, b)]
        return fs

    def completed(self, l, fs):
        """Request 2: above level 0 the file whose smallest key follows the list's largest with the same user key is added, until there is none."""
        fs = list(fs)
        while l > 0 and fs:
            high = largest(fs)
            after = [f for f in self.files[l] if order(f.small) > order(high)]
            if not after or user(after[0].small) != user(high):
                break
            fs.append(after[0])
        return fs

    def started(self, l):
        """The file that a size pick starts with."""
        p = self.ptrs[l]
        return next((f for f in self.files[l] if p is not None and order(f.large) > order(p)), self.files[l][0])

    def picked(self, l, m, span=None, edges=True):
        """First inputs, second inputs and grandparents of a pick at a level with maximum m; span has the two keys of a manual pick. Without
        edges no list is completed, as in the Rust."""
        formed = self.completed if edges else lambda l, fs: fs

        def inputs(l, fs):
            return formed(l, self.overlapping(l, *ends(fs)))

        first = [self.started(l)] if span is None else self.overlapping(l, user(span[0]), user(span[1]))
        if span is None and l == 0:
            first = self.overlapping(0, *ends(first))
        if span is not None and l > 0:
            first = up_to(m, first)
        first = formed(l, first)
        second = inputs(l + 1, first)
        if second:
            grown = inputs(l, first + second)
            small = total(grown) + total(second) < 25 * m
            if len(grown) > len(first) and small and len(inputs(l + 1, grown)) == len(second):
                first = grown
        grand = self.overlapping(l + 2, *ends(first + second)) if l + 2 < LEVELS else []
        return first, second, grand


def total(fs):
    return sum(f.size for f in fs)


def largest(fs):
    """The largest key of some files; among equal ones the first file's."""
    return max((f.large for f in fs), key=order)


def ends(fs):
    """The range of some files, as user keys."""
    return user(min((f.small for f in fs), key=order)), user(largest(fs))


def up_to(m, fs):
    """The files up to the first that brings the total above m."""
    for i in range(len(fs)):
        if total(fs[:i + 1]) > m:
            return fs[:i + 1]
    return fs


def pick_line(l, m, cause, lists):
    """The shell's answer line of a pick."""
    first, second, grand = lists

    def nums(fs):
        return ','.join(str(f.num) for f in fs) or '-'

    trivial = cause != 'manual' and len(first) == 1 and not second and total(grand) < 10 * m
    gone = ','.join('%d:%d' % (l + i, f.num) for i in (0, 1) for f in lists[i])
    return 'level=%d cause=%s in0=%s in1=%s gp=%s manual=%d trivial=%d ptr=%s edel=%s' % (
        l, cause, nums(first), nums(second), nums(grand), cause == 'manual', trivial, largest(first).hex(), gone)


def stop_line(m, grand, keys):
    """The shell's answer line of `stop` after a pick with these grandparents."""
    at, passed, seen, out = 0, 0, False, []
    for k in keys:
        while at < len(grand) and order(grand[at].large) < order(k):
            passed += grand[at].size if seen else 0
            at += 1
        seen, cut = True, passed > 10 * m
        passed = 0 if cut else passed
        out.append('%s:%d:%d:1' % ('y' if cut else 'n', at, passed))
    return ' '.join(out)
