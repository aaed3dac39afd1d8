"""Request 4 in Python, from docs/FORMATS.md alone: what bytes are a record, and its calls and answers as the shell's commands and answers write them."""
import struct

COUNTS = ('newnum', 'reuse', 'mark', 'set seq', 'set manifest', 'set prevlog')


class Bytes:
    def __init__(self, b):
        self.b, self.at = b, 0

    def take(self, n):
        if self.at + n > len(self.b):
            raise ValueError('too short')
        self.at += n
        return self.b[self.at - n:self.at]

    def number(self, n=8):
        return int.from_bytes(self.take(n), 'little')

    def key(self):
        return self.take(self.number(1))

    def file(self):
        return self.number(), self.number(), self.key(), self.key()

    def section(self, part, most=65535):
        n = self.number(2)
        if n > most:
            raise ValueError('too many')
        return [part() for _ in range(n)]

    def edit(self):
        pointers = self.section(lambda: (self.number(), self.key()))
        deletions = self.section(lambda: (self.number(), self.number()))
        additions = self.section(lambda: (self.number(), self.file()))
        return pointers, deletions, additions, self.section(self.number, 1)

    def call(self):
        tag = self.number(1)
        if tag == 0:
            return ('edit',) + self.edit()
        if tag == 1:
            return ('pick',)
        if tag == 2:
            return 'range', self.number(), self.key(), self.key()
        if tag == 3:
            which = self.number(1)
            if which > 5:
                raise ValueError('no counter call')
            return (COUNTS[which],) + ((self.number(),) if which else ())
        raise ValueError('no call')

    def answer(self):
        tag = self.number(1)
        if tag == 0:
            return ('ok',)
        if tag == 1:
            return 'number', self.number()
        if tag == 2:
            level, why = self.number(), self.number(1)
            if why > 1:
                raise ValueError('no cause')
            score = self.take(8) if why == 0 else b''
            return ('picked', level, score, self.number()) + tuple(self.section(self.file) for _ in range(3))
        if tag == 3:
            return 'refused', self.number(1)
        raise ValueError('no answer')


def read(b):
    """(maximum, place, [(call, answer)..]), or None where the bytes are no record."""
    s = Bytes(b)
    try:
        if s.number(2) != 2:
            return None
        maximum, place = s.number(), s.number()
        n = s.number(4)
        calls = [(s.call(), s.answer()) for _ in range(n)]
    except ValueError:
        return None
    return (maximum, place, calls) if s.at == len(b) and place + n < 2**64 else None


def ends(b):
    """The places at which the calls of a record end, the first at the head's end."""
    s = Bytes(b)
    s.take(18)
    n = s.number(4)
    out = [s.at]
    for _ in range(n):
        s.call()
        s.answer()
        out.append(s.at)
    return out


def head(maximum, place, n):
    return struct.pack('<HQQI', 2, maximum, place, n)
