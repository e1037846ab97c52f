#!/usr/bin/env python3
"""Writes values by their debug types, worked out here apart from the program, for bench/records.py.

A type stands in a Module of records.py. The bits of a value are a function of their numbers that gives None where a bit isn't there, "u" where
it is undefined, and else 0 or 1.
"""
MOST_LEAVES = 256


class Writer:
    def __init__(self, module, bits, size):
        self.module, self.bits, self.size = module, bits, size
        self.out, self.at, self.left = b"", 0, MOST_LEAVES

    def number(self, ident):
        return self.module.numbers.get(ident, 0)

    def leaf(self, text, size=0):
        self.out, self.at, self.left = self.out + text, self.at + size, self.left - 1

    def plain(self, ident):
        while ident in self.module.marks and self.module.marks[ident][0] in (4, 7):
            number, ids = self.module.marks[ident][:2]
            ident = ids[0 if number == 4 else 1]
        return ident

    def list(self, opening, parts, closing):
        """The parts of a list: for each what stands before it, and what writes it, told whether it is the last."""
        if not parts:
            return self.leaf(opening + closing)
        self.out += opening
        for n, (name, write) in enumerate(parts):
            self.out += b", " if n else b""
            if self.left == 0:
                self.out += b"..."
                break
            self.out += name
            write(n == len(parts) - 1)
        self.out += closing

    def array(self, base, counts, last):
        if not counts:
            return self.type(base, last)
        count, one = self.number(counts[0]), self.module.marks[base][2]
        for ident in counts[1:]:
            one *= self.number(ident)
        if count == 0 and last:
            count = max(self.size - self.at, 0) // one if one else 0
        # more than can be written are as many as one more
        shown = min(count, MOST_LEAVES + 1)
        self.list(b"[", [(b"", lambda end: self.array(base, counts[1:], last and end and shown == count))] * shown, b"]")

    def basic(self, ids, pairs):
        size, encoding = self.number(ids[1]), self.number(ids[2])
        bits = [self.bits(self.at + n) for n in range(size)] if 1 <= size <= 64 else [None]
        if None in bits:
            return self.leaf(b"<unavailable>", size)
        if "u" in bits:
            return self.leaf(b"<undefined>", size)
        number = sum(bit << n for n, bit in enumerate(bits))
        signed = lambda number, size: number - (1 << size) if encoding in (4, 5) and number >> (size - 1) else number
        names = [name for value, name in pairs if signed(self.number(value), 32) == signed(number, size)]
        if names:
            return self.leaf(visible(self.module.strings[names[0]]), size)
        if pairs is NO_PAIRS and encoding == 2:
            return self.leaf(b"true" if number else b"false", size)
        if pairs is NO_PAIRS and encoding == 3:
            return self.leaf(b"0x%0*x" % (-(-size // 4), number), size)
        return self.leaf(b"%d" % signed(number, size), size)

    def type(self, ident, last=True):
        ident = self.plain(ident)
        number, ids = self.module.marks[ident][:2]
        if number in (5, 6, 108):
            return self.array(ids[0], ids[1:] if number == 5 else ids[1:2], last)
        if number == 9:
            under, basic = self.plain(ids[1]), self.module.marks[self.plain(ids[1])]
            if basic[0] == 2 and 1 <= self.number(basic[1][1]) <= 64:
                return self.basic(basic[1], list(zip(ids[8::2], ids[9::2])))
            return self.type(under, last)
        if number == 10:
            before = lambda member: member in self.module.marks and self.module.marks[member][0] == 11 and self.module.order[member] < self.module.order[ident]
            members = [self.module.marks[member][1] for member in ids[9:] if before(member)]
            return self.list(b"{", [(visible(self.module.strings[rest[0]]) + b" = ", lambda end, rest=rest: self.type(rest[1], last and end)) for rest in members], b"}")
        return self.basic(ids, NO_PAIRS) if number == 2 else self.leaf(b"<unavailable>")


NO_PAIRS = ()


def visible(name):
    return bytes(ord("?") if byte < 32 or byte == 127 else byte for byte in name)


def text(module, ident, bits, size):
    writer = Writer(module, bits, size)
    writer.type(ident)
    return writer.out
