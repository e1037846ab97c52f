#!/usr/bin/env python3
"""A module of debug types of every kind, for bench/records.py: compilers write few of them.

TypeBasics of each Encoding and of sizes at the limits, enums over signed, unsigned and other types, lists that end with a Count of 0, lists of more
than 256 leaves, members that are none, and types nested 64 and 65 deep.
"""
import struct

VOID, FUNCTION_TYPE, INTEGER, SET, MAIN, LABEL, FIRST = 1, 2, 3, 5, 7, 8, 10
INFO_NONE, COMPILATION_UNIT, SOURCE = 0, 1, 35
BASIC, POINTER, QUALIFIER, ARRAY, VECTOR, TYPEDEF, ENUM, COMPOSITE, MEMBER, MATRIX = 2, 3, 4, 5, 6, 7, 9, 10, 11, 108


def chars(text):
    data = text.encode() + b"\0"
    return list(struct.unpack(f"<{-(-len(data) // 4)}I", data.ljust(-(-len(data) // 4) * 4, b"\0")))


class Types:
    def __init__(self):
        self.next, self.strings, self.numbers, self.records = FIRST, {}, {}, []
        none, source = self.record(INFO_NONE), self.record(SOURCE, self.string("f"))
        self.unit = self.record(COMPILATION_UNIT, self.number(1), self.number(4), source, self.number(2))
        self.place = [source, self.number(0), self.number(0), self.unit]
        self.all(none)

    def new(self):
        self.next += 1
        return self.next

    def string(self, text):
        return self.strings.setdefault(text, None) or self.strings.__setitem__(text, self.new()) or self.strings[text]

    def number(self, value):
        return self.numbers.setdefault(value, None) or self.numbers.__setitem__(value, self.new()) or self.numbers[value]

    def record(self, number, *ids):
        self.records.append((self.new(), number, ids))
        return self.records[-1][0]

    def basic(self, size, encoding):
        return self.record(BASIC, self.string("basic"), self.number(size), self.number(encoding), self.number(0))

    def array(self, base, *counts):
        return self.record(ARRAY, base, *map(self.number, counts))

    def vector(self, base, count):
        return self.record(VECTOR, base, self.number(count))

    def typedef(self, base):
        return self.record(TYPEDEF, self.string("typedef"), base, *self.place)

    def enum(self, under, *pairs):
        ids = [ident for value, name in pairs for ident in (self.number(value), self.string(name))]
        return self.record(ENUM, self.string("enum"), under, *self.place, self.number(0), self.number(0), *ids)

    def composite(self, *members):
        ids = [self.record(MEMBER, self.string(name), base, *self.place[:3], *[self.number(0)] * 3) if name else base for name, base in members]
        return self.record(COMPOSITE, self.string("struct"), self.number(0), *self.place, self.string("struct"), self.number(0), self.number(0), *ids)

    def all(self, none):
        word, signed, byte, bit = self.basic(32, 6), self.basic(32, 4), self.basic(8, 5), self.basic(1, 0)
        for size, encoding in [(0, 6), (1, 2), (7, 3), (8, 7), (13, 4), (16, 3), (32, 2), (32, 3), (63, 4), (64, 0), (64, 1), (64, 3), (64, 4), (64, 9), (65, 6), (100, 4)]:
            self.basic(size, encoding)
        pointer, pair, few = self.record(POINTER, word, *[self.number(0)] * 2), self.vector(word, 2), self.basic(4, 4)
        self.record(MATRIX, pair, self.number(3), self.number(0))
        self.array(self.typedef(self.record(QUALIFIER, word, self.number(0))), 2, 3)
        # in the values of bench/records.py the first four bits are those of -7, or of 9 without a sign
        for under in (self.typedef(few), self.basic(4, 6), self.basic(4, 2), self.basic(4, 3), pair, self.basic(70, 6)):
            self.enum(under, (9, "plain"), (2**32 - 7, "sig\x01ned"), (2**32 - 7, "later"))
        empty = self.composite()
        self.composite(("x", word), ("y\x7f", pair), (None, word), ("", signed), ("p", pointer), ("n", empty), ("none", none))
        tail = self.composite(("n", word), ("tail", self.array(pair, 0)))
        self.array(tail, 2), self.array(word, 0), self.array(word, 0, 3), self.array(word, 3, 0), self.array(pointer, 0)
        self.composite(("early", self.array(word, 0)), ("late", word))
        self.array(self.composite(("b", byte), ("more", self.array(bit, 0))), 0)
        self.array(self.composite(("a", empty), ("b", word)), 130), self.array(pair, 140), self.array(self.array(byte, 3), 100)
        self.array(empty, 256), self.array(empty, 257), self.array(byte, 4000000), self.array(self.enum(byte, (41, "first")), 300)
        deep = word
        for _ in range(64):
            deep = self.array(deep, 1)

    def words(self):
        insts = [(17, [1]), (10, chars("SPV_KHR_non_semantic_info")), (11, [SET] + chars("NonSemantic.Shader.DebugInfo.100")), (14, [0, 1])]
        insts += [(15, [5, MAIN] + chars("main")), (16, [MAIN, 17, 1, 1, 1])]
        insts += [(7, [ident] + chars(text)) for text, ident in self.strings.items()]
        insts += [(19, [VOID]), (33, [FUNCTION_TYPE, VOID]), (21, [INTEGER, 32, 0])]
        insts += [(43, [INTEGER, ident, value]) for value, ident in self.numbers.items()]
        insts += [(12, [VOID, ident, SET, number, *ids]) for ident, number, ids in self.records]
        insts += [(54, [VOID, MAIN, 0, FUNCTION_TYPE]), (248, [LABEL]), (253, []), (56, [])]
        return [0x07230203, 0x00010600, 0, self.next + 1, 0] + [word for op, rest in insts for word in [(len(rest) + 1) << 16 | op] + rest]


def module():
    words = Types().words()
    return struct.pack(f"<{len(words)}I", *words)
