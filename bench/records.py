#!/usr/bin/env python3
"""Counts the debug records of modules, and where their instructions stand in the source, worked out here apart from the program.

The rows are written by bench/modules.py. The modules are the shaders of examples/check: NAME-1.6-gVS.spv by
`glslangValidator -V -gVS --target-env spirv1.6`, NAME-glslc-g.spv by `glslc -g --target-env=vulkan1.2`, and each of them after
`spirv-opt -O` too. The kinds are those of NonSemantic.Shader.DebugInfo.100, and what makes a record malformed is this project's
profile of it. Where an instruction stands is read off its block anew for each, from the instruction back; bench/places.py makes
the texts of replies of it.
"""
import os
import struct
import values
from listings import TOP

DATA = os.path.join(TOP, "crates", "test_modules", "data")
NAMES = [f"{shader}-{form}" for shader in ("loops", "shared", "structs", "widths") for form in ("1.6-gVS", "1.6-gVS-opt", "glslc-g", "glslc-g-opt")]
SET = b"NonSemantic.Shader.DebugInfo.100"
TYPES, SCOPES = {0, 2, 3, 4, 5, 6, 7, 8, 9, 10, 108}, {0, 1, 10, 20, 21, 22}
LEADS = {"T": TYPES, "P": SCOPES, "S": {35}, "I": {25}, "V": {26}, "W": {26, 27}, "E": {31}, "O": {30}}
# Of each number the operands: . is only counted, # a number, " a string, others lead to records; then those that may follow.
KINDS = {
    0: "", 1: "....", 2: ".##.", 3: "...", 4: "T.", 5: "T#*#", 6: "T#", 7: ".T....", 8: "..", 9: '.T......*#"',
    10: ".....P...", 11: '"T......', 18: '"T.......', 19: "", 20: '".S......', 21: "S..P", 22: "..P", 23: "P?I", 24: "",
    25: "#P?I", 26: '"T...P.', 27: "VI", 28: "W.E*#", 29: "W.E*#", 30: "#", 31: "*O", 35: '"?"', 101: "..", 102: '"',
    103: "S#...", 104: "", 108: "T#.",
}
KINDS.update({number: "" for number in (12, 13, 14, 15, 16, 17, 32, 33, 34, 105, 106, 107)})
IN_BLOCKS = {23, 24, 28, 29, 103, 104}
PARENTS = {10: 5, 21: 3, 22: 2}
OPERATIONS = {0: "", 1: "", 2: "", 3: "#", 4: "..", 5: "", 6: "", 7: "", 8: "#", 9: "##"}
FRAGMENT, MOST_BITS, MOST_NESTING = 9, 268_435_456, 64
# Texts of Sources go before those of OpSources.
SOURCE, OP_SOURCE, NO_TEXT = range(3)


class Module:
    def __init__(self, words):
        self.words, self.strings, self.numbers = words, {}, {}
        self.marks, self.records, self.malformed, self.inlined, self.texts, self.order = {}, [], [], 0, [], {}
        # what a SourceContinued continues, and what an OpSourceContinued does
        self.source = self.op_source = [NO_TEXT, b"", b""]
        integers, self.set, self.inside, self.in_force, at = set(), None, False, 0, 5
        insts = []
        while at < len(words):
            count, op = words[at] >> 16, words[at] & 0xFFFF
            insts.append((at, op, words[at + 1 : at + count]))
            at += count
        for _, op, rest in insts:
            if op == 7:
                self.strings[rest[0]] = text(rest[1:])
            if op == 11 and text(rest[1:]) == SET:
                self.set = rest[0]
            if op == 21 and rest[1] == 32:
                integers.add(rest[0])
            if op in (43, 50) and rest[0] in integers:
                self.numbers[rest[1]] = rest[2]
        self.read(insts)
        self.insts = insts
        self.imports = {rest[0] for _, op, rest in insts if op == 11 and text(rest[1:]).startswith(b"NonSemantic.")}
        self.show()

    def read(self, insts):
        for at, op, rest in insts:
            if op == 248:
                self.inside, self.in_force = True, 0
            self.inlined += self.inside and self.in_force != 0
            if op == 12 and rest[2] == self.set:
                self.add(at, rest[1], rest[3], rest[4:])
            if op in (249, 250, 251, 253, 254, 255):
                self.inside = False
            if op == 3:
                self.op_source = [OP_SOURCE, self.strings[rest[2]], text(rest[3:])] if len(rest) > 3 else [NO_TEXT, b"", b""]
                self.texts.append(self.op_source)
            if op == 2:
                self.op_source[2] += text(rest)

    def add(self, at, ident, number, ids):
        measure = self.measure(number, ids) if self.is_right(number, ids) else None
        if measure is None or measure[0] > MOST_BITS or measure[1] > MOST_NESTING:
            self.malformed.append((at, number))
            return
        self.marks[ident] = (number, ids, *measure)
        self.order[ident] = len(self.records)
        self.records.append((at, ident, number, ids))
        if number in (23, 24):
            self.in_force = ids[1] if len(ids) > 1 else 0
        if number == 35:
            self.source = [SOURCE, self.strings[ids[0]], self.strings[ids[1]]] if len(ids) > 1 else [NO_TEXT, b"", b""]
            self.texts.append(self.source)
        if number == 102:
            self.source[2] += self.strings[ids[0]]

    def fits(self, role, ident):
        if role in LEADS:
            return ident in self.marks and self.marks[ident][0] in LEADS[role]
        return role == "." or ident in (self.numbers if role == "#" else self.strings)

    def is_right(self, number, ids):
        kind = KINDS.get(number)
        if kind is None or (number in IN_BLOCKS and not self.inside):
            return False
        roles = kind.split("*")[0].split("?")[0]
        behind, more = ids[len(roles) :], kind[len(roles) :]
        if more[:1] == "?":
            behind, more = behind[:1], "?" + more[1:]
        cycle = more[1:] or "."
        behind = behind[: len(behind) // len(cycle) * len(cycle)]
        fit = len(ids) >= len(roles) and all(map(self.fits, roles, ids))
        fit = fit and all(self.fits(cycle[n % len(cycle)], ident) for n, ident in enumerate(behind))
        if number == 30 and fit:
            roles = OPERATIONS.get(self.numbers[ids[0]])
            fit = roles is not None and len(ids) == 1 + len(roles) and all(map(self.fits, roles, ids[1:]))
        if number == 31 and fit:
            fit = all(self.numbers[self.marks[ident][1][0]] != FRAGMENT for ident in ids[:-1])
        return fit

    def measure(self, number, ids):
        part = lambda ident: self.marks[ident][2:] if ident in self.marks else (0, 0)
        over = lambda base, times=1, deeper=1: (base[0] * times, base[1] + deeper)
        if number in (0, 3, 8):
            return 0, 1
        if number == 2:
            return self.numbers[ids[1]], 1
        if number == 5:
            base = part(ids[0])
            for ident in ids[1:]:
                base = over(base, self.numbers[ident])
            return base
        if number in (6, 108):
            return over(part(ids[0]), self.numbers[ids[1]])
        if number in (4, 7, 9, 11):
            return over(part(ids[0 if number == 4 else 1]), 1, number != 11)
        if number == 10:
            members = [part(ident) for ident in ids[9:] if ident in self.marks and self.marks[ident][0] == 11]
            return sum(bits for bits, _ in members), 1 + max([nesting for _, nesting in members], default=0)
        return 0, 0

    # ---- where instructions stand in the source: what is in force is read off the block before each of them

    def show(self):
        self.lines, self.heads, self.heads_at, self.frames, self.stands, op_names, function = [], [], {}, [], {}, {}, 0
        by_word = {at: (number, ids) for at, _, number, ids in self.records}
        for _, op, rest in self.insts:
            if op == 5:
                op_names.setdefault(rest[0], text(rest[1:]))
        for start, (_, op, rest) in enumerate(self.insts):
            function = rest[1] if op == 54 else function
            if op == 248:
                self.show_block(start, by_word, function, op_names.get(function, b""))

    def show_block(self, start, by_word, function, op_name):
        before, block = None, []
        for at, op, rest in self.insts[start + 1 :]:
            scope, inlined, file, line = self.location(block, by_word)
            if line:
                self.lines.append(line)
            if not (op in (0, 8, 59, 245, 246, 247, 317) or op == 12 and rest[2] in self.imports):
                key = (file, line, inlined) if line else None
                if key is not None and key != before:
                    self.heads.append((file, line))
                    self.heads_at[at] = (file, line)
                before = key
            frames = self.shown(scope, inlined, file, line, op_name)
            self.frames += frames
            self.stands[at] = (function, frames)
            block.append((at, op, rest))
            if op in (249, 250, 251, 253, 254, 255):
                return

    def location(self, block, by_word):
        last = lambda found: next(iter(found), None)
        records = [by_word[at] for at, _, _ in reversed(block) if at in by_word]
        scope = last(row for row in records if row[0] in (23, 24))
        debug = last(row for row in records if row[0] in (103, 104))
        plain = last((op, rest) for _, op, rest in reversed(block) if op in (8, 317))
        ids = scope[1] if scope and scope[0] == 23 else [0]
        if debug and debug[0] == 103:
            file, line = self.strings[self.marks[debug[1][0]][1][0]], self.numbers[debug[1][1]]
        elif plain and plain[0] == 8:
            file, line = self.strings[plain[1][0]], plain[1][1]
        else:
            file, line = b"", 0
        return ids[0], ids[1] if len(ids) > 1 else 0, file if line else b"", line

    def around(self, scope, wanted):
        """The operands of the first scope on the way outward with a wanted number, and this number."""
        while scope in self.marks:
            number, ids = self.marks[scope][:2]
            if number in wanted:
                return number, ids
            if number not in PARENTS:
                return None
            scope = ids[PARENTS[number]]
        return None

    def shown(self, scope, inlined, file, line, op_name):
        """The name, the file and the line of each frame."""
        name = lambda function: self.strings[function[1][0]] or op_name if function else op_name
        function = self.around(scope, {20})
        frames = [(name(function), file, line)]
        while function and inlined in self.marks:
            ids = self.marks[inlined][1]
            line, source = self.numbers[ids[0]], self.around(ids[1], {20, 21})
            file = b""
            if line and source:
                file = self.strings[self.marks[source[1][2 if source[0] == 20 else 0]][1][0]]
            frames.append((name(self.around(ids[1], {20})), file, line))
            inlined = ids[2] if len(ids) > 2 else 0
        return frames

    def files(self):
        """The text of each file: that of the first Source with its name and a text, else of the first such OpSource."""
        files = {}
        for rank, file, data in sorted(self.texts, key=lambda row: row[0]):
            if rank != NO_TEXT:
                files.setdefault(file, data)
        return files

    def values(self):
        """The texts of all types, each of a value whose bits are a pattern, which has 100 bits more than the type."""
        types = [ident for _, ident, number, _ in self.records if number in TYPES]
        return [values.text(self, ident, lambda k, size=self.marks[ident][2] + 100: pattern(k) if k < size else None, self.marks[ident][2] + 100) for ident in types]

    def counts(self):
        operands = [ident for _, _, _, ids in self.records for ident in ids]
        strings = sum(len(self.strings[ident]) for ident in operands if ident in self.strings)
        numbers = sum(self.numbers.get(ident, 0) for ident in operands)
        files = self.files()
        texts = sum(len(files.get(name, b"")) for name in self.strings.values())
        written = self.values()
        return (f"records {len(self.records)}, found {len(self.marks)}, ignored {len(self.malformed)}, strings {strings}, numbers {numbers}, "
                f"inlined {self.inlined}, text {texts}, lines {len(self.lines)} of sum {sum(self.lines)}, "
                f"heads {len(self.heads)} and {sum(self.heads.count(head) for head in self.heads)}, "
                f"frames {len(self.frames)} of sum {sum(row[2] for row in self.frames)} and {sum(len(row[0]) + len(row[1]) for row in self.frames)} bytes, "
                f"values {len(written)} of {sum(map(len, written))} bytes and sum {sum(map(sum, written))}, {len(written)} alike")


def pattern(k):
    """Bit k of a value: each 131st isn't there, each 97th is undefined."""
    return None if k % 131 == 130 else "u" if k % 97 == 96 else int((k // 5 + k) % 3 == 0)


def text(words):
    return struct.pack(f"<{len(words)}I", *words).split(b"\0")[0]


# One operand of the first record with a number is exchanged: the module, the number, the place of the operand (-1 for the
# number itself), and what stands there then: the first record with a number, string or number.
EXCHANGES = [
    ("structs-1.6-gVS", 26, 5, 2), ("structs-1.6-gVS", 20, 2, 1), ("structs-1.6-gVS", 11, 1, 20), ("structs-1.6-gVS", 10, 9, 2),
    ("structs-1.6-gVS", 35, 0, "number"), ("structs-1.6-gVS-opt", 23, 0, 35), ("structs-1.6-gVS-opt", 25, 1, 31),
    ("structs-1.6-gVS-opt", 25, 0, "string"), ("loops-1.6-gVS", 28, 2, 2), ("loops-1.6-gVS", 103, 0, 1), ("loops-1.6-gVS", 1, 2, "string"),
    ("loops-1.6-gVS", 28, -1, 36), ("loops-1.6-gVS", 2, -1, 24), ("shared-1.6-gVS", 2, 1, "string"), ("shared-1.6-gVS", 35, 1, "number"),
    ("widths-1.6-gVS", 6, 0, 10), ("widths-1.6-gVS", 5, 1, "string"), ("loops-1.6-gVS-opt", 29, 0, 35),
]


def exchange(name, number, place, other):
    """The module, the word that is exchanged, and the number in its place."""
    read = Module(words_of(name))
    at = next(row[0] for row in read.records if row[2] == number)
    if place < 0:
        return name, at + 4, other
    pool = {"string": read.strings, "number": read.numbers}.get(other)
    return name, at + 5 + place, next(iter(pool)) if pool else next(row[1] for row in read.records if row[2] == other)


def words_of(name):
    with open(os.path.join(DATA, name + ".spv"), "rb") as file:
        data = file.read()
    return list(struct.unpack(f"<{len(data) // 4}I", data))


def rows():
    """The modules, and those with a word exchanged, as lines `NAME` and `NAME WORD NUMBER LENGTH`, each with what is due."""
    for name in NAMES + ["types"]:
        yield f"{name}.spv", Module(words_of(name)).counts()
    for row in EXCHANGES:
        name, word, number = exchange(*row)
        words = words_of(name)
        words[word] = number
        yield f"{name}.spv {word} {number} {4 * len(words)}", Module(words).counts()
