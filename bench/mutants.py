"""Mutants of what the repository runs: modules, setups, lines of commands and words of the command line, each drawn by a generator.

What is run are the calls of crates/test_runs/data/*.runs and the examples. A mutant of a module is close to it: an id is exchanged for
another one of its kind, an opcode for another one of its form, a literal for one at a limit, an instruction is dropped, doubled or moved,
or words and bytes are changed as they are, so that many mutants are accepted and run.
"""
import copy
import os
import struct
import stored_runs
from listings import FORMS, NAMES, TOP

EXT_INST, STRING, CONSTANTS, BRANCHES = 12, 7, (43, 50), (249, 250, 251)
AT_LIMITS = (0, 1, 2, 3, 4, 7, 8, 16, 31, 32, 33, 63, 64, 65, 255, 256, 1024, 1025, 65535, 1048576, 1048577, 2**31 - 1, 2**31, 2**32 - 2, 2**32 - 1)
DEBUG = "spvdbg debug module setup"


# By opcode those that have the same form.
OF_FORM = {form[0]: [other[0] for other in FORMS.values() if other[1:] == form[1:]] for form in FORMS.values()}


class Call:
    """A module, its setup and the commands to it. `module` is the name of the file."""

    def __init__(self, module, data, setup, commands):
        self.module, self.data, self.setup, self.commands = module, data, setup, commands


def read(path):
    with open(path, "rb") as file:
        return file.read()


def calls():
    """The stored calls of `debug`, and the examples."""
    found, held = [], {}
    for file in stored_runs.files():
        for line, setup, commands in stored_runs.calls(file):
            _, module, words = line.decode().split(": ", 2)
            if words == DEBUG:
                if module not in held:
                    held[module] = read(os.path.join(stored_runs.DATA, module))
                found.append(Call(module, held[module], setup, commands))
    for name in sorted(os.listdir(os.path.join(TOP, "examples"))):
        folder = os.path.join(TOP, "examples", name)
        if os.path.exists(os.path.join(folder, "commands")):
            found.append(Call("examples/" + name, *(read(os.path.join(folder, it)) for it in ("module.spv", "setup", "commands"))))
    return found


# ---- modules

class Words:
    """The words of a module, its instructions and where its ids, literals and strings stand."""

    def __init__(self, data):
        self.order = ">" if data[:4] == b"\x07\x23\x02\x03" else "<"
        self.words = list(struct.unpack("%s%dI" % (self.order, len(data) // 4), data[: len(data) // 4 * 4]))
        self.insts, at = [], 5
        while at < len(self.words) and 0 < self.words[at] >> 16 <= len(self.words) - at:
            self.insts.append((at, self.words[at] & 0xFFFF, self.words[at] >> 16))
            at += self.words[at] >> 16
        self.kinds, self.ids, self.literals, self.strings, self.records = {}, [], [], [], []
        for inst in self.insts:
            self.look(*inst)
        self.of_kind = {}
        for ident, kind in self.kinds.items():
            self.of_kind.setdefault(kind, []).append(ident)

    def look(self, at, op, count):
        """Notes where the ids, the literals and the strings of an instruction stand, and of what kind its result is."""
        if op not in NAMES:
            return
        _, head, parts, rest = FORMS[NAMES[op]]
        place, end = at + 1, at + count
        if head == "Typed" and place + 1 < end:
            self.ids.append(place)
            self.kinds[self.words[place + 1]] = (op if op in CONSTANTS + (EXT_INST,) else 0, self.words[place])
            place += 2
        elif head == "Result" and place < end:
            self.kinds[self.words[place]] = (op, 0)
            place += 1
        for part in [part for part in parts if part != "MayEnd"]:
            if part == "String":
                first = place
                while place < end and self.words[place] >> 24:
                    place += 1
                self.strings.append((op, first, place + 1))
                place += 1
            elif place < end:
                (self.ids if part == "Id" else self.literals).append(place)
                place += 1
        if op == EXT_INST and count > 5:
            self.records.append((at, count))
        (self.ids if rest in ("Ids", "IdPairs") else self.literals).extend(range(place, end))

    def copy(self):
        """The same, with words of its own."""
        made = copy.copy(self)
        made.words = list(self.words)
        return made

    def bytes(self):
        return struct.pack("%s%dI" % (self.order, len(self.words)), *[word & 0xFFFFFFFF for word in self.words])

    def texts(self):
        """The strings of OpString, which name what the source has."""
        for op, first, end in self.strings:
            if op == STRING:
                yield struct.pack("<%dI" % (end - first), *self.words[first:end]).split(b"\0")[0]


def other_id(chance, it):
    """An id in the place of another one of its kind."""
    at = chance.choice(it.ids)
    of_kind = it.of_kind.get(it.kinds.get(it.words[at]), [])
    it.words[at] = chance.choice(of_kind) if of_kind and chance.random() < 0.9 else chance.randrange(it.words[3] + 2)


def other_opcode(chance, it):
    """An opcode in the place of another one of its form."""
    at, op, count = chance.choice(it.insts)
    same = OF_FORM.get(op)
    it.words[at] = count << 16 | (chance.choice(same) if same and chance.random() < 0.9 else chance.randrange(420))


def other_literal(chance, it):
    """A literal near by, or at a limit."""
    at = chance.choice(it.literals)
    it.words[at] = it.words[at] + chance.choice((-1, 1)) if chance.random() < 0.4 else chance.choice(AT_LIMITS)


def other_constant(chance, it):
    """The number of a constant."""
    places = [at + 3 for at, op, count in it.insts if op in CONSTANTS and count > 3]
    if places:
        it.words[chance.choice(places)] = chance.choice(AT_LIMITS)


def other_record(chance, it):
    """An operand of a debug record, or its number."""
    if not it.records:
        return other_id(chance, it)
    at, count = chance.choice(it.records)
    place = at + chance.randrange(4, count)
    if place == at + 4 or chance.random() < 0.1:
        it.words[place] = chance.randrange(120)
    else:
        it.words[place] = chance.choice(chance.choice(list(it.of_kind.values())))


def other_target(chance, it):
    """A label in the place of another one, at a branch."""
    places = [at + k for at, op, count in it.insts if op in BRANCHES for k in range(1, count)]
    labels = it.of_kind.get((248, 0), [])
    if places and labels:
        it.words[chance.choice(places)] = chance.choice(labels)


def dropped(chance, it):
    at, _, count = chance.choice(it.insts)
    del it.words[at : at + count]


def doubled(chance, it):
    """An instruction twice, with another result."""
    at, op, count = chance.choice(it.insts)
    words = it.words[at : at + count]
    head = FORMS[NAMES[op]][1] if op in NAMES else "Plain"
    if head != "Plain" and chance.random() < 0.9:
        words[2 if head == "Typed" else 1] = it.words[3]
        it.words[3] += 1
    it.words[at:at] = words


def moved(chance, it):
    """An instruction behind the next one, or anywhere."""
    n = chance.randrange(len(it.insts))
    at, _, count = it.insts[n]
    words = it.words[at : at + count]
    to = it.insts[min(n + 2, len(it.insts) - 1)][0] if chance.random() < 0.7 else chance.choice(it.insts)[0]
    del it.words[at : at + count]
    to -= count if to > at else 0
    it.words[to:to] = words


def other_word(chance, it):
    """Any word, by any other."""
    at = chance.randrange(len(it.words))
    kind = chance.randrange(4)
    it.words[at] = (it.words[at] ^ 1 << chance.randrange(32), chance.choice(AT_LIMITS), chance.choice(it.words), chance.randrange(2**32))[kind]


def other_header(chance, it):
    at = chance.randrange(5)
    it.words[at] = chance.choice(AT_LIMITS + (0x07230203, 0x03022307, 0x00010300, 0x00010600))


def cut(chance, it):
    del it.words[chance.randrange(len(it.words)) :]


def lengthened(chance, it):
    """Words put in somewhere."""
    at = chance.randrange(len(it.words) + 1)
    it.words[at:at] = [chance.choice(AT_LIMITS + (chance.choice(it.words or [0]),)) for _ in range(chance.randrange(1, 6))]


def other_text(chance, it):
    """A byte of a string."""
    if it.strings:
        _, first, end = chance.choice(it.strings)
        at = chance.randrange(first, min(end, len(it.words)))
        it.words[at] = it.words[at] & ~(0xFF << 8 * chance.randrange(4)) | chance.randrange(256) << 8 * chance.randrange(4)


IN_PLACE = [other_id] * 8 + [other_opcode] * 5 + [other_literal] * 5 + [other_constant] * 4 + [other_record] * 6 + [other_target] * 3 + [other_word] * 3 + [other_header] + [other_text] * 2
OF_LENGTH = [dropped] * 2 + [doubled] * 3 + [moved] * 3 + [cut, lengthened]


def mutant_module(chance, base):
    """The bytes of a module with one change or a few: all in place, but for the last one now and then."""
    it = base.copy()
    longer = chance.random() < 0.25
    for _ in range(chance.choice((1, 1, 1, 1, 2, 2, 3, 5, 8)) - longer):
        chance.choice(IN_PLACE)(chance, it)
    if longer:
        chance.choice(OF_LENGTH)(chance, it)
    data = it.bytes()
    return data if chance.random() < 0.98 else data[: chance.randrange(len(data) + 1)]


# ---- setups

WORDS_OF_SETUPS = [b"spvdbg-setup", b"entry", b"group", b"of", b"spec", b"buffer", b"hex", b"zero", b"push", b"move", b"rounds", b"barrier", b"finished-count", b"#"]
NUMBERS_OF_SETUPS = (
    b"0", b"1", b"2", b"3", b"4", b"007", b"63", b"64", b"1023", b"1024", b"4194304", b"4194305", b"16777216", b"16777217", b"4294967295", b"4294967296",
    b"18446744073709551615", b"18446744073709551616", b"00000000000000000001", b"000000000000000000001", b"-1", b"-9223372036854775808", b"-9223372036854775809",
)


def other_words(chance, line):
    """A line with a number exchanged, or a word dropped, doubled, exchanged, or changed by a byte."""
    words = line.split(b" ")
    at, kind = chance.randrange(len(words)), chance.randrange(10)
    numbers = [k for k, word in enumerate(words) if word.isdigit()]
    if kind < 4 and numbers:
        at = chance.choice(numbers)
        words[at] = b"%d" % max(0, int(words[at][:30]) + chance.choice((-1, 1, 2, 5))) if chance.random() < 0.5 else chance.choice(NUMBERS_OF_SETUPS)
    elif kind < 5:
        del words[at]
    elif kind < 6:
        words.insert(at, chance.choice(words + WORDS_OF_SETUPS))
    elif kind < 7:
        words[at] = chance.choice(WORDS_OF_SETUPS)
    elif kind < 9:
        words[at] = other_byte(chance, words[at])
    else:
        other = chance.randrange(len(words))
        words[at], words[other] = words[other], words[at]
    return b" ".join(words)


def other_byte(chance, text):
    at, kind = chance.randrange(len(text) + 1), chance.randrange(3)
    byte = bytes([chance.randrange(256)]) if chance.random() < 0.3 else bytes([chance.choice(b" 0123456789abcdefABCDEFxof-#\r\t.[]%:")])
    return text[:at] + (byte if kind else b"") + text[at + (kind != 1) :]


def mutant_setup(chance, text):
    """The text of a setup with one change or a few."""
    lines = text.split(b"\n")
    for _ in range(chance.choice((1, 1, 1, 2, 3))):
        # (the first line has one form, so it is changed but seldom)
        at, kind = chance.randrange(len(lines) > 1 and chance.random() < 0.9, len(lines)), chance.randrange(10)
        if kind < 5:
            lines[at] = other_words(chance, lines[at])
        elif kind == 5:
            lines.insert(at, chance.choice(lines))
        elif kind == 6 and len(lines) > 1:
            del lines[at]
        elif kind == 7:
            other = chance.randrange(len(lines))
            lines[at], lines[other] = lines[other], lines[at]
        elif kind == 8:
            lines.insert(at, b" ".join(chance.choice(WORDS_OF_SETUPS + list(NUMBERS_OF_SETUPS)) for _ in range(chance.randrange(1, 6))))
        else:
            lines[at] = other_byte(chance, lines[at])
    return b"\n".join(lines)


# ---- lines of commands

PLAIN = [b"step", b"next", b"finish", b"rstep", b"rnext", b"rfinish", b"continue", b"rcontinue", b"where", b"group", b"bt", b"locals", b"globals", b"regs", b"list", b"info", b"tally"]
COUNTED = [b"goto", b"fwd", b"back", b"stepi", b"rstepi", b"focus", b"frame", b"delete", b"unwatch", b"drop", b"break"]
NUMBERS_OF_LINES = [b"0", b"1", b"2", b"3", b"5", b"8", b"13", b"40", b"100", b"1000", b"00000001", b"4294967295", b"4294967296", b"-1", b"x"]


def drawn_line(chance, texts):
    """A line of the grammar, over the names that a module has."""
    kind = chance.randrange(12)
    if kind < 4:
        return chance.choice(PLAIN)
    if kind < 7:
        return chance.choice(COUNTED) + b" " + (chance.choice(NUMBERS_OF_LINES) if chance.random() < 0.5 else b"%d" % chance.randrange(60))
    if kind < 8:
        return b"halt %d %d" % (chance.randrange(5), chance.choice((0, 1, 2, 7, 64, 2**32 - 1)))
    if kind < 9:
        return b"order %d %d" % (chance.randrange(80), chance.randrange(80))
    if kind < 10:
        return chance.choice((b"print", b"watch")) + b" %%%d" % chance.randrange(300)
    path = chance.choice(texts or [b"x"])
    for _ in range(chance.choice((0, 0, 1, 1, 2, 3))):
        path += b"[%d]" % chance.randrange(5) if chance.randrange(2) else b"." + chance.choice(texts or [b"x"])
    return chance.choice((b"print", b"print", b"watch", b"break")) + b" " + path + (b":%d" % chance.randrange(40) if chance.random() < 0.1 else b"")


def mutant_line(chance, line):
    """A line with a change or two; now and then a long one."""
    for _ in range(chance.choice((1, 1, 2))):
        kind = chance.randrange(8)
        words = line.split(b" ")
        at = chance.randrange(len(words))
        if kind < 3:
            line = other_byte(chance, line)
        elif kind == 3:
            line = b" ".join(words[:at] + words[at + 1 :])
        elif kind == 4:
            line = b" ".join(words[:at] + [words[at]] + words[at:])
        elif kind == 5:
            words[at] = chance.choice(NUMBERS_OF_LINES + PLAIN + COUNTED)
            line = b" ".join(words)
        elif kind == 6:
            line = line + b" " * chance.randrange(3) if chance.random() < 0.9 else line + chance.choice((b" ", b"0", b"a", b"[1]", b".a")) * chance.choice((1000, 2000, 4000, 4096))
        else:
            line = b" " + line
    return line.replace(b"\n", b"?")


# ---- words of the command line

OF_COMMANDS = [b"debug", b"check", b"text", b"make", b"help", b"--help", b"-h", b"--", b"module", b"setup", b"nothing", b"1", b"0", b"-1", b"65", b"-V", b""]


def mutant_words(chance):
    words = chance.choice(([b"debug", b"module", b"setup"], [b"check", b"module"], [b"text", b"module"], [b"make", b"%d" % chance.choice((1, 2, 3))], [b"help"]))[:]
    for _ in range(chance.choice((1, 1, 2, 3))):
        at, kind = chance.randrange(len(words) + 1), chance.randrange(4)
        if kind == 0:
            words.insert(at, chance.choice(OF_COMMANDS))
        elif kind == 1 and at < len(words):
            del words[at]
        elif kind == 2 and at < len(words):
            words[at] = other_byte(chance, words[at]).replace(b"\0", b"?")
        elif words and at < len(words):
            words[at] = chance.choice(OF_COMMANDS)
    return words
