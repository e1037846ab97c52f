"""Single instructions: what is read of their words, which have no form, and texts that are no listing.

An instruction stands at word 5. SPIR-V 1.6, section 2.3 (physical layout), 2.2.1 (literals), and 3.42 (instructions).
"""
import os
import re
import struct
from listings import NAMES, TOP, Inst, string_words, text_of

# The words of a string, and its bytes, or none where they are no string.
STRINGS = [
    ([0], ""),
    ([0x61], "a"),
    ([0x6261], "ab"),
    ([0x636261], "abc"),
    ([0x64636261, 0], "abcd"),
    ([0x64636261, 0x65], "abcde"),
    # bytes that are not UTF-8
    ([0xFF], "\xff"),
    ([0xC328], "\x28\xc3"),
    # a byte after the end that is not zero
    ([0x01000000], None),
    ([0x61000061], None),
    ([0x00620061], None),
    ([0x64636261, 0x01000000], None),
    # no end, and words after the end
    ([], None),
    ([0x64636261], None),
    ([0, 0], None),
    ([0x61, 0x62], None),
    # bytes of each kind
    (string_words("a \"\\~\x7f\x01"), 'a "\\~\x7f\x01'),
]

# An opcode and the words after the first, and the code of their refusal, or none.
FORMS = [
    # Opcodes that are not read, OpFAdd and OpTypeFloat among them.
    (9, [], 6),
    (22, [1, 32], 6),
    (129, [1, 2, 3, 4], 6),
    (65535, [], 6),
    # A word too few, and a word too many.
    (17, [], 7),
    (0, [1], 7),
    (128, [1, 2, 3], 7),
    (128, [1, 2, 3, 4, 5], 7),
    (54, [1, 2, 0], 7),
    (43, [1, 2], 7),
    (79, [1, 2, 3, 4], 7),
    (230, [1, 2, 3, 4, 5, 6, 7], 7),
    (59, [1, 2, 7, 3, 4], 7),
    # Source: a file without a text, and nothing else.
    (3, [2, 450], None),
    (3, [2, 450, 1], None),
    (3, [2, 450, 1, ""], None),
    (3, [2, 450, 1, 0, 0], 7),
    # Memory operands: a mask has the bits 1, 2 and 4, and Aligned has a literal.
    (62, [1, 2, 0], None),
    (62, [1, 2, 5], None),
    (62, [1, 2, 5, 4], 7),
    (62, [1, 2, 2], 7),
    (62, [1, 2, 7, 4], None),
    (62, [1, 2, 8], 7),
    (63, [1, 2, 2, 4, 2, 8], None),
    (63, [1, 2, 1, 4, 2, 8], 7),
    # Loop control: one literal for each of the bits from 8 to 256.
    (246, [1, 2, 7], None),
    (246, [1, 2, 8], 7),
    (246, [1, 2, 24, 5, 6], None),
    (246, [1, 2, 256, 5], None),
    (246, [1, 2, 512], 7),
    (246, [1, 2, 512, 5], 7),
    # Decorations.
    (71, [1, 2], None),
    (71, [1, 2, 0], 7),
    (71, [1, 1], 7),
    (71, [1, 11, 28, 0], 7),
    (71, [1, 44, 1, 2, 3], None),
    (72, [1, 0, 35], 7),
    (72, [1, 0, 35, 4], None),
    # Execution modes.
    (16, [1, 17, 8, 8], 7),
    (16, [1, 38, 8], None),
    (331, [1, 38, 5, 6], 7),
    (331, [1, 17], None),
    # Pairs, and branch weights.
    (245, [1, 2, 3], 7),
    (250, [1, 2, 3, 4], 7),
]

# What each text is, the text, and the code of its refusal and its wrong line.
TEXTS = [
    ("a name that is no opcode's", "5: OpFAdd type=%1 id=%2 %3 %4\n", 2, 1),
    ("a capability without its number", "5: OpCapability\n", 3, 1),
    ("another word", "6: OpCapability 1\n", 4, 1),
    ("a leading zero", "5: OpCapability 01\n", 1, 1),
    ("a line without its end", "5: OpCapability 1", 1, 1),
    ("a type where the form has none", "5: OpCapability 1\n7: OpTypeVoid type=%2 id=%1\n", 3, 2),
    ("another word on the second line", "5: OpCapability 1\n8: OpTypeVoid id=%1\n", 4, 2),
    ("an escape in upper case", '5: OpName %1 "\\x1F"\n', 1, 1),
    ("an escape of a letter", '5: OpName %1 "\\x41"\n', 1, 1),
    ("two spaces", '5: OpName %1  "a"\n', 1, 1),
    ("a number over 32 bits", "5: OpCapability 4294967296\n", 1, 1),
]


def shown(words, ty, id, letters):
    """The line of an instruction, of which the types of the operands are given."""
    op, at, parts = words[0] & 0xFFFF, 1 + (ty != 0) + (id != 0), []
    parts += ["type=%%%d" % ty] * (ty != 0) + ["id=%%%d" % id] * (id != 0)
    for letter in letters:
        if letter == "S":
            end = next(n for n in range(at, len(words)) if not words[n] >> 24)
            data = struct.pack("<%dI" % (end + 1 - at), *words[at : end + 1])
            parts.append(text_of(data[: data.index(0)].decode("latin-1")))
            at = end + 1
        else:
            parts.append(("%" if letter == "I" else "") + str(words[at]))
            at += 1
    return " ".join(["5: Op" + NAMES[op], *parts])


def raw(op, words):
    flat = [w for o in words for w in (string_words(o) if isinstance(o, str) else [o])]
    return [(1 + len(flat)) << 16 | op, *flat]


def instructions():
    """The words of each instruction, and its line or refusal."""
    with open(os.path.join(TOP, "bench", "instructions.txt")) as file:
        lines = [line.split() for line in file if not line.startswith("#") and line.strip()]
    for line in lines:
        letters = next((field for field in line[2:3] if not re.fullmatch("[0-9a-f]+", field)), "-")
        words = [int(field, 16) for field in line[3:]]
        yield words, shown(words, int(line[0], 16), int(line[1], 16), letters.strip("-"))
    for words, text in STRINGS:
        due = "M7 at word 5" if text is None else "5: OpString id=%1 " + text_of(text)
        yield raw(7, [1] + words), due
    for op, words, code in FORMS:
        due = "M%d at word 5" % code if code else Inst(NAMES[op], *words).line(5).rstrip("\n")
        yield raw(op, words), due


def texts():
    """The file of texts that are no listings, and what is due for it."""
    return "".join("== %s\n%s" % row[:2] for row in TEXTS), "".join("%s: X%d at line %d\n" % (row[0], *row[2:]) for row in TEXTS)
