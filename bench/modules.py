#!/usr/bin/env python3
"""Modules that are checked, and the lines that are due for them.

    bench/modules.py        writes the lists, the listings and the stored output of crates/test_modules

The compiled modules of data/ are of examples/check; whether one is accepted is what its compiler, the optimizer and the
profile say. A line of the list `changes` is a module, a word of it and what it becomes, and how many bytes are left. The
files of rules are listings of modules that keep a rule or break one, of rules_of_sections.py, rules_of_types.py and
rules_of_blocks.py. A line of `instructions` is the words of one, of which the listing is shown. A line of `records` is a module,
or a module with a change, whose debug records are counted by records.py. Each outcome stands in these programs, as the rules have it: none is taken from the program that is tested.
"""
import os
import struct
import debug_types
import records
import rules_of_blocks
import rules_of_sections
import rules_of_types
import rules_of_words
from listings import TOP

FOLDER = os.path.join(TOP, "crates", "test_modules")
DATA = os.path.join(FOLDER, "data")
WHOLE = 4 * 2**20
ORDER = ["sections", "ids", "capabilities", "types", "layouts", "operations", "bodies", "blocks", "entry"]

# Modules that are accepted, and those of which an opcode or the version isn't that of the profile.
ACCEPTED = """first.spv loops-1.3.spv loops-1.6-gVS.spv loops-vk11-opt.spv shared-1.4.spv shared-glslc.spv shared-1.6-gVS-opt.spv
structs-1.6.spv structs-1.3-gVS.spv structs-glslc-opt.spv widths-1.5.spv widths-1.3-opt.spv""".split()
REFUSED = [("floats-1.6.spv", "M6 at word 74"), ("loops-plain.spv", "M3 at word 1")]

# A word of a compiled module and what it becomes, and what is due.
STRUCTS = [
    (1185, 1, "M5 at word 1185"),
    (783, 262297, "M6 at word 783"),
    (1348, 262206, "M7 at word 1348"),
    (953, 0, "M8 at word 950"),
    (693, 7, "M9 at word 692"),
    (1208, 226, "M9 at word 1214"),
    (6, 2, "M11 at word 5"),
    (396, 14, "M12 at word 394"),
    (966, 2, "M12 at word 965"),
    (242, 39, "M13 at word 428"),
    (453, 10, "M14 at word 452"),
    (650, 3, "M15 at word 651"),
    (311, 0, "M17 at word 0"),
]
SHARED = [(7, 393228, "M10 at word 7"), (165, 21, "M18 at word 162")]

# The shader that adds 40 and 2: a word and what it becomes, how many bytes are left, and what is due.
FIRST = [
    (66, 0x00020038, 268, "M5 at word 66"),
    (60, 0x00050081, 268, "M6 at word 60"),
    (60, 0x00050082, 268, None),
    (65, 0x000100FE, 268, "M7 at word 65"),
    (7, 0x00030003, 268, "M10 at word 10"),
    (21, 0x000200F8, 268, "M10 at word 21"),
    (3, 5, 268, "M8 at word 10"),
    (36, 6, 268, "M8 at word 38"),
    (63, 12, 268, "M8 at word 60"),
    (55, 7, 268, "M9 at word 53"),
    (64, 8, 268, "M9 at word 60"),
    (6, 6, 268, "M11 at word 5"),
    (28, 33, 268, "M12 at word 26"),
    (52, 12, 268, "M13 at word 49"),
    (35, 1, 268, "M14 at word 34"),
    (59, 5, 268, "M12 at word 56"),
    (67, 0, 264, "M15 at word 42"),
    (18, 0, 268, "M17 at word 0"),
    (3, 1, 20, "M17 at word 0"),
    # the limits of the header and of the words of an instruction
    (0, 0, 268, "M2 at word 0"),
    (0, 0x07230204, 268, "M2 at word 0"),
    # the magic number in the other order: the version is then read as 0x00060100
    (0, 0x03022307, 268, "M3 at word 1"),
    (1, 0, 268, "M3 at word 1"),
    (1, 0x00010200, 268, "M3 at word 1"),
    (1, 0x00010300, 268, None),
    (1, 0x00010400, 268, None),
    (1, 0x00010500, 268, None),
    (1, 0x00010601, 268, "M3 at word 1"),
    (1, 0x00010700, 268, "M3 at word 1"),
    (2, 0xFFFFFFFF, 268, None),
    (3, 0, 268, "M4 at word 3"),
    (3, 1, 268, "M8 at word 10"),
    (3, 1_048_576, 268, None),
    (3, 1_048_577, 268, "M4 at word 3"),
    (4, 0xFFFFFFFF, 268, None),
    (5, 0x00000011, 268, "M5 at word 5"),
    (65, 0x000300FD, 268, "M5 at word 65"),
    (65, 0x000200FD, 268, "M7 at word 65"),
    (66, 0x00000038, 268, "M5 at word 66"),
    # another addressing model, and a workgroup of 1,024 invocations and of one more
    (8, 1, 268, "M11 at word 7"),
    (18, 1024, 268, None),
    (18, 1025, 268, "M17 at word 0"),
]
# Where its instructions begin, as `spirv-dis --offsets` lists them.
STARTS = [5, 7, 10, 15, 21, 23, 26, 30, 34, 38, 42, 47, 49, 53, 56, 60, 65, 66, 67]


def truncated():
    """What is due for the first bytes of it: whole words, whole instructions, and then what is missing."""
    for length in range(268):
        count, last = length // 4, max((start for start in STARTS if 4 * start <= length), default=0)
        if length % 4 or count < 5:
            due = "M1 at word 0"
        elif count not in STARTS:
            due = "M5 at word %d" % last
        elif count < 15:
            due = "M17 at word 0"
        else:
            # the entry point's function isn't there yet, or is not ended
            due = "M9 at word 10" if count < 47 else "M15 at word 42"
        yield 67, 0, length, due


def swapped(data):
    return b"".join(data[n : n + 4][::-1] for n in range(0, len(data), 4))


def read(name):
    with open(os.path.join(DATA, name), "rb") as file:
        return file.read()


def write(name, text):
    with open(os.path.join(DATA, name), "w") as file:
        file.write(text)


def counted(data, order="<"):
    """The line for an accepted module: how many words and instructions there are."""
    words = struct.unpack("%s%dI" % (order, len(data) // 4), data)
    at, insts = 5, 0
    while at < len(words):
        at, insts = at + (words[at] >> 16), insts + 1
    return "accepted: words %d, instructions %d" % (len(words), insts)


def outcome(due, accepted):
    return "status 3, %s, module refused: " + due if due else "status 0, %s, " + accepted


def listed(due):
    """Modules are listed where they are decoded: M1 to M7 refuse what isn't."""
    return "not listed" if due and int(due[1:].split()[0]) < 8 else "read back"


def line_for(due, accepted):
    return outcome(due, accepted) % listed(due)


def changes():
    """The lines of the list, each with what is due."""
    for name, rows in (("structs-1.6.spv", STRUCTS), ("shared-1.4.spv", SHARED)):
        for word, number, due in rows:
            yield "%s %d %d %d" % (name, word, number, WHOLE), line_for(due, counted(read(name)))
    for word, number, length, due in FIRST + list(truncated()):
        yield "first.spv %d %d %d" % (word, number, length), line_for(due, counted(read("first.spv")))
    for word, number, length, due in FIRST:
        number = int.from_bytes(number.to_bytes(4, "big"), "little")
        yield "first-big.spv %d %d %d" % (word, number, length), line_for(due, counted(read("first.spv")))


def main():
    with open(os.path.join(DATA, "first-big.spv"), "wb") as file:
        file.write(swapped(read("first.spv")))
    with open(os.path.join(DATA, "types.spv"), "wb") as file:
        file.write(debug_types.module())
    out, names = "", ACCEPTED + ["first-big.spv"]
    for name in ACCEPTED:
        out += "%s: %s\n" % (name, line_for(None, counted(read(name))))
    out += "first-big.spv: %s\n" % line_for(None, counted(read("first-big.spv"), ">"))
    for name, due in REFUSED:
        out += "%s: %s\n" % (name, line_for(due, None))
    write("modules", "".join(name + "\n" for name in names + [name for name, _ in REFUSED]))
    rows = list(changes())
    write("changes", "".join(line + "\n" for line, _ in rows))
    out += "".join("%s: %s\n" % row for row in rows)
    groups = {**rules_of_sections.GROUPS, **rules_of_types.GROUPS, **rules_of_blocks.GROUPS}
    for name in ORDER:
        write(name + ".rules", "".join(rule.block() for rule in groups[name]))
        out += name + ".rules\n" + "".join(rule.reply() for rule in groups[name])
    text, due = rules_of_words.texts()
    write("texts.rules", text)
    out += "texts.rules\n" + due
    single = list(rules_of_words.instructions())
    write("instructions", "".join(" ".join(map(str, words)) + "\n" for words, _ in single))
    out += "instructions\n" + "".join(line + "\n" for _, line in single)
    counted_records = list(records.rows())
    write("records", "".join(line + "\n" for line, _ in counted_records))
    out += "records\n" + "".join("%s: %s\n" % row for row in counted_records)
    with open(os.path.join(FOLDER, "stdout"), "w") as file:
        file.write(out)


if __name__ == "__main__":
    main()
