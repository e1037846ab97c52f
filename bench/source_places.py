"""A module with what can be in force at an instruction, and the frames that are due there, by hand.

Each row of PLACES is what is put before an addition, and the frames that are shown at it, the innermost first; `W` is the addition's
word. What isn't put stays in force from the row before, up to the end of the block. `o??name` is the OpName of the function, whose two
bytes behind the `o` are no characters that are shown.
"""
from assembler import Assembled
from source_modules import add, function, line, scope, start, strings, types, unit

OP_NAME = "o\x1f\x7fname"
STRINGS = strings(
    d="d.comp", other="\u00e9.comp", nameless="", odd="a\x01b c.comp\x7f", nmain="main", nempty="", ncontrol="f\x07\x1b\tg", nfar="far away", nblock="block",
    nbox="Box", ninner="inner",
)
DESCRIBED = [
    *[("s" + name, "DebugSource", name) for name in ("d", "other", "nameless", "odd")], *unit("sd"),
    function("dmain", "nmain", "sd"), function("dempty", "nempty", "sd"), function("dcontrol", "ncontrol", "sodd"), function("dfar", "nfar", "sother"),
    ("block", "DebugLexicalBlock", "sother", "c3", "c0", "dmain"), ("deeper", "DebugLexicalBlock", "sd", "c4", "c0", "block", "nblock"),
    ("part", "DebugLexicalBlockDiscriminator", "snameless", "c1", "deeper"), ("split", "DebugLexicalBlockDiscriminator", "snameless", "c1", "dfar"),
    ("loose", "DebugLexicalBlock", "sodd", "c5", "c0", "unit"),
    ("box", "DebugTypeComposite", "nbox", "c0", "sd", "c2", "c0", "dfar", "nbox", "c0", "c0"), function("dinner", "ninner", "sd", "box"),
    ("tiny", "DebugTypeBasic", "nbox", "c32", "c6", "c0"),
    ("at_zero", "DebugInlinedAt", "c0", "dmain"), ("at_unit", "DebugInlinedAt", "c5", "unit"), ("at_loose", "DebugInlinedAt", "c4", "loose"),
    ("at_block", "DebugInlinedAt", "c6", "block"), ("at_part", "DebugInlinedAt", "c7", "part"), ("at_split", "DebugInlinedAt", "c8", "split"),
    ("at_box", "DebugInlinedAt", "c9", "box"), ("two", "DebugInlinedAt", "c3", "dcontrol", "at_block"), ("three", "DebugInlinedAt", "c2", "dempty", "two"),
    ("over_zero", "DebugInlinedAt", "c1", "dfar", "at_zero"),
    # malformed: outside of a block, a scope and a line that are none, a number that the set hasn't
    scope("dmain"), line("sd", 1), ("-", "DebugInlinedAt", "c1", "sd"), ("-", "DebugInlinedAt", "d", "dmain"), ("-", "DebugUnknown", "c1"),
]
MALFORMED_BEFORE = 5


def op_line(file, value):
    return None, "Line", file, value, 3


NO_OP_LINE, NO_LINE, NO_SCOPE = (None, "NoLine"), ("-", "DebugNoLine"), ("-", "DebugNoScope")
PLACES = [
    ([], ["o??name word W"]),
    # lines: of OpLine, of the debug set, and none
    ([op_line("d", 5)], ["o??name d.comp:5"]),
    ([line("sd", 7)], ["o??name d.comp:7"]),
    ([op_line("other", 9)], ["o??name d.comp:7"]),
    ([NO_OP_LINE], ["o??name d.comp:7"]),
    ([op_line("other", 4294967295), NO_LINE], ["o??name \u00e9.comp:4294967295"]),
    ([line("sd", 0)], ["o??name word W"]),
    ([NO_LINE], ["o??name \u00e9.comp:4294967295"]),
    ([op_line("d", 0)], ["o??name word W"]),
    ([line("sother", 0xFFFFFFFF)], ["o??name \u00e9.comp:4294967295"]),
    ([NO_LINE], ["o??name word W"]),
    ([op_line("d", 3), NO_OP_LINE], ["o??name word W"]),
    # scopes: functions, one without a name, one whose name has bytes that aren't shown
    ([scope("dmain")], ["main word W"]),
    ([line("sd", 8)], ["main d.comp:8"]),
    ([scope("dempty")], ["o??name d.comp:8"]),
    ([scope("dcontrol")], ["f???g d.comp:8"]),
    ([line("sodd", 4)], ["f???g a?b c.comp?:4"]),
    ([line("snameless", 6)], ["f???g :6"]),
    ([NO_SCOPE], ["o??name :6"]),
    # scopes that lead outward to a function, or to none
    ([scope("block")], ["main :6"]),
    ([scope("deeper"), line("sd", 2)], ["main d.comp:2"]),
    ([scope("part")], ["main d.comp:2"]),
    ([scope("split")], ["far away d.comp:2"]),
    ([scope("box")], ["far away d.comp:2"]),
    ([scope("dinner")], ["inner d.comp:2"]),
    ([scope("unit")], ["o??name d.comp:2"]),
    ([scope("loose")], ["o??name d.comp:2"]),
    ([scope("none")], ["o??name d.comp:2"]),
    # calls that were inlined: a line 0, a scope in no function, blocks, parts and types around the call
    ([scope("dcontrol", "at_zero")], ["f???g d.comp:2", "main word W"]),
    ([scope("dcontrol", "at_unit")], ["f???g d.comp:2", "o??name :5"]),
    ([scope("dcontrol", "at_loose")], ["f???g d.comp:2", "o??name a?b c.comp?:4"]),
    ([scope("dfar", "at_block")], ["far away d.comp:2", "main \u00e9.comp:6"]),
    ([scope("dfar", "at_part")], ["far away d.comp:2", "main d.comp:7"]),
    ([scope("dmain", "at_split")], ["main d.comp:2", "far away \u00e9.comp:8"]),
    ([scope("dmain", "at_box")], ["main d.comp:2", "far away \u00e9.comp:9"]),
    ([scope("deeper", "two")], ["main d.comp:2", "f???g a?b c.comp?:3", "main \u00e9.comp:6"]),
    ([scope("part", "three")], ["main d.comp:2", "o??name d.comp:2", "f???g a?b c.comp?:3", "main \u00e9.comp:6"]),
    ([scope("dmain", "over_zero"), line("sd", 0)], ["main word W", "far away \u00e9.comp:1", "main word W"]),
    # a scope in no function has no calls around it
    ([scope("unit", "three"), line("sd", 9)], ["o??name d.comp:9"]),
    # malformed ones don't count
    ([scope("dmain", "two"), scope("tiny"), scope("dfar", "dmain"), ("-", "DebugScope"), ("-", "DebugUnknown", "c1")],
     ["main d.comp:9", "f???g a?b c.comp?:3", "main \u00e9.comp:6"]),
    ([("-", "DebugLine", "sd", "d", "c1", "c0", "c0"), ("-", "DebugLine", "sd", "c1", "c1", "c0"), ("-", "DebugLine", "dmain", "c1", "c1", "c0", "c0")],
     ["main d.comp:9", "f???g a?b c.comp?:3", "main \u00e9.comp:6"]),
    # operands past those of the set don't matter
    ([("-", "DebugLine", "sd", "c1", "c1", "c0", "c0", "c0", "c0"), ("-", "DebugScope", "dfar", "at_block", "c0")], ["far away d.comp:1", "main \u00e9.comp:6"]),
]
MALFORMED = MALFORMED_BEFORE + 4 + 3

# The next block, in which nothing is in force at first, nor the OpLine that stands before its label.
BEHIND = [
    ([], ["o??name word W"]),
    ([scope("dmain"), op_line("d", 2)], ["main d.comp:2"]),
]


def rows_of(places):
    for put, _ in places:
        yield from put
        yield add()


def module():
    body = [
        ("main", "Function", "void", 0, "fn"), ("-", "Label"), *rows_of(PLACES), (None, "Branch", "next"),
        op_line("d", 1), ("next", "Label"), *rows_of(BEHIND), (None, "Return",), (None, "FunctionEnd",),
    ]
    names = [(None, "Name", "main", '"%s"' % OP_NAME), (None, "Name", "main", '"later"')]
    return Assembled(start(1, (), STRINGS, names) + types() + DESCRIBED + body)
