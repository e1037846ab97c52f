"""Sessions that show variables: `print`, `locals` and `globals`, with what is due by hand.

The runs are written by bench/runs.py, and the modules by it too. What is due of each debug type stands in variable_values.py beside the
variable. Words and ids are those at which the assembler put an instruction.
"""
import struct
import source_modules
import variable_scopes
import variable_values as values
from source_runs import BUFFER, C2, C12

C5, C6 = "refused: C5 no such name", "refused: C6 no such part"
ROUNDS = "spvdbg-setup 1\nrounds 30\n"
EXCHANGE, VALUES = source_modules.exchange(), values.MODULE
PHI, STORED, NESTED, MADE = variable_scopes.phi(), variable_scopes.stored(), variable_scopes.nested(), variable_scopes.made()
MODULES = {"values": VALUES, "phi": PHI, "stored": STORED, "nested": NESTED, "made": MADE}
VALUES_SETUP = "spvdbg-setup 1\nbuffer 0 0 hex %s\nrounds 30\n" % struct.pack("<6I", *values.BUFFER).hex()


def file_of(name):
    return "variable-%s.spv" % name


def id_of(assembled, name):
    return "%%%d" % assembled.ids[name]


def of_ids(assembled, rows):
    """`print %ID` for results by name: the text behind `=`, in which `{NAME}` is another result's id; none where the id has no value."""
    for name, text in rows:
        shown = None if text is None else text.format(**{key: "%%%d" % id for key, id in assembled.ids.items() if key in text})
        yield "print " + id_of(assembled, name), ["%s = %s" % (id_of(assembled, name), shown) if shown is not None else C5]


def of_paths(rows):
    for path, text in rows:
        yield "print " + path, [text if text in (C5, C6, C2) else "%s = %s" % (values.shown(path), text)]


# ---- a workgroup of 64

WORKGROUP = [
    ("print i", ["i = <undefined>"]),
    ("globals", ["b = {v = [%s]}" % ", ".join(str(k + 1) for k in range(64))]),
    ("goto 65", ["stop: done", "@65 i=0 main n.comp:7"]),
    ("print i", ["i = 0"]),
    ("locals", ["i = 0"]),
    ("goto 577", ["stop: done", "@577 i=0 main n.comp:9"]),
    ("focus 63", ["@577 i=63 main n.comp:8"]),
    ("print i", ["i = 63"]),
    ("locals", ["i = 63"]),
    *of_ids(EXCHANGE, [("i", "&{i} -> 63"), ("s", "&{s} -> [%s]" % ", ".join(str(k + 1) for k in range(64))), ("t4", "64"), ("p2", "&{s}[63] -> 64"), ("t5", None), ("c64", "64"),
                       ("index", "&{index} -> 63"), ("uint", None), ("main", None), ("di", None)]),
    ("print %0", [C5]), ("print %4294967295", [C5]),
    ("print zz", [C5]), ("print zz.v", [C5]), ("print s", [C5]),
    ("print b.v[64]", [C6]), ("print b.w", [C6]), ("print b[0]", [C6]), ("print b.v.x", [C6]), ("print b.v[0][0]", [C6]), ("print i[0]", [C6]), ("print i.x", [C6]),
    ("print b.v[0", [C2]), ("print b.", [C2]), ("print", [C2]), ("locals 1", [C2]), ("globals 1", [C2]), ("print %1.v", [C2]),
    ("print b.v[0]", ["b.v[0] = 1"]), ("print b.v[0063]", ["b.v[63] = 64"]),
    ("goto 1281", ["stop: done", "@1281 i=63 main n.comp:9"]),
    ("print b.v[0]", ["b.v[0] = 3"]), ("print b.v[1]", ["b.v[1] = 2"]),
    ("back 1", ["stop: done", "@1280 i=63 main n.comp:9"]),
    ("print b.v[0]", ["b.v[0] = 1"]),
    ("goto 1408", ["stop: done, all finished", "@1408 i=63 finished"]),
    ("print b.v[0]", ["b.v[0] = 3"]), ("print b.v[63]", ["b.v[63] = 127"]),
    # of k + 1 and its neighbour's number, with the least bit of the index the other way
    ("globals", ["b = {v = [%s]}" % ", ".join(str(k + 1 + (k ^ 1) + 1) for k in range(64))]),
    ("locals", [C12]), ("print i", [C5]), ("print b.w", [C6]),
    *of_ids(EXCHANGE, [("i", None), ("t4", None), ("c64", "64"), ("index", "&{index} -> 63")]),
    ("back 1408", ["stop: done, start", "@0 i=63 main n.comp:6"]),
    ("print i", ["i = <undefined>"]), ("print b.v[63]", ["b.v[63] = 64"]),
]

# ---- a phi, and what a pointer leads to


def at(assembled, position, name, place=0):
    return "@%d i=0 main word %d" % (position, assembled.starts[name][place])


PHIS = [
    ("print x", ["x = <unavailable>"]), ("locals", ["x = <unavailable>"]),
    ("goto 3", ["stop: done", at(PHI, 3, "IAdd")]), ("print x", ["x = 0"]), *of_ids(PHI, [("n32", "0"), ("n34", None)]),
    ("goto 5", ["stop: done", at(PHI, 5, "ULessThan")]), ("print x", ["x = 0"]), *of_ids(PHI, [("n32", "1"), ("n34", "1"), ("n33", "true")]),
    ("goto 7", ["stop: done", at(PHI, 7, "IAdd")]), ("print x", ["x = 1"]),
    ("goto 11", ["stop: done", at(PHI, 11, "IAdd")]), ("print x", ["x = 2"]),
    ("goto 15", ["stop: done", at(PHI, 15, "Return")]), ("print x", ["x = 2"]), *of_ids(PHI, [("n32", "3"), ("n33", "false")]),
    ("back 8", ["stop: done", at(PHI, 7, "IAdd")]), ("locals", ["x = 1"]),
    ("back 2", ["stop: done", at(PHI, 5, "ULessThan")]), ("locals", ["x = 0"]), *of_ids(PHI, [("n32", "1")]),
    ("back 4", ["stop: done", at(PHI, 1, "ULessThan")]), ("locals", ["x = <unavailable>"]), *of_ids(PHI, [("n32", "0")]),
    ("goto 16", ["stop: done, all finished", "@16 i=0 finished"]), ("locals", [C12]), ("globals", []), ("print x", [C5]),
]
AFTER_STORE = ["x = -5", "y = <unavailable>", "z = -5"]
BEFORE_STORE = ["x = <undefined>", "y = <unavailable>", "z = <undefined>"]
STORES = [
    ("locals", BEFORE_STORE), ("print x", BEFORE_STORE[:1]), ("print y", BEFORE_STORE[1:2]), *of_ids(STORED, [("w", "&{w} -> <undefined>")]),
    ("goto 2", ["stop: done", at(STORED, 2, "IAdd", 1)]), ("locals", AFTER_STORE), ("print x", AFTER_STORE[:1]), *of_ids(STORED, [("w", "&{w} -> -5")]),
    ("back 1", ["stop: done", at(STORED, 1, "Store")]), ("locals", BEFORE_STORE),
    ("goto 4", ["stop: done, all finished", "@4 i=0 finished"]), ("print x", [C5]), *of_ids(STORED, [("w", "&{w} -> -5")]),
]

# ---- scopes

OF_MAIN = ["x = 1", "m = 2", "m = 3"]
OF_OUTER = ["x = 20", "z = 21", "a?b = 22"]
OF_INNER = ["s = <unavailable>", "x = 30"]
NESTS = [
    ("locals", OF_MAIN), ("print x", ["x = 1"]), ("print m", ["m = 2"]), ("print z", [C5]), ("print only", ["only = 98"]), ("print lost", [C5]), ("globals", ["x = 99", "only = 98"]),
    ("fwd 1", ["stop: done", "@1 i=0 main v.comp:2"]), ("locals", OF_OUTER + OF_MAIN), ("print x", ["x = 20"]), ("print a\x07b", ["a?b = 22"]), ("print a?b", [C5]),
    ("fwd 1", ["stop: done", "@2 i=0 main v.comp:3"]), ("locals", ["x = 30"] + OF_OUTER + OF_MAIN), ("print x", ["x = 30"]), ("print s", [C5]),
    ("fwd 1", ["stop: done", "@3 i=0 main v.comp:4"]), ("locals", ["s = 40", "x = 30"] + OF_OUTER + OF_MAIN), ("print s", ["s = 40"]), ("print x", ["x = 30"]),
    # the call of f on line 10, in the inner block, and the one on line 12
    ("fwd 1", ["stop: done", "@4 i=0 f v.comp:21"]), ("locals", ["r = <unavailable>", "p = 50"]), ("print x", ["x = 99"]), ("print m", [C5]),
    ("frame 1", ["#1 main v.comp:10"]), ("locals", ["x = 30"] + OF_OUTER + OF_MAIN), ("print x", ["x = 30"]), ("print p", [C5]), ("frame 2", ["refused: C4 no such frame"]),
    ("fwd 1", ["stop: done", "@5 i=0 f v.comp:22"]), ("locals", ["r = <unavailable>", "p = 60"]),
    ("frame 1", ["#1 main v.comp:12"]), ("locals", OF_MAIN), ("print x", ["x = 1"]),
    ("fwd 1", ["stop: done", "@6 i=0 f v.comp:23"]), ("locals", ["r = 61", "p = 50"]), ("print r", ["r = 61"]),
    ("fwd 1", ["stop: done", "@7 i=0 main v.comp:5"]), ("locals", ["x = 70"] + OF_OUTER[1:] + OF_MAIN), ("print x", ["x = 70"]), ("print p", [C5]),
    # a block in no function, and no scope: there are no locals
    ("fwd 1", ["stop: done", "@8 i=0 %%%d v.comp:6" % NESTED.ids["main"]]), ("locals", []), ("print lost", [C5]), ("print x", ["x = 99"]),
    ("fwd 1", ["stop: done", "@9 i=0 %%%d v.comp:6" % NESTED.ids["main"]]), ("locals", []), ("print x", ["x = 99"]), ("print m", [C5]),
    ("back 4", ["stop: done", "@5 i=0 f v.comp:22"]), ("locals", ["r = <unavailable>", "p = 60"]),
    ("back 3", ["stop: done", "@2 i=0 main v.comp:3"]), ("locals", ["x = 30"] + OF_OUTER + OF_MAIN),
    ("back 2", ["stop: done, start", "@0 i=0 main v.comp:1"]), ("locals", OF_MAIN),
]
CALLS = [
    ("locals", ["m = <unavailable>"]),
    ("fwd 1", ["stop: done", "@1 i=0 f v.comp:5"]), ("locals", ["p = 7", "v = <undefined>", "late = <unavailable>"]),
    *of_ids(MADE, [("slot", "&{slot} -> <undefined>"), ("given", "7"), ("first", None), ("c7", "7")]),
    ("frame 1", ["#1 main v.comp:9"]), ("locals", ["m = <unavailable>"]), ("print p", [C5]), *of_ids(MADE, [("slot", None), ("given", None), ("c7", "7")]),
    ("goto 4", ["stop: done", "@4 i=0 f v.comp:5"]), ("locals", ["p = 7", "v = 14", "late = 14"]), *of_ids(MADE, [("slot", "&{slot} -> 14"), ("twice", "14")]),
    ("fwd 1", ["stop: done", "@5 i=0 main v.comp:9"]), ("locals", ["m = 14"]), ("print v", [C5]), *of_ids(MADE, [("twice", None), ("first", "14")]),
    ("fwd 1", ["stop: done", "@6 i=0 f v.comp:5"]), ("locals", ["p = 14", "v = <undefined>", "late = <unavailable>"]), ("frame 1", ["#1 main v.comp:9"]), ("locals", ["m = 14"]),
    ("goto 10", ["stop: done", "@10 i=0 main v.comp:9"]), ("locals", ["m = 28"]),
    ("back 1", ["stop: done", "@9 i=0 f v.comp:5"]), ("locals", ["p = 14", "v = 28", "late = 28"]),
    ("back 7", ["stop: done", "@2 i=0 f v.comp:5"]), ("locals", ["p = 7", "v = 7", "late = <unavailable>"]),
]

# ---- values of each debug type

def lines_of(rows, **changed):
    return ["%s = %s" % (values.shown(name), changed.get(name, text)) for name, *_, text in rows]


IN_LOCALS = lines_of(values.VALUES)
IN_GLOBALS = lines_of(values.GLOBALS)
# after 3 was stored in `shared`, 8 in the buffer's last number, and 2 in `own`
LATER = dict(deref="2", deref_sum="4", declared="2", declared_deref="2", declared_part="[1, 2]", declared_shared="3")
AT_END = {
    "g_block": "{n = 7, data = [1, 2, 3, 4, 8]}", "g_two_of": "{n = 7, data = [[1, 2], [3, 4]]}", "g_last_of_two": "{n = 7, data = [[], [1, 2, 3, 4, 8]]}",
    "g_whole": "[7, 1, 2, 3, 4, 8]", "g_typedef": "[7, 1, 2, 3, 4, 8]", "g_deep": "[{a = [7, 1], last = []}, {a = [2, 3], last = [4, 8]}]",
    "g_seven": "[7, 1, 2, 3, 4, 8, <unavailable>]", "g_own": "2", "g_shared": "3",
}
PARTS = [
    ("point.x", "7"), ("point.y", "9"), ("point.z", C6), ("point[0]", C6), ("point.x.y", C6), ("same_names.x", "1"), ("empty.x", C6), ("control_member.a\x02b", "5"),
    ("control_member.a?b", C6), ("no_members_between.y", "2"), ("mixed.byte", "200"), ("mixed.flag", "true"), ("mixed.long", "-1"), ("mixed.p", "[1, 2]"), ("mixed.p[1]", "2"), ("mixed.p[2]", C6),
    ("with_pointer.p", "<unavailable>"), ("with_pointer.y", "2"), ("with_pointer.p[0]", C6), ("pair[0]", "1"), ("pair[1]", "2"), ("pair[2]", C6), ("pair.x", C6), ("half_defined[1]", "<undefined>"),
    ("matrix[1]", "[4, 5, 6]"), ("matrix[1][0]", "4"), ("matrix[2]", C6), ("matrix[0][3]", C6), ("array23[1]", "[4, 5, 6]"), ("array23[1][2]", "6"), ("array23[2]", C6), ("array23[0][3]", C6),
    ("array23[1][2][0]", C6), ("array123[0][1]", "[4, 5, 6]"), ("array123[0]", "[[1, 2, 3], [4, 5, 6]]"), ("array_of_array[1][2]", "6"), ("array0[0]", C6), ("array20[1]", "[]"), ("array20[1][0]", C6),
    ("array20[2]", C6), ("array02[0]", C6), ("with_array0.a", "[]"), ("with_array0.x", "5"), ("many[299]", "9"), ("many[300]", C6), ("rows[2][99]", "9"), ("rows[2]", "[%s]" % ", ".join(values.digits(100))),
    ("typedef[0]", C6), ("of_member.p[0]", "9"), ("of_vector[0]", C6), ("red[0]", C6), ("unsigned.x", C6), ("unsigned[0]", C6), ("size65[0]", C6), ("pointer[0]", C6), ("pointers[1]", "<unavailable>"),
    ("of_no_type.x", C6), ("nothing_pair[1]", "<unavailable>"), ("deep.b.q", "7"), ("v[0]", "3149598993"), ("v[1]", "572697258"), ("v_alone[1]", "<unavailable>"), ("undefined[0]", C6),
    ("g_block.n", "7"), ("g_block.data", "[1, 2, 3, 4, 5]"), ("g_block.data[4]", "5"), ("g_block.data[5]", C6), ("g_pairs.data[1]", "[3, 4]"), ("g_pairs.data[1][1]", "4"), ("g_pairs.data[2]", C6),
    ("g_longs.data[1]", "17179869187"), ("g_longs.data[2]", C6), ("g_two_of.data[1][1]", "4"), ("g_two_of.data[2]", C6), ("g_two_of.data[1][2]", C6), ("g_last_of_two.data[0][0]", C6),
    ("g_last_of_two.data[0]", "[]"), ("g_last_of_two.data[1][4]", "5"), ("g_last_of_two.data[1][5]", C6), ("g_not_last.data[0]", C6), ("g_whole[5]", "5"), ("g_whole[6]", C6), ("g_typedef[1]", "1"),
    ("g_deep[1].last[1]", "5"), ("g_deep[1].last[2]", C6), ("g_deep[0].last[0]", C6), ("g_deep[1].a[0]", "2"), ("g_no_bits[0]", C6), ("g_seven[6]", "<unavailable>"), ("g_of_none_open[0]", C6),
    ("g_constant_open[2]", "3"), ("g_constant_open[3]", C6), ("g_constant[1]", "2"), ("g_enum.x", C6), ("g\x03control", "7"), ("g?control", C5), ("one", "0x3f800000"),
]
CONSTANTS = [
    ("u12", "[1, 2]"), ("half_defined", "[1, <undefined>]"), ("yes", "true"), ("no_yes", "[false, true]"), ("minus1", "-1"), ("byte200", "200"),
    ("long_all", "18446744073709551615"), ("u123456", "[[1, 2, 3], [4, 5, 6]]"),
    ("many_numbers", "[%s, ...]" % ", ".join(values.digits(256))), ("undef", None), ("undef2", None), ("elsewhere", None), ("other_sum", None), ("main", None), ("uint", None), ("dmain", None), ("set", None),
]
ALL_OF_THEM = [
    ("locals", IN_LOCALS), ("globals", IN_GLOBALS),
    *[("print " + name, ["%s = %s" % (values.shown(name), text)]) for name, _, _, text in values.VALUES], *of_paths(PARTS), *of_ids(VALUES, CONSTANTS),
    *of_ids(VALUES, [
        ("sum", None), ("place", None), ("slot", "&{slot} -> <undefined>"), ("unset", "&{unset} -> <undefined>"), ("b", "&{b} -> {{0 = 7, 1 = [1, 2, 3, 4, 5]}}"), ("own", "&{own} -> 13"),
        ("shared", "&{shared} -> <undefined>"), ("room", "&{room} -> [<undefined>, <undefined>]"), ("index", "&{index} -> 0"),
    ]),
    ("goto 6", ["stop: done", at(VALUES, 6, "Store", 2)]),
    *of_ids(VALUES, [
        ("sum", "3"), ("slot", "&{slot} -> 3"), ("unset", "&{unset} -> <undefined>"), ("place", "&{b}[1][4] -> 5"), ("nowhere", "&{b}[1][6] -> <unavailable>"),
        ("before", "&{b}[1][-1] -> <unavailable>"), ("shared", "&{shared} -> 3"),
    ]),
    ("goto 8", ["stop: done", at(VALUES, 8, "Return")]), ("locals", lines_of(values.VALUES, **LATER)), *of_ids(VALUES, [("place", "&{b}[1][4] -> 8"), ("own", "&{own} -> 2")]),
    ("back 8", ["stop: done, start", at(VALUES, 0, "IAdd")]), ("locals", IN_LOCALS),
    ("goto 9", ["stop: done, all finished", "@9 i=0 finished"]), ("globals", lines_of(values.GLOBALS, **AT_END)), ("locals", [C12]), ("print pair", [C5]), ("print one", ["one = 10"]),
    *of_ids(VALUES, [
        ("slot", None), ("sum", None), ("u12", "[1, 2]"), ("b", "&{b} -> {{0 = 7, 1 = [1, 2, 3, 4, 8]}}"), ("own", "&{own} -> 2"), ("undef", None), ("index", "&{index} -> 0"),
    ]),
    *of_paths([("g_block.data[4]", "8"), ("g_block.data[5]", C6), ("g_deep[1].last", "[4, 8]")]),
]

RUNS = [
    ("variables of a workgroup", "source-exchange.spv", BUFFER + "rounds 30\n", WORKGROUP),
    ("a variable on a phi", file_of("phi"), ROUNDS, PHIS),
    ("what a pointer leads to now", file_of("stored"), ROUNDS, STORES),
    ("variables in scopes", file_of("nested"), ROUNDS, NESTS),
    ("variables in calls", file_of("made"), ROUNDS, CALLS),
    ("values of debug types", file_of("values"), VALUES_SETUP, ALL_OF_THEM),
]


def modules():
    for name, assembled in MODULES.items():
        yield file_of(name), assembled.data


def calls():
    """What each run is, its module, setup and commands, the status and what is written."""
    for what, module, setup, rows in RUNS:
        yield what, module, setup, "".join(command + "\n" for command, _ in rows), 0, "".join(line + "\n" for _, due in rows for line in due)
