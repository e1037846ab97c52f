"""Variables of each debug type with the texts that are due, by hand.

Each row of VALUES is the name of a local, its debug type, its events, and its text at position 0; each of GLOBALS a debug global, its
type, the module variable or constant, and its text at the start.
"""
from assembler import Assembled
from source_modules import INPUT, LOCAL_INDEX, STORAGE, WORKGROUP, add, scope
from variable_modules import (
    ADDRESS, BIT_PIECE, BOOLEAN, DEREF, FLOAT, FRAGMENT, LITERAL, MINUS, OTHER, PLUS, PLUS_LITERAL, PRIVATE, SIGNED, SIGNED_CHAR, STACK_VALUE, SWAP,
    UNSIGNED, UNSIGNED_CHAR, UNSPECIFIED, XDEREF, Described, event, module,
)

ALL = 0xFFFFFFFF
UNAVAILABLE, UNDEFINED = "<unavailable>", "<undefined>"
D = Described()
U8, U16, U32, U64 = (D.basic(size, UNSIGNED) for size in (8, 16, 32, 64))
S8, S32, S64 = (D.basic(size, SIGNED) for size in (8, 32, 64))
BOOL, FLOATS = D.basic(32, BOOLEAN), D.basic(32, FLOAT)
PAIR, TRIPLE = D.vector(U32, 2), D.vector(U32, 3)
POINT = D.composite(("x", U32), ("y", U32))

# What the values are, beside the constants cN.
DECLARED = [
    ("int", "TypeInt", 32, 1), ("uchar", "TypeInt", 8, 0), ("ushort", "TypeInt", 16, 0), ("ulong", "TypeInt", 64, 0), ("uint2", "TypeVector", "uint", 2),
    ("uint3", "TypeVector", "uint", 3), ("two3", "TypeArray", "uint3", "c2"), ("six", "TypeArray", "uint", "c6"), ("many", "TypeArray", "uint", "c300"),
    ("most", "TypeArray", "uint", "c256"), ("bool2", "TypeVector", "bool", 2), ("mixed", "TypeStruct", "uchar", "bool", "ulong", "uint2"),
    ("long2", "TypeVector", "ulong", 2), ("point", "TypeStruct", "uint", "uint"),
    ("yes", "ConstantTrue", "bool"), ("no", "ConstantFalse", "bool"), ("no_yes", "ConstantComposite", "bool2", "no", "yes"),
    ("minus1", "Constant", "int", ALL), ("byte200", "Constant", "uchar", 200), ("byte250", "Constant", "uchar", 250), ("half", "Constant", "ushort", 0x3C00),
    ("long_all", "Constant", "ulong", ALL, ALL), ("double1", "Constant", "ulong", 0, 0x3FF00000), ("long_top", "Constant", "ulong", 0, 0x80000000),
    ("u12", "ConstantComposite", "uint2", "c1", "c2"), ("u123", "ConstantComposite", "uint3", "c1", "c2", "c3"), ("u456", "ConstantComposite", "uint3", "c4", "c5", "c6"),
    ("u123456", "ConstantComposite", "two3", "u123", "u456"), ("six_numbers", "ConstantComposite", "six", "c1", "c2", "c3", "c4", "c5", "c6"),
    ("many_numbers", "ConstantComposite", "many", *["c%d" % (k % 10) for k in range(300)]),
    ("most_numbers", "ConstantComposite", "most", *["c%d" % (k % 10) for k in range(256)]),
    ("mixed_value", "ConstantComposite", "mixed", "byte200", "yes", "long_all", "u12"), ("point_value", "ConstantComposite", "point", "c7", "c9"),
    ("two_longs", "ConstantComposite", "long2", "long_all", "double1"),
    ("undef", "Undef", "uint"), ("undef2", "Undef", "uint2"), ("undef_byte", "Undef", "uchar"), ("half_defined", "ConstantComposite", "uint2", "c1", "undef"),
    ("to_input", "TypePointer", INPUT, "uint"), ("to_private", "TypePointer", PRIVATE, "uint"), ("to_shared", "TypePointer", WORKGROUP, "uint"),
    ("to_room", "TypePointer", WORKGROUP, "uint2"), ("numbers", "TypeRuntimeArray", "uint"), ("B", "TypeStruct", "uint", "numbers"),
    ("to_block", "TypePointer", STORAGE, "B"), ("to_number", "TypePointer", STORAGE, "uint"), ("function_uint", "TypePointer", 7, "uint"),
    ("index", "Variable", "to_input", INPUT), ("own", "Variable", "to_private", PRIVATE, "c13"), ("shared", "Variable", "to_shared", WORKGROUP),
    ("room", "Variable", "to_room", WORKGROUP), ("b", "Variable", "to_block", STORAGE),
]
DECORATED = [
    (None, "Decorate", "index", 11, LOCAL_INDEX), (None, "Decorate", "B", 2), (None, "MemberDecorate", "B", 0, 35, 0), (None, "MemberDecorate", "B", 1, 35, 4),
    (None, "Decorate", "numbers", 6, 4), (None, "Decorate", "b", 34, 0), (None, "Decorate", "b", 33, 0),
]
BUFFER = [7, 1, 2, 3, 4, 5]


def digits(count):
    return [str(k % 10) for k in range(count)]


COLOURS = [(0, "red"), (1, "green"), (1, "lime"), (4, "\x01blue\x7f")]
VALUES = [
    # ---- numbers by their encodings
    ("unspecified", D.basic(32, UNSPECIFIED), [event("c%d" % ALL)], "4294967295"),
    ("address", D.basic(64, ADDRESS), [event("long_all")], "18446744073709551615"),
    ("boolean", BOOL, [event("yes")], "true"),
    ("boolean_no", BOOL, [event("no")], "false"),
    ("boolean_two", BOOL, [event("c2")], "true"),
    ("boolean_bit", D.basic(1, BOOLEAN), [event("c2")], "false"),
    ("boolean_byte", D.basic(8, BOOLEAN), [event("byte200")], "true"),
    ("one", FLOATS, [event("c1065353216")], "0x3f800000"),
    ("none", FLOATS, [event("c0")], "0x00000000"),
    ("half", D.basic(16, FLOAT), [event("half")], "0x3c00"),
    ("double", D.basic(64, FLOAT), [event("double1")], "0x3ff0000000000000"),
    ("float13", D.basic(13, FLOAT), [event("c%d" % ALL)], "0x1fff"),
    ("float1", D.basic(1, FLOAT), [event("c3")], "0x1"),
    ("signed", S32, [event("c%d" % ALL)], "-1"),
    ("signed_least", S32, [event("c%d" % 0x80000000)], "-2147483648"),
    ("signed1", D.basic(1, SIGNED), [event("c1")], "-1"),
    ("signed7", D.basic(7, SIGNED), [event("c64")], "-64"),
    ("signed64", S64, [event("long_top")], "-9223372036854775808"),
    ("signed_char", D.basic(8, SIGNED_CHAR), [event("byte200")], "-56"),
    ("unsigned", U32, [event("minus1")], "4294967295"),
    ("unsigned64", U64, [event("long_top")], "9223372036854775808"),
    ("unsigned_char", D.basic(8, UNSIGNED_CHAR), [event("byte200")], "200"),
    ("other_encoding", D.basic(32, OTHER), [event("minus1")], "4294967295"),
    ("greatest_encoding", D.row("DebugTypeBasic", D.text("basic"), "c32", "c%d" % ALL, "c0"), [event("minus1")], "4294967295"),
    ("size0", D.basic(0, UNSIGNED), [event("c1")], UNAVAILABLE),
    ("size65", D.basic(65, UNSIGNED), [event("two_longs")], UNAVAILABLE),
    ("sizes65", D.vector(D.basic(65, UNSIGNED), 2), [event("two_longs")], "[<unavailable>, <unavailable>]"),
    ("cut", U8, [event("c456")], "200"),
    ("too_wide", U32, [event("byte200")], UNAVAILABLE),
    ("behind65", D.composite(("a", D.basic(65, UNSIGNED)), ("b", D.basic(31, UNSIGNED))), [event("two_longs")], "{a = <unavailable>, b = 0}"),
    # ---- enumerations
    ("red", D.enum(U32, *COLOURS), [event("c0")], "red"),
    ("green", D.enum(U32, *COLOURS), [event("c1")], "green"),
    ("three", D.enum(U32, *COLOURS), [event("c3")], "3"),
    ("blue", D.enum(U32, *COLOURS), [event("c4")], "?blue?"),
    ("no_pairs", D.enum(U32), [event("c4")], "4"),
    ("half_a_pair", D.enum(U32, (4, "four"), more=("c5",)), [event("c5")], "5"),
    ("unsigned_enum", D.enum(U32, (ALL, "top")), [event("minus1")], "top"),
    ("signed_enum", D.enum(S32, (ALL, "below")), [event("minus1")], "below"),
    ("signed_unnamed", D.enum(S32, (1, "one")), [event("minus1")], "-1"),
    ("signed_byte", D.enum(S8, (ALL, "below")), [event("c255")], "below"),
    ("signed_byte_255", D.enum(S8, (255, "not this")), [event("c255")], "-1"),
    ("unsigned_byte", D.enum(U8, (ALL, "not this"), (255, "this")), [event("c255")], "this"),
    ("unsigned_byte_top", D.enum(U8, (ALL, "not this")), [event("c255")], "255"),
    ("signed_long", D.enum(S64, (ALL, "below")), [event("long_all")], "below"),
    ("unsigned_long", D.enum(U64, (ALL, "not this")), [event("long_all")], "18446744073709551615"),
    ("char_enum", D.enum(D.basic(8, SIGNED_CHAR), (4294967240, "minus 56")), [event("byte200")], "minus 56"),
    ("float_enum", D.enum(FLOATS, (5, "five")), [event("c1065353216")], "1065353216"),
    ("boolean_enum", D.enum(BOOL, (1, "on")), [event("yes")], "on"),
    ("boolean_unnamed", D.enum(BOOL, (0, "off")), [event("yes")], "1"),
    ("of_typedef", D.enum(D.typedef(D.qualifier(U32)), (4, "four")), [event("c4")], "four"),
    ("of_enum", D.enum(D.enum(U32, (4, "inner four")), (4, "outer four")), [event("c4")], "inner four"),
    ("of_vector", D.enum(PAIR, (1, "one")), [event("u12")], "[1, 2]"),
    ("of_size0", D.enum(D.basic(0, UNSIGNED), (0, "zero")), [event("c0")], UNAVAILABLE),
    ("of_none", D.enum("none", (0, "zero")), [event("c0")], UNAVAILABLE),
    ("enum_undefined", D.enum(U32, *COLOURS), [event("undef")], UNDEFINED),
    ("enum_without", D.enum(U32, *COLOURS), [], UNAVAILABLE),
    ("unnamed_name", D.enum(U32, (4, "")), [event("c4")], ""),
    # ---- names of types, vectors, matrices, arrays
    ("typedef", D.typedef(S32), [event("minus1")], "-1"),
    ("qualifier", D.qualifier(D.typedef(D.qualifier(U32))), [event("c9")], "9"),
    ("pair", PAIR, [event("u12")], "[1, 2]"),
    ("booleans", D.vector(BOOL, 2), [event("no_yes")], "[false, true]"),
    ("vector_of_pairs", D.vector(PAIR, 3), [event("six_numbers")], "[[1, 2], [3, 4], [5, 6]]"),
    ("matrix", D.matrix(TRIPLE, 2), [event("u123456")], "[[1, 2, 3], [4, 5, 6]]"),
    ("matrix0", D.matrix(TRIPLE, 0), [event("u123456")], "[]"),
    ("vector0", D.vector(U32, 0), [event("c1")], "[]"),
    ("array6", D.array(U32, 6), [event("six_numbers")], "[1, 2, 3, 4, 5, 6]"),
    ("array23", D.array(U32, 2, 3), [event("six_numbers")], "[[1, 2, 3], [4, 5, 6]]"),
    ("array32", D.array(U32, 3, 2), [event("six_numbers")], "[[1, 2], [3, 4], [5, 6]]"),
    ("array123", D.array(U32, 1, 2, 3), [event("six_numbers")], "[[[1, 2, 3], [4, 5, 6]]]"),
    ("array_of_array", D.array(D.array(U32, 3), 2), [event("six_numbers")], "[[1, 2, 3], [4, 5, 6]]"),
    ("array0", D.array(U32, 0), [event("six_numbers")], "[]"),
    ("array20", D.array(U32, 2, 0), [event("six_numbers")], "[[], []]"),
    ("array02", D.array(U32, 0, 2), [event("six_numbers")], "[]"),
    ("halves", D.vector(U16, 4), [event("u12")], "[1, 0, 2, 0]"),
    # ---- composites
    ("point", POINT, [event("point_value")], "{x = 7, y = 9}"),
    ("point_of_vector", POINT, [event("u12")], "{x = 1, y = 2}"),
    ("empty", D.composite(), [event("c1")], "{}"),
    ("one_member", D.composite(("only", U32)), [event("c5")], "{only = 5}"),
    ("no_members_between", D.composite(U32, ("x", U32), "none", ("y", U32), POINT), [event("u12")], "{x = 1, y = 2}"),
    ("control_member", D.composite(("a\x02b", U32)), [event("c5")], "{a?b = 5}"),
    ("mixed", D.composite(("byte", U8), ("flag", BOOL), ("long", S64), ("p", PAIR)), [event("mixed_value")], "{byte = 200, flag = true, long = -1, p = [1, 2]}"),
    ("with_array0", D.composite(("a", D.array(U32, 0)), ("x", U32)), [event("c5")], "{a = [], x = 5}"),
    ("with_pointer", D.composite(("x", U32), ("p", D.pointer(U32)), ("y", U32)), [event("u12")], "{x = 1, p = <unavailable>, y = 2}"),
    ("same_names", D.composite(("x", U32), ("x", U32)), [event("u12")], "{x = 1, x = 2}"),
    # ---- long values: 256 numbers and empty lists are written
    ("most", D.array(U32, 256), [event("most_numbers")], "[%s]" % ", ".join(digits(256))),
    ("many", D.array(U32, 300), [event("many_numbers")], "[%s, ...]" % ", ".join(digits(256))),
    ("rows", D.array(U32, 3, 100), [event("many_numbers")], "[[%s], [%s], [%s, ...]]" % (", ".join(digits(100)), ", ".join(digits(100)), ", ".join(digits(56)))),
    ("rows_cut", D.array(U32, 3, 86), [event("many_numbers")],
     "[[%s], [%s], [%s, ...]]" % (", ".join(digits(86)), ", ".join((digits(10) * 20)[86:172]), ", ".join((digits(10) * 30)[172:256]))),
    ("full_rows", D.array(U32, 3, 128), [event("many_numbers")], "[[%s], [%s], ...]" % (", ".join(digits(128)), ", ".join((digits(10) * 30)[128:256]))),
    ("lists", D.array(D.array(U32, 0), 300), [event("c0")], "[%s, ...]" % ", ".join(["[]"] * 256)),
    ("structs", D.array(D.composite(), 257), [event("c0")], "[%s, ...]" % ", ".join(["{}"] * 256)),
    ("cut_struct", D.composite(("a", D.array(U32, 255)), ("b", U32), ("c", U32)), [event("many_numbers")], "{a = [%s], b = 5, ...}" % ", ".join(digits(255))),
    ("deep", D.composite(("a", D.array(U32, 255)), ("b", D.composite(("p", PAIR), ("q", U32))), ("c", U32)), [event("many_numbers")],
     "{a = [%s], b = {p = [5, ...], ...}, ...}" % ", ".join(digits(255))),
    ("empty_list_first", D.composite(("e", D.array(U32, 0)), ("a", D.array(U32, 300))), [event("many_numbers")], "{e = [], a = [%s, ...]}" % ", ".join(digits(255))),
    # ---- what has no bits
    ("pointer", D.pointer(U32), [event("b")], UNAVAILABLE),
    ("of_function_type", "kind", [event("c1")], UNAVAILABLE),
    ("of_no_type", "none", [event("c1")], UNAVAILABLE),
    ("pointers", D.array(D.pointer(U32), 2), [event("c1")], "[<unavailable>, <unavailable>]"),
    # ---- what isn't defined, and what nothing is told of
    ("undefined", U32, [event("undef")], UNDEFINED),
    ("undefined_pair", PAIR, [event("undef2")], "[<undefined>, <undefined>]"),
    ("half_defined", PAIR, [event("half_defined")], "[1, <undefined>]"),
    ("undefined_float", FLOATS, [event("undef")], UNDEFINED),
    ("nothing", U32, [], UNAVAILABLE),
    ("nothing_pair", PAIR, [], "[<unavailable>, <unavailable>]"),
    ("later", U32, [event("sum")], UNAVAILABLE),
    ("unbound_and_undefined", U32, [event("undef_byte")], UNAVAILABLE),
    # ---- fragments
    ("v", PAIR, [event("c%d" % 0x11111111, (FRAGMENT, 0, 32)), event("c%d" % 0x22222222, (FRAGMENT, 32, 32)), event("c%d" % 0xAAAABBBB, (FRAGMENT, 16, 32))],
     "[3149598993, 572697258]"),
    ("v_alone", PAIR, [event("c%d" % 0x11111111, (FRAGMENT, 0, 32))], "[286331153, <unavailable>]"),
    ("v_undefined", PAIR, [event("undef2")], "[<undefined>, <undefined>]"),
    ("v_whole_last", PAIR, [event("c9", (FRAGMENT, 0, 32)), event("u12")], "[1, 2]"),
    ("undefined_piece", U32, [event("c1"), event("undef_byte", (FRAGMENT, 8, 8))], UNDEFINED),
    ("behind_the_part", PAIR, [event("u12"), event("c9", (FRAGMENT, 48, 32))], "[1, 2]"),
    ("short_piece", PAIR, [event("u12"), event("byte200", (FRAGMENT, 0, 32))], "[<unavailable>, 2]"),
    ("empty_piece", PAIR, [event("u12"), event("c9", (FRAGMENT, 3, 0))], "[1, 2]"),
    ("long_piece", PAIR, [event("u12"), event("c%d" % ALL, (FRAGMENT, 32, 4))], "[1, 15]"),
    # ---- Indexes
    ("second", PAIR, [event("u12"), event("c9", at=(1,))], "[1, 9]"),
    ("no_third", PAIR, [event("u12"), event("c9", at=(2,))], "[1, 2]"),
    ("of_number", U32, [event("c1"), event("c9", at=(0,))], "1"),
    ("of_member", D.typedef(D.composite(U32, ("x", U32), ("p", D.qualifier(PAIR)))), [event("u123"), event("c9", at=(1, 0))], "{x = 1, p = [9, 3]}"),
    ("column", D.matrix(TRIPLE, 2), [event("u123456"), event("u123", at=(1,)), event("c9", at=(0, 2))], "[[1, 2, 9], [1, 2, 3]]"),
    ("element", D.array(U32, 2, 3), [event("u123456"), event("u456", at=(0,)), event("c9", at=(1, 1))], "[[4, 5, 6], [4, 9, 6]]"),
    ("part_of_part", POINT, [event("u12"), event("c%d" % ALL, (FRAGMENT, 28, 4), at=(1,))], "{x = 1, y = 4026531842}"),
    ("out_of_part", POINT, [event("u12"), event("c%d" % ALL, (FRAGMENT, 28, 5), at=(0,))], "{x = 1, y = 2}"),
    ("of_enum_part", D.enum(PAIR), [event("u12"), event("c9", at=(0,))], "[1, 2]"),
    # ---- expressions
    ("stack_value", U32, [event("c5", (STACK_VALUE,))], "5"),
    ("plus", U32, [event("c5", (LITERAL, 3), (PLUS,))], "8"),
    ("minus", U32, [event("c5", (LITERAL, 3), (MINUS,))], "2"),
    ("below", S32, [event("c2", (LITERAL, 3), (MINUS,))], "-1"),
    ("plus_literal", U32, [event("c5", (PLUS_LITERAL, 10))], "15"),
    ("over", U32, [event("c%d" % ALL, (PLUS_LITERAL, 2))], "1"),
    ("swapped", U32, [event("c5", (LITERAL, 8), (SWAP,), (MINUS,))], "3"),
    ("literal", U32, [event("c5", (LITERAL, 8))], "8"),
    ("under_literal", U32, [event("u12", (LITERAL, 8), (STACK_VALUE,))], "8"),
    ("several", U32, [event("c5", (LITERAL, 3), (LITERAL, 1), (PLUS,), (PLUS,), (PLUS_LITERAL, 100))], "109"),
    ("long_over", U64, [event("long_all", (PLUS_LITERAL, 2))], "1"),
    ("long_minus", S64, [event("double1", (LITERAL, 1), (MINUS,))], "4607182418800017407"),
    ("short_of_long", U32, [event("long_all", (LITERAL, 1), (SWAP,), (PLUS,))], "0"),
    ("long_of_short", U64, [event("long_all", (LITERAL, 1), (SWAP,), (PLUS,))], UNAVAILABLE),
    ("byte_over", U8, [event("byte250", (PLUS_LITERAL, 10))], "4"),
    ("byte_cut", U8, [event("byte250", (PLUS_LITERAL, 1030))], "0"),
    ("flag_over", BOOL, [event("yes", (PLUS_LITERAL, 1))], "false"),
    ("undefined_sum", U32, [event("undef", (PLUS_LITERAL, 1))], UNDEFINED),
    ("undefined_second", U32, [event("undef", (LITERAL, 1), (SWAP,), (PLUS,))], UNDEFINED),
    ("with_fragment", PAIR, [event("u12"), event("c5", (PLUS_LITERAL, 2), (FRAGMENT, 32, 32))], "[1, 7]"),
    # ---- pieces that can't be read; an event before them isn't asked
    ("bit_piece", U32, [event("c5", (BIT_PIECE, 0, 8))], UNAVAILABLE),
    ("xderef", U32, [event("c5", (XDEREF,))], UNAVAILABLE),
    ("plus_alone", U32, [event("c5", (PLUS,))], UNAVAILABLE),
    ("minus_alone", U32, [event("c5", (MINUS,))], UNAVAILABLE),
    ("swap_alone", U32, [event("c5", (SWAP,))], UNAVAILABLE),
    ("deref_number", U32, [event("c5", (DEREF,))], UNAVAILABLE),
    ("sum_of_pair", PAIR, [event("u12", (PLUS_LITERAL, 1))], "[<unavailable>, <unavailable>]"),
    ("sum_with_pair", PAIR, [event("u12", (LITERAL, 1), (SWAP,), (PLUS,))], "[<unavailable>, <unavailable>]"),
    ("unread_last", U32, [event("c5"), event("c6", (XDEREF,))], UNAVAILABLE),
    ("unread_second", PAIR, [event("u12"), event("c6", (XDEREF,), (FRAGMENT, 32, 32))], "[1, <unavailable>]"),
    ("sum_of_pointer", U32, [event("own", (PLUS_LITERAL, 0))], UNAVAILABLE),
    # ---- pointers
    ("deref", U32, [event("own", (DEREF,))], "13"),
    ("deref_sum", U32, [event("own", (DEREF,), (PLUS_LITERAL, 2))], "15"),
    ("deref_twice", U32, [event("own", (DEREF,), (DEREF,))], UNAVAILABLE),
    ("value_of_pointer", U32, [event("own")], UNAVAILABLE),
    ("declared", U32, [event("own", declare=True)], "13"),
    ("declared_deref", U32, [event("own", (DEREF,), declare=True)], "13"),
    ("declared_value", U32, [event("c5", declare=True)], "5"),
    ("declared_part", PAIR, [event("u12"), event("own", at=(1,), declare=True)], "[1, 13]"),
    ("declared_shared", U32, [event("shared", declare=True)], UNDEFINED),
    ("declared_pair", PAIR, [event("room", declare=True)], "[<undefined>, <undefined>]"),
    ("declared_block", D.array(U32, 3), [event("b", declare=True)], "[7, 1, 2]"),
    ("declared_literal", U32, [event("own", (LITERAL, 4), declare=True)], "4"),
    ("declared_input", U32, [event("index", declare=True)], "0"),
]

# What is wrong in an event leaves the one before: an InlinedAt, a type that isn't one, operands.
GLOBALS = [
    ("g_block", D.composite(("n", U32), ("data", D.array(U32, 0))), "b", "{n = 7, data = [1, 2, 3, 4, 5]}"),
    ("g_pairs", D.composite(("n", U32), ("data", D.array(PAIR, 0))), "b", "{n = 7, data = [[1, 2], [3, 4]]}"),
    ("g_longs", D.composite(("n", U32), ("data", D.array(U64, 0))), "b", "{n = 7, data = [8589934593, 17179869187]}"),
    ("g_two_of", D.composite(("n", U32), ("data", D.array(U32, 0, 2))), "b", "{n = 7, data = [[1, 2], [3, 4]]}"),
    ("g_last_of_two", D.composite(("n", U32), ("data", D.array(U32, 2, 0))), "b", "{n = 7, data = [[], [1, 2, 3, 4, 5]]}"),
    ("g_not_last", D.composite(("data", D.array(U32, 0)), ("n", U32)), "b", "{data = [], n = 7}"),
    ("g_whole", D.array(U32, 0), "b", "[7, 1, 2, 3, 4, 5]"),
    ("g_typedef", D.typedef(D.array(D.qualifier(U32), 0)), "b", "[7, 1, 2, 3, 4, 5]"),
    ("g_deep", D.array(D.composite(("a", PAIR), ("last", D.array(U32, 0))), 2), "b", "[{a = [7, 1], last = []}, {a = [2, 3], last = [4, 5]}]"),
    ("g_no_bits", D.array(D.pointer(U32), 0), "b", "[]"),
    ("g_seven", D.array(U32, 7), "b", "[7, 1, 2, 3, 4, 5, <unavailable>]"),
    ("g_of_none", U32, "none", UNAVAILABLE),
    ("g_of_none_open", D.array(U32, 0), "none", "[]"),
    ("g_constant", PAIR, "u12", "[1, 2]"),
    ("g_constant_open", D.array(U32, 0), "u123", "[1, 2, 3]"),
    ("g_own", U32, "own", "13"),
    ("g_shared", U32, "shared", UNDEFINED),
    ("g_room", PAIR, "room", "[<undefined>, <undefined>]"),
    ("g_index", U32, "index", "0"),
    ("g_enum", D.enum(U32, (7, "seven")), "b", "seven"),
    ("g_pointer", D.pointer(U32), "b", UNAVAILABLE),
    ("g\x03control", U32, "b", "7"),
    ("one", U32, "c10", "10"),
    ("g_constant", U32, "c11", "11"),
]


def shown(name):
    return "".join("?" if ord(letter) < 32 or ord(letter) == 127 else letter for letter in name)


def module_of_values():
    events = [row for name, ty, told, _ in VALUES for row in D.passed(name, ty, told)]
    for name, ty, variable, _ in GLOBALS:
        D.of_module(name, ty, variable)
    body = [
        ("main", "Function", "void", 0, "fn"), ("-", "Label"), ("slot", "Variable", "function_uint", 7), ("unset", "Variable", "function_uint", 7), scope("dmain"), *events,
        ("sum", "IAdd", "uint", "c1", "c2"), (None, "Store", "slot", "sum"), (None, "Store", "shared", "sum"), ("place", "AccessChain", "to_number", "b", "c1", "c4"),
        ("nowhere", "AccessChain", "to_number", "b", "c1", "c6"), ("before", "AccessChain", "to_number", "b", "c1", "minus1"), (None, "Store", "place", "c8"),
        (None, "Store", "own", "c2"), (None, "Return",), (None, "FunctionEnd",),
        ("other", "Function", "void", 0, "fn"), ("-", "Label"), ("elsewhere", "Variable", "function_uint", 7), ("other_sum", "IAdd", "uint", "c1", "c2"),
        (None, "Return",), (None, "FunctionEnd",),
    ]
    return module(D, DECLARED, body, 1, ("index", "own", "shared", "room", "b"), DECORATED)


MODULE = module_of_values()
