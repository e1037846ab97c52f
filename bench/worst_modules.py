"""Modules of at most 4 MiB that are made to be the worst for a command, with the setup, what stands before it and the line itself.

Each is written word by word. What makes replies long or slow: names and lines of a string of a quarter of a megabyte, which many records
name; values of 256 shown scalars in many structs; many variables, registers and inlined calls; long expressions; deep scopes.
"""
from debug_size import FILE, NAME, ONE_OR_TWO, Made, number
from spirv import FUNCTION_TYPE, MAIN, UINT, VOID, inst, text

LONG_TEXT, SHORT_TEXT = "n" * 250_000, "v"
TYPE, TYPED, EMPTY, ULONG, COUNT, ARRAY, ONES, POINTER, PLACE, ALL, BLOCK, POINTER_TO_ONE = range(14, 26)
# The ids of strings that are named.
NAMED, OTHER = 30, 31
SIZE = 256
START, MANY = "spvdbg-setup 1\nrounds 100\n", "spvdbg-setup 1\nrounds 4000000\n"
NESTED_DEBUG, NESTED = 61, 30


def begun(strings=(), numbers=range(10), size=1):
    """A module of so many invocations with strings and numbers, and its first records: a source, a unit and a type of functions."""
    made = Made([(NAMED + k, string) for k, string in enumerate(strings)])
    made.words[made.words.index(6 << 16 | 16) + 3] = size
    made.constants(numbers)
    return made


def main_of(made, body=(), before=()):
    """The entry point behind other functions, and the bytes."""
    made.words += list(before) + inst(54, VOID, MAIN, 0, FUNCTION_TYPE) + inst(248, made.id()) + list(body) + inst(253) + inst(56)
    return made.bytes()


def words_of(made, write):
    """The words that something adds."""
    old, made.words = made.words, []
    write()
    added, made.words = made.words, old
    return added


def ones_in_memory(made, count=SIZE):
    """A variable of the invocation with so many numbers of 64 bits, each of twenty digits, and their constant."""
    made.words[:0] = inst(17, 11)
    made.words += inst(21, ULONG, 64, 0) + inst(43, UINT, COUNT, count) + inst(28, ARRAY, ULONG, COUNT) + inst(43, ULONG, ONES, 2**32 - 1, 2**32 - 1)
    made.words += inst(44, ARRAY, ALL, *[ONES] * count) + inst(32, POINTER, 6, ARRAY) + inst(59, POINTER, PLACE, 6, ALL)


def structs_around(made, source, unit, base, name, times):
    """So many structs of one member, each around the one before."""
    zero = number(0)
    for _ in range(times):
        member = made.record(11, name, base, source, zero, zero, zero, zero, zero)
        base = made.record(10, NAME, zero, source, zero, zero, unit, NAME, zero, zero, member)
    return base


def global_of(made, source, unit, name, ty, variable):
    zero = number(0)
    return made.record(18, name, ty, source, zero, zero, unit, name, variable, zero)


# ---- values

def nested_value(name):
    """A global of 256 numbers, each in 61 structs whose members have a name."""
    made = begun([SHORT_TEXT, name], [*range(10), 32, SIZE])
    source, unit, _ = made.unit()
    basic = made.record(2, NAME, number(32), number(6), number(0))
    whole = made.record(5, structs_around(made, source, unit, basic, OTHER, NESTED_DEBUG), number(SIZE))
    global_of(made, source, unit, NAMED, whole, NAME)
    return main_of(made)


def globals_of_256(count, times=0):
    """So many globals, all of one variable of 256 numbers of 64 bits, each in so many structs."""
    made = begun([SHORT_TEXT], [*range(10), 64, SIZE])
    ones_in_memory(made)
    source, unit, _ = made.unit()
    basic = made.record(2, NAME, number(64), number(6), number(0))
    whole = made.record(5, structs_around(made, source, unit, basic, NAMED, times), number(SIZE))
    for _ in range(count):
        global_of(made, source, unit, NAMED, whole, PLACE)
    return main_of(made)


def locals_of_256(count, name=SHORT_TEXT):
    """So many locals, all told to be in one variable of 256 numbers of 64 bits."""
    made = begun([name], [*range(10), 64, SIZE])
    ones_in_memory(made)
    source, unit, kind = made.unit()
    zero, function = number(0), made.function(source, unit, kind, 1)
    basic = made.record(2, NAME, number(64), number(6), zero)
    whole, expression = made.record(5, basic, number(SIZE)), made.record(31)
    held = [made.record(26, NAMED, whole, source, zero, zero, function, zero) for _ in range(count)]

    def body():
        made.record(23, function)
        for variable in held:
            made.record(28, variable, PLACE, expression)
        made.add()

    return main_of(made, words_of(made, body))


def registers(count, is_empty):
    """So many registers: arrays of 256 numbers of 64 bits, or of 256 empty structs in 30 structs each."""
    made = begun()
    if is_empty:
        made.words += inst(43, UINT, COUNT, SIZE) + inst(30, EMPTY)
        inner = EMPTY
        for _ in range(NESTED):
            outer = made.id()
            made.words += inst(30, outer, inner)
            inner = outer
        made.words += inst(28, ARRAY, inner, COUNT)
    else:
        ones_in_memory(made)
    body = []
    for _ in range(count):
        body += inst(1, ARRAY, made.id()) if is_empty else inst(83, ARRAY, made.id(), ALL)
    return main_of(made, body + inst(128, UINT, made.id(), *ONE_OR_TWO))


# ---- frames, lines and scopes

def inlined(calls, name, real=64, size=1):
    """Functions that call each other, in each of which so many inlined calls stand around its scope."""
    made = begun([name], range(10), size)
    source, unit, kind = made.unit()
    zero = number(0)
    function = made.record(20, NAMED, kind, source, number(1), zero, unit, NAME, zero, number(1))
    chain = []
    for _ in range(calls):
        chain = [made.record(25, number(2), function, *chain)]
    ids, before = [made.id() for _ in range(real - 1)], []

    def body(call):
        made.record(23, function, *chain)
        made.record(103, source, number(1), number(1), zero, zero)
        made.add()
        if call:
            made.words += inst(57, VOID, made.id(), call)

    for n, ident in enumerate(ids):
        before += inst(54, VOID, ident, 0, FUNCTION_TYPE) + inst(248, made.id()) + words_of(made, lambda: body(ids[n - 1] if n else 0)) + inst(253) + inst(56)
    last = words_of(made, lambda: body(ids[-1] if ids else 0))
    return main_of(made, last, before)


def one_line(times, length):
    """A source of one line alone: a string that is continued again and again."""
    made = Made([(NAMED, "x" * length)])
    made.constants(range(3))
    source = made.record(35, FILE, NAMED)
    for _ in range(times):
        made.record(102, NAMED)

    def body():
        made.record(103, source, number(1), number(1), number(0), number(0))
        made.add()

    return main_of(made, words_of(made, body))


def scopes(count):
    """Blocks that each stand in the one before, with a local each."""
    made = begun([SHORT_TEXT, "w"], [*range(10), 32])
    source, unit, kind = made.unit()
    zero, parent = number(0), made.function(source, unit, kind, 1)
    basic = made.record(2, NAME, number(32), number(6), zero)
    made.record(26, OTHER, basic, source, zero, zero, parent, zero)
    for _ in range(count):
        parent = made.record(21, source, number(1), zero, parent)
        made.record(26, NAMED, basic, source, zero, zero, parent, zero)

    def body():
        made.record(23, parent)
        made.add()

    return main_of(made, words_of(made, body))


def heads(count):
    """Two lines in turn, so many times."""
    made = begun()
    source, unit, kind = made.unit()
    function, zero = made.function(source, unit, kind, 1), number(0)

    def body():
        made.record(23, function)
        for n in range(count):
            made.record(103, source, number(1 + n % 2), number(1), zero, zero)
            made.add()

    return main_of(made, words_of(made, body))


def same_names(count, length=4_000):
    """Globals that all have the same long name, and one member each of a struct with many members of it."""
    made = begun(["a" * length, SHORT_TEXT], [*range(10), 32])
    source, unit, _ = made.unit()
    zero = number(0)
    basic = made.record(2, NAME, number(32), number(6), zero)
    members = [made.record(11, NAMED, basic, source, zero, zero, zero, zero, zero) for _ in range(count)]
    struct = made.record(10, NAME, zero, source, zero, zero, unit, NAME, zero, zero, *members)
    global_of(made, source, unit, OTHER, struct, NAME)
    for _ in range(count):
        global_of(made, source, unit, NAMED, basic, NAME)
    return main_of(made)


# ---- expressions and watches

def expressions(variables, operations=60_000):
    """Locals of 256 numbers, each of which is told by an expression of so many operations."""
    made = begun([SHORT_TEXT], [*range(SIZE), SIZE])
    source, unit, kind = made.unit()
    zero, function = number(0), made.function(source, unit, kind, 1)
    basic = made.record(2, NAME, number(32), number(6), zero)
    whole = made.record(5, basic, number(SIZE))
    one_more = made.record(30, number(3), number(1))
    expression = made.record(31, *[one_more] * operations)
    held = [made.record(26, NAMED, whole, source, zero, zero, function, zero) for _ in range(variables)]

    def body():
        made.record(23, function)
        for variable in held:
            for k in range(SIZE):
                made.record(29, variable, number(1), expression, number(k))
        made.add()

    return main_of(made, words_of(made, body))


def fragments(operations=12_000):
    """A local of 256 numbers of 64 bits, each bit of which is told by an event of its own with an expression of so many operations."""
    made = begun([SHORT_TEXT], [*range(65), SIZE])
    source, unit, kind = made.unit()
    zero, function = number(0), made.function(source, unit, kind, 1)
    basic = made.record(2, NAME, number(64), number(6), zero)
    held = made.record(26, NAMED, made.record(5, basic, number(SIZE)), source, zero, zero, function, zero)
    made.constants(range(65, SIZE))
    one_more = made.record(30, number(3), number(1))
    bits = [made.record(31, *[one_more] * operations, made.record(30, number(9), number(k), number(1))) for k in range(64)]

    def body():
        made.record(23, function)
        for k in range(SIZE):
            for expression in bits:
                made.record(29, held, number(1), expression, number(k))
        made.add()

    return main_of(made, words_of(made, body))


def pieces(elements=4_000_000):
    """A local of 256 numbers, each of which is told to be in a variable of so many."""
    made = begun([SHORT_TEXT], [*range(SIZE), SIZE])
    made.words += inst(43, UINT, COUNT, elements) + inst(28, ARRAY, UINT, COUNT) + inst(32, POINTER, 4, ARRAY) + inst(59, POINTER, PLACE, 4)
    source, unit, kind = made.unit()
    zero, function = number(0), made.function(source, unit, kind, 1)
    basic, expression = made.record(2, NAME, number(32), number(6), zero), made.record(31)
    held = made.record(26, NAMED, made.record(5, basic, number(SIZE)), source, zero, zero, function, zero)

    def body():
        made.record(23, function)
        for k in range(SIZE):
            made.record(28, held, PLACE, expression, number(k))
        made.add()

    return main_of(made, words_of(made, body))


def stores(count, elements=4_000_000):
    """A loop without an end that stores a number that is there already into a buffer of so many; a global describes the buffer."""
    made = begun([SHORT_TEXT], [*range(10), 32])
    at = made.words.index(2 << 16 | 19)
    made.words[at:at] = inst(71, TYPED, 2) + inst(72, TYPED, 0, 35, 0) + inst(71, TYPE, 6, 4) + inst(71, PLACE, 34, 0) + inst(71, PLACE, 33, 0)
    made.words += inst(43, UINT, COUNT, elements) + inst(29, TYPE, UINT) + inst(30, TYPED, TYPE) + inst(32, POINTER, 12, TYPED) + inst(59, POINTER, PLACE, 12)
    made.words += inst(32, POINTER_TO_ONE, 12, UINT)
    source, unit, kind = made.unit()
    zero, function = number(0), made.function(source, unit, kind, 1)
    basic = made.record(2, NAME, number(32), number(6), zero)
    member = made.record(11, NAME, made.record(5, basic, COUNT), source, zero, zero, zero, zero, zero)
    struct = made.record(10, NAME, zero, source, zero, zero, unit, NAME, zero, zero, member)
    global_of(made, source, unit, NAMED, struct, PLACE)
    place, head, end = made.id(), made.id(), made.id()

    def body():
        made.record(23, function)
        made.words += inst(65, POINTER_TO_ONE, place, PLACE, number(0), number(0)) + inst(249, head) + inst(248, head)
        made.words += (inst(62, place, number(0)) * count) + inst(246, end, head, 0) + inst(249, head) + inst(248, end)

    return main_of(made, words_of(made, body))


BUFFER = "spvdbg-setup 1\nbuffer 0 0 zero 16000000\nrounds 4000000\n"
PART = "a" * 4_080
# What a module is, how it is made, its setup, the commands before the line, and the lines with the least bytes of their replies.
ROWS = [
    ("256 numbers in 61 structs each", lambda: nested_value("m"), START, "", [("print v", 256 * 61 * 4), ("globals", 256 * 61 * 4)]),
    ("256 numbers in 61 structs each, with names of 250,000 bytes", lambda: nested_value(LONG_TEXT), START, "", [("print v", 256 * 61 * 250_000)]),
    ("70,000 globals of 256 numbers", lambda: globals_of_256(70_000), START, "", [("globals", 70_000 * 256 * 20), ("print v", 256 * 20), ("print w", 20)]),
    ("48,000 locals of 256 numbers", lambda: locals_of_256(48_000), START, "fwd 1\n", [("locals", 48_000 * 256 * 20), ("print v", 256 * 20)]),
    ("40,000 locals with names of 250,000 bytes", lambda: locals_of_256(40_000, LONG_TEXT), START, "fwd 1\n", [("locals", 40_000 * 250_000)]),
    ("16,000 registers of 256 numbers", lambda: registers(16_000, False), "spvdbg-setup 1\nrounds 20000\n", "goto 16000\n", [("regs", 16_000 * 256 * 20)]),
    ("20,000 registers of 256 empty structs in 30 each", lambda: registers(20_000, True), "spvdbg-setup 1\nrounds 100000\n", "goto 20000\n", [("regs", 20_000 * 256 * 180)]),
    (
        "64 frames with 100,000 inlined calls each", lambda: inlined(100_000, SHORT_TEXT), START, "goto 126\n",
        [("bt", 64 * 100_000 * 15), ("frame 6400000", 10), ("where", 10), ("list", 10), ("locals", 0), ("step", 20), ("rstep", 20), ("finish", 20), ("rnext", 20)],
    ),
    ("64 frames with 1,000 inlined calls each of names of 250,000 bytes", lambda: inlined(1_000, LONG_TEXT), START, "goto 126\n", [("bt", 64 * 1_000 * 250_000), ("where", 250_000)]),
    ("1,024 invocations in a function of 250,000 bytes", lambda: inlined(1, LONG_TEXT, 1, 1024), "spvdbg-setup 1\nrounds 4000\n", "goto 100\n", [("group", 1024 * 250_000)]),
    ("a line of 250,000 bytes", lambda: one_line(0, 250_000), START, "", [("list", 250_000)]),
    ("a line of 25,000,000,000 bytes", lambda: one_line(100_000, 250_000), START, "", [("list", 400 << 20)]),
    ("44,000 scopes in each other, with a local each", lambda: scopes(44_000), START, "", [("locals", 44_000 * 10), ("print v", 10), ("print w", 10), ("print u", 10)]),
    ("60,000 heads of two lines", lambda: heads(60_000), "spvdbg-setup 1\nrounds 100000\n", "", [("break 1", 10), ("break large.comp:2", 10), ("break %s:2" % PART, 10), ("next", 20), ("continue", 20)]),
    ("30,000 globals and members with a name of 4,000 bytes", lambda: same_names(30_000), START, "", [("print " + PART, 10), ("print v." + PART[:4_000], 10), ("watch v." + PART[:4_000], 10), ("print v", 1_000)]),
    ("30 locals of 256 numbers, each by 60,000 operations", lambda: expressions(30), START, "fwd 1\n", [("print v", 256 * 3), ("print v[255]", 5), ("locals", 30 * 256 * 3), ("watch v", 256 * 3)]),
    ("a local of 64 times 256 events, each by 12,000 operations", fragments, START, "fwd 1\n", [("print v[255]", 5), ("print v", 256 * 3)]),
    ("a local of 256 pieces, each in 4,000,000 numbers", pieces, START, "fwd 1\n", [("print v", 256 * 3), ("locals", 256 * 3), ("watch v", 256 * 3)]),
    ("a buffer of 4,000,000 numbers", lambda: stores(10), BUFFER, "fwd 1\n", [("print v", 256 * 3), ("print %%%d" % PLACE, 256 * 3), ("globals", 256 * 3), ("watch v", 256 * 3), ("regs", 5)]),
    ("the same, a watch on all of it, 100 events", lambda: stores(1_000), BUFFER.replace("4000000", "101"), "fwd 1\nwatch v\n", [("continue", 20)]),
    ("the same, 32 watches on it", lambda: stores(10), BUFFER.replace("4000000", "11"), "fwd 1\n" + "watch v\n" * 31, [("watch v", 256 * 3)]),
    ("a loop of stores, 4,000,000 events", lambda: stores(1_000, 1_000), BUFFER.replace("16000000", "4000"), "", [("goto 4000000", 20), ("continue", 20), ("order 0 4000000", 20)]),
]
