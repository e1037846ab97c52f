"""The atomics of SPIR-V 1.6 section 3.42.18 on integers of Workgroup memory, and what they store, worked out here apart from the program.

Each row is one atomic on a variable that was set before, also to an undefined value; the register that it gives is the old value, and
that of an OpAtomicLoad behind it the new one. bench/arithmetic.py writes the module.
"""
import lanes

UNDEFINED = lanes.UNDEFINED
WIDTHS = (8, 16, 32, 64)
LOAD, STORE, EXCHANGE, COMPARE = 227, 228, 229, 230
COUNTS = {232: lambda width, a: a + 1, 233: lambda width, a: a - 1}
UPDATES = {
    234: lambda width, a, b: a + b,
    235: lambda width, a, b: a - b,
    236: lambda width, a, b: min(lanes.signed(width, a), lanes.signed(width, b)),
    237: lambda width, a, b: min(a, b),
    238: lambda width, a, b: max(lanes.signed(width, a), lanes.signed(width, b)),
    239: lambda width, a, b: max(a, b),
    240: lambda width, a, b: a & b,
    241: lambda width, a, b: a | b,
    242: lambda width, a, b: a ^ b,
}


def stored(op, width, old, value, comparator):
    """The integer that stands in memory behind an atomic."""
    if op == LOAD:
        return old
    if op == STORE:
        return value
    if op == EXCHANGE:
        return UNDEFINED if old == UNDEFINED else value
    if op == COMPARE:
        if UNDEFINED in (old, comparator):
            return UNDEFINED
        return value if old == comparator else old
    if op in COUNTS:
        return UNDEFINED if old == UNDEFINED else lanes.cut(width, COUNTS[op](width, old))
    return UNDEFINED if UNDEFINED in (old, value) else lanes.cut(width, UPDATES[op](width, old, value))


def rows():
    """An opcode, a width, the old value, the value and the comparator, as far as there are such."""
    for width in WIDTHS:
        least, most, odd = 1 << (width - 1), (1 << width) - 1, lanes.ODD[width]
        olds = (0, most, least, odd, UNDEFINED)
        for op in (LOAD, *COUNTS):
            for old in olds:
                yield op, width, old, None, None
        pairs = ((odd, 3), (3, odd), (least, most), (most, 1), (0, 0), (UNDEFINED, 5), (5, UNDEFINED), (UNDEFINED, UNDEFINED))
        for op in (STORE, EXCHANGE, *UPDATES):
            for old, value in pairs:
                yield op, width, old, value, None
        for old, value, comparator in ((odd, 7, odd), (odd, 7, 3), (3, 7, odd), (most, 0, most), (0, UNDEFINED, 0), (0, UNDEFINED, 1),
                                       (UNDEFINED, 7, 0), (7, 9, UNDEFINED), (UNDEFINED, 9, UNDEFINED)):
            yield COMPARE, width, old, value, comparator


def operands(m, op, width, value, comparator):
    """The operands behind the pointer: scope, semantics, and what is read."""
    scope, relaxed = m.constant(32, 2), m.constant(32, 0)
    number = lambda bits: m.declared(1, m.scalar(width)) if bits == UNDEFINED else m.constant(width, bits)
    if op == COMPARE:
        return scope, relaxed, relaxed, number(value), number(comparator)
    return (scope, relaxed) if value is None else (scope, relaxed, number(value))


def module(m, shown):
    """All rows in a module of one block."""
    scope, relaxed = m.constant(32, 2), m.constant(32, 0)
    places = dict(zip(WIDTHS, m.interface))
    for width, place in places.items():
        m.put(m.types, 59, m.declared(32, 4, m.scalar(width)), place, 4)
    for op, width, old, value, comparator in rows():
        place, ty = places[width], m.scalar(width)
        before = m.declared(1, ty) if old == UNDEFINED else m.constant(width, old)
        m.do(62, place, before)
        rest = operands(m, op, width, value, comparator)
        if op == STORE:
            m.do(op, place, *rest)
        else:
            m.give(shown(width, 0, old), op, ty, place, *rest)
        m.give(shown(width, 0, stored(op, width, old, value, comparator)), LOAD, ty, place, scope, relaxed)
    m.do(225, scope, m.constant(32, 0x108))
    return m
