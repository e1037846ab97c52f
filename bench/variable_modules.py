"""Modules with variables of the source for the runs of bench/variable_runs.py: rows of bench/assembler.py.

A described variable is a name, a debug type, and its events: the value that each captures, what its expression does, its Indexes, and
whether it is a Declare. Types, expressions and names are made where they are first asked for, and so are numbers, `cN` being the
32-bit constant N.
"""
import re
from assembler import Assembled
from source_modules import FUNCTION, INPUT, LOCAL_INDEX, STORAGE, WORKGROUP, add, function, line, quoted, scope, start, types, unit

UNSPECIFIED, ADDRESS, BOOLEAN, FLOAT, SIGNED, SIGNED_CHAR, UNSIGNED, UNSIGNED_CHAR, OTHER = range(9)
PRIVATE, PUSH = 6, 9
DEREF, PLUS, MINUS, PLUS_LITERAL, BIT_PIECE, SWAP, XDEREF, STACK_VALUE, LITERAL, FRAGMENT = range(10)
CAPABILITIES = [(None, "Capability", number) for number in (39, 22, 11)]


def event(value, *operations, at=(), declare=False):
    """An event: what it captures, the operations of its expression as tuples, Indexes, and whether it is a Declare."""
    return value, operations, at, declare


class Described:
    """The debug rows of a module, in the order in which they are asked for."""

    def __init__(self):
        self.strings, self.rows, self.made = {}, [], {}

    def text(self, string):
        return self.strings.setdefault(string, "text%d" % len(self.strings))

    def row(self, what, *operands):
        """The result of a row; of equal ones that of the first."""
        key = (what, *operands)
        if key not in self.made:
            self.made[key] = "d%d" % len(self.made)
            self.rows.append((self.made[key], what, *operands))
        return self.made[key]

    def new(self, what, *operands):
        self.made[len(self.rows), what] = result = "d%d" % len(self.made)
        self.rows.append((result, what, *operands))
        return result

    # ---- types

    def basic(self, size, encoding):
        return self.row("DebugTypeBasic", self.text("basic"), "c%d" % size, "c%d" % encoding, "c0")

    def vector(self, base, count):
        return self.row("DebugTypeVector", base, "c%d" % count)

    def matrix(self, base, count):
        return self.row("DebugTypeMatrix", base, "c%d" % count, "yes")

    def array(self, base, *counts):
        return self.row("DebugTypeArray", base, *["c%d" % count for count in counts])

    def typedef(self, base):
        return self.row("DebugTypedef", self.text("typedef"), base, "source", "c1", "c0", "unit")

    def qualifier(self, base):
        return self.row("DebugTypeQualifier", base, "c0")

    def pointer(self, base):
        return self.row("DebugTypePointer", base, "c4", "c0")

    def member(self, name, ty):
        return self.row("DebugTypeMember", self.text(name), ty, "source", "c1", "c0", "c0", "c0", "c0")

    def composite(self, *members):
        """Members are pairs of a name and a type, or results of other rows, which are no members."""
        named = [member if isinstance(member, str) else self.member(*member) for member in members]
        return self.row("DebugTypeComposite", self.text("composite"), "c1", "source", "c1", "c0", "unit", self.text("composite"), "c0", "c0", *named)

    def enum(self, underlying, *pairs, more=()):
        named = [operand for value, name in pairs for operand in ("c%d" % value, self.text(name))]
        return self.row("DebugTypeEnum", self.text("enum"), underlying, "source", "c1", "c0", "unit", "c32", "c0", *named, *more)

    # ---- variables

    def local(self, name, ty, parent="dmain"):
        return self.new("DebugLocalVariable", self.text(name), ty, "source", "c1", "c0", parent, "c0")

    def of_module(self, name, ty, variable):
        return self.new("DebugGlobalVariable", self.text(name), ty, "source", "c1", "c0", "unit", self.text(name), variable, "c0")

    def expression(self, *operations):
        made = [self.row("DebugOperation", *["c%d" % number for number in operation]) for operation in operations]
        return self.row("DebugExpression", *made)

    def told(self, variable, value, operations, at, declare):
        """The row of an event, for a block."""
        given = self.expression(*operations), *["c%d" % index for index in at]
        return "-", "DebugDeclare" if declare else "DebugValue", variable, value, *given

    def passed(self, name, ty, events, parent="dmain"):
        """A local variable, and the rows of its events."""
        variable = self.local(name, ty, parent)
        return [self.told(variable, *one) for one in events]


def module(described, declared, body, size=1, interface=(), decorations=(), functions=(("dmain", "main", "unit"),), records=()):
    """The rows together. Strings and numbers that are named and stand nowhere yet are put before them."""
    named = [(result, "DebugFunction", described.text(name), "kind", "source", "c1", "c0", parent, described.text(name), "c0", "c1") for result, name, parent in functions]
    file = described.text("v.comp")
    texts = [(result, "String", quoted(string)) for string, result in described.strings.items()]
    head = start(size, interface, texts, (), decorations)
    head = head[:1] + CAPABILITIES + head[1:]
    first = [("source", "DebugSource", file), *unit("source")]
    front = types()
    rest = declared + first + named + list(records) + described.rows + body
    have = {name for name, *_ in front}
    asked = {operand for _, _, *operands in rest for operand in operands if isinstance(operand, str) and re.fullmatch(r"c\d+", operand)}
    numbers = [(name, "Constant", "uint", int(name[1:])) for name in sorted(asked - have, key=lambda name: int(name[1:]))]
    return Assembled(head + front + numbers + rest)
