"""Modules as listings: instructions by name, with ids and literals as the forms of their opcodes have them.

The names and forms are those of SPIR-V 1.6, section 3.42, as crates/spv_ops lists them. An operand of an instruction is a
number, or a text where the form has a string.
"""
import os
import re
import struct

TOP = os.path.join(os.path.dirname(os.path.abspath(__file__)), "..")

# The names that stand for ids, and the two ids that an entry function gets in each module.
BOUND = 1000


def table():
    """By name: the number of an opcode, whether it has a type and a result, its parts, and what follows them."""
    folder = os.path.join(TOP, "crates", "spv_ops", "src")
    with open(os.path.join(folder, "op.rt")) as file:
        numbers = dict(re.findall(r"pub const (\w+): u16 = (\d+);", file.read()))
    with open(os.path.join(folder, "opcodes.rt")) as file:
        text = re.sub(r"\s+", " ", file.read())
    rows = re.findall(r'\( ?(\w+), "(\w+)", (\w+), &\[([^]]*)\], (\w+),? ?\)', text)
    return {name: (int(numbers[op]), head, [p.strip() for p in parts.split(",") if p.strip()], rest) for op, name, head, parts, rest in rows}


FORMS = table()
NAMES = {form[0]: name for name, form in FORMS.items()}


def string_words(text):
    data = text.encode() + b"\0"
    data += b"\0" * (-len(data) % 4)
    return list(struct.unpack("<%dI" % (len(data) // 4), data))


def text_of(string):
    shown = "".join("\\" + c if c in '"\\' else c if " " <= c <= "~" else "\\x%02x" % ord(c) for c in string)
    return '"%s"' % shown


class Inst:
    """An instruction: its opcode's name, and its type, result and operands in the order of their words."""

    def __init__(self, name, *operands):
        self.name, self.operands = name, operands

    def marks(self):
        """What each operand is: the type, the result, an id, a literal or a string."""
        _, head, parts, rest = FORMS[self.name]
        marks = {"Plain": [], "Result": ["id"], "Typed": ["type", "id"]}[head]
        marks = marks + [{"Id": "%", "Literal": "", "String": "text", "MemoryOperands": ""}[p] for p in parts if p != "MayEnd"]
        more = len(self.operands) - len(marks)
        if more <= 0:
            marks = marks[: len(self.operands)]
        elif rest == "ExecutionModeIds":
            marks += [""] + ["%"] * (more - 1)
        else:
            marks += [{"Ids": "%", "IdPairs": "%"}.get(rest, "")] * more
        return marks

    def count(self):
        """How many words it has."""
        return 1 + sum(len(string_words(o)) if isinstance(o, str) else 1 for o in self.operands)

    def line(self, word):
        shown = []
        for mark, operand in zip(self.marks(), self.operands):
            if mark in ("type", "id"):
                shown.append("%s=%%%d" % (mark, operand))
            else:
                shown.append(text_of(operand) if mark == "text" else "%s%d" % (mark, operand))
        return " ".join(["%d: Op%s" % (word, self.name), *shown]) + "\n"


def laid_out(insts):
    """The listing of instructions, and the word of each."""
    word, words, text = 5, [], ""
    for inst in insts:
        words.append(word)
        text += inst.line(word)
        word += inst.count()
    return text, words


class Rule:
    """A module, what it shows, and what is due: none, or a code and the number of an instruction."""

    def __init__(self, what, insts, due):
        self.what, self.insts, self.due = what, insts, due

    def block(self):
        return "== %s\n%s" % (self.what, laid_out(self.insts)[0])

    def reply(self):
        words = laid_out(self.insts)[1]
        if self.due is None:
            last = self.insts[-1]
            return "%s: accepted: words %d, instructions %d\n" % (self.what, words[-1] + last.count(), len(self.insts))
        code, at = self.due
        return "%s: module refused: M%d at word %d\n" % (self.what, code, 0 if at is None else words[at])


def changed(insts, changes):
    """The instructions with changes: ("put", n, inst) before the one with this number, or ("set", n, inst) in its place."""
    made = []
    for n, inst in enumerate(insts):
        made += [new for how, at, new in changes if how == "put" and at == n]
        made += [new for how, at, new in changes if how == "set" and at == n] or [inst]
    return made + [new for how, at, new in changes if how == "put" and at == len(insts)]


def module_bytes(insts, bound=100):
    """The module of instructions, for SPIR-V 1.6."""
    words = [0x07230203, 0x00010600, 0, bound, 0]
    for inst in insts:
        words.append(inst.count() << 16 | FORMS[inst.name][0])
        for operand in inst.operands:
            words += string_words(operand) if isinstance(operand, str) else [operand]
    return struct.pack("<%dI" % len(words), *words)
