"""Modules as SPIR-V assembly, as `spirv-as --preserve-numeric-ids` reads it: a line each, `%result = OpName operands`, and `;` before a
comment.

An id that is a number keeps it; names get the numbers that are left, in the order in which they are defined. A literal of OpConstant and
OpSpecConstant takes the words that its type has. The instruction of a debug record stands behind its set, by its name in
NonSemantic.Shader.DebugInfo.100.
"""
import re
import struct
from assembler import HEADER, RECORDS
from listings import FORMS, string_words

ENUMERANTS = {
    "Shader": 1, "Int64": 11, "Int16": 22, "Int8": 39, "VariablePointersStorageBuffer": 4441, "Logical": 0, "GLSL450": 1, "GLCompute": 5,
    "LocalSize": 17, "SpecId": 1, "Block": 2, "ArrayStride": 6, "BuiltIn": 11, "Binding": 33, "DescriptorSet": 34, "Offset": 35,
    "LocalInvocationIndex": 29, "Input": 1, "Workgroup": 4, "Private": 6, "Function": 7, "StorageBuffer": 12, "None": 0,
}
OF_TYPE = ("Constant", "SpecConstant")


class Assembly:
    """The bytes of a text, the numbers of its ids by their names, and the word of each result's instruction."""

    def __init__(self, text):
        lines = [re.findall(r'"[^"]*"|[^\s=]+', line.split(";")[0]) for line in text.splitlines()]
        lines = [(None, *line) if line[0].startswith("Op") else tuple(line) for line in lines if line]
        given = [name for name, *_ in lines if name]
        self.ids, free = {name: int(name[1:]) for name in given if name[1:].isdigit()}, 1
        for name in given:
            while free in self.ids.values():
                free += 1
            self.ids.setdefault(name, free)
        self.widths, self.words, code = {}, {}, HEADER + [1 + max(self.ids.values()), 0]
        for name, what, *operands in lines:
            self.words[name] = len(code)
            code += self.instruction(name, what[2:], operands)
        self.data = struct.pack("<%dI" % len(code), *code)

    def instruction(self, name, what, operands):
        number, head, _, _ = FORMS[what]
        if what == "TypeInt":
            self.widths[name] = int(operands[0])
        given = [word for operand in operands for word in self.operand(operand, operands[0] if what in OF_TYPE else None)]
        result = [] if name is None else [self.ids[name]]
        given = given[:1] + result + given[1:] if head == "Typed" else result + given
        return [1 + len(given) << 16 | number, *given]

    def operand(self, operand, ty):
        if operand.startswith("%"):
            return [self.ids[operand]]
        if operand.startswith('"'):
            return string_words(operand[1:-1])
        if operand in ENUMERANTS or operand in RECORDS:
            return [{**ENUMERANTS, **RECORDS}[operand]]
        number = int(operand, 0)
        return [number >> 32 * k & 0xFFFFFFFF for k in range(2 if self.widths.get(ty) == 64 else 1)]
