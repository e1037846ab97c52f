"""Modules of rows: the name of a result or none, the opcode or the record of NonSemantic.Shader.DebugInfo.100, and the operands.

An operand is a number for a literal, `"text"` for a string, or the name of a result for its id; the type stands first where the opcode
has one. Ids are numbered from 1 in the order in which the results stand, and `-` is a result that nothing names again. The set of the
records is the result `set`, and their type `void`.
"""
import struct
from listings import FORMS, string_words

HEADER = [0x07230203, 0x00010600, 0]
RECORDS = {
    "DebugInfoNone": 0, "DebugCompilationUnit": 1, "DebugTypeBasic": 2, "DebugTypePointer": 3, "DebugTypeQualifier": 4, "DebugTypeArray": 5,
    "DebugTypeVector": 6, "DebugTypedef": 7, "DebugTypeFunction": 8, "DebugTypeEnum": 9, "DebugTypeComposite": 10, "DebugTypeMember": 11,
    "DebugGlobalVariable": 18, "DebugFunction": 20, "DebugLexicalBlock": 21, "DebugLexicalBlockDiscriminator": 22, "DebugScope": 23,
    "DebugNoScope": 24, "DebugInlinedAt": 25, "DebugLocalVariable": 26, "DebugInlinedVariable": 27, "DebugDeclare": 28, "DebugValue": 29,
    "DebugOperation": 30, "DebugExpression": 31, "DebugSource": 35, "DebugFunctionDefinition": 101, "DebugSourceContinued": 102,
    "DebugLine": 103, "DebugNoLine": 104, "DebugTypeMatrix": 108, "DebugUnknown": 50,
}


class Assembled:
    """The bytes of rows, the ids of their results, and the words at which rows begin."""

    def __init__(self, rows):
        results = [name for name, *_ in rows if name is not None]
        self.ids, self.count, self.starts = {name: 1 + at for at, name in enumerate(results) if name != "-"}, len(rows), {}
        code, result = HEADER + [1 + len(results), 0], 0
        for name, what, *operands in rows:
            result += name is not None
            self.starts.setdefault(what, []).append(len(code))
            code += self.words_of(result, what, operands)
        self.words, self.data = len(code), struct.pack("<%dI" % len(code), *code)

    def words_of(self, result, what, operands):
        given = [word for operand in operands for word in self.operand(operand)]
        if what in RECORDS:
            return [5 + len(given) << 16 | FORMS["ExtInst"][0], self.ids["void"], result, self.ids["set"], RECORDS[what], *given]
        number, head, _, _ = FORMS[what]
        if head == "Typed":
            given = [given[0], result, *given[1:]]
        elif head == "Result":
            given = [result, *given]
        return [1 + len(given) << 16 | number, *given]

    def operand(self, operand):
        if isinstance(operand, int):
            return [operand]
        return string_words(operand[1:-1]) if operand.startswith('"') else [self.ids[operand]]
