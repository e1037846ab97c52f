"""Modules with debug information for the runs of bench/source_runs.py: rows of bench/assembler.py.

The records are those of NonSemantic.Shader.DebugInfo.100. Lines, names and texts are what each module is there for; sizes, flags
and columns are 0.
"""
from assembler import Assembled

NUMBERS = (0, 1, 2, 3, 4, 5, 6, 7, 8, 9, 10, 11, 12, 13, 14, 15, 32, 64, 264, 999, 0xFFFFFFFF)
LOCAL_INDEX, STORAGE, WORKGROUP, INPUT, FUNCTION = 29, 12, 4, 1, 7

N_TEXT = """#version 450
layout(local_size_x = 64) in;
layout(set = 0, binding = 0) buffer B { uint v[64]; } b;
shared uint s[64];
void main() {
  uint i = gl_LocalInvocationIndex;
  s[i] = b.v[i];
  barrier();
  b.v[i] = s[i] + s[i ^ 1u];
}
"""


def quoted(text):
    return '"%s"' % text


def number(value):
    return "c%d" % value


def strings(**named):
    return [(name, "String", quoted(text)) for name, text in named.items()]


def start(size=1, interface=(), texts=(), names=(), decorations=(), imports=()):
    """What stands before the types: strings, OpSources and other debug instructions, names and decorations."""
    return [
        (None, "Capability", 1), (None, "Extension", '"SPV_KHR_non_semantic_info"'), ("set", "ExtInstImport", '"NonSemantic.Shader.DebugInfo.100"'),
        *imports, (None, "MemoryModel", 0, 1), (None, "EntryPoint", 5, "main", '"main"', *interface), (None, "ExecutionMode", "main", 17, size, 1, 1),
        *texts, *names, *decorations,
    ]


def types():
    return [("void", "TypeVoid"), ("fn", "TypeFunction", "void"), ("bool", "TypeBool"), ("uint", "TypeInt", 32, 0)] + [
        (number(value), "Constant", "uint", value) for value in NUMBERS
    ]


def unit(source):
    return [("unit", "DebugCompilationUnit", "c1", "c4", source, "c2"), ("none", "DebugInfoNone"), ("kind", "DebugTypeFunction", "c0", "void")]


def function(result, name, source, parent="unit"):
    return result, "DebugFunction", name, "kind", source, "c1", "c0", parent, name, "c0", "c1"


def line(source, value):
    return "-", "DebugLine", source, number(value), number(value), "c0", "c0"


def scope(*operands):
    return "-", "DebugScope", *operands


def add(result="-"):
    return result, "IAdd", "uint", "c1", "c2"


# ---- a workgroup of 64 that exchanges numbers over a barrier

def exchange(ninth=None, before=(), within=()):
    """The module; `ninth` is the Line for the ninth line of the source, where it isn't the right one. More records may stand before the
    functions and in the block."""
    texts = strings(file="n.comp", text=N_TEXT, nmain="main", ni="i", nb="b", nB="B", nv="v", nuint="uint")
    decorated = [
        (None, "Decorate", "index", 11, LOCAL_INDEX), (None, "Decorate", "B", 2), (None, "MemberDecorate", "B", 0, 35, 0), (None, "Decorate", "numbers", 6, 4),
        (None, "Decorate", "b", 34, 0), (None, "Decorate", "b", 33, 0),
    ]
    declared = [
        ("numbers", "TypeArray", "uint", "c64"), ("room", "TypeArray", "uint", "c64"), ("B", "TypeStruct", "numbers"),
        ("to_input", "TypePointer", INPUT, "uint"), ("to_room", "TypePointer", WORKGROUP, "room"), ("to_shared", "TypePointer", WORKGROUP, "uint"),
        ("to_block", "TypePointer", STORAGE, "B"), ("to_number", "TypePointer", STORAGE, "uint"), ("to_local", "TypePointer", FUNCTION, "uint"),
        ("index", "Variable", "to_input", INPUT), ("s", "Variable", "to_room", WORKGROUP), ("b", "Variable", "to_block", STORAGE),
    ]
    described = [
        ("source", "DebugSource", "file", "text"), *unit("source"), ("tuint", "DebugTypeBasic", "nuint", "c32", "c6", "c0"),
        ("tnumbers", "DebugTypeArray", "tuint", "c64"), ("tv", "DebugTypeMember", "nv", "tnumbers", "source", "c3", "c0", "c0", "c0", "c0"),
        ("tB", "DebugTypeComposite", "nB", "c1", "source", "c3", "c0", "unit", "nB", "c0", "c0", "tv"),
        ("db", "DebugGlobalVariable", "nb", "tB", "source", "c3", "c0", "unit", "nb", "b", "c0"), function("dmain", "nmain", "source"),
        ("di", "DebugLocalVariable", "ni", "tuint", "source", "c6", "c0", "dmain", "c0"), ("expression", "DebugExpression"),
    ]
    body = [
        ("main", "Function", "void", 0, "fn"), ("-", "Label"), ("i", "Variable", "to_local", FUNCTION), ("-", "DebugFunctionDefinition", "dmain", "main"),
        scope("dmain"), line("source", 6), ("-", "DebugDeclare", "di", "i", "expression"), ("t1", "Load", "uint", "index"), (None, "Store", "i", "t1"), *within,
        line("source", 7), ("t2", "Load", "uint", "i"), ("t3", "Load", "uint", "i"), ("p1", "AccessChain", "to_number", "b", "c0", "t3"),
        ("t4", "Load", "uint", "p1"), ("p2", "AccessChain", "to_shared", "s", "t2"), (None, "Store", "p2", "t4"),
        line("source", 8), (None, "ControlBarrier", "c2", "c2", "c264"),
        ninth or line("source", 9), ("t5", "Load", "uint", "i"), ("t6", "Load", "uint", "i"), ("p3", "AccessChain", "to_shared", "s", "t6"),
        ("t7", "Load", "uint", "p3"), ("t8", "Load", "uint", "i"), ("t9", "BitwiseXor", "uint", "t8", "c1"), ("p4", "AccessChain", "to_shared", "s", "t9"),
        ("t10", "Load", "uint", "p4"), ("t11", "IAdd", "uint", "t7", "t10"), ("p5", "AccessChain", "to_number", "b", "c0", "t5"), (None, "Store", "p5", "t11"),
        line("source", 10), (None, "Return",), (None, "FunctionEnd",),
    ]
    imports = [("glsl", "ExtInstImport", '"GLSL.std.450"')]
    return Assembled(start(64, ("index", "s", "b"), texts, (), decorated, imports) + types() + declared + described + list(before) + body)


# ---- calls that were inlined

def inlined(size=1, text=None):
    """One block: a call of f on line 10 of main was inlined, and in it one of g on line 5 of f."""
    texts = strings(file="i.comp", nmain="main", nf="f", ng="g") + (strings(text=text) if text is not None else [])
    described = [
        ("source", "DebugSource", "file", *["text"] * (text is not None)), *unit("source"),
        *[function("d" + name, "n" + name, "source") for name in ("main", "f", "g")],
        ("A", "DebugInlinedAt", "c10", "dmain"), ("B", "DebugInlinedAt", "c5", "df", "A"),
    ]
    body = [
        ("main", "Function", "void", 0, "fn"), ("-", "Label"), scope("dmain"), line("source", 10), add("a1"), scope("df", "A"), line("source", 5), add("a2"),
        scope("dg", "B"), line("source", 2), add("a3"), scope("df", "A"), line("source", 6), add("a4"), scope("dmain"), line("source", 11),
        (None, "Return",), (None, "FunctionEnd",),
    ]
    return Assembled(start(size, (), texts) + types() + described + body)


# ---- two invocations, of which one returns before a barrier

def stuck():
    decorated = [(None, "Decorate", "index", 11, LOCAL_INDEX)]
    declared = [("to_input", "TypePointer", INPUT, "uint"), ("index", "Variable", "to_input", INPUT)]
    body = [
        ("main", "Function", "void", 0, "fn"), ("first", "Label"), ("i", "Load", "uint", "index"), ("zero", "IEqual", "bool", "i", "c0"),
        (None, "SelectionMerge", "merge", 0), (None, "BranchConditional", "zero", "T", "F"), ("T", "Label"), (None, "Return",), ("F", "Label"),
        (None, "ControlBarrier", "c2", "c2", "c264"), (None, "Return",), ("merge", "Label"), (None, "Unreachable",), (None, "FunctionEnd",),
    ]
    return Assembled(start(2, ("index",), (), (), decorated) + types() + declared + body)


# ---- calls that are made

def called():
    """main adds 40 and 2, and calls f, which adds 2 and calls g, which doubles. f has a name, the first name of g is empty."""
    names = [(None, "Name", "f", '"f"'), (None, "Name", "f", '"later"'), (None, "Name", "g", '""'), (None, "Name", "g", '"g"')]
    body = [
        ("g", "Function", "uint", 0, "fuint"), ("q", "FunctionParameter", "uint"), ("-", "Label"), ("g1", "IMul", "uint", "q", "c2"),
        (None, "ReturnValue", "g1"), (None, "FunctionEnd",),
        ("f", "Function", "uint", 0, "fuint"), ("p", "FunctionParameter", "uint"), ("-", "Label"), ("f1", "IAdd", "uint", "p", "c2"),
        ("f2", "FunctionCall", "uint", "g", "f1"), (None, "ReturnValue", "f2"), (None, "FunctionEnd",),
        ("main", "Function", "void", 0, "fn"), ("-", "Label"), ("m1", "IAdd", "uint", "c32", "c10"), ("m2", "FunctionCall", "uint", "f", "m1"),
        (None, "Return",), (None, "FunctionEnd",),
    ]
    return Assembled(start(1, (), (), names) + types() + [("fuint", "TypeFunction", "uint", "uint")] + body)


def called_and_inlined():
    """main's call of h on line 9 was inlined, and h calls f on line 3, in which a call of k on line 5 was inlined."""
    texts = strings(file="c.comp", nmain="main", nf="f", nh="h", nk="k")
    described = [
        ("source", "DebugSource", "file"), *unit("source"), *[function("d" + name, "n" + name, "source") for name in ("main", "f", "h", "k")],
        ("A", "DebugInlinedAt", "c9", "dmain"), ("B", "DebugInlinedAt", "c5", "df"),
    ]
    body = [
        ("f", "Function", "uint", 0, "fuint"), ("p", "FunctionParameter", "uint"), ("-", "Label"), scope("dk", "B"), line("source", 12),
        ("f1", "IAdd", "uint", "p", "c2"), ("f2", "IMul", "uint", "f1", "f1"), scope("df"), line("source", 6), (None, "ReturnValue", "f2"), (None, "FunctionEnd",),
        ("main", "Function", "void", 0, "fn"), ("-", "Label"), scope("dmain"), line("source", 8), ("m1", "IAdd", "uint", "c1", "c2"),
        scope("dh", "A"), line("source", 3), ("m2", "FunctionCall", "uint", "f", "m1"), ("m3", "IAdd", "uint", "m2", "m1"),
        scope("dmain"), line("source", 10), (None, "Return",), (None, "FunctionEnd",),
    ]
    return Assembled(start(1, (), texts) + types() + [("fuint", "TypeFunction", "uint", "uint")] + described + body)
