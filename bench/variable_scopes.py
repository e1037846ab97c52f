"""Modules whose locals stand in scopes, in inlined calls and in calls that are made, and that of the phi; rows of bench/assembler.py."""
from source_modules import WORKGROUP, FUNCTION, add, line, scope
from variable_modules import DEREF, SIGNED, UNSIGNED, Described, event, module


def phi():
    """A loop of three rounds; a DebugValue of `x` stands on the third phi before the addition."""
    described = Described()
    told = described.passed("x", described.basic(32, UNSIGNED), [event("n32")])
    body = [
        ("main", "Function", "void", 0, "fn"), ("b20", "Label"), scope("dmain"), (None, "Branch", "b21"),
        ("b21", "Label"), ("n30", "Phi", "uint", "c1", "b20", "n31", "b22"), ("n31", "Phi", "uint", "c2", "b20", "n30", "b22"),
        ("n32", "Phi", "uint", "c0", "b20", "n34", "b22"), scope("dmain"), ("n33", "ULessThan", "bool", "n32", "c3"),
        (None, "LoopMerge", "b23", "b22", 0), (None, "BranchConditional", "n33", "b22", "b23"),
        ("b22", "Label"), scope("dmain"), *told, ("n34", "IAdd", "uint", "n32", "c1"), (None, "Branch", "b21"),
        ("b23", "Label"), scope("dmain"), (None, "Return",), (None, "FunctionEnd",),
    ]
    return module(described, [], body)


def stored(size=1):
    """A Workgroup integer in which -5 is stored; `x` is what a pointer leads to, `y` the pointer itself, `z` is declared there."""
    described = Described()
    signed = described.basic(32, SIGNED)
    told = described.passed("x", signed, [event("w", (DEREF,))]) + described.passed("y", signed, [event("w")])
    told += described.passed("z", signed, [event("w", declare=True)])
    declared = [
        ("int", "TypeInt", 32, 1), ("minus5", "Constant", "int", 0xFFFFFFFB), ("to_int", "TypePointer", WORKGROUP, "int"), ("w", "Variable", "to_int", WORKGROUP),
    ]
    body = [
        ("main", "Function", "void", 0, "fn"), ("-", "Label"), scope("dmain"), *told, add(), (None, "Store", "w", "minus5"), add(), (None, "Return",),
        (None, "FunctionEnd",),
    ]
    return module(described, declared, body, size, ("w",))


def nested():
    """Blocks in main, each with an `x` of its own, and calls of f that were inlined at two places of them."""
    described = Described()
    number = described.basic(32, UNSIGNED)
    blocks = [
        ("outer", "DebugLexicalBlock", "source", "c2", "c0", "dmain"), ("inner", "DebugLexicalBlock", "source", "c3", "c0", "outer"),
        ("split", "DebugLexicalBlockDiscriminator", "source", "c1", "inner"), ("A", "DebugInlinedAt", "c10", "inner"), ("B", "DebugInlinedAt", "c12", "dmain"),
        ("loose", "DebugLexicalBlock", "source", "c9", "c0", "unit"),
    ]
    parents = [
        ("x", "x", "dmain"), ("in_split", "s", "split"), ("r", "r", "df"), ("outer_x", "x", "outer"), ("p", "p", "df"), ("z", "z", "outer"), ("inner_x", "x", "inner"),
        ("m", "m", "dmain"), ("again", "m", "dmain"), ("lost", "lost", "loose"), ("control", "a\x07b", "outer"),
    ]
    local = {key: described.local(name, number, parent) for key, name, parent in parents}
    r_in_a = described.new("DebugInlinedVariable", local["r"], "A")
    described.of_module("x", number, "c99")
    described.of_module("only", number, "c98")
    told = lambda key, value: described.told(local[key], *event("c%d" % value))
    body = [
        ("main", "Function", "void", 0, "fn"), ("-", "Label"), scope("dmain"), line("source", 1), told("x", 1), told("m", 2), told("again", 3), told("lost", 77), add(),
        scope("outer"), line("source", 2), told("outer_x", 20), told("z", 21), told("control", 22), add(),
        scope("inner"), line("source", 3), told("inner_x", 30), add(),
        scope("split"), line("source", 4), told("in_split", 40), add(),
        scope("df", "A"), line("source", 21), told("p", 50), add(),
        scope("df", "B"), line("source", 22), told("p", 60), described.told(r_in_a, *event("c61")), add(),
        scope("df", "A"), line("source", 23), add(),
        scope("outer"), line("source", 5), told("outer_x", 70), add(),
        scope("loose"), line("source", 6), add(),
        ("-", "DebugNoScope"), add(), (None, "Return",), (None, "FunctionEnd",),
    ]
    return module(described, [], body, functions=(("dmain", "main", "unit"), ("df", "f", "unit")), records=blocks)


def made():
    """main calls f twice, which has a parameter, a variable in memory, and a local that is told late."""
    described = Described()
    number = described.basic(32, UNSIGNED)
    m, p, v, late = (described.local(name, number, parent) for name, parent in (("m", "dmain"), ("p", "df"), ("v", "df"), ("late", "df")))
    told = lambda variable, value, **more: described.told(variable, *event(value, **more))
    body = [
        ("f", "Function", "uint", 0, "fuint"), ("given", "FunctionParameter", "uint"), ("-", "Label"), ("slot", "Variable", "to_local", FUNCTION), scope("df"),
        line("source", 5), told(p, "given"), told(v, "slot", declare=True), (None, "Store", "slot", "given"), ("twice", "IAdd", "uint", "given", "given"),
        told(late, "twice"), (None, "Store", "slot", "twice"), (None, "ReturnValue", "twice"), (None, "FunctionEnd",),
        ("main", "Function", "void", 0, "fn"), ("-", "Label"), scope("dmain"), line("source", 9), ("first", "FunctionCall", "uint", "f", "c7"), told(m, "first"),
        ("second", "FunctionCall", "uint", "f", "first"), told(m, "second"), (None, "Return",), (None, "FunctionEnd",),
    ]
    declared = [("fuint", "TypeFunction", "uint", "uint"), ("to_local", "TypePointer", FUNCTION, "uint")]
    return module(described, declared, body, functions=(("dmain", "main", "unit"), ("df", "f", "unit")))


def deeper():
    """main calls f, and h which calls f: f is the second call of the invocation, and then the third one behind h."""
    described = Described()
    number = described.basic(32, UNSIGNED)
    p, q = described.local("p", number, "df"), described.local("q", number, "dh")
    called = lambda name, scope_of, at, parameter, variable: [
        (name, "Function", "uint", 0, "fuint"), (parameter, "FunctionParameter", "uint"), ("-", "Label"), scope(scope_of), line("source", at), described.told(variable, *event(parameter)),
    ]
    body = [
        *called("f", "df", 5, "to_f", p), ("twice", "IAdd", "uint", "to_f", "to_f"), (None, "ReturnValue", "twice"), (None, "FunctionEnd",),
        *called("h", "dh", 6, "to_h", q), ("inner", "FunctionCall", "uint", "f", "to_h"), (None, "ReturnValue", "inner"), (None, "FunctionEnd",),
        ("main", "Function", "void", 0, "fn"), ("-", "Label"), scope("dmain"), line("source", 9), ("first", "FunctionCall", "uint", "f", "c7"), ("second", "FunctionCall", "uint", "h", "c8"),
        (None, "Return",), (None, "FunctionEnd",),
    ]
    functions = (("dmain", "main", "unit"), ("df", "f", "unit"), ("dh", "h", "unit"))
    return module(described, [("fuint", "TypeFunction", "uint", "uint")], body, functions=functions)
