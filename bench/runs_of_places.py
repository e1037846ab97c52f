"""Places in the source that are told in words: lines that end or are none, names that aren't there or can't be shown, and files without
text.

The module is one of OpLine and OpNoLine (SPIR-V 1.6 section 3.42.2). The replies are worked out by hand, but for the words of
instructions.
"""
from listings import Inst, laid_out, module_bytes

DONE = 0
FILE, OTHER, MAIN, VOID, OF_VOID, UINT, ONE, ENTRY, CALLED, INNER, LAST, FIRST = range(1, 13)
NO_TEXT = "refused: C10 no source text\n"
TEXT = "one\r\ntwo\rtoo\n\n\tfour"


def line(file, number):
    return Inst("Line", file, number, 9)


def sum_of(n):
    return Inst("IAdd", UINT, FIRST + n, ONE, ONE)


# The instructions of the two functions. Behind each at which a run stops: where it stands (W is its word), and the reply to `list`.
ENTERED = [
    (Inst("Function", VOID, MAIN, 0, OF_VOID),),
    (Inst("Label", ENTRY),),
    (sum_of(0), "m?in word W", NO_TEXT),
    (line(FILE, 1),),
    (sum_of(1), "m?in a?b.comp:1", "     1> one\n     2  two\rtoo\n     3  \n"),
    (line(FILE, 4),),
    (sum_of(2), "m?in a?b.comp:4", "     2  two\rtoo\n     3  \n     4> \tfour\n"),
    # behind the text, but near enough
    (line(FILE, 6),),
    (sum_of(3), "m?in a?b.comp:6", "     4  \tfour\n"),
    (line(FILE, 7),),
    (sum_of(4), "m?in a?b.comp:7", NO_TEXT),
    # a file without text
    (line(OTHER, 1),),
    (sum_of(5), "m?in b.comp:1", NO_TEXT),
    (line(FILE, 0),),
    (sum_of(6), "m?in word W", NO_TEXT),
    (line(FILE, 2),),
    (Inst("NoLine"),),
    (sum_of(7), "m?in word W", NO_TEXT),
    (line(FILE, 3),),
    (Inst("FunctionCall", VOID, FIRST + 8, CALLED), "m?in a?b.comp:3", "     1  one\n     2  two\rtoo\n     3> \n     4  \tfour\n"),
]
# A function without a name.
WITHIN = [
    (Inst("Function", VOID, CALLED, 0, OF_VOID),),
    (Inst("Label", INNER),),
    (line(FILE, 2),),
    (sum_of(9), "%9 a?b.comp:2", "     1  one\n     2> two\rtoo\n     3  \n     4  \tfour\n"),
    (Inst("NoLine"),),
    (Inst("Return"), "%9 word W", NO_TEXT),
]
# The line of the call holds behind it, and ends with the block.
LEFT = [
    (Inst("Branch", LAST), *ENTERED[-1][1:]),
    (Inst("Label", LAST),),
    (Inst("Return"), "m?in word W", NO_TEXT),
]


def insts():
    return [
        Inst("Capability", 1),
        Inst("MemoryModel", 0, 1),
        Inst("EntryPoint", 5, MAIN, "main"),
        Inst("ExecutionMode", MAIN, 17, 1, 1, 1),
        Inst("String", FILE, "a\x01b.comp"),
        Inst("String", OTHER, "b.comp"),
        Inst("Source", 2, 450, FILE, TEXT),
        Inst("Name", MAIN, "m\x7fin"),
        Inst("TypeVoid", VOID),
        Inst("TypeFunction", OF_VOID, VOID),
        Inst("TypeInt", UINT, 32, 0),
        Inst("Constant", UINT, ONE, 1),
        *(row[0] for row in ENTERED + LEFT),
        Inst("FunctionEnd"),
        *(row[0] for row in WITHIN),
        Inst("FunctionEnd"),
    ]


def session():
    """The commands at each position, and the replies."""
    made = insts()
    words = dict(zip(map(id, made), laid_out(made)[1]))
    commands, written, call = "", "", ENTERED[-1][1]
    for n, (inst, place, around) in enumerate(row for row in ENTERED + WITHIN + LEFT if len(row) > 1):
        place = place.replace("W", str(words[id(inst)]))
        start = ", start" if n == 0 else ""
        commands += "goto %d\nlist\n" % n
        written += "stop: done%s\n@%d i=0 %s\n%s" % (start, n, place, around)
        if place.startswith("%"):
            # both frames, and the lines and the registers of the outer one
            commands += "bt\nframe 1\nlist\nfwd 0\nwhere\nframe 2\n"
            written += "#0 %s\n#1 %s\n#1 %s\n%srefused: C2 arguments\n@%d i=0 %s\nrefused: C4 no such frame\n" % (place, call, call, ENTERED[-1][2], n, place)
            commands += "regs\nframe 0\nregs\n"
            written += "".join("%%%d = 2\n" % (FIRST + k) for k in range(8)) + "#0 %s\n" % place
            written += "" if around != NO_TEXT else "%%%d = 2\n" % (FIRST + 9)
    return commands, written


def calls():
    """What the call is, the module, the setup, the commands, the status, and what is written."""
    commands, written = session()
    yield "places", "places.spv", "spvdbg-setup 1\nrounds 30\n", commands, DONE, written


def modules():
    yield "places.spv", module_bytes(insts())
