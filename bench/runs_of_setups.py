"""Setups of every kind of line, over the shader that adds 40 and 2, and over the shader of docs/SETUP.md.

The answers are those of docs/SETUP.md: the text is looked at first (S1 to S4), then the module with its entry point and numbers
(M17), and then the fit (S5, S8, S9, S6, S7, S10).
"""
from listings import Inst, laid_out, module_bytes

DONE, MODULE, SETUP = 0, 3, 4
NO_ENTRY = "module refused: M17 at word 0\n"
# The replies to a motion of the first shader where the schedule has no entries.
NO_ENTRIES = "stop: start, schedule ended\n@0 i=0 %7 word 53\n"

# A line behind the first, and the replies to `goto 9` of the first shader, as the manual has them.
LINES = [
    ("", NO_ENTRIES),
    ("# rounds 10", NO_ENTRIES),
    ("entry main", NO_ENTRIES),
    ("group 1 0 0 of 2 1 1", NO_ENTRIES),
    ("buffer 0 0 hex 2a000000 FF", NO_ENTRIES),
    ("buffer 0 0 zero 16", NO_ENTRIES),
    ("push hex 2a000000", NO_ENTRIES),
    ("move 0 3", "stop: schedule ended\n@3 i=0 %7 word 65\n"),
    ("rounds 2", "stop: schedule ended\n@2 i=0 %7 word 60\n"),
    ("rounds 10", "stop: all finished\n@4 i=0 finished\n"),
]

# Setups of it, commands under them, and all that is written.
RUNS = [
    ("spvdbg-setup 1\nentry main\ngroup 1 0 0 of 2 1 1\nbuffer 0 0 zero 16\npush hex 00\n# two, and one\nmove 0 2\nrounds 1\n", "goto 9\n", "stop: schedule ended\n@3 i=0 %7 word 65\n"),
    (" spvdbg-setup  1 \r\n\r\n   \nrounds 1\r\n move  0   1 ", "goto 5\n", "stop: schedule ended\n@2 i=0 %7 word 60\n"),
    ("spvdbg-setup 1", "goto 9\n", NO_ENTRIES),
    ("spvdbg-setup 2\nrounds 2\n", "goto 9\n", "stop: schedule ended\n@2 i=0 %7 word 60\n"),
    (
        "spvdbg-setup 2\nentry main\ngroup 1 0 0 of 2 1 1\nbuffer 0 0 zero 16\nbarrier finished-count\npush hex 00\nmove 0 2\nrounds 1\n",
        "goto 9\n",
        "stop: schedule ended\n@3 i=0 %7 word 65\n",
    ),
    ("spvdbg-setup 2\nbarrier finished-count\nrounds 10\n", "goto 4\ngroup\nback 1\ngroup\n", "stop: done, all finished\n@4 i=0 finished\ni=0 finished\nstop: done\n@3 i=0 %7 word 65\ni=0 ready %7 word 65\n"),
    ("spvdbg-setup 1\nmove 0 4194300\nrounds 00000000000000000004\n", "goto 3\nregs\ngoto 9\n", "stop: done\n@3 i=0 %7 word 65\n%10 = 40\n%11 = 42\nstop: all finished\n@4 i=0 finished\n"),
]

# Setups that it is refused with.
REFUSED = [
    ("spvdbg-setup 3\n", "setup refused: S1 at line 1\n"),
    ("spvdbg-setup 1\njump 1\n", "setup refused: S2 at line 2\n"),
    ("spvdbg-setup 1\nbarrier finished-count\n", "setup refused: S2 at line 2\n"),
    ("spvdbg-setup 2\nbarrier finished-count\nbarrier finished-count\n", "setup refused: S4 at line 3\n"),
    ("spvdbg-setup 1\npush hex 0\n", "setup refused: S3 at line 2\n"),
    ("spvdbg-setup 1\ngroup 0 0 0 of 1 1 1\ngroup 0 0 0 of 1 1 1\n", "setup refused: S4 at line 3\n"),
    ("spvdbg-setup 1\nentry other\n", NO_ENTRY),
    ("spvdbg-setup 1\nmove 1 1\n", "setup refused: S5 at line 2\n"),
    ("spvdbg-setup 1\nspec 3 1\n", "setup refused: S8 at line 2\n"),
    ("spvdbg-setup 1\nrounds 4194304\nmove 0 1\n", "setup refused: S9 at line 0\n"),
    ("spvdbg-setup 2\nbarrier finished-count\nmove 1 1\n", "setup refused: S5 at line 3\n"),
    ("spvdbg-setup 2\nbarrier finished-count\nspec 3 1\n", "setup refused: S8 at line 3\n"),
    ("spvdbg-setup 2\nentry other\nbarrier finished-count\n", NO_ENTRY),
    ("spvdbg-setup 2\nrounds 4194304\nbarrier finished-count\nmove 0 1\n", "setup refused: S9 at line 0\n"),
]

# Texts with the number in the code of their refusal and its line, or zeros where they are read, by hand from the manual's table of
# lines.
TEXTS = [
    ("", 1, 1),
    ("\n", 1, 1),
    ("spvdbg-setup", 1, 1),
    ("spvdbg-setup 1", 0, 0),
    ("spvdbg-setup 1\n", 0, 0),
    ("spvdbg-setup 1\r\n", 0, 0),
    ("spvdbg-setup 1\r", 1, 1),
    ("  spvdbg-setup   1  \n", 0, 0),
    ("spvdbg-setup 01\n", 1, 1),
    ("spvdbg-setup 2\n", 0, 0),
    ("spvdbg-setup 2", 0, 0),
    ("  spvdbg-setup   2  \r\n", 0, 0),
    ("spvdbg-setup 02\n", 1, 1),
    ("spvdbg-setup 12\n", 1, 1),
    ("spvdbg-setup 2 1\n", 1, 1),
    ("spvdbg-setup 2.\n", 1, 1),
    ("spvdbg-setup 3\n", 1, 1),
    ("spvdbg-setup 1 1\n", 1, 1),
    ("#\nspvdbg-setup 1\n", 1, 1),
    ("\nspvdbg-setup 1\n", 1, 1),
    ("spvdbg-setup 1\n\n\n   \n#x\n# rounds\n", 0, 0),
    ("spvdbg-setup 1\n #x\n", 2, 2),
    ("spvdbg-setup 1\njump 1\n", 2, 2),
    ("spvdbg-setup 1\nMove 0 1\n", 2, 2),
    ("spvdbg-setup 1\n\tmove 0 1\n", 2, 2),
    ("spvdbg-setup 1\nbarrier finished-count\n", 2, 2),
    ("spvdbg-setup 1\nbarrier\n", 2, 2),
    ("spvdbg-setup 1\nrounds 1\nbarrier finished-count\nrounds x\n", 2, 3),
    ("spvdbg-setup 2\nbarrier finished-count\n", 0, 0),
    ("spvdbg-setup 2\n  barrier   finished-count  \r\n", 0, 0),
    ("spvdbg-setup 2\nrounds 1\nbarrier finished-count", 0, 0),
    ("spvdbg-setup 2\nbarrier\n", 2, 2),
    ("spvdbg-setup 2\nbarrier finished\n", 2, 2),
    ("spvdbg-setup 2\nbarrier finished-counts\n", 2, 2),
    ("spvdbg-setup 2\nbarrier Finished-count\n", 2, 2),
    ("spvdbg-setup 2\nBarrier finished-count\n", 2, 2),
    ("spvdbg-setup 2\nbarrier finished count\n", 2, 2),
    ("spvdbg-setup 2\nbarrier finished-count 1\n", 2, 2),
    ("spvdbg-setup 2\nfinished-count\n", 2, 2),
    ("spvdbg-setup 2\nbarrier finished-count\nrounds 1\nbarrier finished-count\n", 4, 4),
    ("spvdbg-setup 2\nbarrier finished-count\nbarrier finished\n", 2, 3),
    ("spvdbg-setup 2\nbarrier finished-count\nbarrier finished-count\njump 1\n", 4, 3),
    ("spvdbg-setup 2\nrounds x\nbarrier\n", 3, 2),
    ("spvdbg-setup 2\njump 1\n", 2, 2),
    ("spvdbg-setup 2\nbuffer 0 0 hex 0\n", 3, 2),
    ("spvdbg-setup 2\npush hex\npush hex\n", 4, 3),
    ("spvdbg-setup 1\nentry main\n", 0, 0),
    ("spvdbg-setup 1\nentry\n", 2, 2),
    ("spvdbg-setup 1\nentry a b\n", 2, 2),
    ("spvdbg-setup 1\nentry a\nentry a\n", 4, 3),
    ("spvdbg-setup 1\n  entry   main  \r\n", 0, 0),
    ("spvdbg-setup 1\ngroup 0 0 0 of 1 1 1\n", 0, 0),
    ("spvdbg-setup 1\ngroup 1 0 0 of 1 1 1\n", 3, 2),
    ("spvdbg-setup 1\ngroup 0 1 0 of 1 1 1\n", 3, 2),
    ("spvdbg-setup 1\ngroup 0 0 1 of 1 1 1\n", 3, 2),
    ("spvdbg-setup 1\ngroup 0 0 0 of 0 1 1\n", 3, 2),
    ("spvdbg-setup 1\ngroup 4294967294 0 0 of 4294967295 1 1\n", 0, 0),
    ("spvdbg-setup 1\ngroup 0 0 0 of 4294967296 1 1\n", 3, 2),
    ("spvdbg-setup 1\ngroup 0 0 0 in 1 1 1\n", 2, 2),
    ("spvdbg-setup 1\ngroup x 0 0 in 1 1 1\n", 2, 2),
    ("spvdbg-setup 1\ngroup 0 0 0 of 1 1\n", 2, 2),
    ("spvdbg-setup 1\ngroup 0 0 0 of 1 1 1 1\n", 2, 2),
    ("spvdbg-setup 1\ngroup\n", 2, 2),
    ("spvdbg-setup 1\ngroup 0 0 0 of 1 1 1\ngroup 0 0 0 of 1 1 1\n", 4, 3),
    ("spvdbg-setup 1\nspec 3 1\n", 0, 0),
    ("spvdbg-setup 1\nspec 3 -1\n", 0, 0),
    ("spvdbg-setup 1\nspec 3 -0\n", 0, 0),
    ("spvdbg-setup 1\nspec 3 --1\n", 3, 2),
    ("spvdbg-setup 1\nspec 3 -\n", 3, 2),
    ("spvdbg-setup 1\nspec 3 +1\n", 3, 2),
    ("spvdbg-setup 1\nspec -3 1\n", 3, 2),
    ("spvdbg-setup 1\nspec 3 18446744073709551615\n", 0, 0),
    ("spvdbg-setup 1\nspec 3 18446744073709551616\n", 3, 2),
    ("spvdbg-setup 1\nspec 3 -9223372036854775808\n", 0, 0),
    ("spvdbg-setup 1\nspec 3 -9223372036854775809\n", 3, 2),
    ("spvdbg-setup 1\nspec 4294967295 0\n", 0, 0),
    ("spvdbg-setup 1\nspec 4294967296 0\n", 3, 2),
    ("spvdbg-setup 1\nspec 3\n", 2, 2),
    ("spvdbg-setup 1\nspec 3 1 1\n", 2, 2),
    ("spvdbg-setup 1\nspec 3 1\nspec 4 1\nspec 03 2\n", 4, 4),
    ("spvdbg-setup 1\nspec 3 00000000000000000001\n", 0, 0),
    ("spvdbg-setup 1\nspec 3 000000000000000000001\n", 3, 2),
    ("spvdbg-setup 1\nbuffer 0 0 hex\n", 0, 0),
    ("spvdbg-setup 1\nbuffer 0 0 hex 00ff\n", 0, 0),
    ("spvdbg-setup 1\nbuffer 0 0 hex aF 0b C0\n", 0, 0),
    ("spvdbg-setup 1\nbuffer 0 0 hex 0\n", 3, 2),
    ("spvdbg-setup 1\nbuffer 0 0 hex 00 0 0\n", 3, 2),
    ("spvdbg-setup 1\nbuffer 0 0 hex 0g\n", 3, 2),
    ("spvdbg-setup 1\nbuffer 0 0 zero 0\n", 0, 0),
    ("spvdbg-setup 1\nbuffer 0 0 zero 16777216\n", 0, 0),
    ("spvdbg-setup 1\nbuffer 0 0 zero 16777217\n", 3, 2),
    ("spvdbg-setup 1\nbuffer 0 0 zero\n", 2, 2),
    ("spvdbg-setup 1\nbuffer 0 0 zero 1 1\n", 2, 2),
    ("spvdbg-setup 1\nbuffer 0 0 ones 1\n", 2, 2),
    ("spvdbg-setup 1\nbuffer x 0 ones 1\n", 2, 2),
    ("spvdbg-setup 1\nbuffer 0 0\n", 2, 2),
    ("spvdbg-setup 1\nbuffer 4294967296 0 hex\n", 3, 2),
    ("spvdbg-setup 1\nbuffer 0 4294967296 zero 1\n", 3, 2),
    ("spvdbg-setup 1\nbuffer 0 0 zero 1\nbuffer 0 1 zero 1\nbuffer 1 0 hex\nbuffer 00 1 hex 00\n", 4, 5),
    ("spvdbg-setup 1\nbuffer 0 0 hex\nbuffer 0 0 zero 4\n", 4, 3),
    ("spvdbg-setup 1\npush hex\n", 0, 0),
    ("spvdbg-setup 1\npush hex 0\n", 3, 2),
    ("spvdbg-setup 1\npush hex 00 11\n", 0, 0),
    ("spvdbg-setup 1\npush zero 1\n", 2, 2),
    ("spvdbg-setup 1\npush\n", 2, 2),
    ("spvdbg-setup 1\npush hex\npush hex\n", 4, 3),
    ("spvdbg-setup 1\nmove 0 1\nmove 0 1\n", 0, 0),
    ("spvdbg-setup 1\nmove 0 4194304\n", 0, 0),
    ("spvdbg-setup 1\nmove 0 4194305\n", 3, 2),
    ("spvdbg-setup 1\nmove 4294967295 0\n", 0, 0),
    ("spvdbg-setup 1\nmove 4294967296 0\n", 3, 2),
    ("spvdbg-setup 1\nmove 0\n", 2, 2),
    ("spvdbg-setup 1\nmove 0 1 1\n", 2, 2),
    ("spvdbg-setup 1\nrounds 0\nrounds 4194304\n", 0, 0),
    ("spvdbg-setup 1\nrounds 4194305\n", 3, 2),
    ("spvdbg-setup 1\nrounds\n", 2, 2),
    ("spvdbg-setup 1\nrounds 1 1\n", 2, 2),
    ("spvdbg-setup 1\nrounds 1\r", 3, 2),
    ("spvdbg-setup 1\nrounds -1\n", 3, 2),
    ("spvdbg-setup 1\nentry a\njump\nrounds x\n", 2, 3),
    ("spvdbg-setup 1\nrounds x\njump\n", 3, 2),
]

# All other lines mean the same in version 2.
TEXTS += [(text.replace("spvdbg-setup 1\n", "spvdbg-setup 2\n"), *due) for text, *due in TEXTS if text.startswith("spvdbg-setup 1\n") and "\nbarrier" not in text]

# Other first lines, and the line of version 2 among others and written in other ways.
TEXTS += [
    ("spvdbg-setup 2\r", 1, 1),
    ("spvdbg-setup 20\n", 1, 1),
    ("spvdbg-setup 0\n", 1, 1),
    ("spvdbg-setup 4\n", 1, 1),
    ("spvdbg-setup two\n", 1, 1),
    ("Spvdbg-setup 2\n", 1, 1),
    ("barrier finished-count\nspvdbg-setup 2\n", 1, 1),
    ("spvdbg-setup 2\nspvdbg-setup 2\n", 2, 2),
    ("spvdbg-setup 1\nspvdbg-setup 2\nbarrier finished-count\n", 2, 2),
    ("spvdbg-setup 2\nrounds 1\n\n# once\nbarrier finished-count\nmove 0 1\n", 0, 0),
    ("spvdbg-setup 2\n#barrier finished-count\nbarrier finished-count\n", 0, 0),
    ("spvdbg-setup 2\nbarrier finished-count finished-count\n", 2, 2),
    ("spvdbg-setup 2\nbarrier finished-count\r", 2, 2),
    ("spvdbg-setup 2\nbarrier\tfinished-count\n", 2, 2),
    ("spvdbg-setup 2\nbarriers finished-count\n", 2, 2),
    ("spvdbg-setup 2\nbarrier finished-count\nrounds 1\n\n# again\n barrier   finished-count \n", 4, 6),
    ("spvdbg-setup 2\nbarrier finished-count\nbarrier finished-count 1\n", 2, 3),
    ("spvdbg-setup 2\nmove 0 x\nbarrier finished-count\nbarrier finished-count\n", 3, 2),
    ("spvdbg-setup 2\nentry a\nbarrier finished-count\nentry a\n", 4, 4),
    ("spvdbg-setup 1\nbarrier all\n", 2, 2),
    ("spvdbg-setup 1\nrounds 1\nbarrier finished-count\nbarrier finished-count\n", 2, 3),
    ("spvdbg-setup 1\nrounds x\nbarrier finished-count\n", 3, 2),
]

# The shader of docs/SETUP.md: uints of the SpecIds 3 and 6 and a bool of SpecId 4; a buffer of a uint and a runtime array of uints,
# push constants of two uints, and LocalInvocationId. Its entry points are `main`, of as many invocations as the constant of SpecId 6
# says, which are two, and of one invocation `one` and `held`, which has a register.
BLOCKS = [
    Inst("Capability", 1),
    Inst("MemoryModel", 0, 1),
    Inst("EntryPoint", 5, 18, "main"),
    Inst("EntryPoint", 5, 20, "one"),
    Inst("EntryPoint", 5, 23, "held"),
    Inst("ExecutionModeId", 18, 38, 22, 9, 9),
    Inst("ExecutionMode", 20, 17, 1, 1, 1),
    Inst("ExecutionMode", 23, 17, 1, 1, 1),
    Inst("Decorate", 7, 1, 3),
    Inst("Decorate", 8, 1, 4),
    Inst("Decorate", 22, 1, 6),
    Inst("Decorate", 3, 6, 4),
    Inst("Decorate", 4, 2),
    Inst("MemberDecorate", 4, 0, 35, 0),
    Inst("MemberDecorate", 4, 1, 35, 4),
    Inst("Decorate", 6, 34, 0),
    Inst("Decorate", 6, 33, 0),
    Inst("Decorate", 10, 2),
    Inst("MemberDecorate", 10, 0, 35, 0),
    Inst("MemberDecorate", 10, 1, 35, 4),
    Inst("Decorate", 15, 11, 27),
    Inst("TypeInt", 1, 32, 0),
    Inst("TypeBool", 2),
    Inst("SpecConstant", 1, 7, 5),
    Inst("SpecConstantTrue", 2, 8),
    Inst("SpecConstant", 1, 22, 2),
    Inst("Constant", 1, 9, 1),
    Inst("TypeRuntimeArray", 3, 1),
    Inst("TypeStruct", 4, 1, 3),
    Inst("TypePointer", 5, 12, 4),
    Inst("Variable", 5, 6, 12),
    Inst("TypeStruct", 10, 1, 1),
    Inst("TypePointer", 11, 9, 10),
    Inst("Variable", 11, 12, 9),
    Inst("TypeVector", 13, 1, 3),
    Inst("TypePointer", 14, 1, 13),
    Inst("Variable", 14, 15, 1),
    Inst("TypeVoid", 16),
    Inst("TypeFunction", 17, 16),
    Inst("Function", 16, 18, 0, 17),
    Inst("Label", 19),
    Inst("Return"),
    Inst("FunctionEnd"),
    Inst("Function", 16, 20, 0, 17),
    Inst("Label", 21),
    Inst("Return"),
    Inst("FunctionEnd"),
    Inst("Function", 16, 23, 0, 17),
    Inst("Label", 24),
    Inst("CopyObject", 1, 25, 9),
    Inst("Return"),
    Inst("FunctionEnd"),
]
WORDS = laid_out(BLOCKS)[1]
MAIN, ONE, HELD = (WORDS[n] for n in (41, 45, 49))
AT_START = "stop: start, schedule ended\n@0 i=0 %%%d word %d\n"
ENDED = "stop: done, all finished\n@1 i=0 finished\n"

# Two variables of the class Workgroup, each of 2,097,153 uints.
WIDE = [
    Inst("Capability", 1),
    Inst("MemoryModel", 0, 1),
    Inst("EntryPoint", 5, 8, "main"),
    Inst("ExecutionMode", 8, 17, 1, 1, 1),
    Inst("TypeVoid", 1),
    Inst("TypeFunction", 2, 1),
    Inst("TypeInt", 3, 32, 0),
    Inst("Constant", 3, 4, 2_097_153),
    Inst("TypeArray", 5, 3, 4),
    Inst("TypePointer", 6, 4, 5),
    Inst("Variable", 6, 7, 4),
    Inst("Variable", 6, 10, 4),
    Inst("Function", 1, 8, 0, 2),
    Inst("Label", 9),
    Inst("Return"),
    Inst("FunctionEnd"),
]

# The first three lines of the examples of docs/SETUP.md.
HEAD = "spvdbg-setup 1\nbuffer 0 0 zero 8\npush hex 0100000002000000\n"

# What stands behind them with one invocation, and the replies to `goto 1`.
KEPT = [
    ("", AT_START % (18, MAIN)),
    ("# move 9 9\n", AT_START % (18, MAIN)),
    ("entry main\n", AT_START % (18, MAIN)),
    ("group 1 0 0 of 2 1 1\n", AT_START % (18, MAIN)),
    ("spec 3 7\n", AT_START % (18, MAIN)),
    ("spec 3 -1\n", AT_START % (18, MAIN)),
    ("buffer 1 0 hex 00 ff\n", AT_START % (18, MAIN)),
    ("buffer 1 0 zero 16\n", AT_START % (18, MAIN)),
    ("move 0 3\n", ENDED),
    ("rounds 2\n", ENDED),
    ("entry one\nmove 0 1\n", ENDED),
    ("entry one\n", AT_START % (20, ONE)),
    ("entry held\n", AT_START % (23, HELD)),
]

# What stands behind them with two invocations, and the line of the refusal.
BEHIND = [
    ("jump 1\n", "setup refused: S2 at line 4\n"),
    ("move 0 1 1\n", "setup refused: S2 at line 4\n"),
    ("rounds 4194305\n", "setup refused: S3 at line 4\n"),
    ("rounds 000000000000000000001\n", "setup refused: S3 at line 4\n"),
    ("group 1 0 0 of 1 1 1\n", "setup refused: S3 at line 4\n"),
    ("buffer 1 0 hex 0\n", "setup refused: S3 at line 4\n"),
    ("push hex 00\n", "setup refused: S4 at line 4\n"),
    ("move 2 0\n", "setup refused: S5 at line 4\n"),
    ("spec 5 1\n", "setup refused: S8 at line 4\n"),
    ("spec 4 2\n", "setup refused: S8 at line 4\n"),
    ("rounds 2097153\n", "setup refused: S9 at line 0\n"),
    ("entry one\nmove 1 1\n", "setup refused: S5 at line 5\n"),
    ("spec 6 7\nmove 7 1\n", "setup refused: S5 at line 5\n"),
    ("entry two\n", NO_ENTRY),
    ("spec 6 0\n", NO_ENTRY),
    ("spec 6 1025\n", NO_ENTRY),
    # the text goes before the module, and the module before the fit
    ("entry two\njump 1\n", "setup refused: S2 at line 5\n"),
    ("entry two\nmove 9 1\n", NO_ENTRY),
    ("spec 6 0\nspec 5 1\n", NO_ENTRY),
    ("spec 5 1\nmove 2 1\n", "setup refused: S5 at line 5\n"),
]

# What stands behind them with several invocations, and the replies to `goto 1`: one of them returns, and the focus is 0.
RETURNED = "stop: done\n@1 i=0 finished\n"
OTHER_RETURNED = "stop: done\n@1 i=0 %%18 word %d\n" % MAIN
OTHER_LAST = "stop: done, schedule ended\n@1 i=0 %%18 word %d\n" % MAIN
OF_TWO = [
    (HEAD, AT_START % (18, MAIN)),
    (HEAD + "spec 6 1024\n", AT_START % (18, MAIN)),
    (HEAD + "move 1 3\n", OTHER_RETURNED),
    (HEAD + "move 1 1\n", OTHER_LAST),
    (HEAD + "spec 6 7\nmove 6 1\n", OTHER_LAST),
    (HEAD + "rounds 2097152\n", RETURNED),
    (
        "spvdbg-setup 1\n# the last of two workgroups\nentry main\ngroup 1 0 0 of 2 1 1\nspec 3 7\nspec 4 0\n"
        "buffer 0 0 hex 02000000 0a000000 0b000000\npush hex 0100000002000000\nmove 1 2\nrounds 3\n",
        OTHER_RETURNED,
    ),
    ("spvdbg-setup 1\nbuffer 0 0 zero 16777187\npush hex 0000000000000000\n", AT_START % (18, MAIN)),
]

# The other whole texts of docs/SETUP.md, and texts that break two rules, of which the first in the order is told; or the lowest of
# two lines.
WHOLE = [
    ("spvdbg-setup 1\npush hex 0100000002000000\n", 6, 0),
    ("spvdbg-setup 1\nbuffer 0 0 zero 4\n", 6, 0),
    ("spvdbg-setup 1\nbuffer 0 0 zero 3\npush hex 0100000002000000\n", 7, 2),
    ("spvdbg-setup 1\nbuffer 0 0 zero 16777216\npush hex 0100000002000000\n", 10, 0),
    ("spvdbg-setup 1\nspec 5 1\nmove 2 1\n", 5, 3),
    ("spvdbg-setup 1\nrounds 4194304\nspec 5 1\n", 8, 3),
    ("spvdbg-setup 1\nrounds 4194304\n", 9, 0),
    ("spvdbg-setup 1\nbuffer 0 0 zero 3\n", 6, 0),
    ("spvdbg-setup 1\nbuffer 0 0 zero 16777216\npush hex 01000000020000\n", 7, 3),
    ("spvdbg-setup 1\npush hex\nbuffer 0 0 hex\n", 7, 2),
    ("spvdbg-setup 1\nbuffer 0 0 hex\npush hex\n", 7, 2),
    ("spvdbg-setup 1\nspec 4 2\nspec 5 1\n", 8, 2),
    ("spvdbg-setup 1\nmove 9 1\nmove 2 1\n", 5, 2),
]

# Lines behind the first, bytes of the buffer, and whether there are more than 4,194,304 cells: one of the uint, one for each four
# bytes behind, two of the push constants, and for each invocation the three of the Input variable and those of its registers.
CELLS = [
    ("", 16_777_188, True),
    ("spec 6 1\n", 16_777_199, False),
    ("spec 6 1\n", 16_777_200, True),
    ("entry one\n", 16_777_200, True),
    ("entry held\n", 16_777_195, False),
    ("entry held\n", 16_777_196, True),
]


def status_of(written):
    return SETUP if written.startswith("setup") else MODULE if written.startswith("module") else DONE


def due_for(text, code, line):
    """The outcome of a text for the first shader, which has no SpecIds and one invocation."""
    if code:
        return "setup refused: S%d at line %d\n" % (code, line)
    if "spec " in text:
        return "setup refused: S8 at line 2\n"
    return "setup refused: S5 at line 2\n" if "move 4294967295" in text else ""


def calls():
    """What each call is, the module, the setup, the commands, the status, and what is written."""
    for line, written in LINES:
        yield "a line", "first.spv", "spvdbg-setup 1\n%s\n" % line, "goto 9\n", DONE, written
    for setup, commands, written in RUNS:
        yield "a run", "first.spv", setup, commands, DONE, written
    for setup, written in REFUSED:
        yield "refused", "first.spv", setup, "goto 1\n", status_of(written), written
    for text, code, line in TEXTS:
        written = due_for(text, code, line)
        yield "a text", "first.spv", text, "", status_of(written), written
    for lines, written in KEPT:
        yield "kept", "blocks.spv", HEAD + "spec 6 1\n" + lines, "goto 1\n", DONE, written
    for lines, written in BEHIND:
        yield "behind", "blocks.spv", HEAD + lines, "goto 1\n", status_of(written), written
    for setup, code, line in WHOLE:
        yield "in order", "blocks.spv", setup, "goto 1\n", SETUP, "setup refused: S%d at line %d\n" % (code, line)
    for lines, count, is_over in CELLS:
        setup = "spvdbg-setup 1\nbuffer 0 0 zero %d\npush hex 0000000000000000\n%s" % (count, lines)
        written = "setup refused: S10 at line 0\n"
        yield "cells", "blocks.spv", setup, "", *((SETUP, written) if is_over else (DONE, ""))
    yield "cells", "wide.spv", "spvdbg-setup 1\nrounds 30\n", "", SETUP, "setup refused: S10 at line 0\n"


def modules():
    yield "blocks.spv", module_bytes(BLOCKS)
    yield "wide.spv", module_bytes(WIDE)
