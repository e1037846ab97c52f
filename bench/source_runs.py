#!/usr/bin/env python3
"""Sessions over source: `where`, `bt`, `frame`, `list`, `info`, and what names and lines are shown, worked out by hand.

    bench/source_runs.py    says where what is written here by hand differs from what sessions.py works out

The runs are written by bench/runs.py, and the modules by it too. What is due stands beside each command; the frames of
source_places.py and the windows of source_texts.py stand beside the lines of the modules. Words and ids are those at which the
assembler put an instruction.
"""
import source_modules
import source_places
import source_texts
from sessions import Session, Shaped

C2, C3, C4 = "refused: C2 arguments", "refused: C3 no such invocation", "refused: C4 no such frame"
C10, C12 = "refused: C10 no source text", "refused: C12 focus finished"
ROUNDS = "spvdbg-setup 1\nrounds 30\n"
NUMBERS = list(range(1, 65))
BUFFER = "spvdbg-setup 1\nbuffer 0 0 hex " + " ".join("%02x000000" % k for k in NUMBERS) + "\n"
EXCHANGE, INLINED, STUCK, CALLED = source_modules.exchange(), source_modules.inlined(), source_modules.stuck(), source_modules.called()
BOTH, PLACES, TEXTS = source_modules.called_and_inlined(), source_places.module(), source_texts.module()
I_TEXT = "".join("%d of i\n" % n for n in range(1, 13))
WITH_TEXT = source_modules.inlined(2, I_TEXT)
# Of the ninth line the Line Start is a string.
WITHOUT_NINTH = source_modules.exchange(("-", "DebugLine", "source", "file", "c9", "c0", "c0"))
# Records that are malformed, each in a module of its own: what stands before the functions, and what stands in the block.
MALFORMED = {
    "value": source_modules.exchange(None, [("inner", "DebugLexicalBlock", "source", "c1", "c0", "dmain")], [("-", "DebugValue", "inner", "c7", "expression")]),
    "scope": source_modules.exchange(None, [source_modules.scope("dmain")]),
    "number": source_modules.exchange(None, [("-", "DebugUnknown", "c1")]),
}
MODULES = {
    **{"malformed-" + name: assembled for name, assembled in MALFORMED.items()}, "exchange": EXCHANGE, "without-ninth": WITHOUT_NINTH, "inlined": INLINED, "with-text": WITH_TEXT, "stuck": STUCK, "called": CALLED, "both": BOTH,
    "places": PLACES, "texts": TEXTS,
}


def file_of(name):
    return "source-%s.spv" % name


# ---- a workgroup of 64

AT_4_TO_8 = [
    "     4  shared uint s[64];", "     5  void main() {", "     6>   uint i = gl_LocalInvocationIndex;", "     7    s[i] = b.v[i];", "     8    barrier();",
]
AT_7_TO_10 = ["     7    s[i] = b.v[i];", "     8    barrier();", "     9>   b.v[i] = s[i] + s[i ^ 1u];", "    10  }"]
AT_8_TO_10 = ["     8    barrier();", "     9    b.v[i] = s[i] + s[i ^ 1u];", "    10> }"]


def each(status, line, numbers=range(64)):
    return ["i=%d %s main n.comp:%d" % (k, status, line) for k in numbers]


def counted(assembled, ignored, invocations, entries):
    counts = (assembled.words, assembled.count, ignored, invocations, entries)
    return "words %d, instructions %d, ignored %d, invocations %d, entries %d" % counts


WORKGROUP = [
    ("info", [counted(EXCHANGE, 0, 64, 1920)]),
    ("where", ["@0 i=0 main n.comp:6"]),
    ("bt", ["#0 main n.comp:6"]),
    ("list", AT_4_TO_8),
    ("group", each("ready", 6)),
    # after two events an invocation stands at the first load of line 7, and after seven at the barrier of line 8
    ("goto 65", ["stop: done", "@65 i=0 main n.comp:7"]),
    ("goto 128", ["stop: done", "@128 i=0 main n.comp:7"]),
    ("goto 449", ["stop: done", "@449 i=0 main n.comp:8"]),
    ("goto 576", ["stop: done", "@576 i=0 main n.comp:8"]),
    ("group", each("passed", 8)),
    ("back 1", ["stop: done", "@575 i=0 main n.comp:8"]),
    ("group", each("arrived", 8, range(63)) + each("ready", 8, [63])),
    ("bt", ["#0 main n.comp:8"]),
    ("fwd 2", ["stop: done", "@577 i=0 main n.comp:9"]),
    ("list", AT_7_TO_10),
    ("group", each("ready", 9, [0]) + each("passed", 8, range(1, 64))),
    ("focus 63", ["@577 i=63 main n.comp:8"]),
    ("bt", ["#0 main n.comp:8"]),
    ("back 65", ["stop: done", "@512 i=63 main n.comp:8"]),
    ("focus 64", [C3]),
    ("frame 9", [C4]),
    ("where", ["@512 i=63 main n.comp:8"]),
    ("goto 1344", ["stop: done", "@1344 i=63 main n.comp:10"]),
    ("list", AT_8_TO_10),
    ("goto 1408", ["stop: done, all finished", "@1408 i=63 finished"]),
    ("where", ["@1408 i=63 finished"]), ("bt", [C12]), ("frame 0", [C12]), ("list", [C12]), ("regs", [C12]),
    ("focus 0", ["@1408 i=0 finished"]),
    ("list", [C12]),
    ("back 64", ["stop: done", "@1344 i=0 main n.comp:10"]),
    ("back 1344", ["stop: done, start", "@0 i=0 main n.comp:6"]),
    ("list", AT_4_TO_8),
]

ONE_ALONE = [
    ("goto 8", ["stop: done", "@8 i=0 main n.comp:8"]),
    ("info", [counted(EXCHANGE, 0, 64, 12)]),
    ("goto 9", ["stop: done", "@9 i=0 main n.comp:8"]),
    ("group", each("arrived", 8, [0]) + each("ready", 6, range(1, 64))),
    ("goto 13", ["stop: schedule ended", "@12 i=0 main n.comp:8"]),
    ("bt", ["#0 main n.comp:8"]),
    ("focus 1", ["@12 i=1 main n.comp:6"]),
    ("list", AT_4_TO_8),
]
NO_NINTH = [
    ("info", [counted(WITHOUT_NINTH, 1, 64, 1920)]),
    ("goto 640", ["stop: done", "@640 i=0 main n.comp:8"]),
    ("where", ["@640 i=0 main n.comp:8"]),
    ("goto 1344", ["stop: done", "@1344 i=0 main n.comp:10"]),
]



def passed(assembled):
    """A record that is malformed counts, and nothing else tells of it."""
    at_63 = [("focus 63", ["@577 i=63 main n.comp:8"]), ("print i", ["i = 63"]), ("locals", ["i = 63"]), ("focus 0", ["@577 i=0 main n.comp:9"])]
    at_end = [("goto 1408", ["stop: done, all finished", "@1408 i=0 finished"]), ("print b.v[0]", ["b.v[0] = 3"]), ("print b.v[63]", ["b.v[63] = 127"])]
    return [("info", [counted(assembled, 1, 64, 1920)])] + WORKGROUP[1:] + [("goto 577", ["stop: done", "@577 i=0 main n.comp:9"])] + at_63 + at_end


# In the other order of bytes the characters of strings are turned too.
OTHER_ORDER = [
    ("info", [counted(EXCHANGE, 0, 64, 1920)]),
    ("list", AT_4_TO_8),
    ("goto 577", ["stop: done", "@577 i=0 main n.comp:9"]),
    ("bt", ["#0 main n.comp:9"]),
    ("list", AT_7_TO_10),
]

# ---- calls that were inlined

INNER = ["#0 g i.comp:2", "#1 f i.comp:5", "#2 main i.comp:10"]
IN_MAIN = [
    ("where", ["@0 i=0 main i.comp:10"]),
    ("goto 1", ["stop: done", "@1 i=0 f i.comp:5"]),
    ("bt", ["#0 f i.comp:5", "#1 main i.comp:10"]),
    ("goto 2", ["stop: done", "@2 i=0 g i.comp:2"]),
    ("bt", INNER),
    ("frame 1", ["#1 f i.comp:5"]),
    ("frame 9", [C4]),
    ("frame 3", [C4]),
    ("list", [C10]),
    ("where", ["@2 i=0 g i.comp:2"]),
    ("group", ["i=0 ready g i.comp:2"]),
    ("bt", INNER),
    ("fwd 1", ["stop: done", "@3 i=0 f i.comp:6"]),
    ("bt", ["#0 f i.comp:6", "#1 main i.comp:10"]),
    ("fwd 1", ["stop: done", "@4 i=0 main i.comp:11"]),
    ("bt", ["#0 main i.comp:11"]),
    ("back 1", ["stop: done", "@3 i=0 f i.comp:6"]),
    ("back 1", ["stop: done", "@2 i=0 g i.comp:2"]),
    ("bt", INNER),
    ("goto 9", ["stop: all finished", "@5 i=0 finished"]),
    ("bt", [C12]),
    ("info", [counted(INLINED, 0, 1, 9)]),
]


def window(first, last, at):
    return ["%6d%s %d of i" % (n, ">" if n == at else " ", n) for n in range(first, last + 1)]


# Which frame is selected shows in what `list` shows: line 2 of the innermost, 5 of the middle one, 10 of the outer one.
OF_G, OF_F, OF_MAIN = window(1, 4, 2), window(3, 7, 5), window(8, 12, 10)
SELECTED = [
    ("goto 4", ["stop: done", "@4 i=0 g i.comp:2"]),
    ("list", OF_G),
    ("frame 2", ["#2 main i.comp:10"]),
    ("list", OF_MAIN),
    ("where", ["@4 i=0 g i.comp:2"]), ("group", ["i=0 ready g i.comp:2", "i=1 ready g i.comp:2"]), ("bt", INNER), ("regs", ["%%%d = 3" % WITH_TEXT.ids[name] for name in ("a1", "a2")]),
    ("list", OF_MAIN),
    # what is refused leaves the frame, a focus that doesn't exist and a motion without a number among it
    ("frame 3", [C4]), ("list", OF_MAIN),
    ("focus 2", [C3]), ("list", OF_MAIN),
    ("fwd 0", [C2]), ("list", OF_MAIN),
    ("goto", [C2]), ("jump", ["refused: C1 unknown command"]), ("list", OF_MAIN),
    ("info", [counted(WITH_TEXT, 0, 2, 60)]),
    ("list", OF_MAIN),
    # another focus and the same one again both have the innermost frame
    ("focus 1", ["@4 i=1 g i.comp:2"]), ("list", OF_G),
    ("frame 1", ["#1 f i.comp:5"]), ("list", OF_F),
    ("focus 1", ["@4 i=1 g i.comp:2"]), ("list", OF_G),
    ("frame 2", ["#2 main i.comp:10"]),
    ("focus 0", ["@4 i=0 g i.comp:2"]), ("list", OF_G),
    # so has each motion, one that stays in place too
    ("frame 1", ["#1 f i.comp:5"]),
    ("goto 4", ["stop: done", "@4 i=0 g i.comp:2"]), ("list", OF_G),
    ("frame 1", ["#1 f i.comp:5"]),
    ("fwd 1", ["stop: done", "@5 i=0 f i.comp:6"]), ("list", window(4, 8, 6)),
    ("frame 1", ["#1 main i.comp:10"]),
    ("back 1", ["stop: done", "@4 i=0 g i.comp:2"]), ("list", OF_G),
    ("frame 0", ["#0 g i.comp:2"]), ("list", OF_G),
    ("goto 8", ["stop: done", "@8 i=0 main i.comp:11"]), ("list", window(9, 12, 11)),
]
AT_THE_END = [
    ("goto 9", ["stop: schedule ended", "@2 i=0 g i.comp:2"]),
    ("frame 2", ["#2 main i.comp:10"]), ("list", OF_MAIN),
    ("fwd 1", ["stop: schedule ended", "@2 i=0 g i.comp:2"]), ("list", OF_G),
    ("frame 2", ["#2 main i.comp:10"]),
    ("goto 2", ["stop: done, schedule ended", "@2 i=0 g i.comp:2"]), ("list", OF_G),
    ("focus 1", ["@2 i=1 main i.comp:10"]), ("list", OF_MAIN), ("bt", ["#0 main i.comp:10"]),
    ("frame 1", [C4]),
    ("back 2", ["stop: done, start", "@0 i=1 main i.comp:10"]),
]

# ---- a barrier that never opens

AT_BARRIER = "%%%d word %d" % (STUCK.ids["main"], STUCK.starts["ControlBarrier"][0])
NEVER = [
    ("goto 20", ["stop: stuck", "@8 i=0 finished"]),
    ("group", ["i=0 finished", "i=1 arrived " + AT_BARRIER]),
    ("bt", [C12]),
    ("focus 1", ["@8 i=1 " + AT_BARRIER]),
    ("where", ["@8 i=1 " + AT_BARRIER]), ("bt", ["#0 " + AT_BARRIER]), ("frame 0", ["#0 " + AT_BARRIER]), ("frame 1", [C4]), ("list", [C10]),
    ("regs", ["%%%d = 1" % STUCK.ids["i"], "%%%d = false" % STUCK.ids["zero"]]),
    ("fwd 1", ["stop: stuck", "@8 i=1 " + AT_BARRIER]),
    ("back 1", ["stop: done", "@7 i=1 " + AT_BARRIER]),
    ("group", ["i=0 finished", "i=1 ready " + AT_BARRIER]),
    ("focus 0", ["@7 i=0 finished"]),
    ("frame 0", [C12]),
]

# ---- calls that are made

CALL_OF_F, CALL_OF_G = ("word %d" % CALLED.starts["FunctionCall"][n] for n in (1, 0))
G, MAIN = "%%%d" % CALLED.ids["g"], "%%%d" % CALLED.ids["main"]
DOUBLING, ADDING_IN_F, ADDING_IN_MAIN = CALLED.starts["IMul"][0], *CALLED.starts["IAdd"]
FROM_G, FROM_F = CALLED.starts["ReturnValue"]
AROUND_F = ["%s %s" % (MAIN, CALL_OF_F)]
AROUND_G = ["f %s" % CALL_OF_G] + AROUND_F


def numbered(frames):
    return ["#%d %s" % row for row in enumerate(frames)]


def held(assembled, **registers):
    return ["%%%d = %d" % (assembled.ids[name], value) for name, value in registers.items()]


MADE = [
    ("bt", numbered(["%s word %d" % (MAIN, ADDING_IN_MAIN)])),
    ("frame 1", [C4]),
    ("goto 1", ["stop: done", "@1 i=0 " + AROUND_F[0]]),
    ("bt", numbered(AROUND_F)),
    ("goto 2", ["stop: done", "@2 i=0 f word %d" % ADDING_IN_F]),
    ("bt", numbered(["f word %d" % ADDING_IN_F] + AROUND_F)),
    ("regs", held(CALLED, p=42)),
    ("frame 1", ["#1 " + AROUND_F[0]]),
    ("regs", held(CALLED, m1=42)),
    ("goto 4", ["stop: done", "@4 i=0 %s word %d" % (G, DOUBLING)]),
    ("bt", numbered(["%s word %d" % (G, DOUBLING)] + AROUND_G)),
    ("fwd 1", ["stop: done", "@5 i=0 %s word %d" % (G, FROM_G)]),
    ("bt", numbered(["%s word %d" % (G, FROM_G)] + AROUND_G)),
    ("regs", held(CALLED, q=44, g1=88)),
    ("frame 1", ["#1 " + AROUND_G[0]]),
    ("regs", held(CALLED, p=42, f1=44)),
    ("frame 2", ["#2 " + AROUND_G[1]]),
    ("regs", held(CALLED, m1=42)),
    ("frame 3", [C4]),
    ("regs", held(CALLED, m1=42)),
    ("where", ["@5 i=0 %s word %d" % (G, FROM_G)]),
    ("frame 0", ["#0 %s word %d" % (G, FROM_G)]),
    ("regs", held(CALLED, q=44, g1=88)),
    ("frame 2", ["#2 " + AROUND_G[1]]),
    ("fwd 1", ["stop: done", "@6 i=0 f word %d" % FROM_F]),
    ("regs", held(CALLED, p=42, f1=44, f2=88)),
    ("bt", numbered(["f word %d" % FROM_F] + AROUND_F)),
    ("fwd 1", ["stop: done", "@7 i=0 %s word %d" % (MAIN, CALLED.starts["Return"][0])]),
    ("regs", held(CALLED, m1=42, m2=88)),
    ("frame 1", [C4]),
    ("back 3", ["stop: done", "@4 i=0 %s word %d" % (G, DOUBLING)]),
    ("frame 2", ["#2 " + AROUND_G[1]]),
    ("regs", held(CALLED, m1=42)),
    ("list", [C10]),
]

IN_H = ["h c.comp:3", "main c.comp:9"]
IN_K = ["k c.comp:12", "f c.comp:5"] + IN_H
IN_BOTH = [
    ("bt", ["#0 main c.comp:8"]),
    ("fwd 1", ["stop: done", "@1 i=0 h c.comp:3"]), ("bt", numbered(IN_H)),
    ("fwd 1", ["stop: done", "@2 i=0 k c.comp:12"]), ("bt", numbered(IN_K)),
    ("fwd 1", ["stop: done", "@3 i=0 k c.comp:12"]), ("bt", numbered(IN_K)),
    # two shown frames are of the call of f, and two of main
    ("regs", held(BOTH, p=3, f1=5)),
    ("frame 1", ["#1 f c.comp:5"]), ("regs", held(BOTH, p=3, f1=5)),
    ("frame 2", ["#2 h c.comp:3"]), ("regs", held(BOTH, m1=3)),
    ("frame 3", ["#3 main c.comp:9"]), ("regs", held(BOTH, m1=3)),
    ("frame 4", [C4]), ("regs", held(BOTH, m1=3)),
    ("fwd 1", ["stop: done", "@4 i=0 f c.comp:6"]), ("bt", numbered(["f c.comp:6"] + IN_H)), ("regs", held(BOTH, p=3, f1=5, f2=25)),
    ("fwd 1", ["stop: done", "@5 i=0 h c.comp:3"]), ("bt", numbered(IN_H)), ("regs", held(BOTH, m1=3, m2=25)),
    ("fwd 1", ["stop: done", "@6 i=0 main c.comp:10"]), ("bt", ["#0 main c.comp:10"]), ("regs", held(BOTH, m1=3, m2=25, m3=28)),
    ("back 4", ["stop: done", "@2 i=0 k c.comp:12"]), ("bt", numbered(IN_K)),
]

# ---- what is in force, and the texts of files


def places():
    """`bt` at each addition of the places, at the branch between the two blocks, and at the return."""
    behind_branch = len(source_places.PLACES)
    frames = [due for _, due in source_places.PLACES + source_places.BEHIND]
    words = list(PLACES.starts["IAdd"])
    frames.insert(behind_branch, frames[behind_branch - 1])
    words.insert(behind_branch, PLACES.starts["Branch"][0])
    frames.append(frames[-1])
    words.append(PLACES.starts["Return"][0])
    due = [[frame.replace("W", str(word)) for frame in at] for at, word in zip(frames, words)]
    yield "info", [counted(PLACES, source_places.MALFORMED, 1, 100)]
    yield "list", [C10]
    for position, at in enumerate(due):
        if position > 0:
            yield "fwd 1", ["stop: done", "@%d i=0 %s" % (position, at[0])]
        yield "bt", numbered(at)
        for outer in range(1, len(at)):
            yield "frame %d" % outer, ["#%d %s" % (outer, at[outer])]
        yield "frame %d" % len(at), [C4]
    yield "group", ["i=0 ready " + due[-1][0]]
    yield "fwd 1", ["stop: done, all finished", "@%d i=0 finished" % len(due)]


def texts():
    """`list` at each line of the texts."""
    names = {name: text[1:-1] for name, _, text in source_texts.TEXTS}
    for position, ((file, line, due), word) in enumerate(zip(source_texts.WINDOWS, TEXTS.starts["IAdd"])):
        place = "main %s:%d" % (names[file], line) if line else "main word %d" % word
        yield "goto %d" % position, ["stop: done" + ", start" * (position == 0), "@%d i=0 %s" % (position, place)]
        yield "list", due or [C10]
    yield "bt", ["#0 " + place]


# What each run is, its module, the setup, and commands with what is due.
RUNS = [
    ("a workgroup", file_of("exchange"), BUFFER + "rounds 30\n", WORKGROUP),
    ("a workgroup in the other order of bytes", file_of("exchange-big"), BUFFER + "rounds 30\n", OTHER_ORDER),
    ("one invocation alone", file_of("exchange"), BUFFER + "move 0 12\n", ONE_ALONE),
    ("a line whose number is a string", file_of("without-ninth"), BUFFER + "rounds 30\n", NO_NINTH),
    *[("a malformed record, a %s" % name, file_of("malformed-" + name), BUFFER + "rounds 30\n", passed(assembled)) for name, assembled in MALFORMED.items()],
    ("inlined calls", file_of("inlined"), "spvdbg-setup 1\nrounds 9\n", IN_MAIN),
    ("the selected frame", file_of("with-text"), ROUNDS, SELECTED),
    ("the selected frame at the end", file_of("with-text"), "spvdbg-setup 1\nmove 0 2\n", AT_THE_END),
    ("a barrier that never opens", file_of("stuck"), "spvdbg-setup 1\nrounds 20\n", NEVER),
    ("calls", file_of("called"), ROUNDS, MADE),
    ("calls and inlined calls", file_of("both"), ROUNDS, IN_BOTH),
    ("what is in force", file_of("places"), "spvdbg-setup 1\nrounds 100\n", list(places())),
    ("texts of files", file_of("texts"), "spvdbg-setup 1\nrounds 100\n", list(texts())),
]


def modules():
    for name, assembled in MODULES.items():
        yield file_of(name), assembled.data
    data = EXCHANGE.data
    yield file_of("exchange-big"), b"".join(data[at : at + 4][::-1] for at in range(0, len(data), 4))


def calls():
    """What each run is, its module, setup and commands, the status and what is written."""
    for what, module, setup, rows in RUNS:
        yield what, module, setup, "".join(command + "\n" for command, _ in rows), 0, "".join(line + "\n" for _, due in rows for line in due)


# ---- beside the other way

def schedule_of(setup, invocations):
    word, *numbers = setup.splitlines()[-1].split()
    if word == "move":
        return [int(numbers[0])] * int(numbers[1])
    return [k for _ in range(int(numbers[0])) for k in range(invocations)]


def main():
    wrong, data = 0, dict(modules())
    for what, module, setup, rows in RUNS:
        shaped = Shaped(data[module.replace("-big", "")])
        x, y, z = shaped.code.size
        session = Session(shaped, {0: NUMBERS}, schedule_of(setup, x * y * z))
        for command, due in rows:
            if not due[0].startswith(("refused: C1 ", "refused: C2 ")) and command.split()[0] not in ("print", "locals"):
                made = session.answer(command)
                if made != due:
                    wrong += 1
                    print("%s, %s at %d: %s, by hand %s" % (what, command, session.group.events, made, due))
    print("%d differ of %d" % (wrong, sum(len(rows) for *_, rows in RUNS)))


if __name__ == "__main__":
    main()
