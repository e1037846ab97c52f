#!/usr/bin/env python3
"""Runs with barriers before which invocations return, under both versions of setups, and what `debug` has to reply for them.

    bench/barrier_runs.py    makes the modules barriers-*.spv of crates/test_runs/data/, and says where what stands here by hand differs

The runs are written by bench/runs.py, into group.runs. Under `barrier finished-count` a barrier opens as soon as all invocations that
aren't finished stand at it, by the last arrival or by the return of the last one that was missing. What is due is worked out by
sessions.py over stacks.py, and for some runs by hand.
"""
import os
import random
from assembly import Assembly
from sessions import Session, Shaped
from traces import Asked

TOP = os.path.join(os.path.dirname(os.path.abspath(__file__)), "..")
DATA = os.path.join(TOP, "crates", "test_runs", "data")
FIRST, SECOND, COUNTED = ("spvdbg-setup 1",), ("spvdbg-setup 2",), ("spvdbg-setup 2", "barrier finished-count")
VERSIONS = (("version 1", FIRST), ("version 2", SECOND), ("finished-count", COUNTED))

HEAD = """OpCapability Shader
OpMemoryModel Logical GLSL450
OpEntryPoint GLCompute %main "main" %index
OpExecutionMode %main LocalSize {size} 1 1
OpName %main "main"
{names}OpDecorate %index BuiltIn LocalInvocationIndex
%void = OpTypeVoid
%fn = OpTypeFunction %void
%bool = OpTypeBool
%uint = OpTypeInt 32 0
%zero = OpConstant %uint 0
%one = OpConstant %uint 1
%two = OpConstant %uint 2
%semantics = OpConstant %uint 264
%to_input = OpTypePointer Input %uint
%index = OpVariable %to_input Input
"""
MAIN = """%main = OpFunction %void None %fn
%entry = OpLabel
%i = OpLoad %uint %index
"""

# Four invocations, of which each goes past as many of three barriers as its number says, and returns.
EARLY = HEAD.format(size=4, names="") + MAIN + """%is_0 = OpIEqual %bool %i %zero
OpSelectionMerge %out None
OpBranchConditional %is_0 %out %past_0
%past_0 = OpLabel
OpControlBarrier %two %two %semantics
%is_1 = OpIEqual %bool %i %one
OpSelectionMerge %never_0 None
OpBranchConditional %is_1 %out_1 %past_1
%out_1 = OpLabel
OpReturn
%past_1 = OpLabel
OpControlBarrier %two %two %semantics
%is_2 = OpIEqual %bool %i %two
OpSelectionMerge %never_1 None
OpBranchConditional %is_2 %out_2 %past_2
%out_2 = OpLabel
OpReturn
%past_2 = OpLabel
OpControlBarrier %two %two %semantics
OpReturn
%never_1 = OpLabel
OpUnreachable
%never_0 = OpLabel
OpUnreachable
%out = OpLabel
OpReturn
OpFunctionEnd
"""
# Three, of which one returns and the others come to a barrier each.
APART = HEAD.format(size=3, names="") + MAIN + """OpSelectionMerge %never None
OpSwitch %i %out 1 %first 2 %second
%out = OpLabel
OpReturn
%first = OpLabel
OpControlBarrier %two %two %semantics
OpReturn
%second = OpLabel
OpControlBarrier %two %two %semantics
OpReturn
%never = OpLabel
OpUnreachable
OpFunctionEnd
"""
# Two, of which the second waits in a function; the first returns from a function before it returns.
CALLED = HEAD.format(size=2, names='OpName %waits "waits"\nOpName %goes "goes"\n') + """%waits = OpFunction %void None %fn
%waits_entry = OpLabel
OpControlBarrier %two %two %semantics
OpReturn
OpFunctionEnd
%goes = OpFunction %void None %fn
%goes_entry = OpLabel
OpReturn
OpFunctionEnd
""" + MAIN + """%is_0 = OpIEqual %bool %i %zero
OpSelectionMerge %out None
OpBranchConditional %is_0 %then %else
%then = OpLabel
%went = OpFunctionCall %void %goes
OpBranch %out
%else = OpLabel
%waited = OpFunctionCall %void %waits
OpBranch %out
%out = OpLabel
OpReturn
OpFunctionEnd
"""
# One, that comes to a barrier.
ALONE = HEAD.format(size=1, names="") + MAIN + "OpControlBarrier %two %two %semantics\nOpReturn\nOpFunctionEnd\n"
TEXTS = {"early": EARLY, "apart": APART, "called": CALLED, "alone": ALONE}
STUCK = "group-stuck.spv"


def file_of(name):
    return "barriers-%s.spv" % name


def modules():
    for name, text in TEXTS.items():
        yield file_of(name), Assembly(text).data


def data_of(file):
    return dict(modules()).get(file) or open(os.path.join(DATA, file), "rb").read()


class Counted(Session):
    """A session under a setup's lines, in which finished invocations may count as arrived."""

    def __init__(self, file, lines):
        shaped, schedule = Shaped(data_of(file)), []
        x, y, z = shaped.code.size
        self.finished_count = "barrier finished-count" in lines
        for word, *numbers in [line.split() for line in lines]:
            if word in ("move", "rounds"):
                schedule += [int(numbers[0])] * int(numbers[1]) if word == "move" else [k for _ in range(int(numbers[0])) for k in range(x * y * z)]
        super().__init__(shaped, {}, schedule)

    def made(self, *of_run):
        group = super().made(*of_run)
        group.finished_count = self.finished_count
        return group


# ---- by hand. In group-stuck.spv an invocation begins at word 64. Invocation 0 returns by its fourth event, at word 82; invocation 1 arrives
# by its fourth, at word 85, leaves by its fifth and returns by its sixth, at word 89.

def stop(causes, *place):
    return ["stop: " + causes, "@%d i=%d %s" % place]


AT_EIGHT = stop("done, schedule ended", 8, 0, "finished")
HAND = [
    ("a return opens", STUCK, (*COUNTED, "move 1 4", "move 0 4"), [
        ("goto 8", AT_EIGHT), ("group", ["i=0 finished", "i=1 passed %4 word 85"]), ("back 1", stop("done", 7, 0, "%4 word 82")),
        ("group", ["i=0 ready %4 word 82", "i=1 arrived %4 word 85"]), ("fwd 1", AT_EIGHT), ("group", ["i=0 finished", "i=1 passed %4 word 85"]),
        ("goto 0", stop("done, start", 0, 0, "%4 word 64")), ("goto 8", AT_EIGHT), ("group", ["i=0 finished", "i=1 passed %4 word 85"]),
    ]),
    ("no return opens in version 2 by itself", STUCK, (*SECOND, "move 1 4", "move 0 4"), [
        ("goto 8", stop("done, stuck", 8, 0, "finished")), ("group", ["i=0 finished", "i=1 arrived %4 word 85"]),
    ]),
    ("nor in version 1", STUCK, (*FIRST, "move 1 4", "move 0 4"), [
        ("goto 8", stop("done, stuck", 8, 0, "finished")), ("group", ["i=0 finished", "i=1 arrived %4 word 85"]),
    ]),
    ("an arrival opens, where all others are finished", STUCK, (*COUNTED, "rounds 20"), [
        ("continue", stop("all finished", 12, 0, "finished")), ("goto 8", stop("done", 8, 0, "finished")), ("group", ["i=0 finished", "i=1 passed %4 word 85"]),
        ("back 1", stop("done", 7, 0, "finished")), ("group", ["i=0 finished", "i=1 ready %4 word 85"]), ("focus 1", ["@7 i=1 %4 word 85"]),
        ("stepi", stop("done", 8, 1, "%4 word 85")), ("stepi", stop("done", 10, 1, "%4 word 89")), ("stepi", stop("done, all finished", 12, 1, "finished")),
        ("rstepi", stop("done", 11, 1, "%4 word 89")), ("rstepi", stop("done", 9, 1, "%4 word 85")), ("rstepi", stop("done", 7, 1, "%4 word 85")),
    ]),
    # docs/MANUAL.md has this one: at 121 is the return of examples/stuck, and at 124 its barrier
    ("the manual's", "manual-stuck.spv", (*COUNTED, "move 1 4", "move 0 4", "rounds 2"), [
        ("goto 8", stop("done", 8, 0, "finished")), ("group", ["i=0 finished", "i=1 passed main word 124"]), ("back 1", stop("done", 7, 0, "main word 121")),
        ("group", ["i=0 ready main word 121", "i=1 arrived main word 124"]), ("goto 20", stop("all finished", 12, 0, "finished")),
    ]),
    ("stuck in version 2", STUCK, (*SECOND, "rounds 20"), [("continue", stop("stuck", 8, 0, "finished"))]),
]


# ---- by the other way

def looked_over(session):
    """Forth to each position and past the end, and back by an event at a time, with how far each invocation is; and the events of each."""
    asked, position = Asked(session), 0
    while True:
        asked.ask("goto %d" % position, "group")
        if session.causes():
            break
        position += 1
    asked.ask("goto %d" % (position + 1))
    while session.group.events:
        asked.ask("back 1", "group")
    for number in range(len(session.group.invocations)):
        asked.ask("goto 0", "focus %d" % number)
        while session.words(number) and not session.causes():
            asked.ask("stepi")
        asked.ask("stepi", "rstepi 2", "rcontinue")
    return asked


def drawn(seed, count, most):
    """A schedule that lets the invocations go on for a while in turn, drawn at random."""
    chance = random.Random(seed)
    return tuple("move %d %d" % (chance.randrange(count), chance.randrange(1, most)) for _ in range(24))


# Each of the three barriers of `early` is opened by a return: 3, 2 and 1 come to the first before 0 returns, and so on. Or 0 returns before 1
# has come to the first; then 3 is at the second while 1 and 2 haven't left the first: the return of 1 doesn't open it, since 2 is to come.
BY_RETURNS = ("move 3 4", "move 2 4", "move 1 4", "move 0 4", "move 3 5", "move 2 9", "move 1 9", "move 3 5", "move 2 9", "move 3 9")
WHILE_PASSED = ("move 3 4", "move 2 4", "move 0 4", "move 1 4", "move 3 9", "move 1 9", "move 2 5", "move 3 5", "move 2 9", "move 3 9")
RUNS = [
    *[("by returns, " + name, "early", lines + BY_RETURNS) for name, lines in VERSIONS],
    ("while others have passed", "early", COUNTED + WHILE_PASSED),
    *[("in rounds, " + name, "early", lines + ("rounds 30",)) for name, lines in VERSIONS],
    *[("drawn %d" % seed, "early", COUNTED + drawn(seed, 4, 6)) for seed in range(2)],
    *[("two barriers, " + name, "apart", lines + ("rounds 9",)) for name, lines in VERSIONS],
    ("two barriers and a return at last", "apart", COUNTED + ("move 1 3", "move 2 3", "move 0 9")),
    *[("in functions, " + name, "called", lines + ("rounds 20",)) for name, lines in VERSIONS],
    ("in functions, a return at last", "called", COUNTED + ("move 1 5", "move 0 9", "move 1 9")),
    *[("alone, " + name, "alone", lines + ("rounds 9",)) for name, lines in VERSIONS],
]


def text(lines):
    return "".join(line + "\n" for line in lines)


def calls():
    """What each run is, its module, setup and commands, the status and what is written."""
    for what, file, lines, rows in HAND:
        yield what, file, text(lines), text(command for command, _ in rows), 0, text(line for _, due in rows for line in due)
    for what, name, lines in RUNS:
        asked = looked_over(Counted(file_of(name), lines))
        yield what, file_of(name), text(lines), text(asked.commands), 0, text(line for reply in asked.replies for line in reply)


def main():
    for name, data in modules():
        with open(os.path.join(DATA, name), "wb") as file:
            file.write(data)
    for what, file, lines, rows in HAND:
        session = Counted(file, lines)
        for command, due in rows:
            made = session.answer(command)
            if made != due:
                print("%s, %s: %s, by hand %s" % (what, command, made, due))


if __name__ == "__main__":
    main()
