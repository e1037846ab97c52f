#!/usr/bin/env python3
"""Sessions that ask whether events may change places (`order`), with what is due for them.

    bench/order_runs.py    makes the modules order-*.spv of crates/test_runs/data/, and says where what stands here disagrees with itself

The runs are written by bench/runs.py. What is due is worked out from what each event of a run by stacks.py reads and writes. And it is held
against all that can happen: of every stretch of up to six events all reorderings are run that keep the order of each invocation, and the
states behind them are compared. Where the reply is `free` they have to be one. Where it isn't, they may be one by chance, as where two
invocations store the same number; how often they are is told.
"""
import os
import random
import stacks
from assembly import Assembly
from barrier_runs import COUNTED, FIRST, HEAD, MAIN, SECOND
from sessions import copied
from source_runs import BUFFER, C2, file_of as source_file

TOP = os.path.join(os.path.dirname(os.path.abspath(__file__)), "..")
DATA = os.path.join(TOP, "crates", "test_runs", "data")
MOST = 6
PAST = "refused: C13 past the end"
ARRIVAL, RETURN, LENGTH = 224, 253, 68

# A block of a total and of three parts, one for each invocation.
DECORATIONS = """OpDecorate %block Block
OpMemberDecorate %block 0 Offset 0
OpMemberDecorate %block 1 Offset 4
OpDecorate %parts ArrayStride 4
OpDecorate %data DescriptorSet 0
OpDecorate %data Binding 0
"""
BLOCK = HEAD.format(size=3, names=DECORATIONS) + """%three = OpConstant %uint 3
%parts = OpTypeArray %uint %three
%slots = OpTypeArray %uint %three
%block = OpTypeStruct %uint %parts
%to_block = OpTypePointer StorageBuffer %block
%to_part = OpTypePointer StorageBuffer %uint
%to_row = OpTypePointer Workgroup %slots
%to_slot = OpTypePointer Workgroup %uint
%data = OpVariable %to_block StorageBuffer
%row = OpVariable %to_row Workgroup
"""
# With a race: each adds its number to the total without a lock, and notes in its part what it found; behind the barrier one is added atomically.
RACE = BLOCK + MAIN + """%total = OpAccessChain %to_part %data %zero
%part = OpAccessChain %to_part %data %one %i
%old = OpLoad %uint %total
%new = OpIAdd %uint %old %i
OpStore %total %new
OpStore %part %old
OpControlBarrier %two %two %semantics
%before = OpAtomicIAdd %uint %total %two %zero %one
OpReturn
OpFunctionEnd
"""
# Without one: each stores its number in its slot of the row, and behind the barrier takes its neighbour's to its part; all read the total.
APART = BLOCK + MAIN + """%slot = OpAccessChain %to_slot %row %i
OpStore %slot %i
OpControlBarrier %two %two %semantics
%next = OpIAdd %uint %i %one
%place = OpUMod %uint %next %three
%neighbour = OpAccessChain %to_slot %row %place
%found = OpLoad %uint %neighbour
%total = OpAccessChain %to_part %data %zero
%base = OpLoad %uint %total
%sum = OpIAdd %uint %found %base
%part = OpAccessChain %to_part %data %one %i
OpStore %part %sum
OpReturn
OpFunctionEnd
"""
# Two invocations that each add one to one number.
ADDS = """OpCapability Shader
OpMemoryModel Logical GLSL450
OpEntryPoint GLCompute %main "main"
OpExecutionMode %main LocalSize 2 1 1
OpDecorate %4 Block
OpMemberDecorate %4 0 Offset 0
OpDecorate %5 DescriptorSet 0
OpDecorate %5 Binding 0
%1 = OpTypeVoid
%2 = OpTypeFunction %1
%3 = OpTypeInt 32 0
%4 = OpTypeStruct %3
%to_block = OpTypePointer StorageBuffer %4
%to_uint = OpTypePointer StorageBuffer %3
%zero = OpConstant %3 0
%one = OpConstant %3 1
%5 = OpVariable %to_block StorageBuffer
%main = OpFunction %1 None %2
%entry = OpLabel
%place = OpAccessChain %to_uint %5 %zero
%old = OpLoad %3 %place
%new = OpIAdd %3 %old %one
OpStore %place %new
OpReturn
OpFunctionEnd
"""
TEXTS = {"race": RACE, "apart": APART, "adds": ADDS}
WORDS = [7, 1, 2, 3]


def file_of(name):
    return "order-%s.spv" % name


def modules():
    for name, text in TEXTS.items():
        yield file_of(name), Assembly(text).data


# ---- what events touch

def leaves(value):
    """The paths of the leaves of a value, in their order."""
    if not isinstance(value, list):
        return [()]
    return [(k, *path) for k, part in enumerate(value) for path in leaves(part)]


class Watched(stacks.Group):
    """A workgroup that notes which leaves of the variables that all invocations share an event reads and writes."""

    reads, writes = set(), set()

    def touched(self, pointer, noted):
        room, path = pointer
        if room is not None and self.rooms.get(room.id) is room:
            noted.update((room.id, number, leaf) for number, leaf in enumerate(leaves(room[0])) if leaf[: len(path)] == tuple(path))

    def load(self, pointer):
        value = stacks.Group.load(pointer)
        self.touched(pointer, self.reads)
        return value

    def store(self, pointer, value):
        stacks.Group.store(pointer, value)
        self.touched(pointer, self.writes)

    def happens(self):
        """Makes an event; which invocation it is of, whether it arrives at a barrier, and what it reads and writes."""
        self.reads, self.writes = set(), set()
        one = self.invocations[self.schedule[self.events]]
        op = self.m.insts[one.frames[-1].word][0] if one.status == "ready" else None
        arrives = op == ARRIVAL or self.finished_count and op == RETURN and len(one.frames) == 1
        self.event()
        return one.number, arrives, set() if op == LENGTH else self.reads, self.writes


def conflicts(x, y):
    """The leaves on which two events conflict."""
    (i, _, reads, writes), (j, _, other_reads, other_writes) = x, y
    return set() if i == j else (writes & (other_reads | other_writes)) | (reads & other_writes)


def replied(a, b, events):
    """The reply of `order`, of the events of a whole run."""
    head = "order %d %d: " % (a, b)
    for y in range(a, b):
        if events[y][1]:
            return head + "event %d arrives at a barrier" % y
        for x in range(a, y):
            met = conflicts(events[x], events[y])
            if met:
                root, _, path = min(met)
                return head + "events %d and %d on &%%%d%s" % (x, y, root, "".join("[%d]" % index for index in path))
    return head + "free"


# ---- all that can happen

def reorderings(actors):
    """All lists with as many entries of each invocation."""
    if not actors:
        yield ()
    for first in sorted(set(actors)):
        rest = list(actors)
        rest.remove(first)
        for more in reorderings(rest):
            yield (first, *more)


def plain(value):
    """A value without identity: a pointer is its variable's id and a path."""
    if isinstance(value, tuple):
        return ("&", value[0].id, value[1])
    return tuple(plain(part) for part in value) if isinstance(value, list) else value


def state(group):
    """All that a state is of."""
    rooms = lambda held: tuple(sorted((id, plain(room[0])) for id, room in held.items()))
    frames = lambda one: tuple((f.function, f.word, tuple(sorted((id, plain(v)) for id, v in f.registers.items())), rooms(f.rooms)) for f in one.frames)
    return repr((rooms(group.rooms), [(one.status, rooms(one.rooms), frames(one)) for one in group.invocations]))


def reached(group, a, actors):
    """The state behind some events of these invocations, from a copy of a group at position a."""
    here = copied(group)
    here.schedule = group.schedule[:a] + list(actors)
    for _ in actors:
        here.event()
    return state(here)


# ---- the sessions

def schedule_of(lines, count):
    schedule = []
    for word, *numbers in [line.split() for line in lines]:
        if word in ("move", "rounds"):
            schedule += [int(numbers[0])] * int(numbers[1]) if word == "move" else list(range(count)) * int(numbers[0])
    return schedule


class Ordered:
    """A run under a setup's lines: what its events touch, and the group at each position, where these are kept."""

    def __init__(self, data, words, lines, keeps=True):
        module = stacks.Module(data)
        x, y, z = module.size
        group = Watched(module, {0: words}, schedule_of(lines, x * y * z))
        group.finished_count = "barrier finished-count" in lines
        self.events, self.groups = [], [copied(group)]
        while not group.causes():
            self.events.append(group.happens())
            if keeps:
                self.groups.append(copied(group))
        self.end = len(self.events)

    def reply(self, a, b):
        return ["refused: C2 arguments"] if a >= b else [PAST] if b > self.end else [replied(a, b, self.events)]

    def states(self, a, b):
        """How many states all reorderings of a stretch reach."""
        actors = [event[0] for event in self.events[a:b]]
        return len({reached(self.groups[a], a, each) for each in reorderings(actors)})


def drawn(seed):
    """A schedule that lets three invocations go on for a while in turn, drawn at random."""
    chance = random.Random(seed)
    return tuple("move %d %d" % (chance.randrange(3), chance.randrange(1, 5)) for _ in range(18))


KINDS = (FIRST, FIRST, SECOND, COUNTED)
# Twenty schedules: of each shader rounds, and nine that are drawn.
RUNS = [
    (name, KINDS[k % len(KINDS)] + (("rounds 20",) if k == 0 else drawn(seed + k)))
    for name, seed in (("race", 100), ("apart", 200))
    for k in range(10)
]


def asked(run):
    """The commands to a run: six events from each position on, the whole run, and what is refused."""
    pairs = [(a, a + MOST) for a in range(run.end - MOST + 1)] + [(0, run.end), (run.end // 2, run.end), (run.end - 1, run.end)]
    pairs += [(0, run.end + 1), (run.end, run.end + 1), (3, 3), (4, 3)]
    return pairs


def buffer_of(words):
    return "buffer 0 0 hex %s" % b"".join(word.to_bytes(4, "little") for word in words).hex()


def assembled(name):
    return Assembly(TEXTS[name]).data


# By hand: of two invocations that add to one number in turn, each at a chain (0, 1), a load (2, 3), an addition (4, 5), a store (6, 7) and a
# return (8, 9), the last at word 93; and of the shader of 64, which stores at 448 to 511, arrives at 512 to 575 and leaves the barrier behind.
ADDED = [
    ("order 0 6", ["order 0 6: free"]), ("order 0 10", ["order 0 10: events 3 and 6 on &%5[0]"]),
    ("order 4 10", ["order 4 10: events 6 and 7 on &%5[0]"]), ("order 3 3", [C2]), ("order 0 11", [PAST]),
    ("goto 7", ["stop: done", "@7 i=0 %10 word 93"]), ("order 0 6", ["order 0 6: free"]), ("where", ["@7 i=0 %10 word 93"]),
    ("order 8 10", ["order 8 10: free"]), ("where", ["@7 i=0 %10 word 93"]), ("fwd 3", ["stop: done, all finished", "@10 i=0 finished"]),
    ("order 4 10", ["order 4 10: events 6 and 7 on &%5[0]"]), ("where", ["@10 i=0 finished"]),
]
EXCHANGED = [
    ("order 448 512", ["order 448 512: free"]), ("order 512 576", ["order 512 576: event 512 arrives at a barrier"]),
    ("order 0 2000", [PAST]), ("order 576 1408", ["order 576 1408: free"]), ("order 0 512", ["order 0 512: free"]),
    ("order 511 513", ["order 511 513: event 512 arrives at a barrier"]), ("tally", ["probe 1: 0", "probe 2: 0", "probe 3: 0"]),
]
# docs/MANUAL.md has this one: four invocations add their left neighbour's number to their own. Invocation 1 loads the number of 0 by event 25,
# which 0 stores anew by event 68.
LOOKED_FOR = [
    ("goto 4294967295", ["stop: all finished", "@76 i=0 finished"]), ("order 0 76", ["order 0 76: events 25 and 68 on &%18[0][0]"]),
    ("order 0 60", ["order 0 60: free"]),
]
RACE_FILE, RACE_LINES = "manual-race.spv", ("spvdbg-setup 1", buffer_of([1, 2, 3, 4]), "rounds 100")
ADDS_LINES = ("spvdbg-setup 1", buffer_of([0]), "rounds 5")
HAND = [
    ("two that add", file_of("adds"), "".join(line + "\n" for line in ADDS_LINES), ADDED),
    ("the manual's", RACE_FILE, "".join(line + "\n" for line in RACE_LINES), LOOKED_FOR),
    ("the shader of 64", source_file("exchange"), BUFFER + "rounds 30\n", EXCHANGED),
]


def calls():
    """What each run is, its module, setup and commands, the status and what is written."""
    text = lambda lines: "".join(line + "\n" for line in lines)
    for what, file, setup, rows in HAND:
        yield what, file, setup, text(command for command, _ in rows), 0, text(line for _, due in rows for line in due)
    for k, (name, lines) in enumerate(RUNS):
        run = Ordered(assembled(name), WORDS, lines)
        pairs, setup = asked(run), text((lines[0], buffer_of(WORDS), *lines[1:]))
        yield "%s %d" % (name, k), file_of(name), setup, text("order %d %d" % pair for pair in pairs), 0, text(line for pair in pairs for line in run.reply(*pair))


def read(file):
    with open(os.path.join(DATA, file), "rb") as opened:
        return opened.read()


def compare(run, rows):
    """Says where what stands here by hand differs."""
    for command, due in rows:
        word, *numbers = command.split()
        if word == "order" and run.reply(*map(int, numbers)) != due:
            print("%s: %s, by hand %s" % (command, run.reply(*map(int, numbers)), due))


def main():
    for name, data in modules():
        with open(os.path.join(DATA, name), "wb") as file:
            file.write(data)
    compare(Ordered(assembled("adds"), [0], ADDS_LINES), ADDED)
    compare(Ordered(read(RACE_FILE), [1, 2, 3, 4], RACE_LINES), LOOKED_FOR)
    compare(Ordered(read(source_file("exchange")), list(range(1, 65)), ("rounds 30",), False), EXCHANGED)
    counts = {"free": 0, "other": 0, "one": 0}
    for name, lines in RUNS:
        run = Ordered(assembled(name), WORDS, lines)
        for a in range(run.end):
            for b in range(a + 2, min(a + MOST, run.end) + 1):
                reply, states = run.reply(a, b)[0], run.states(a, b)
                is_free = reply.endswith("free")
                if is_free and states > 1:
                    print("%s under %s: %s, and %d states" % (name, " ".join(lines), reply, states))
                counts["free" if is_free else "other" if states > 1 else "one"] += 1
    print("stretches that are free: %(free)d; that aren't, with several states: %(other)d, with one: %(one)d" % counts)


if __name__ == "__main__":
    main()
