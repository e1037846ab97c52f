"""Sessions over modules with debug information, worked out here apart from the program: the replies to all motions, and to `focus`,
`frame`, `where`, `bt`, `group`, `list`, `regs` and `info`.

How an instruction is told, with its frames and the lines around it, comes from places.py. Which calls an invocation is in, and what
comes next in each, comes from stacks.py, which doesn't look at debug information. A motion looks at the whole run, from its start to its
end: it takes the least, or the greatest, of the set of all positions that have what it asks for.
"""
import copy
import stacks
from places import Places

ARRIVAL = 224
FORWARD = ("stepi", "step", "next", "finish", "continue")
BACKWARD = ("rstepi", "rstep", "rnext", "rfinish", "rcontinue")
OF_THE_LIVING = ("stepi", "step", "next", "finish", "rnext", "rfinish", "bt", "frame", "list", "regs")
LEAST_APART = 100


class Shaped:
    """A module, what it does and where its instructions stand in the source."""

    def __init__(self, data):
        self.data, self.code, self.places, self.keys = data, stacks.Module(data), Places(data), {}

    def key(self, words):
        """How many frames are shown of calls that stand at some words, and where the innermost one stands in the source, or nowhere."""
        if words not in self.keys:
            stack = self.places.stack(words)
            (_, _, file, line), *_ = stack or [(0, "", b"", 0)]
            self.keys[words] = (len(stack), (file, line) if line else None)
        return self.keys[words]


class Run:
    """A whole run. Event `m - 1` is the one that makes position `m`."""

    def __init__(self, shaped, made):
        self.shaped, self.made, group = shaped, made, made()
        count = len(group.invocations)
        # of each position where each invocation stands in its calls; of each invocation the positions at which it has just moved; and
        # the positions at which one has just arrived at a barrier
        self.stands, self.moved, self.arrivals = [[words_of(one) for one in group.invocations]], [[] for _ in range(count)], set()
        # of each word the positions at which an invocation has just come there, otherwise than by arriving
        self.landings, self.snapshots, self.changed, self.apart = {}, [], {}, max(LEAST_APART, len(group.schedule) // 100)
        while not group.causes():
            if group.events % self.apart == 0:
                self.snapshots.append(copied(group))
            self.add(group)
        self.end, self.causes, self.schedule = group.events, group.causes(), group.schedule

    def add(self, group):
        one = group.invocations[group.schedule[group.events]]
        before, word = one.status, one.frames[-1].word if one.frames else None
        group.event()
        if group.fault:
            return
        self.stands.append(list(self.stands[-1]))
        self.stands[-1][one.number] = words_of(one)
        if before in ("ready", "passed"):
            self.moved[one.number].append(group.events)
            if before == "ready" and self.shaped.code.insts[word][0] == ARRIVAL:
                self.arrivals.add(group.events)
            elif one.frames:
                self.landings.setdefault(one.frames[-1].word, set()).add(group.events)

    def at(self, position, group):
        """The workgroup at a position: some group, where it is a little before it, else a copy of a nearby one."""
        if not group.events <= position <= group.events + self.apart:
            group = copied(self.snapshots[: position // self.apart + 1][-1]) if self.snapshots else self.made()
        while group.events < position:
            group.event()
        return group

    def key(self, number, position):
        return self.shaped.key(self.stands[position][number])

    def depth(self, number, position):
        return self.key(number, position)[0]

    def is_at_head(self, number, position):
        words = self.stands[position][number]
        return bool(words) and words[0] in self.shaped.places.module.heads_at

    def own(self, command, count, i, p):
        """The positions that have the own condition of a motion of invocation `i` from position `p`."""
        moved = self.moved[i]
        landed = [m for m in moved if m not in self.arrivals]
        is_out = lambda m: self.depth(i, m) <= self.depth(i, p)
        if command in ("step", "next"):
            met = {m for m in landed if not self.stands[m][i] or self.is_at_head(i, m) and self.key(i, m) != self.key(i, p)}
        elif command in ("rstep", "rnext"):
            met = {m for m in landed if self.is_at_head(i, m) and self.key(i, m) != self.key(i, m - 1)}
        elif command in ("finish", "rfinish"):
            met = {m for m in moved if self.depth(i, m) < self.depth(i, p)}
        elif command == "stepi":
            met = set([m for m in moved if m > p][count - 1 : count])
        elif command == "rstepi":
            met = set([m - 1 for m in reversed(moved) if m <= p][count - 1 : count])
        else:
            met = set()
        return {m for m in met if is_out(m)} if command in ("next", "rnext") else met


def words_of(one):
    """The word of the next instruction in each call of an invocation, the innermost first."""
    return tuple(frame.word for frame in reversed(one.frames))


def copied(group):
    """A copy of a workgroup, over the same module and schedule."""
    shared = [each for each in (group.m, group.schedule, getattr(group, "told", None), getattr(group, "before", None)) if each is not None]
    return copy.deepcopy(group, {id(each): each for each in shared})


class Session:
    """Answers commands on a workgroup whose buffers have words, under a schedule. A run of these that is there already may be given."""

    def __init__(self, shaped, buffers, schedule, run=None):
        self.shaped, self.buffers, self.schedule, self.whole = shaped, buffers, schedule, run
        self.group, self.focus, self.frame = self.made(shaped.code, buffers, schedule), 0, 0

    def made(self, code, buffers, schedule):
        return stacks.Group(code, buffers, schedule)

    @property
    def run(self):
        if self.whole is None:
            self.whole = Run(self.shaped, lambda: self.made(self.shaped.code, self.buffers, self.schedule))
        return self.whole

    # ---- where invocations stand

    def words(self, number):
        return list(words_of(self.group.invocations[number]))

    def place(self, number):
        words = self.words(number)
        return self.shaped.places.place(words[0]) if words else "finished"

    def position_line(self):
        return "@%d i=%d %s" % (self.group.events, self.focus, self.place(self.focus))

    # ---- motions

    def causes(self):
        """Why the run is at its end, if it is."""
        return self.run.causes if self.group.events == self.run.end else []

    def go(self, position, asked):
        """Goes to a position or to the run's end; whether that is the one that was asked for is told."""
        if position < self.group.events:
            self.group = self.run.at(position, self.group)
        while self.group.events < position and not self.causes():
            self.group.event()
        return self.stopped([], asked and self.group.events == position)

    def stopped(self, hits, is_done):
        self.frame = 0
        return ["stop: " + ", ".join(hits + ["done"] * is_done + ["start"] * (self.group.events == 0) + self.causes()), self.position_line()]

    def hit(self):
        """What a motion stops at beside its own condition: each one's text, and the positions at which it hits."""
        return []

    def motion(self, command, count):
        p, run, hits = self.group.events, self.run, self.hit()
        own = run.own(command, count, self.focus, p)
        met = own.union(*[positions for _, positions in hits])
        if command in FORWARD:
            m = min([m for m in met if p + 1 <= m <= run.end], default=run.end)
        else:
            m = max([m for m in met if 1 <= m <= p - 1], default=0)
        self.group = run.at(m, self.group)
        told = [text for text, positions in hits if m != p and m in positions]
        if any(text.startswith("break ") for text in told):
            self.focus = self.schedule[m - 1]
        return self.stopped(told, m != p and m in own)

    # ---- commands

    def answer(self, command):
        word, *rest = command.split()
        if word in OF_THE_LIVING and not self.words(self.focus):
            return ["refused: C12 focus finished"]
        if word in FORWARD + BACKWARD:
            return self.motion(word, *map(int, rest or [1]))
        return getattr(self, "do_" + word)(*[int(each) if each.isdigit() else each for each in rest])

    def do_goto(self, position):
        return self.go(position, True)

    def do_fwd(self, count):
        return self.go(self.group.events + count, True)

    def do_back(self, count):
        return self.go(max(self.group.events - count, 0), self.group.events >= count)

    def do_focus(self, number):
        if number >= len(self.group.invocations):
            return ["refused: C3 no such invocation"]
        self.focus, self.frame = number, 0
        return [self.position_line()]

    def do_where(self):
        return [self.position_line()]

    def do_group(self):
        stand = lambda one: one.status + " " + self.place(one.number) if one.frames else "finished"
        return ["i=%d %s" % (one.number, stand(one)) for one in self.group.invocations]

    def do_bt(self):
        return self.shaped.places.bt(self.words(self.focus))

    def do_frame(self, number):
        frames = self.do_bt()
        if number >= len(frames):
            return ["refused: C4 no such frame"]
        self.frame = number
        return [frames[number]]

    def do_list(self):
        return self.shaped.places.list(self.words(self.focus), self.frame)

    def do_regs(self):
        call, *_ = self.shaped.places.stack(self.words(self.focus))[self.frame]
        code, real = self.shaped.code, self.group.invocations[self.focus].frames[-1 - call]
        return ["%%%d = %s" % (id, stacks.text(code, code.result_types[id], value)) for id, value in sorted(real.registers.items())]

    def do_info(self):
        return self.shaped.places.info(len(self.group.invocations), len(self.schedule))
