#!/usr/bin/env python3
"""Runs of modules whose pointers are chosen, moved, compared, returned and taken by phis, and what `debug` has to reply for them.

    bench/pointer_runs.py    makes the modules pointers-*.spv of crates/test_runs/data/, and says where what stands here by hand differs

The runs are written by bench/runs.py. The modules are the texts of pointer_modules.py; what is due is worked out by pointers.py.
"""
import os
import struct
import pointer_modules as modules_of
from assembly import Assembly
from pointers import Session, Shaped
from stacks import POINTER, text
from traces import Asked

TOP = os.path.join(os.path.dirname(os.path.abspath(__file__)), "..")
DATA = os.path.join(TOP, "crates", "test_runs", "data")
ROUNDS = 200
TEXTS = {
    name.lower(): getattr(modules_of, name)
    for name in ("CHOSEN", "UNCHOSEN", "BUFFERS", "WALK", "GIVEN", "SWAPS", "EQUAL", "EDGES", "FAULTS", "EXCHANGED", "SHOWN")
}
ASSEMBLED = {name: Assembly(text) for name, text in TEXTS.items()}
FOUR, PARTS = [1, 2, 3, 4], list(range(101, 122))


class Run:
    """A module with its buffers, and numbers for SpecIds."""

    def __init__(self, what, module, buffers, *spec):
        self.what, self.module, self.buffers, self.spec = what, module, buffers, spec

    def setup(self):
        lines = ["spvdbg-setup 1"] + ["spec %d %d" % each for each in self.spec]
        lines += ["buffer 0 %d hex %s" % (binding, struct.pack("<%dI" % len(words), *words).hex()) for binding, words in enumerate(self.buffers)]
        return "".join(line + "\n" for line in lines + ["rounds %d" % ROUNDS])

    def session(self):
        shaped = Shaped(ASSEMBLED[self.module].data, self.spec)
        x, y, z = shaped.code.size
        return Session(shaped, dict(enumerate(self.buffers)), [k for _ in range(ROUNDS) for k in range(x * y * z)])


RUNS = [
    Run("the first of two pointers", "chosen", [FOUR]),
    Run("the second", "chosen", [FOUR], (0, 0)),
    Run("behind the elements", "chosen", [FOUR], (0, 0), (1, 2)),
    Run("back to the first", "chosen", [FOUR], (0, 0), (1, -2)),
    Run("before the elements", "chosen", [FOUR], (1, 0xFFFFFFFF)),
    Run("by no element", "chosen", [FOUR], (0, 0), (1, 0)),
    Run("by an undefined condition", "unchosen", [FOUR]),
    Run("the first of two buffers", "buffers", [[1, 10, 20, 30, 40, 50], [7, 70, 80, 90]]),
    Run("the second of two buffers", "buffers", [[0, 10, 20, 30], [7, 70, 80, 90, 60, 50]]),
    Run("a walk forth and back", "walk", [[5, 6, 7, 8]]),
    Run("a walk behind the elements", "walk", [[5, 6, 7, 8]], (0, 5)),
    Run("a walk over no elements", "walk", [[5, 6, 7, 8]], (0, 0)),
    Run("pointers that functions return", "given", [[9, 1, 3, 7]]),
    Run("phis that swap", "swaps", [FOUR]),
    Run("equal and different pointers", "equal", [[7, *FOUR], [8, *FOUR]]),
    Run("elements", "edges", [PARTS]),
    Run("elements of a component", "edges", [PARTS], (1, 1)),
    Run("elements of an empty path", "edges", [PARTS], (2, 1)),
    Run("elements of a member", "edges", [PARTS], (3, -1)),
    Run("elements of a member that is an array", "edges", [PARTS], (4, 1)),
    *[Run("fault %d" % n, "faults", [PARTS], (0, n)) for n in range(len(modules_of.CASES))],
    Run("no fault", "faults", [PARTS]),
    Run("invocations with pointers of their own", "exchanged", [[0] * 4, [50, 51, 52, 53]]),
    Run("variables that pointers lead to", "shown", [FOUR]),
]


# ---- what is looked at

class Looked(Asked):
    """A session that looks at what an event has changed, made or taken back."""

    def __init__(self, session):
        super().__init__(session)
        self.count, self.statuses, self.seen, self.stored, self.depths = len(session.group.invocations), [], {}, {}, {}

    def pointers(self, k=0):
        """Each pointer that a register of a call of the focus holds, as it is shown."""
        session, code = self.session, self.session.shaped.code
        one = session.group.invocations[session.focus]
        held = one.frames[-1 - k].registers if one.frames else {}
        of_pointer = [id for id in sorted(held) if code.types[code.result_types[id]][0] == POINTER]
        return {id: text(code, code.result_types[id], held[id]) for id in of_pointer}

    def look(self, number):
        """The registers of an invocation, and what pointers of it and buffers lead to that aren't as they were."""
        statuses = [one.status for one in self.session.group.invocations]
        if self.count > 1:
            self.ask(*["group"] * (statuses != self.statuses), "focus %d" % number)
        self.statuses = statuses
        old, new = self.seen.get(number, {}), self.pointers()
        stored = {id: repr(room) for id, room in self.session.group.rooms.items()}
        of_ids = [id for a, b in ((old, new), (self.stored, stored)) for id in sorted({*a, *b}) if a.get(id) != b.get(id)]
        self.ask("regs", *["print %%%d" % id for id in of_ids])
        self.seen[number], self.stored = new, stored
        self.look_outward(number)

    def look_outward(self, number):
        """The calls around the innermost one, where one has just been made or has ended."""
        depth = len(self.session.words(number))
        if depth != self.depths.get(number, 1):
            for k in range(1, depth):
                self.ask("frame %d" % k, "regs", *["print %%%d" % id for id in self.pointers(k)][-2:])
        self.depths[number] = depth

    def next_to_move(self):
        schedule, events = self.session.schedule, self.session.group.events
        return schedule[events] if events < len(schedule) else 0


def looked_over(session):
    """Forth to each position and past the end, back by an event at a time, and forth again at once."""
    asked, position = Looked(session), 0
    while True:
        asked.ask("goto %d" % position)
        asked.look(asked.last_moved())
        if session.causes():
            break
        position += 1
    asked.ask("goto %d" % (position + 1))
    while session.group.events:
        asked.ask("back 1")
        asked.look(asked.next_to_move())
    asked.ask("goto %d" % position, "where")
    for number in range(asked.count):
        asked.look(number)
    return asked


def variables_looked_over(session):
    """The locals of debug records forth over each position and back, and watches of them."""
    asked, position = Asked(session), 0
    asked.ask("info")
    while not session.causes():
        asked.ask("goto %d" % position, "locals")
        position += 1
    while session.group.events:
        asked.ask("back 1", "locals")
    asked.ask("watch here", "watch before", "watch behind", "break 7")
    while not session.causes():
        asked.ask("continue", "print here", "print behind")
    while session.group.events:
        asked.ask("rcontinue", "print before", "print behind")
    return asked


# ---- by hand: where an instruction stands is told by the assembly

def stop(causes, *place):
    return ["stop: " + causes, "@%d i=0 main word %d" % place]


def word_of(module, result):
    return ASSEMBLED[module].words[result]


LOADED, CHOSEN, UNCHOSEN = word_of("chosen", "%10"), word_of("chosen", "%8"), word_of("unchosen", "%8")
BEGIN, RETURN = word_of("chosen", "%6"), word_of("chosen", "%11") + 5
FIRST = ["%6 = &%5[0][0]", "%7 = &%5[0][2]"]


def chosen(pointer, moved, leads_to, is_first):
    """The end of a run that goes on to its return, forth, and forth again from the start."""
    there = [
        ("goto 6", stop("done", 6, RETURN)), ("print %9", ["%%9 = %s -> %d" % (moved, leads_to)]),
        ("regs", FIRST + ["%8 = " + pointer, "%9 = " + moved, "%%10 = %d" % leads_to, "%11 = " + is_first]),
    ]
    return there + [("goto 0", stop("done, start", 0, BEGIN)), ("regs", [])] + there


OUTSIDE = [
    ("goto 9", stop("fault F3 i=0 word %d" % LOADED, 4, LOADED)), ("print %9", ["%9 = &%5[0][4] -> <unavailable>"]), ("print %10", ["refused: C5 no such name"]),
    ("regs", FIRST + ["%8 = &%5[0][2]", "%9 = &%5[0][4]"]),
]
UNDEFINED = [
    ("goto 9", stop("fault F2 i=0 word %d" % UNCHOSEN, 2, UNCHOSEN)), ("regs", FIRST), ("print %8", ["refused: C5 no such name"]),
]
AGAIN, AGAIN_UNDEFINED = ("goto 0", stop("done, start", 0, BEGIN)), ("goto 0", stop("done, start", 0, word_of("unchosen", "%6")))
HAND = [
    (RUNS[0], chosen("&%5[0][0]", "&%5[0][1]", 2, "true")), (RUNS[1], chosen("&%5[0][2]", "&%5[0][3]", 4, "false")),
    (RUNS[2], OUTSIDE + [AGAIN] + OUTSIDE), (RUNS[6], UNDEFINED + [AGAIN_UNDEFINED] + UNDEFINED),
]


def due_fault(number):
    """Where a case of FAULTS is due to fault, and how; of two it is told where an instruction without a result stands."""
    _, result, fault = modules_of.CASES[number]
    places = {21: word_of("faults", "%unready_entry") + 2, 24: word_of("faults", "%y24") + 5}
    return "fault F%d i=0 word %d" % (fault, word_of("faults", result) if result else places[number])


# ---- all

def text_of(lines):
    return "".join(line + "\n" for line in lines)


def calls():
    """What each run is, its module, setup and commands, the status and what is written."""
    for run, rows in HAND:
        yield run.what + ", by hand", file_of(run.module), run.setup(), text_of(command for command, _ in rows), 0, text_of(line for _, due in rows for line in due)
    for run in RUNS:
        asked = (variables_looked_over if run.module == "shown" else looked_over)(run.session())
        yield run.what, file_of(run.module), run.setup(), text_of(asked.commands), 0, text_of(line for reply in asked.replies for line in reply)


def file_of(module):
    return "pointers-%s.spv" % module


def modules():
    for name, assembled in ASSEMBLED.items():
        yield file_of(name), assembled.data


def main():
    for name, data in modules():
        with open(os.path.join(DATA, name), "wb") as file:
            file.write(data)
    for run, rows in HAND:
        session = run.session()
        for command, due in rows:
            made = session.answer(command)
            if made != due:
                print("%s, %s: %s, by hand %s" % (run.what, command, made, due))
    for run in RUNS:
        if run.what.startswith("fault "):
            causes, due = run.session().run.causes, due_fault(int(run.what[6:]))
            if causes != [due]:
                print("%s: %s, by hand %s" % (run.what, causes, due))


if __name__ == "__main__":
    main()
