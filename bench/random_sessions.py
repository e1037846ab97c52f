#!/usr/bin/env python3
"""Random sessions of motions, breaks and watches over compiled shaders, and whether a program replies as stops.py works out.

    bench/random_sessions.py PROGRAM COUNT [SEED]                so many sessions over each module under each schedule
    bench/random_sessions.py PROGRAM COUNT SEED motions          without breaks and watches

The modules are the four of each shader of bench/traces/, those of examples, and those by hand of source_runs.py, variable_runs.py and
stop_runs.py. A schedule lets all invocations go in rounds, or lets each of them go on for a while in turn, or ends early. What is asked
for is drawn from what there is: lines that have code, names that are seen, invocations and frames, now and then one past them. Some
sessions stand in the gate.
"""
import itertools
import os
import random
import sys
import manual_runs
import source_runs
import stop_runs
import trace_modules
import traces
import variable_runs
from sessions import Shaped
from stops import OF_STOPS, Debugger

COMMANDS = 40
MOTIONS = ["step", "next", "finish", "rstep", "rnext", "rfinish", "continue", "rcontinue"]
# The modules of the gate's sessions, how many there are of each, and of how many commands.
IN_GATE, SESSIONS, SHORT = trace_modules.IN_GATE + [trace_modules.VARIABLES_IN_GATE, trace_modules.OWN_IN_GATE], 18, 16
BY_HAND = ["inlined", "both", "exchange", "stuck", "called", "with-text"]
VARIABLES_BY_HAND = ["phi", "nested", "made"]
# Examples, and the numbers of their buffers.
EXAMPLES = [("overwritten", 64 * [0]), ("overwritten-inlined", 64 * [0]), ("shares", manual_runs.TEN), ("shares-calls", manual_runs.TEN)]


class Place:
    """A module under a setup, with its whole run."""

    def __init__(self, data, numbers, lines):
        self.shaped, self.numbers, self.lines = Shaped(data), numbers, lines
        x, y, z = self.shaped.code.size
        self.count, self.schedule = x * y * z, [number for line in lines for number in entries_of(line, x * y * z)]
        self.run = self.session().run

    def session(self):
        return Debugger(self.shaped, {0: self.numbers}, self.schedule, getattr(self, "run", None))

    def setup(self):
        words = "".join("%08x" % int.from_bytes(number.to_bytes(4, "little"), "big") for number in self.numbers)
        return "spvdbg-setup 1\nbuffer 0 0 hex %s\n%s" % (words, "".join(line + "\n" for line in self.lines))


def entries_of(line, count):
    word, *numbers = line.split()
    return [int(numbers[0])] * int(numbers[1]) if word == "move" else [number for _ in range(int(numbers[0])) for number in range(count)]


def schedules(count, drawn):
    """In rounds; by turns, and then in rounds; and to an early end."""
    turns = ["move %d %d" % (drawn.randrange(count), drawn.randrange(1, 60)) for _ in range(12)]
    return [["rounds 2000"], turns + ["rounds 1000"], turns[:6] + ["rounds 3"]]


# ---- what is asked for

def chosen(drawn, session):
    """A command."""
    kind, end = drawn.randrange(100), session.run.end
    if not session.words(session.focus) and drawn.randrange(2):
        return drawn.choice(["goto %d" % drawn.randrange(end + 1), "rstep", "rstepi", "rcontinue"])
    if session.group.events == 0 and kind < 60:
        return drawn.choice(["step", "next", "finish", "continue", "stepi %d" % drawn.randrange(1, 9), "goto %d" % drawn.randrange(end + 1)])
    if kind < 40:
        return drawn.choice(MOTIONS)
    if kind < 48:
        return drawn.choice(["stepi", "rstepi", "stepi %d" % drawn.randrange(1, 30), "rstepi %d" % drawn.randrange(1, 30)])
    if kind < 56:
        return drawn.choice(["goto %d" % drawn.randrange(end + 5), "fwd %d" % drawn.randrange(1, 40), "back %d" % drawn.randrange(1, 40)])
    if kind < 66:
        return drawn.choice(["focus %d" % drawn.randrange(len(session.group.invocations) + drawn.randrange(2)), "frame %d" % drawn.randrange(4)])
    if kind < 72:
        return drawn.choice(["where", "bt", "group" if len(session.group.invocations) < 9 else "bt", "list", "locals"])
    if kind < 82:
        return place(drawn, session)
    if kind < 85:
        return "delete %d" % drawn.randrange(1, session.next_break + 1)
    if kind < 88:
        return "unwatch %d" % drawn.randrange(1, session.next_watch + 1)
    if not session.told.variables and drawn.randrange(6):
        return drawn.choice(MOTIONS)
    return drawn.choice(["watch ", "watch ", "print "]) + path(drawn, session)


def place(drawn, session):
    heads = sorted({(file, line) for file, line in session.shaped.places.module.heads_at.values()})
    file, line = drawn.choice(heads) if heads else (b"none", 1)
    line += drawn.randrange(6) == 0
    return "break %d" % line if not file or b" " in file or drawn.randrange(3) == 0 else "break %s:%d" % (file.decode(), line)


def path(drawn, session):
    told, seen = session.told, session.told.locals(session.selected()[1]) + session.told.globals()
    if not seen or drawn.randrange(12) == 0:
        return drawn.choice(["nothing", "%1"])
    variable = drawn.choice(seen)
    text, ty = told.name(variable).decode(), (told.ids[variable][1][1], ())
    while not set(text) & set(" .[]%") and drawn.randrange(4):
        parts = list(told.ranges(ty, None))
        if not parts:
            break
        k = drawn.randrange(len(parts) + (drawn.randrange(12) == 0))
        name, ty, *_ = parts[min(k, len(parts) - 1)]
        text += "[%d]" % k if name is None else "." + name.decode()
    return text if not set(text) & set(" ") else "nothing"


def asked(drawn, at, count, left_out=()):
    made = traces.Asked(at.session())
    while len(made.commands) < count:
        command = chosen(drawn, made.session)
        if command.split()[0] not in left_out:
            made.ask(command)
    return made


# ---- the places

def compiled(pairs):
    """What each module is, its file and the numbers of its buffer."""
    for name, form in pairs:
        yield "%s in %s" % (name, form), trace_modules.path_of(name, form), traces.words_of(name)
    for name, numbers in EXAMPLES:
        yield name, manual_runs.path_of(name), numbers


def places(modules, drawn):
    """Each module under its schedules."""
    for what, path, numbers in modules:
        with open(path, "rb") as file:
            data = file.read()
        x, y, z = Shaped(data).code.size
        for lines in schedules(x * y * z, drawn):
            yield what, path, Place(data, numbers, lines)


def by_hand(drawn):
    rows = [(name, source_runs.MODULES[name].data) for name in BY_HAND] + [(name, variable_runs.MODULES[name].data) for name in VARIABLES_BY_HAND]
    for name, data in rows + list(stop_runs.modules()):
        x, y, z = Shaped(data).code.size
        for lines in schedules(x * y * z, drawn):
            yield name, None, Place(data, source_runs.NUMBERS, lines)


# ---- the gate

def calls():
    """What each session is, its module, setup and commands, the status and what is written."""
    drawn = random.Random(1)
    for what, path, at in places(compiled(IN_GATE), drawn):
        for _ in range(SESSIONS // 3):
            made = asked(drawn, at, SHORT, ())
            written = "".join(line + "\n" for reply in made.replies for line in reply)
            yield "drawn of " + what, os.path.basename(path), at.setup(), "".join(c + "\n" for c in made.commands), 0, written


def main():
    program, count, seed = os.path.abspath(sys.argv[1]), int(sys.argv[2]), int(sys.argv[3]) if len(sys.argv) > 3 else 1
    drawn, wrong, sessions, commands = random.Random(seed), 0, 0, 0
    left_out = OF_STOPS if "motions" in sys.argv else ()
    every = [(name, form) for name in trace_modules.NAMES for form in trace_modules.FORMS]
    for name, _, at in itertools.chain(by_hand(drawn), places(compiled(every), drawn)):
        for _ in range(count):
            made = asked(drawn, at, COMMANDS, left_out)
            replies = traces.replies_of(program, at.shaped.data, at.setup(), made.commands)
            sessions, commands = sessions + 1, commands + len(made.commands)
            bad = [k for k, (reply, due) in enumerate(zip(replies, made.replies)) if reply != due]
            if bad or len(replies) != len(made.replies):
                wrong += 1
                k = bad[0] if bad else len(replies)
                print("%s, %s: %s: %s, due %s" % (name, at.lines, made.commands[: k + 1], replies[k : k + 1], made.replies[k]), flush=True)
    print("%d sessions of %d commands, %d wrong" % (sessions, commands, wrong))
    sys.exit(wrong > 0)


if __name__ == "__main__":
    main()
