#!/usr/bin/env python3
"""Where each invocation of a run stands in the source, at each position, worked out here from the module alone; and whether a program
replies so to `where`, `bt` and `group`.

    bench/traces.py PROGRAM             looks at the four modules of each shader of bench/traces/, as bench/trace_modules.py compiles them
    bench/traces.py PROGRAM NAME..      at those of some shaders

The replies that are due are those of sessions.py. It takes the real frames of an invocation, the function and the next instruction of
each, from an interpreter of its own that doesn't look at debug information. A second witness of them is the program itself over the
module stripped of its debug information: without names, lines and scopes, `bt` shows each real frame as `%ID word W`. Stripping
keeps the order and the ids of all other instructions, so the k-th of those that are left is the original's of which the word is known.
Both witnesses have to tell the same frames.

In a run all positions are gone through forth and then back. At each one, all invocations are looked at in the modules of EVERYWHERE,
and in the others the invocation that the event before was of. Whole replies are compared, byte by byte. The runs of the gate, for
bench/runs.py, are whole too, forth.
"""
import os
import struct
import subprocess
import sys
import tempfile
import stacks
import trace_modules
from sessions import Session, Shaped

DEBUG_ONLY = {2, 3, 4, 5, 6, 7, 8, 317, 330}
EVERYWHERE = ("levels", "exchange")
# The words of the buffer of each shader, by which its branches are taken in many ways.
INPUTS = {
    "levels": [0, 3, 200, 7],
    "exchange": [10, 20, 30, 40],
    "loops": [9, 14],
    "cases": [0, 1, 6, 7],
    "parts": [4, 9],
    "files": [6, 19],
    "early": [5, 2, 8, 7],
    "sides": [3, 1, 7, 1],
    "tallies": [5, 8, 1, 9, 4, 4, 3, 7],
    "dense": [11, 2],
    "own": [5, 2, 1, 8, 3, 9, 0, 4, 6, 7, 2, 2],
}
WORDS = 16
ROUNDS = 2000


class Stripped:
    """A module without its debug information, and the original's word for each of its own."""

    def __init__(self, data):
        words = struct.unpack("<%dI" % (len(data) // 4), data)
        kept, sets, at, self.original = list(words[:5]), set(), 5, {}
        while at < len(words):
            count, op = words[at] >> 16, words[at] & 0xFFFF
            is_set = op == 11 and stacks.string(words[at + 2 : at + count]).startswith(b"NonSemantic.")
            if is_set:
                sets.add(words[at + 1])
            if not (is_set or op in DEBUG_ONLY or op == 12 and words[at + 3] in sets):
                self.original[len(kept)] = at
                kept += words[at : at + count]
            at += count
        self.data = struct.pack("<%dI" % len(kept), *kept)


def session_of(name, form):
    with open(trace_modules.path_of(name, form), "rb") as file:
        shaped = Shaped(file.read())
    x, y, z = shaped.code.size
    return Session(shaped, {0: words_of(name)}, [number for _ in range(ROUNDS) for number in range(x * y * z)])


def words_of(name):
    return INPUTS[name] + [0] * (WORDS - len(INPUTS[name]))


def setup_of(name):
    return "spvdbg-setup 1\nbuffer 0 0 hex %s\nrounds %d\n" % (struct.pack("<%dI" % WORDS, *words_of(name)).hex(), ROUNDS)


class Asked:
    """Commands, and the replies of a session to them."""

    def __init__(self, session):
        self.session, self.commands, self.replies = session, [], []

    def ask(self, *commands):
        for command in commands:
            self.commands.append(command)
            self.replies.append(self.session.answer(command))

    def last_moved(self):
        """The invocation that the event before was of."""
        events = self.session.group.events
        return self.session.schedule[events - 1] if events else 0


# ---- whole runs, forth and back

def look_around(asked, everywhere):
    for number in range(len(asked.session.group.invocations)) if everywhere else [asked.last_moved()]:
        asked.ask("focus %d" % number, "bt")
    asked.ask("where", "group")


def whole_run(session, everywhere):
    """From position to position to the run's end and back. What is seen at a position is the same both ways; where the focus stands
    right after a step back isn't looked at."""
    asked, seen = Asked(session), []
    while True:
        first = len(asked.commands)
        look_around(asked, everywhere)
        seen.append((first, len(asked.commands)))
        if session.causes():
            break
        asked.ask("fwd 1")
    for first, last in reversed(seen[:-1]):
        asked.commands += ["back 1"] + asked.commands[first:last]
        asked.replies += [None] + asked.replies[first:last]
    return asked


# ---- the program

def replies_of(program, data, setup, commands):
    """The replies to each command: behind each one stands a command that isn't known, by whose reply they are parted."""
    with tempfile.TemporaryDirectory() as folder:
        for name, content in (("module", data), ("setup", setup.encode())):
            with open(os.path.join(folder, name), "wb") as file:
                file.write(content)
        text = "".join(command + "\njump\n" for command in commands)
        done = subprocess.run([program, "debug", folder + "/module", folder + "/setup"], input=text.encode(), stdout=subprocess.PIPE)
    if done.returncode:
        sys.exit("status %d: %s" % (done.returncode, done.stdout.decode()))
    return [part.split("\n")[:-1] for part in done.stdout.decode().split("refused: C1 unknown command\n")[:-1]]


def retold(places, stripped, lines):
    """A reply to `bt` of the stripped module, as it is due of the original."""
    rows = [line.split() for line in lines if not line.startswith("refused: C12 ")]
    assert all(len(row) == 4 and row[2] == "word" for row in rows), lines
    words = [stripped.original[int(word)] for _, _, _, word in rows]
    # (each word has to be one of the function that the line names)
    assert all(places.module.stands[word][0] == int(row[1][1:]) for row, word in zip(rows, words)), lines
    return places.bt(words) or lines


def faults(program, name, form):
    """What a program replies that isn't due for a module, and how many commands were given."""
    session = session_of(name, form)
    shaped, asked = session.shaped, whole_run(session, name in EVERYWHERE)
    stripped, found = Stripped(shaped.data), []
    told = replies_of(program, stripped.data, setup_of(name), asked.commands)
    for command, reply, due in zip(asked.commands, told, asked.replies):
        if command == "bt" and retold(shaped.places, stripped, reply) != due:
            found.append("stripped: %s, due %s" % (retold(shaped.places, stripped, reply), due))
    replies = replies_of(program, shaped.data, setup_of(name), asked.commands)
    for at, (command, reply, due) in enumerate(zip(asked.commands, replies, asked.replies)):
        if due is not None and reply != due:
            found.append("command %d, %s: %s, due %s" % (at, command, reply, due))
    return found + ["other numbers of replies"] * (not len(told) == len(replies) == len(asked.replies)), len(asked.commands)


# ---- the gate

def gate_run(session, groups=16):
    """Forth through all positions with `bt` of the invocation that moved, now and then with `group`; and back in a few steps."""
    asked = Asked(session)
    asked.ask("info", "where", "bt", "group")
    while not session.causes():
        asked.ask("fwd 1", "focus %d" % asked.last_moved(), "bt")
        if session.group.events % groups == 0:
            asked.ask("group")
    asked.ask("group")
    while session.group.events > 0:
        asked.ask("back %d" % (1 + session.group.events // 3), "bt", "where")
    return asked


def calls():
    """What each run is, its module, setup and commands, the status and what is written."""
    for name, form in trace_modules.IN_GATE:
        asked = gate_run(session_of(name, form))
        written = "".join(line + "\n" for reply in asked.replies for line in reply)
        yield "%s in %s" % (name, form), trace_modules.file_of(name, form), setup_of(name), "".join(c + "\n" for c in asked.commands), 0, written


def main():
    program, names, wrong = os.path.abspath(sys.argv[1]), sys.argv[2:] or trace_modules.NAMES, 0
    for name in names:
        for form in trace_modules.FORMS:
            found, count = faults(program, name, form)
            print("%s %s: %d commands, %d wrong" % (name, form, count, len(found)), flush=True)
            for line in found[:5]:
                print("    " + line)
            wrong += len(found)
    sys.exit(wrong > 0)


if __name__ == "__main__":
    main()
