#!/usr/bin/env python3
"""Whether a program shows the source of modules as it is to where debug instructions have wrong operands, outside the gate.

    bench/traces_exchanged.py PROGRAM [MODULES [FIRST]]     tries so many modules (500), counted from a first one (0)

Each is a module of bench/traces/ in which some operands of debug instructions, numbers of them, files of OpLine and bytes of names are
exchanged, by chance but always the same for one number. What is due is worked out by sessions.py, as for bench/traces.py: all
positions are gone through, with `bt`, `list` of each frame, `group` and `info`.
"""
import os
import random
import struct
import sys
import records
import trace_modules
import traces
from sessions import Session, Shaped

BASES = [(name, form) for name in ("files", "dense", "sides", "parts", "cases", "levels") for form in ("gVS-opt", "gVS", "g")]
POSITIONS = 60


def exchanged(data, chance):
    """The module with a few words of debug instructions exchanged."""
    words = list(struct.unpack("<%dI" % (len(data) // 4), data))
    read = records.Module(words)
    pools = [list(read.strings), list(read.numbers), list(read.marks) or [1], list(range(1, words[3]))]
    places = [at + k for at, op, rest in read.insts if op == 12 and rest[2] == read.set for k in range(4, 1 + len(rest))]
    lines = [at + 1 for at, op, _ in read.insts if op == 8]
    texts = [at + k for at, op, rest in read.insts if op == 7 and len(rest) < 8 for k in range(2, 1 + len(rest))]
    for _ in range(chance.choice((1, 2, 3, 5, 10, 30))):
        kind = chance.random()
        if kind < 0.75 and places:
            at = chance.choice(places)
            words[at] = chance.choice(chance.choice(pools)) if chance.random() < 0.9 else chance.randrange(120)
        elif kind < 0.9 and lines:
            at = chance.choice(lines)
            words[at] = chance.choice(pools[0])
            words[at + 1] = chance.choice((0, 1, 2, 7, 0xFFFFFFFF))
        else:
            words[chance.choice(texts)] &= ~(0x7F << 8 * chance.randrange(4))
    return struct.pack("<%dI" % len(words), *words)


def has_padding(data):
    """Whether strings still end as they have to: a zero that was put into one would leave more behind it."""
    words = struct.unpack("<%dI" % (len(data) // 4), data)
    at = 5
    while at < len(words):
        count, op = words[at] >> 16, words[at] & 0xFFFF
        if op == 7:
            string = struct.pack("<%dI" % (count - 2), *words[at + 2 : at + count])
            if string.rstrip(b"\0").count(b"\0") or len(string) - len(string.rstrip(b"\0")) > 4:
                return False
        at += count
    return True


def look(asked):
    asked.ask("focus %d" % asked.last_moved(), "bt", "list")
    for outer in range(1, len(asked.replies[-2])):
        asked.ask("frame %d" % outer, "list")
    asked.ask("frame %d" % len(asked.replies[-2]), "group")


def tried(program, number):
    """What differs for the module with a number, or none where there is no such module."""
    chance = random.Random(number)
    name, form = chance.choice(BASES)
    with open(trace_modules.path_of(name, form), "rb") as file:
        data = exchanged(file.read(), chance)
    if not has_padding(data):
        return None
    shaped = Shaped(data)
    x, y, z = shaped.code.size
    asked = traces.Asked(Session(shaped, {0: traces.words_of(name)}, [k for _ in range(traces.ROUNDS) for k in range(x * y * z)]))
    asked.ask("info")
    look(asked)
    while not asked.session.causes() and asked.session.group.events < POSITIONS:
        asked.ask("fwd 1")
        look(asked)
    replies = traces.replies_of(program, data, traces.setup_of(name), asked.commands)
    wrong = [(command, reply, due) for command, reply, due in zip(asked.commands, replies, asked.replies) if reply != due]
    return wrong[:2] if len(replies) == len(asked.commands) else ["other numbers of replies"]


def main():
    program, count, first = os.path.abspath(sys.argv[1]), int((sys.argv[2:] or [500])[0]), int((sys.argv[3:] or [0])[0])
    made = wrong = 0
    for number in range(first, first + count):
        found = tried(program, number)
        made += found is not None
        if found:
            wrong += 1
            print("%d: %s" % (number, found), flush=True)
    print("%d modules, %d wrong" % (made, wrong))
    sys.exit(wrong > 0)


if __name__ == "__main__":
    main()
