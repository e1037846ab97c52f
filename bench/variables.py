#!/usr/bin/env python3
"""Whether a program replies to the commands on variables as is due, outside the gate.

    bench/variables.py PROGRAM          by hand, as in variable_runs.py; buffers at the end of runs, as in last_values.py; and `locals` of
                                        all shown frames, at each position of runs of the shaders of bench/traces/, as in variables_told.py
    bench/variables.py PROGRAM NAME..   some of the shaders alone
"""
import os
import sys
from itertools import zip_longest
import last_values
import source_runs
import trace_modules
import traces
import variable_runs
from variables_told import session_of

END = "goto 4294967295"


def differences(program, data, setup, rows, heard=str):
    """What a program replies to commands, as it is heard, where it isn't what is due."""
    replies = traces.replies_of(program, data, setup, [command for command, _ in rows])
    assert len(replies) == len(rows), (len(replies), len(rows))
    for (command, due), reply in zip(rows, replies):
        for told, line in zip_longest(reply, due):
            if due != [None] and (told is None or heard(told) != line):
                yield "%s: %s, due %s" % (command, told, line)


def by_hand():
    modules = {**dict(source_runs.modules()), **dict(variable_runs.modules())}
    return [(what, modules[module], setup, rows) for what, module, setup, rows in variable_runs.RUNS]


def at_the_end():
    for what, data, setup, rows in last_values.runs():
        yield what, data, setup, [(END, [None])] + rows, last_values.nameless


def look_around(session, number):
    """The locals of each frame that is shown of an invocation, and what some of its ids hold."""
    yield "focus %d" % number
    yield "locals"
    if session.words(number):
        for k in range(1, len(session.answer("bt"))):
            yield "frame %d" % k
            yield "locals"
        yield "frame 0"
        frame = session.group.invocations[number].frames[-1]
        for id in list(frame.registers)[-3:] + list(frame.rooms)[:3]:
            yield "print %%%d" % id


def whole_run(session):
    """From position to position, with the invocation that the event before was of; every seventh time with the globals."""
    rows = []
    while True:
        events = session.group.events
        number = session.schedule[events - 1] if events else 0
        for command in [*look_around(session, number), *["globals"] * (events % 7 == 0)]:
            rows.append((command, session.answer(command)))
        if session.causes():
            return rows
        rows.append(("fwd 1", session.answer("fwd 1")))


def in_traces(names):
    for name in names:
        for form in ("gVS", "gVS-opt"):
            session = session_of(name, form)
            yield "%s %s" % (name, form), session.shaped.data, traces.setup_of(name), whole_run(session)


def main():
    program, names, wrong = os.path.abspath(sys.argv[1]), sys.argv[2:], 0
    runs = in_traces(names) if names else [*by_hand(), *at_the_end(), *in_traces(trace_modules.NAMES)]
    for what, data, setup, rows, *heard in runs:
        found = list(differences(program, data, setup, rows, *heard))
        print("%s: %d commands, %d lines differ" % (what, len(rows), len(found)), flush=True)
        for line in found[:5]:
            print("    " + line[:300])
        wrong += len(found)
    sys.exit(wrong > 0)


if __name__ == "__main__":
    main()
