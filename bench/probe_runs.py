"""Sessions that ask what probes have counted, drop them, and stop at halts of them, with what is due by hand.

The runs are written by bench/runs.py, once over a group whose journal has all its room, and once over one that keeps ten marks and entries.
The program hands in three probes: of stores to shared variables, of heads of lines, and of arrivals at a barrier.

In the shader of 64 (`exchange`) each invocation has 22 events, and in rounds event `64 * k + i` is the event `k` of invocation `i`. Lines begin
at the events 0 (6), 2 (7), 8 (8), 10 (9) and 21 (10). Event 7 stores to a Workgroup variable, 8 arrives at a barrier, which the last arrival
opens, 9 leaves it, 20 stores to the buffer, and 21 returns. So invocation i stores at 448 + i and 1280 + i, and arrives at 512 + i.
"""
from source_runs import BUFFER, C2, file_of
from stop_runs import in_n
from stops import NO_NUMBER

END = ("goto 1408", in_n(1408, 0, 0, "done, all finished"))
START = ("goto 0", in_n(0, 0, 6, "done, start"))


def tallies(*counts):
    """The reply to `tally`; a probe that was dropped has no count."""
    return "tally", ["probe %d: %d" % (k + 1, count) for k, count in enumerate(counts) if count is not None]


# Counts follow forth and back, also where the events aren't kept, and a dropped probe has none.
COUNTED = [
    tallies(0, 0, 0), END, tallies(128, 320, 64), ("goto 576", in_n(576, 0, 8)), tallies(64, 192, 64),
    # looking at an order moves them away and brings them back
    ("order 448 512", ["order 448 512: free"]), tallies(64, 192, 64), ("order 600 1400", ["order 600 1400: free"]), tallies(64, 192, 64), ("where", in_n(576, 0, 8)[1:]),
    ("order 0 600", ["order 0 600: event 512 arrives at a barrier"]), ("order 0 1409", ["refused: C13 past the end"]), tallies(64, 192, 64), ("back 1", in_n(575, 0, 8)), tallies(64, 191, 63),
    ("fwd 1", in_n(576, 0, 8)), tallies(64, 192, 64), ("goto 449", in_n(449, 0, 8)), tallies(1, 128, 0), ("goto 448", in_n(448, 0, 7)), tallies(0, 128, 0), ("stepi", in_n(449, 0, 8)),
    tallies(1, 128, 0), ("rstepi", in_n(448, 0, 7)), tallies(0, 128, 0), ("goto 1", in_n(1, 0, 6)), tallies(0, 1, 0), END, tallies(128, 320, 64), START, tallies(0, 0, 0),
    ("step", in_n(65, 0, 7)), tallies(0, 64, 0), ("finish", in_n(1345, 0, 0)), tallies(128, 257, 64), ("rcontinue", in_n(0, 0, 6, "start")), tallies(0, 0, 0),
    ("tally 1", [C2]), ("drop", [C2]), ("drop 0", [NO_NUMBER]), ("drop 4", [NO_NUMBER]), ("drop 2", ["dropped 2"]), END, tallies(128, None, 64), ("drop 2", [NO_NUMBER]),
    ("halt 2 1", [NO_NUMBER]), ("drop 1", ["dropped 1"]), ("drop 3", ["dropped 3"]), ("tally", []), START, ("tally", []),
]
# A halt stops where its probe is hit and its tally comes to a multiple, forth and back.
HALTED = [
    ("halt 3 32", ["halt 3 every 32"]), ("continue", in_n(544, 0, 8, "halt 3")), ("continue", in_n(576, 0, 8, "halt 3")), ("rcontinue", in_n(544, 0, 8, "halt 3")),
    ("halt 1 100", ["halt 1 every 100"]), ("continue", in_n(576, 0, 8, "halt 3")), ("continue", in_n(1316, 0, 10, "halt 1")), tallies(100, 256, 64), END,
    ("rcontinue", in_n(1316, 0, 10, "halt 1")), ("halt 4 1", [NO_NUMBER]), ("halt 1 0", [C2]), ("halt 0 1", [NO_NUMBER]), ("halt 1", [C2]), ("halt 1 2 3", [C2]),
    ("rcontinue", in_n(576, 0, 8, "halt 3")), ("rcontinue", in_n(544, 0, 8, "halt 3")), ("rcontinue", in_n(0, 0, 6, "start")), tallies(0, 0, 0),
    # another number takes the place of the first, and a dropped probe has no halt
    ("halt 3 48", ["halt 3 every 48"]), ("continue", in_n(560, 0, 8, "halt 3")), ("drop 3", ["dropped 3"]), ("continue", in_n(1316, 0, 10, "halt 1")),
    ("rcontinue", in_n(0, 0, 6, "start")), ("goto 1316", in_n(1316, 0, 10)), ("back 1", in_n(1315, 0, 10)), ("fwd 1", in_n(1316, 0, 10)),
]
# It is told behind breaks and watches, and stops each motion that looks for what hits.
AMONG_CAUSES = [
    ("watch b.v[0]", ["watch 1: b.v[0] = 1"]), ("break 10", ["break 1 at n.comp:10"]), ("halt 1 65", ["halt 1 every 65"]), ("continue", in_n(1281, 0, 10, "break 1, watch 1, halt 1")),
    END, ("delete 1", ["deleted 1"]), ("rcontinue", in_n(1281, 0, 10, "watch 1, halt 1")), ("unwatch 1", ["unwatched 1"]), START, ("halt 2 1", ["halt 2 every 1"]),
    ("step", in_n(1, 0, 6, "halt 2")), ("step", in_n(2, 0, 6, "halt 2")), ("halt 2 65", ["halt 2 every 65"]), ("step", in_n(65, 0, 7, "done")), ("step", in_n(129, 0, 7, "halt 2")),
    ("stepi", in_n(193, 0, 7, "done")), ("rstepi 4", in_n(129, 0, 7, "halt 2")), ("rstepi 3", in_n(0, 0, 6, "done, start")), ("next", in_n(65, 0, 7, "done")),
    ("goto 577", in_n(577, 0, 9)), ("rnext", in_n(514, 0, 8, "halt 2")), ("rstep", in_n(449, 0, 8, "done")),
]
# Events that change nothing are hit by no probe: one invocation alone waits at its barrier from 9 on.
ALONE = [
    ("goto 12", in_n(12, 0, 8, "done, schedule ended")), tallies(1, 3, 1), ("halt 3 1", ["halt 3 every 1"]), ("rcontinue", in_n(9, 0, 8, "halt 3")), ("continue", in_n(12, 0, 8, "schedule ended")),
]

# What each run is, its module, the setup, and commands with what is due.
RUNS = [
    ("what probes have counted", file_of("exchange"), BUFFER + "rounds 30\n", COUNTED),
    ("halts of probes", file_of("exchange"), BUFFER + "rounds 30\n", HALTED),
    ("halts among causes", file_of("exchange"), BUFFER + "rounds 30\n", AMONG_CAUSES),
    ("probes of one invocation alone", file_of("exchange"), BUFFER + "move 0 12\n", ALONE),
]


def calls():
    """What each run is, its module, setup and commands, the status and what is written."""
    for what, module, setup, rows in RUNS:
        yield what, module, setup, "".join(command + "\n" for command, _ in rows), 0, "".join(line + "\n" for _, due in rows for line in due)
