#!/usr/bin/env python3
"""Sessions that step, and that stop at breaks and watches, with what is due by hand.

    bench/stop_runs.py      says where what is written here by hand differs from what stops.py works out

The runs are written by bench/runs.py. Comments say where invocations stand at which positions, from which the rest follows.
"""
import os
import manual_runs
import source_runs
import variable_runs
import variable_scopes
from assembler import Assembled
from sessions import Shaped
from source_modules import add, function, line, scope, start, strings, types, unit
from source_runs import BUFFER, C2, C12, ROUNDS, STUCK, schedule_of
from source_runs import file_of as source_file
from stops import FULL, NO_CODE, NO_NUMBER, Debugger
from variable_runs import C5, C6, VALUES_SETUP
from variable_runs import file_of as variable_file

STORE = 62
C3, C4 = "refused: C3 no such invocation", "refused: C4 no such frame"


def stop(causes, *place):
    """The two lines of a stop: the causes, the position, the focus and where it stands."""
    return ["stop: " + causes, "@%d i=%d %s" % place]


# ---- calls that were inlined. At 0 main:10, at 1 f:5 in it, at 2 g:2 in that, at 3 f:6, at 4 main:11, at 5 the end; each is a head.

PLACES_I = ["main i.comp:10", "f i.comp:5", "g i.comp:2", "f i.comp:6", "main i.comp:11", "finished"]


def in_i(m, causes="done"):
    return stop(causes + ", all finished" * (m == 5) + ", start" * (m == 0 and causes == "done"), m, 0, PLACES_I[m])


AT_START_I, AT_END_I = stop("start", 0, 0, PLACES_I[0]), stop("all finished", 5, 0, "finished")
FORTH_I = [
    ("next", in_i(4)), ("rstep", in_i(3)), ("rstep", in_i(2)), ("bt", ["#0 g i.comp:2", "#1 f i.comp:5", "#2 main i.comp:10"]), ("finish", in_i(3)),
    ("finish", in_i(4)), ("finish", in_i(5)),
    ("stepi", [C12]), ("step", [C12]), ("next", [C12]), ("finish", [C12]), ("rnext", [C12]), ("rfinish", [C12]), ("stepi 7", [C12]),
    ("continue", AT_END_I), ("rcontinue", AT_START_I), ("rcontinue", AT_START_I), ("rstep", AT_START_I), ("rnext", AT_START_I), ("rfinish", AT_START_I), ("rstepi", AT_START_I),
    ("rstepi 3", AT_START_I),
    ("stepi 2", in_i(2)), ("rfinish", in_i(1)), ("rfinish", AT_START_I),
    ("step", in_i(1)), ("step", in_i(2)), ("step", in_i(3)), ("step", in_i(4)), ("step", in_i(5)), ("where", ["@5 i=0 finished"]),
    ("rstep", in_i(4)), ("rstep", in_i(3)), ("rstep", in_i(2)), ("rstep", in_i(1)), ("rstep", AT_START_I),
    ("goto 1", in_i(1)), ("next", in_i(3)), ("next", in_i(4)), ("next", in_i(5)),
    ("goto 2", in_i(2)), ("next", in_i(3)), ("rnext", in_i(1)), ("rnext", AT_START_I),
    ("goto 2", in_i(2)), ("rnext", in_i(1)),
    # in a frame of main the line before 11 is 10, at which the run starts
    ("goto 4", in_i(4)), ("rnext", AT_START_I),
    ("goto 4", in_i(4)), ("rfinish", AT_START_I),
    ("goto 3", in_i(3)), ("rfinish", AT_START_I),
    ("finish", in_i(5)),
    ("rstepi", in_i(4)), ("rstepi 2", in_i(2)), ("rstepi 2", in_i(0)), ("rstepi 1", AT_START_I), ("stepi 4", in_i(4)), ("rstepi 5", AT_START_I),
    ("stepi 6", AT_END_I), ("rstepi 5", in_i(0)), ("stepi 5", in_i(5)), ("rstepi 6", AT_START_I),
    ("continue", AT_END_I), ("continue", AT_END_I), ("rstepi", in_i(4)),
]

# ---- calls that are made, and one that was inlined. At 0 main:8, at 1 h:3 in main, at 2 and 3 k:12 in f in h, at 4 f:6, at 5 h:3 again, which
# is no head, at 6 main:10, at 7 the end. So many frames are shown: 1, 2, 4, 4, 3, 2, 1.

PLACES_BOTH = ["main c.comp:8", "h c.comp:3", "k c.comp:12", "k c.comp:12", "f c.comp:6", "h c.comp:3", "main c.comp:10", "finished"]


def in_both(m, causes="done"):
    return stop(causes + ", all finished" * (m == 7), m, 0, PLACES_BOTH[m])


AT_START_BOTH = in_both(0, "start")
CALLED = [
    ("step", in_both(1)), ("step", in_both(2)), ("step", in_both(4)), ("step", in_both(6)), ("step", in_both(7)),
    ("rstep", in_both(6)), ("rstep", in_both(4)), ("rstep", in_both(2)), ("rstep", in_both(1)), ("rstep", AT_START_BOTH),
    ("next", in_both(6)), ("rnext", AT_START_BOTH),
    ("goto 1", in_both(1)), ("next", in_both(6)),
    ("goto 2", in_both(2)), ("next", in_both(4)), ("rnext", in_both(1)),
    ("goto 3", in_both(3)), ("next", in_both(4)), ("next", in_both(6)),
    ("goto 5", in_both(5)), ("rnext", in_both(1)),
    ("goto 2", in_both(2)), ("finish", in_both(4)), ("finish", in_both(5)), ("finish", in_both(6)), ("finish", in_both(7)),
    ("goto 4", in_both(4)), ("rfinish", in_both(1)), ("rfinish", AT_START_BOTH),
    ("goto 3", in_both(3)), ("rfinish", in_both(1)),
    ("goto 5", in_both(5)), ("rfinish", AT_START_BOTH),
    ("goto 5", in_both(5)), ("rstep", in_both(4)),
    # the selected frame doesn't count, and each motion selects the innermost one
    ("goto 2", in_both(2)), ("frame 3", ["#3 main c.comp:9"]), ("finish", in_both(4)),
]

# ---- three copies of f in main, of which two stand one behind the other and were called on one line. Each invocation stands at
# these one after the other, a position each; two invocations take turns, so invocation i comes to place k at position 2 * k - 1 + i.

PLACES_C = ["main c.comp:10", "f c.comp:5", "f c.comp:6", "main c.comp:11", "f c.comp:5", "f c.comp:5", "f c.comp:5", "main c.comp:12", "finished"]


def copies():
    texts = strings(file="c.comp", nmain="main", nf="f")
    described = [
        ("source", "DebugSource", "file"), *unit("source"), function("dmain", "nmain", "source"), function("df", "nf", "source"),
        ("A", "DebugInlinedAt", "c10", "dmain"), ("B", "DebugInlinedAt", "c11", "dmain"), ("C", "DebugInlinedAt", "c11", "dmain"),
    ]
    body = [
        ("main", "Function", "void", 0, "fn"), ("-", "Label"), scope("dmain"), line("source", 10), add(), scope("df", "A"), line("source", 5), add(),
        line("source", 6), add(), scope("dmain"), line("source", 11), add(), scope("df", "B"), line("source", 5), add(), scope("df", "C"), add(), add(),
        scope("dmain"), line("source", 12), (None, "Return",), (None, "FunctionEnd",),
    ]
    return Assembled(start(2, (), texts) + types() + described + body)


def in_c(k, i, causes="done"):
    m = 2 * k - 1 + i if k else 0
    return stop(causes + ", all finished" * (m == 16), m, i, PLACES_C[k])


HITS_C = [(k, i) for k in (1, 4, 5) for i in (0, 1)]
COPIES = [
    ("break 5", ["break 1 at c.comp:5"]), *[("continue", in_c(k, i, "break 1")) for k, i in HITS_C],
    ("continue", stop("all finished", 16, 1, "finished")), *[("rcontinue", in_c(k, i, "break 1")) for k, i in reversed(HITS_C)],
    ("rcontinue", stop("start", 0, 0, PLACES_C[0])),
    # what another invocation comes to stops the steps of the focus, and is the focus then
    ("focus 1", ["@0 i=1 main c.comp:10"]), ("step", in_c(1, 0, "break 1")), ("step", in_c(1, 1, "break 1")), ("step", in_c(2, 1)), ("step", in_c(3, 1)),
    ("step", in_c(4, 0, "break 1")), ("focus 1", ["@7 i=1 main c.comp:11"]), ("next", in_c(4, 1, "break 1")), ("bt", ["#0 f c.comp:5", "#1 main c.comp:11"]),
    ("frame 1", ["#1 main c.comp:11"]), ("finish", in_c(5, 0, "break 1")), ("finish", in_c(5, 1, "break 1")), ("finish", in_c(7, 1)),
    ("rfinish", in_c(5, 1, "break 1")), ("goto 13", stop("done", 13, 1, "f c.comp:5")), ("rfinish", in_c(5, 1, "break 1")), ("rfinish", in_c(5, 0, "break 1")),
    ("stepi 9", in_c(5, 1, "break 1")), ("rstepi 9", in_c(5, 0, "break 1")), ("delete 1", ["deleted 1"]),
]
STEPS_OF_COPIES = [
    # of the two copies that were called on one line the second isn't another place for steps
    ("step", in_c(1, 0)), ("step", in_c(2, 0)), ("step", in_c(3, 0)), ("step", in_c(4, 0)), ("step", in_c(7, 0)), ("step", in_c(8, 0)),
    ("rstep", in_c(7, 0)), ("rstep", in_c(4, 0)), ("finish", in_c(7, 0)), ("rnext", in_c(3, 0)), ("rstep", in_c(2, 0)), ("goto 9", in_c(5, 0)), ("rfinish", in_c(3, 0)),
]

# ---- a workgroup of 64. Invocation i comes to line 7 at 65 + i, to line 8 at 449 + i, arrives at its barrier at 513 + i, comes to line 9 at
# 577 + i, to line 10 at 1281 + i, and to its end at 1345 + i.


def in_n(m, i, where, causes="done"):
    return stop(causes, m, i, "main n.comp:%d" % where if where else "finished")


ON = [
    ("print i", ["i = 0"]), ("next", in_n(449, 0, 8)), ("step", in_n(577, 0, 9)), ("focus 63", ["@577 i=63 main n.comp:8"]), ("print i", ["i = 63"]), ("rstep", in_n(512, 63, 8)),
    ("focus 64", [C3]), ("frame 9", [C4]), ("print zz", [C5]), ("print b.v[64]", [C6]), ("goto 1408", in_n(1408, 63, 0, "done, all finished")),
    ("print b.v[0]", ["b.v[0] = 3"]), ("print b.v[63]", ["b.v[63] = 127"]), ("step", [C12]), ("rcontinue", in_n(0, 63, 6, "start")),
]
AT_BREAK = [
    ("break 7", ["break 1 at n.comp:7"]), ("continue", in_n(65, 0, 7, "break 1")), ("delete 1", ["deleted 1"]), ("delete 1", [NO_NUMBER]), ("break 99", [NO_CODE]), *ON,
]
AT_NUMBER = [("goto 65", in_n(65, 0, 7)), *ON]
LINES_OF_N = [
    ("step", in_n(65, 0, 7)), ("step", in_n(449, 0, 8)), ("step", in_n(577, 0, 9)), ("step", in_n(1281, 0, 10)), ("step", in_n(1345, 0, 0)), ("step", [C12]), ("finish", [C12]),
    ("rstep", in_n(1281, 0, 10)), ("rstep", in_n(577, 0, 9)), ("rstep", in_n(449, 0, 8)), ("rstep", in_n(65, 0, 7)), ("rstep", in_n(0, 0, 6, "start")),
    ("finish", in_n(1345, 0, 0)), ("rstepi", in_n(1344, 0, 10)), ("rstepi 21", in_n(0, 0, 6, "done, start")), ("goto 1300", in_n(1300, 0, 10)), ("rfinish", in_n(0, 0, 6, "start")),
    ("goto 1300", in_n(1300, 0, 10)), ("rnext", in_n(1281, 0, 10)), ("rnext", in_n(577, 0, 9)),
    # to arrive and to leave are events of an invocation; at 512 the first one's arrival is next, and at 576 it leaves
    ("goto 512", in_n(512, 0, 8)), ("stepi", in_n(513, 0, 8)), ("stepi", in_n(577, 0, 9)), ("rstepi", in_n(576, 0, 8)), ("rstepi", in_n(512, 0, 8)), ("rstepi", in_n(448, 0, 7)),
    ("goto 500", in_n(500, 0, 8)), ("next", in_n(577, 0, 9)),
    ("focus 63", ["@577 i=63 main n.comp:8"]), ("next", in_n(640, 63, 9)), ("rnext", in_n(512, 63, 8)), ("stepi 22", in_n(1408, 63, 0, "all finished")),
    ("rstepi 22", in_n(63, 63, 6)), ("stepi 22", in_n(1408, 63, 0, "done, all finished")),
]
# Lists outlive motions, a number is given once, and where a break of another invocation hits, that one is the focus.
OUTLIVE = [
    ("break 7", ["break 1 at n.comp:7"]), ("break n.comp:9", ["break 2 at n.comp:9"]), ("break n.comp:007", ["break 3 at n.comp:7"]), ("delete 3", ["deleted 3"]), ("delete 3", [NO_NUMBER]),
    ("continue", in_n(65, 0, 7, "break 1")), ("continue", in_n(66, 1, 7, "break 1")), ("rcontinue", in_n(65, 0, 7, "break 1")), ("goto 0", in_n(0, 0, 6, "done, start")),
    ("continue", in_n(65, 0, 7, "break 1")), ("goto 600", in_n(600, 0, 9)), ("rcontinue", in_n(599, 22, 9, "break 2")), ("delete 2", ["deleted 2"]),
    ("rcontinue", in_n(128, 63, 7, "break 1")), ("break 7", ["break 4 at n.comp:7"]), ("continue", in_n(1408, 63, 0, "all finished")), ("rcontinue", in_n(128, 63, 7, "break 1, break 4")),
    ("back 128", in_n(0, 63, 6, "done, start")), ("step", in_n(65, 0, 7, "break 1, break 4")), ("focus 63", ["@65 i=63 main n.comp:6"]), ("next", in_n(66, 1, 7, "break 1, break 4")),
    ("delete 1", ["deleted 1"]), ("delete 4", ["deleted 4"]), ("focus 63", ["@66 i=63 main n.comp:6"]), ("step", in_n(128, 63, 7)),
    # what is met by `goto`, `fwd` and `back` stops them nowhere
    ("break 7", ["break 5 at n.comp:7"]), ("goto 0", in_n(0, 63, 6, "done, start")), ("fwd 65", in_n(65, 63, 6)), ("back 1", in_n(64, 63, 6)), ("goto 128", in_n(128, 63, 7)),
    ("goto 0", in_n(0, 63, 6, "done, start")), ("focus 0", ["@0 i=0 main n.comp:6"]), ("step", in_n(65, 0, 7, "break 5, done")), ("stepi", in_n(66, 1, 7, "break 5")),
    ("rstepi", in_n(65, 0, 7, "break 5, done")), ("rstep", in_n(0, 0, 6, "start")), ("stepi 2", in_n(65, 0, 7, "break 5, done")),
    ("focus 5", ["@65 i=5 main n.comp:6"]), ("goto 449", in_n(449, 5, 7)), ("finish", in_n(1350, 5, 0)), ("delete 5", ["deleted 5"]), ("rfinish", [C12]),
]
FULL_LISTS = [
    *[("break 7", ["break %d at n.comp:7" % k]) for k in range(1, 65)], ("break 7", [FULL]), ("break n.comp:8", [FULL]), ("break 99", [NO_CODE]), ("break o.comp:7", [NO_CODE]),
    *[("watch i", ["watch %d: i = <undefined>" % k]) for k in range(1, 33)], ("watch i", [FULL]), ("watch b.v[3]", [FULL]), ("watch zz", [C5]), ("watch b.w", [C6]), ("watch %1", [C5]),
    ("continue", in_n(65, 0, 7, ", ".join(["break %d" % k for k in range(1, 65)] + ["watch %d" % k for k in range(1, 33)]))),
    ("delete 5", ["deleted 5"]), ("break 8", ["break 65 at n.comp:8"]), ("break 8", [FULL]), ("unwatch 1", ["unwatched 1"]), ("watch i", ["watch 33: i = 0"]), ("watch i", [FULL]),
    ("unwatch 1", [NO_NUMBER]), ("delete 5", [NO_NUMBER]), ("goto 0", in_n(0, 0, 6, "done, start")),
    ("step", in_n(65, 0, 7, ", ".join(["break %d" % k for k in range(1, 65) if k != 5] + ["watch %d" % k for k in range(2, 34)] + ["done"]))),
]
WATCHED = [
    ("watch b.v[0]", ["watch 1: b.v[0] = 1"]), ("break 10", ["break 1 at n.comp:10"]), ("continue", in_n(1281, 0, 10, "break 1, watch 1")), ("fwd 1", in_n(1282, 0, 10)),
    ("rcontinue", in_n(1281, 0, 10, "break 1, watch 1")), ("delete 1", ["deleted 1"]), ("goto 1408", in_n(1408, 0, 0, "done, all finished")), ("rcontinue", in_n(1281, 0, 10, "watch 1")),
    # a watch doesn't change the focus, and each invocation has an `i` of its own
    ("focus 63", ["@1281 i=63 main n.comp:9"]), ("rcontinue", in_n(0, 63, 6, "start")), ("watch i", ["watch 2: i = <undefined>"]), ("focus 7", ["@0 i=7 main n.comp:6"]),
    ("watch i", ["watch 3: i = <undefined>"]), ("watch b.v", ["watch 4: b.v = [%s]" % ", ".join(str(k + 1) for k in range(64))]), ("unwatch 1", ["unwatched 1"]),
    ("continue", in_n(72, 7, 7, "watch 3")), ("continue", in_n(128, 7, 7, "watch 2")), ("continue", in_n(1281, 7, 9, "watch 4")), ("continue", in_n(1282, 7, 9, "watch 4")),
    ("goto 1345", in_n(1345, 7, 10)), ("continue", in_n(1352, 7, 0, "watch 3")), ("continue", in_n(1408, 7, 0, "watch 2, all finished")),
    ("rcontinue", in_n(1352, 7, 0, "watch 3")), ("rcontinue", in_n(1344, 7, 10, "watch 4")), ("unwatch 4", ["unwatched 4"]), ("unwatch 4", [NO_NUMBER]),
    ("rcontinue", in_n(128, 7, 7, "watch 2")), ("rcontinue", in_n(72, 7, 7, "watch 3")), ("focus 63", ["@72 i=63 main n.comp:6"]), ("step", in_n(128, 63, 7, "watch 2, done")),
    ("watch b.v[1]", ["watch 5: b.v[1] = 2"]), ("goto 1408", in_n(1408, 63, 0, "done, all finished")), ("watch i", [C5]), ("watch b.v[1]", ["watch 6: b.v[1] = 3"]), ("break 7", [NO_CODE]),
    ("break n.comp:7", ["break 2 at n.comp:7"]), ("rcontinue", in_n(1352, 63, 10, "watch 3")), ("rcontinue", in_n(1282, 63, 9, "watch 5, watch 6")),
    ("rcontinue", in_n(128, 63, 7, "break 2, watch 2")), ("rcontinue", in_n(127, 62, 7, "break 2")),
]
IDLE = [("break 8", ["break 1 at n.comp:8"]), ("continue", in_n(8, 0, 8, "break 1")), ("continue", in_n(12, 0, 8, "schedule ended")), ("rcontinue", in_n(8, 0, 8, "break 1"))]

# ---- calls that are made one after the other. f is at 1 to 4 and at 6 to 9; p is told when it is called, v is in memory and is stored in at
# 2, 4, 7 and 9, late is told at 3 and 8.

IN_F, IN_MAIN = "f v.comp:5", "main v.comp:9"
OF_CALL = [
    ("stepi", stop("done", 1, 0, IN_F)), ("watch p", ["watch 1: p = 7"]), ("watch v", ["watch 2: v = <undefined>"]), ("watch late", ["watch 3: late = <unavailable>"]),
    ("frame 1", ["#1 " + IN_MAIN]), ("watch p", [C5]), ("watch m", ["watch 4: m = <unavailable>"]),
]
CHANGES = [
    (1, "watch 1, watch 2, watch 3", IN_F), (2, "watch 2", IN_F), (3, "watch 3", IN_F), (4, "watch 2", IN_F), (5, "watch 1, watch 2, watch 3, watch 4", IN_MAIN), (6, "watch 1, watch 2, watch 3", IN_F),
    (7, "watch 2", IN_F), (8, "watch 3", IN_F), (9, "watch 2", IN_F), (10, "watch 1, watch 2, watch 3, watch 4", IN_MAIN),
]
MADE = OF_CALL + [("continue", stop(causes, m, 0, where)) for m, causes, where in CHANGES[1:]] + [
    ("continue", stop("watch 4, all finished", 11, 0, "finished")), ("continue", stop("all finished", 11, 0, "finished")),
    *[("rcontinue", stop(causes, m, 0, where)) for m, causes, where in reversed(CHANGES)], ("rcontinue", stop("start", 0, 0, IN_MAIN)),
    ("unwatch 2", ["unwatched 2"]), ("unwatch 3", ["unwatched 3"]), ("goto 7", stop("done", 7, 0, IN_F)), ("watch p", ["watch 5: p = 14"]), ("rcontinue", stop("watch 1, watch 5", 6, 0, IN_F)),
    ("finish", stop("watch 1, watch 4, watch 5, done", 10, 0, IN_MAIN)), ("rstepi", stop("done", 9, 0, IN_F)),
]

# main calls f, at 1 and 2, and then h, at 4 and 7, which calls f, at 5 and 6: a watch of the first isn't one of the second
PLACES_D = {0: IN_MAIN, 1: IN_F, 3: IN_MAIN, 4: "h v.comp:6", 5: IN_F, 7: "h v.comp:6", 8: IN_MAIN, 9: "finished"}
CHANGES_D = [(1, 1), (3, 1), (4, 3), (5, 2), (7, 2), (8, 3)]
DEEPER = [
    ("stepi", stop("done", 1, 0, IN_F)), ("watch p", ["watch 1: p = 7"]), ("stepi 4", stop("watch 1", 3, 0, IN_MAIN)), ("stepi 2", stop("done", 5, 0, IN_F)), ("watch p", ["watch 2: p = 8"]),
    ("frame 1", ["#1 h v.comp:6"]), ("watch p", [C5]), ("watch q", ["watch 3: q = 8"]), ("goto 0", stop("done, start", 0, 0, IN_MAIN)),
    *[("continue", stop("watch %d" % k, m, 0, PLACES_D[m])) for m, k in CHANGES_D], ("continue", stop("all finished", 9, 0, "finished")),
    *[("rcontinue", stop("watch %d" % k, m, 0, PLACES_D[m])) for m, k in reversed(CHANGES_D)], ("rcontinue", stop("start", 0, 0, IN_MAIN)),
]
# of two invocations each stores -5 in a shared integer, the first at 3: then it is changed for both
SHARED = variable_scopes.stored(2)
OF_OTHERS = [
    ("focus 1", ["@0 i=1 main word %d" % SHARED.starts["IAdd"][0]]), ("watch x", ["watch 1: x = <undefined>"]), ("watch y", ["watch 2: y = <unavailable>"]), ("watch z", ["watch 3: z = <undefined>"]),
    ("continue", stop("watch 1, watch 3", 3, 1, "main word %d" % SHARED.starts["Store"][0])), ("continue", stop("watch 1, watch 2, watch 3, all finished", 8, 1, "finished")),
    ("rcontinue", stop("watch 1, watch 3", 3, 1, "main word %d" % SHARED.starts["Store"][0])), ("unwatch 3", ["unwatched 3"]), ("rcontinue", stop("start", 0, 1, "main word %d" % SHARED.starts["IAdd"][0])),
]

# ---- scopes and inlined calls, in one call of main. f was inlined twice: at 4 and 6 it is the one of line 10, at 5 that of line 12.

NESTED = [
    ("goto 4", stop("done", 4, 0, "f v.comp:21")), ("watch p", ["watch 1: p = 50"]), ("fwd 1", stop("done", 5, 0, "f v.comp:22")), ("watch p", ["watch 2: p = 60"]),
    ("watch r", ["watch 3: r = <unavailable>"]), ("fwd 1", stop("done", 6, 0, "f v.comp:23")), ("watch r", ["watch 4: r = 61"]), ("watch p", ["watch 5: p = 50"]),
    ("goto 0", stop("done, start", 0, 0, "main v.comp:1")), ("continue", stop("watch 1, watch 5", 4, 0, "f v.comp:21")), ("continue", stop("watch 2, watch 4", 5, 0, "f v.comp:22")),
    ("continue", stop("watch 1, watch 2, watch 3, watch 4, watch 5, all finished", 11, 0, "finished")), ("rcontinue", stop("watch 2, watch 4", 5, 0, "f v.comp:22")),
    ("rcontinue", stop("watch 1, watch 5", 4, 0, "f v.comp:21")), ("rcontinue", stop("start", 0, 0, "main v.comp:1")),
    ("goto 1", stop("done", 1, 0, "main v.comp:2")), ("watch a\x07b", ["watch 6: a?b = 22"]), ("watch x", ["watch 7: x = 20"]), ("watch only", ["watch 8: only = 98"]), ("watch lost", [C5]),
    ("goto 3", stop("done", 3, 0, "main v.comp:4")), ("watch x", ["watch 9: x = 30"]), ("watch s", ["watch 10: s = 40"]),
    ("goto 0", stop("done, start", 0, 0, "main v.comp:1")), ("continue", stop("watch 6, watch 7", 1, 0, "main v.comp:2")), ("continue", stop("watch 9", 2, 0, "main v.comp:3")),
    ("continue", stop("watch 10", 3, 0, "main v.comp:4")), ("goto 6", stop("done", 6, 0, "f v.comp:23")), ("continue", stop("watch 7", 7, 0, "main v.comp:5")),
]

# ---- values of each debug type: 3 is stored in `shared` at 3, 8 in the buffer's last number at 7, and 2 in `own` at 8

AT = variable_runs.at
IN_VALUES = lambda m, name, place=0: (m, 0, AT(variable_runs.VALUES, m, name, place).split(" ", 2)[2])
TYPES = [
    ("watch g_block.data", ["watch 1: g_block.data = [1, 2, 3, 4, 5]"]), ("watch g_block.data[3]", ["watch 2: g_block.data[3] = 4"]), ("watch g_shared", ["watch 3: g_shared = <undefined>"]),
    ("watch g_own", ["watch 4: g_own = 13"]), ("watch g_no_bits", ["watch 5: g_no_bits = []"]), ("watch pointer", ["watch 6: pointer = <unavailable>"]), ("watch g_block.data[5]", [C6]),
    ("watch pair[1]", ["watch 7: pair[1] = 2"]), ("watch empty", ["watch 8: empty = {}"]), ("watch declared", ["watch 9: declared = 13"]), ("watch g_constant_open", ["watch 10: g_constant_open = [1, 2, 3]"]),
    ("watch g_seven[6]", ["watch 11: g_seven[6] = <unavailable>"]),
    ("continue", stop("watch 3", *IN_VALUES(3, "AccessChain"))), ("continue", stop("watch 1", *IN_VALUES(7, "Store", 3))), ("continue", stop("watch 4, watch 9", *IN_VALUES(8, "Return"))),
    ("continue", stop("watch 6, watch 7, watch 8, watch 9, all finished", 9, 0, "finished")), ("rcontinue", stop("watch 4, watch 9", *IN_VALUES(8, "Return"))),
]

# ---- a loop without lines, and a barrier that never opens

AT_BARRIER = "%%%d word %d" % (STUCK.ids["main"], STUCK.starts["ControlBarrier"][0])
BOTH_WAYS = [("continue", stop("all finished", 16, 0, "finished")), ("rcontinue", ["stop: start", AT(variable_runs.PHI, 0, "Branch")])]
STEPS_OF_PHIS = [*BOTH_WAYS, ("step", stop("done, all finished", 16, 0, "finished")), ("step", [C12])]
PHIS = [
    *BOTH_WAYS, ("break 1", [NO_CODE]), ("watch x", ["watch 1: x = <unavailable>"]),
    ("continue", ["stop: watch 1", AT(variable_runs.PHI, 3, "IAdd")]), ("continue", ["stop: watch 1", AT(variable_runs.PHI, 7, "IAdd")]),
    ("continue", ["stop: watch 1", AT(variable_runs.PHI, 11, "IAdd")]), ("continue", stop("watch 1, all finished", 16, 0, "finished")), ("step", [C12]),
    ("rcontinue", ["stop: watch 1", AT(variable_runs.PHI, 11, "IAdd")]), ("step", stop("watch 1, done, all finished", 16, 0, "finished")),
]
NEVER = [
    ("continue", stop("stuck", 8, 0, "finished")), ("continue", stop("stuck", 8, 0, "finished")), ("focus 1", ["@8 i=1 " + AT_BARRIER]), ("stepi", stop("stuck", 8, 1, AT_BARRIER)),
    ("step", stop("stuck", 8, 1, AT_BARRIER)), ("finish", stop("stuck", 8, 1, AT_BARRIER)), ("rstepi", stop("done", 7, 1, AT_BARRIER)), ("stepi", stop("done, stuck", 8, 1, AT_BARRIER)),
    ("rstepi 4", stop("done", 1, 1, "%%%d word %d" % (STUCK.ids["main"], STUCK.starts["Load"][0]))),
]

# ---- files by their names, and which executables begin a line: position k is the k-th of source_places.py, whose frames stand there

FAR = 4294967295


def in_places(m, name, causes="done"):
    return stop(causes, m, 0, name)


HEADS_OF_2 = [
    (20, "main d.comp:2"), (28, "f???g d.comp:2"), (29, "f???g d.comp:2"), (30, "f???g d.comp:2"), (31, "far away d.comp:2"), (32, "far away d.comp:2"), (33, "main d.comp:2"),
    (34, "main d.comp:2"), (35, "main d.comp:2"), (36, "main d.comp:2"), (44, "main d.comp:2"),
]
BY_NAME = [
    ("break 5", [NO_CODE]), ("break d.comp:6", [NO_CODE]), ("break D.comp:5", [NO_CODE]), ("break d.comp:0", [NO_CODE]), ("break :6", [C2]), ("break a?b c.comp?:4", [C2]), ("break d.comp:5", ["break 1 at d.comp:5"]),
    ("continue", in_places(1, "o??name d.comp:5", "break 1")), ("break 7", ["break 2 at d.comp:7"]), ("break \u00e9.comp:%d" % FAR, ["break 3 at \u00e9.comp:%d" % FAR]),
    ("goto 16", in_places(16, "f???g a?b c.comp?:4")), ("break 4", ["break 4 at a?b c.comp?:4"]), ("break 5", [NO_CODE]), ("goto 17", in_places(17, "f???g :6")), ("break 6", ["break 5 at :6"]),
    ("goto 0", in_places(0, "o??name word %d" % source_runs.PLACES.starts["IAdd"][0], "done, start")), ("continue", in_places(1, "o??name d.comp:5", "break 1")),
    # line 7 goes on for three instructions, and what stands behind one without a line begins its line anew
    ("continue", in_places(2, "o??name d.comp:7", "break 2")), *[("continue", in_places(m, "o??name \u00e9.comp:%d" % FAR, "break 3")) for m in (5, 7, 9)],
    ("continue", in_places(16, "f???g a?b c.comp?:4", "break 4")), ("continue", in_places(17, "f???g :6", "break 5")), ("continue", stop("all finished", 46, 0, "finished")),
    ("break d.comp:2", ["break 6 at d.comp:2"]), *[("rcontinue", in_places(m, name, "break 6")) for m, name in reversed(HEADS_OF_2)], ("rcontinue", in_places(17, "f???g :6", "break 5")),
    ("goto 28", in_places(28, "f???g d.comp:2")), ("frame 1", ["#1 main word %d" % source_runs.PLACES.starts["IAdd"][28]]), ("break 2", [NO_CODE]), ("frame 0", ["#0 f???g d.comp:2"]),
    ("break 2", ["break 7 at d.comp:2"]), ("goto 31", in_places(31, "far away d.comp:2")), ("frame 1", ["#1 main \u00e9.comp:6"]), ("break %d" % FAR, ["break 8 at \u00e9.comp:%d" % FAR]), ("break 2", [NO_CODE]),
    ("rcontinue", in_places(30, "f???g d.comp:2", "break 6, break 7")),
]

# ---- the examples of docs/MANUAL.md, over examples/shares and examples/overwritten


def in_shares(m, i, where, causes="done"):
    name, at = where.split(":")
    return stop(causes, m, i, "%s shares.comp:%s" % (name, at))


FAR_FROM = {57: "main:19", 65: "sum:11", 93: "sum:12", 112: "sum:12", 113: "number:6", 124: "number:6", 125: "number:6", 129: "sum:12", 145: "sum:11", 181: "sum:12"}
EXAMPLES = [(112, "stepi", 113), (112, "step", 113), (93, "next", 145), (113, "finish", 129), (125, "rstepi", 124), (145, "rstep", 113), (145, "rnext", 93), (65, "rfinish", 57)]
STEPS_OF_MANUAL = [row for at, command, to in EXAMPLES for row in (("goto %d" % at, in_shares(at, 0, FAR_FROM[at])), (command, in_shares(to, 0, FAR_FROM[to])))] + [
    ("goto 181", in_shares(181, 0, "sum:12")), ("continue", in_shares(215, 0, "number:6", "fault F3 i=3 word 1048")), ("goto 181", in_shares(181, 0, "sum:12")),
    ("rcontinue", in_shares(0, 0, "main:17", "start")),
]
BREAKS_OF_MANUAL = [
    ("break 6", ["break 1 at shares.comp:6"]), ("break 9", [NO_CODE]), ("continue", in_shares(113, 0, "number:6", "break 1")), ("continue", in_shares(114, 1, "number:6", "break 1")),
    ("rcontinue", in_shares(113, 0, "number:6", "break 1")), ("finish", in_shares(114, 1, "number:6", "break 1")), ("delete 1", ["deleted 1"]), ("finish", in_shares(130, 1, "sum:12")),
]
WHO = [
    ("goto 9000", stop("all finished", 2688, 0, "finished")), ("print b.results[23]", ["b.results[23] = 2401"]), ("watch s[23]", ["watch 1: s[23] = 2401"]),
    ("rcontinue", stop("watch 1", 1970, 0, "main overwritten.comp:17")), ("focus 49", ["@1970 i=49 put overwritten.comp:7"]), ("back 1", stop("done", 1969, 49, "put overwritten.comp:7")),
    ("bt", ["#0 put overwritten.comp:7", "#1 main overwritten.comp:16"]), ("print s[23]", ["s[23] = 24"]), ("print number", ["number = 2401"]),
]
OVERWRITTEN_SETUP = "spvdbg-setup 1\nbuffer 0 0 zero 256\nrounds 200\n"

# What each run is, its module, the setup, and commands with what is due.
RUNS = [
    ("steps in inlined calls", source_file("inlined"), "spvdbg-setup 1\nrounds 9\n", FORTH_I),
    ("steps in calls", source_file("both"), ROUNDS, CALLED),
    ("breaks in copies of a function", "stop-copies.spv", ROUNDS, COPIES),
    ("steps in copies of a function", "stop-copies.spv", ROUNDS, STEPS_OF_COPIES),
    ("a session with a break", source_file("exchange"), BUFFER + "rounds 30\n", AT_BREAK),
    ("a session", source_file("exchange"), BUFFER + "rounds 30\n", AT_NUMBER),
    ("steps in a workgroup", source_file("exchange"), BUFFER + "rounds 30\n", LINES_OF_N),
    ("breaks in a workgroup", source_file("exchange"), BUFFER + "rounds 30\n", OUTLIVE),
    ("full lists", source_file("exchange"), BUFFER + "rounds 30\n", FULL_LISTS),
    ("watches in a workgroup", source_file("exchange"), BUFFER + "rounds 30\n", WATCHED),
    ("events that change nothing hit no break", source_file("exchange"), BUFFER + "move 0 12\n", IDLE),
    ("watches of calls", variable_file("made"), ROUNDS, MADE),
    ("watches of deeper calls", "stop-deeper.spv", ROUNDS, DEEPER),
    ("watches that another invocation changes", "stop-shared.spv", ROUNDS, OF_OTHERS),
    ("watches of inlined calls", variable_file("nested"), ROUNDS, NESTED),
    ("watches of debug types", variable_file("values"), VALUES_SETUP, TYPES),
    ("a loop without lines", variable_file("phi"), ROUNDS, STEPS_OF_PHIS),
    ("a watch in a loop without lines", variable_file("phi"), ROUNDS, PHIS),
    ("breaks by files", source_file("places"), "spvdbg-setup 1\nrounds 100\n", BY_NAME),
    ("steps of the manual", manual_runs.file_of("shares-calls"), manual_runs.setup_of(manual_runs.TEN, ["rounds 1000"]), STEPS_OF_MANUAL),
    ("a break of the manual", manual_runs.file_of("shares-calls"), manual_runs.setup_of(manual_runs.TEN, ["rounds 1000"]), BREAKS_OF_MANUAL),
    ("a watch of the manual", manual_runs.file_of("overwritten"), OVERWRITTEN_SETUP, WHO),
    ("steps to a barrier that never opens", source_file("stuck"), "spvdbg-setup 1\nrounds 20\n", NEVER),
]


# ---- a compiled shader of 64, in which 16 invocations each overwrite a number of another one: 49 stores 2401 in `s[23]`, where 23 has stored
# 24. The stores are two copies of one, where the calls were inlined.

OVERWRITTEN = [
    "goto 9000", "print b.results[23]", "print s[23]", "watch s[23]", "rcontinue", "focus 49", "where", "back 1", "list", "bt", "print s[23]", "print number", "fwd 1", "print s[23]",
    "rcontinue", "rcontinue", "print s[23]", "focus 23", "continue", "continue", "continue", "break overwritten.comp:7", "goto 0", *["continue"] * 83, *["rcontinue"] * 84,
    "delete 1", "focus 50", "finish", "step", "step", "step", "next", "next", "next", "next", "rnext", "rstep", "rstep", "rfinish", "watch place", "watch number", "focus 3",
    "continue", "rcontinue", "continue",
]


def overwritten(name):
    """The session, in which the watch stops behind the store of invocation 49 and behind that of 23, and nowhere else."""
    with open(manual_runs.path_of(name), "rb") as file:
        session, replies = Debugger(Shaped(file.read()), {0: 64 * [0]}, [k for _ in range(200) for k in range(64)]), []
    for command in OVERWRITTEN:
        replies.append(session.answer(command))
        if "watch 1" in replies[-1][0] and command.endswith("continue"):
            at = session.group.events - 1
            opcode, _ = session.shaped.code.insts[session.run.stands[at][session.schedule[at]][0]]
            assert opcode == STORE and session.schedule[at] in (49, 23)
    return "a watch and a break in a shader of 64, " + name, manual_runs.file_of(name), OVERWRITTEN_SETUP, OVERWRITTEN, replies


def example(name, numbers):
    """The session of an example, whose commands stand beside it."""
    with open(os.path.join(manual_runs.TOP, "examples", name, "commands")) as file:
        commands = file.read().splitlines()
    with open(os.path.join(manual_runs.TOP, "examples", name, "setup")) as file:
        setup = file.read()
    with open(manual_runs.path_of(name), "rb") as file:
        shaped = Shaped(file.read())
    x, y, z = shaped.code.size
    session = Debugger(shaped, {0: numbers}, schedule_of(setup, x * y * z))
    return "the session of " + name, manual_runs.file_of(name), setup, commands, [session.answer(command) for command in commands if command != "quit"]


def modules():
    yield "stop-copies.spv", copies().data
    yield "stop-deeper.spv", variable_scopes.deeper().data
    yield "stop-shared.spv", SHARED.data


def modules_in_gate():
    used = [module for _, module, *_ in RUNS]
    return [each for each in modules() if each[0] in used]


def calls():
    """What each run is, its module, setup and commands, the status and what is written."""
    for what, module, setup, rows in RUNS:
        yield what, module, setup, "".join(command + "\n" for command, _ in rows), 0, "".join(line + "\n" for _, due in rows for line in due)
    told = [overwritten("overwritten"), overwritten("overwritten-inlined"), example("overwritten", 64 * [0])]
    for what, module, setup, commands, replies in [example("shares", manual_runs.TEN), *told]:
        yield what, module, setup, "".join(command + "\n" for command in commands), 0, "".join(line + "\n" for due in replies for line in due)


# ---- beside the other way

def numbers_of(setup):
    """The numbers of the buffer that a setup has."""
    _, _, _, kind, *rest = setup.splitlines()[1].split() if "buffer" in setup else ("", "", "", "zero", "0")
    data = bytes(int(rest[0])) if kind == "zero" else bytes.fromhex("".join(rest))
    return [int.from_bytes(data[at : at + 4], "little") for at in range(0, len(data), 4)]


def main():
    wrong, made = 0, dict(modules())
    for what, module, setup, rows in RUNS:
        # (integers of 64 bits and pointers out of bounds are more than stacks.py does)
        if module == variable_file("values"):
            continue
        if module not in made:
            with open(os.path.join(manual_runs.DATA, module), "rb") as file:
                made[module] = file.read()
        shaped = Shaped(made[module])
        x, y, z = shaped.code.size
        session = Debugger(shaped, {0: numbers_of(setup)}, schedule_of(setup, x * y * z))
        for command, due in rows:
            reply = session.answer(command) if due != [C2] else due
            if reply != due:
                wrong += 1
                print("%s, %s: %s, by hand %s" % (what, command, reply, due))
    print("%d differ of %d" % (wrong, sum(len(rows) for *_, rows in RUNS)))


if __name__ == "__main__":
    main()
