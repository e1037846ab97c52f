#!/usr/bin/env python3
"""Calls of the program, and what they write and how they end.

    bench/runs.py           writes the modules, lists and stored output of crates/test_runs

A call of a file `*.runs` is a line `== WHAT: MODULE: WORDS`, the text of the setup, and behind `-- commands` the input. The
transcripts are worked out by hand from the manual, docs/SETUP.md and the standard; the numbers in runs_of_values.py and
arithmetic.py by Python, and those of memory.runs, flow.runs and group.runs, and of the runs that docs/MANUAL.md speaks of, by the
interpreters memory_runs.py, flow.py, group_runs.py and manual_runs.py; those with barriers before which invocations return by hand and
by sessions.py in barrier_runs.py, those of pointers.runs by hand and by pointers.py in pointer_runs.py; those of source.runs by hand in
source_runs.py and stop_runs.py, those of traces.runs by sessions.py and random_sessions.py, those of probes.runs by
hand in probe_runs.py, those of order.runs by hand and by stacks.py in order_runs.py, and those of variables.runs by hand in
variable_runs.py and by variables_told.py; those of `make` by stops.py. None is taken from the program that is tested.
"""
import os
import struct
import arithmetic
import barrier_runs
import flow
import group_runs
import make
import manual_runs
import memory_runs
import order_runs
import pointer_runs
import random_sessions
import runs_of_places as places
import runs_of_setups as setups
import runs_of_values as values
import probe_runs
import source_runs
import stop_runs
import traces
import variable_runs
import variables_told
from listings import TOP, Inst, laid_out
from places import Places
from sessions import Shaped
from stops import Debugger

FOLDER = os.path.join(TOP, "crates", "test_runs")
DATA = os.path.join(FOLDER, "data")
DONE, USAGE, MODULE, SETUP, FILE = 0, 2, 3, 4, 5
DEBUG = "spvdbg debug module setup"
TEN_ROUNDS = "spvdbg-setup 1\nrounds 10\n"
USAGE_LINE = "usage: spvdbg debug MODULE SETUP | check MODULE | make N | text MODULE\n"
UNKNOWN = "refused: C1 unknown command\n"
ARGUMENTS = "refused: C2 arguments\n"
NO_FRAME, NO_TEXT, FINISHED = "refused: C4 no such frame\n", "refused: C10 no source text\n", "refused: C12 focus finished\n"
NO_NAME, NO_NUMBER, NO_CODE = "refused: C5 no such name\n", "refused: C7 no such number\n", "refused: C8 no code at that line\n"
# What `info` and, at the end, `where` reply of the shader that adds 40 and 2, under ten rounds.
INFO, OVER = "words 67, instructions 18, ignored 0, invocations 1, entries 10\n", "@4 i=0 finished\n"
# The replies to motions that go to the end by what they ask for, and to the start for want of it.
ENDED, BEGUN = "stop: done, all finished\n" + OVER, "stop: start\n@0 i=0 %7 word 53\n"

# The commands to it that set and remove breaks and watches, and all that is written, once they are built and before.
STOPS = [
    ("break\nbreak :5\nbreak x\nbreak x:\nbreak 1 2\ndelete\ndelete x\nwatch\nwatch x[\nwatch %9[0]\nunwatch\nunwatch 1 2\n", 12 * ARGUMENTS),
    (
        "break 1\nbreak x:1\ndelete 0\ndelete 1\nunwatch 1\nwatch %10\nwatch %9\nwatch x\nwatch x.y\ngoto 4\nbreak 1\nbreak x:1\nwatch x\nwatch %5\n",
        2 * NO_CODE + 3 * NO_NUMBER + 4 * NO_NAME + ENDED + 2 * NO_CODE + 2 * NO_NAME,
    ),
]

# The commands to the shader that adds 40 and 2, under ten rounds, and all that is written.
COMMANDS = [
    ("goto 3\nregs\ngoto 9\nquit\n", "stop: done\n@3 i=0 %7 word 65\n%10 = 40\n%11 = 42\nstop: all finished\n@4 i=0 finished\n"),
    (
        "goto 4\nregs\ngoto 0\nwhere\n",
        "stop: done, all finished\n@4 i=0 finished\nrefused: C12 focus finished\nstop: done, start\n" + 2 * "@0 i=0 %7 word 53\n",
    ),
    ("jump\nGoto 1\norders 1 2\norder 1 2\n", 3 * UNKNOWN + "order 1 2: free\n"),
    # a module without debug records has no variables, but ids
    (
        "print %10\nprint %9\nprint %5\nlocals\nglobals\nprint x\ngoto 3\nprint %10\nprint %9\nprint %7\ngoto 4\nprint %10\nprint %9\nprint %5\nlocals\nglobals\n",
        NO_NAME + "%9 = &%9 -> <undefined>\n%5 = 40\n" + NO_NAME + "stop: done\n@3 i=0 %7 word 65\n%10 = 40\n%9 = &%9 -> 40\n" + NO_NAME
        + "stop: done, all finished\n" + OVER + 2 * NO_NAME + "%5 = 40\n" + FINISHED,
    ),
    ("where 5\nbt 0\nlist 3\ninfo 1\nframe\nframe x\nframe 4294967296\n", 7 * ARGUMENTS),
    ("where\ngoto 3\nwhere\n", "@0 i=0 %7 word 53\nstop: done\n" + 2 * "@3 i=0 %7 word 65\n"),
    ("bt\nframe 0\nframe 00\nframe 1\nframe 4294967295\n", 3 * "#0 %7 word 53\n" + 2 * NO_FRAME),
    ("goto 2\nframe 0\nregs\nwhere\nbt\n", "stop: done\n@2 i=0 %7 word 60\n#0 %7 word 60\n%10 = 40\n@2 i=0 %7 word 60\n#0 %7 word 60\n"),
    ("list\ngoto 3\nlist\n", NO_TEXT + "stop: done\n@3 i=0 %7 word 65\n" + NO_TEXT),
    ("info\ngoto 2\ninfo\n", INFO + "stop: done\n@2 i=0 %7 word 60\n" + INFO),
    # a finished invocation stands nowhere, and that is looked at before the number of a frame
    ("goto 4\nbt\nframe 0\nframe 7\nlist\nregs\nwhere\ninfo\n", "stop: done, all finished\n" + OVER + 5 * FINISHED + OVER + INFO),
    ("", ""),
    ("\n\n   \n", ""),
    ("regs\n", ""),
    ("goto 2", "stop: done\n@2 i=0 %7 word 60\n"),
    ("goto 2\nregs", "stop: done\n@2 i=0 %7 word 60\n%10 = 40\n"),
    ("  goto   1  \n", "stop: done\n@1 i=0 %7 word 56\n"),
    ("goto 000000000000000000000000001\n", "stop: done\n@1 i=0 %7 word 56\n"),
    ("goto 4294967295\n", "stop: all finished\n@4 i=0 finished\n"),
    ("goto 4294967296\n", ARGUMENTS),
    ("goto 99999999999999999999999999\n", ARGUMENTS),
    ("goto\n", ARGUMENTS),
    ("goto 1 2\n", ARGUMENTS),
    ("goto -1\n", ARGUMENTS),
    ("goto 1\r\n", ARGUMENTS),
    ("regs 1\n", ARGUMENTS),
    ("fwd\nback\nfwd 0\nback 0\n", 4 * ARGUMENTS),
    ("stepi 0\nrstepi 0\nstepi x\nstep 1\nrstep 1\nnext 1\nrnext 1\nfinish 1\nrfinish 1\ncontinue 1\nrcontinue x\n", 11 * ARGUMENTS),
    # without lines no instruction begins one, and a step ends where its invocation does
    ("continue\ncontinue\nrcontinue\nrcontinue\n", 2 * ("stop: all finished\n" + OVER) + 2 * BEGUN),
    *[("%s\n%s\nr%s\nrstep\nr%s\n" % (3 * (word,) + (word,)), ENDED + FINISHED + (BEGUN if word == "step" else FINISHED) + 2 * BEGUN) for word in ("step", "next", "finish")],
    ("stepi\nstepi 2\nstepi\nstepi\n", "stop: done\n@1 i=0 %7 word 56\nstop: done\n@3 i=0 %7 word 65\n" + ENDED + FINISHED),
    ("stepi 4\nrstepi\nrstepi 3\nrstepi\n", ENDED + "stop: done\n@3 i=0 %7 word 65\nstop: done, start\n@0 i=0 %7 word 53\n" + BEGUN),
    ("stepi 5\nrstepi 4\nstepi 4294967295\nrstepi 5\n", "stop: all finished\n" + OVER + "stop: done, start\n@0 i=0 %7 word 53\nstop: all finished\n" + OVER + BEGUN),
    ("goto 4\nstepi\nstep\nnext\nfinish\nrnext\nrfinish\ncontinue\nrstep\n", ENDED + 6 * FINISHED + "stop: all finished\n" + OVER + BEGUN),
    *STOPS,
    ("quit now\nquit\ngoto 1\n", ARGUMENTS),
    (" " * 4096 + "\n", ""),
    (" " * 4097 + "\n", "refused: C11 line too long\n"),
    ("x" * 4096 + "\n", UNKNOWN),
    ("x" * 4097 + "\n", "refused: C11 line too long\n"),
]

# Setups of the shader in the other byte order, commands under them, and all that is written.
SCHEDULES = [
    (
        "spvdbg-setup 1\nrounds 2",
        "goto 3\n goto  0001 \ngoto 4294967295\n",
        "stop: schedule ended\n@2 i=0 %7 word 60\nstop: done\n@1 i=0 %7 word 56\nstop: schedule ended\n@2 i=0 %7 word 60\n",
    ),
    (
        "spvdbg-setup 1\nrounds 0",
        "goto 1\ngoto 0\nregs\n",
        "stop: start, schedule ended\n@0 i=0 %7 word 53\nstop: done, start, schedule ended\n@0 i=0 %7 word 53\n",
    ),
    ("spvdbg-setup 1\nrounds 0", "continue\nstep\nstepi\nrcontinue\nrstepi\nfinish\n", 6 * "stop: start, schedule ended\n@0 i=0 %7 word 53\n"),
    (
        "spvdbg-setup 1\nrounds 2",
        "continue\nstepi\nfinish\nrfinish\nstepi 2\nrstepi 2\nstep\n",
        3 * "stop: schedule ended\n@2 i=0 %7 word 60\n" + BEGUN + "stop: done, schedule ended\n@2 i=0 %7 word 60\nstop: done, start\n@0 i=0 %7 word 53\nstop: schedule ended\n@2 i=0 %7 word 60\n",
    ),
    (TEN_ROUNDS, "goto 0\n", "stop: done, start\n@0 i=0 %7 word 53\n"),
]

AT_FAULT = "stop: fault F4 i=0 word 60\n@2 i=0 %7 word 60\n"
# Modules of spirv-as, commands under twenty rounds, and all that is written.
ASSEMBLED = [
    (
        "adds.spv",
        "goto 0\ngoto 8\nregs\ngoto 4\nregs\ngoto 9\n",
        "stop: done, start\n@0 i=0 %1 word 57\nstop: done\n@8 i=0 %1 word 90\n%11 = <undefined>\n%12 = 4294967295\n%13 = 1\n%14 = 1\n"
        "%15 = 2\n%16 = <undefined>\nstop: done\n@4 i=0 %1 word 73\n%11 = <undefined>\n%12 = 4294967295\n%13 = 1\n"
        "stop: done, all finished\n@9 i=0 finished\n",
    ),
    ("returns.spv", "goto 0\nregs\ngoto 2\n", "stop: done, start\n@0 i=0 %1 word 44\nstop: all finished\n@1 i=0 finished\n"),
    # the addition's first operand is its own result
    (
        "fault.spv",
        "goto 9\ngoto 2\n",
        "stop: fault F4 i=0 word 60\n@2 i=0 %7 word 60\nstop: done, fault F4 i=0 word 60\n@2 i=0 %7 word 60\n",
    ),
    (
        "fault.spv",
        "continue\ncontinue\nstepi\nstep\nrcontinue\nstepi 2\nrstepi\nstepi 2\n",
        4 * AT_FAULT + BEGUN + "stop: done, fault F4 i=0 word 60\n@2 i=0 %7 word 60\nstop: done\n@1 i=0 %7 word 56\n" + AT_FAULT,
    ),
    # OpUnreachable in the place of the return
    ("unreachable.spv", "goto 9\n", "stop: fault F5 i=0 word 65\n@3 i=0 %7 word 65\n"),
]

ACCEPTED, FIRST_EVENT = "accepted: words 67, instructions 18\n", "stop: done\n@1 i=0 %7 word 56\n"

# What clap says of four subcommands without a text of their own, and of one of them.
HELP = """Usage: spvdbg <COMMAND>

Commands:
  debug  
  check  
  make   
  text   
  help   Print this message or the help of the given subcommand(s)

Options:
  -h, --help  Print help
"""
HELP_OF_CHECK = """Usage: spvdbg check <MODULE>

Arguments:
  <MODULE>  

Options:
  -h, --help  Print help
"""

# The words of the command line; a file that isn't there.
WORDS = [
    ("", USAGE, USAGE_LINE),
    ("spvdbg", USAGE, USAGE_LINE),
    ("spvdbg debug", USAGE, USAGE_LINE),
    ("spvdbg debug module", USAGE, USAGE_LINE),
    ("spvdbg debug module setup more", USAGE, USAGE_LINE),
    ("spvdbg Debug module setup", USAGE, USAGE_LINE),
    ("spvdbg debug nothing setup", FILE, ""),
    ("spvdbg debug module nothing", FILE, ""),
    ("spvdbg check", USAGE, USAGE_LINE),
    ("spvdbg check module setup", USAGE, USAGE_LINE),
    ("spvdbg Check module", USAGE, USAGE_LINE),
    ("check module", USAGE, USAGE_LINE),
    ("spvdbg check nothing", FILE, ""),
    ("spvdbg check module", DONE, ACCEPTED),
    # no abbreviation, no option but help, and nothing behind the names
    ("spvdbg chec module", USAGE, USAGE_LINE),
    ("spvdbg check --all module", USAGE, USAGE_LINE),
    ("spvdbg check -a module", USAGE, USAGE_LINE),
    ("spvdbg --version", USAGE, USAGE_LINE),
    ("spvdbg -V", USAGE, USAGE_LINE),
    ("spvdbg help nothing", USAGE, USAGE_LINE),
    ("spvdbg --help", DONE, HELP),
    ("spvdbg -h", DONE, HELP),
    ("spvdbg help", DONE, HELP),
    ("spvdbg check --help", DONE, HELP_OF_CHECK),
    ("spvdbg check module -h", DONE, HELP_OF_CHECK),
    ("spvdbg help check", DONE, HELP_OF_CHECK),
    # `--` ends the options, and is a name behind another one
    ("spvdbg --", USAGE, USAGE_LINE),
    ("spvdbg -- check module", USAGE, USAGE_LINE),
    ("spvdbg check --", USAGE, USAGE_LINE),
    ("spvdbg check -- module", DONE, ACCEPTED),
    ("spvdbg check module --", DONE, ACCEPTED),
    ("spvdbg debug -- module setup", DONE, FIRST_EVENT),
    ("spvdbg debug module -- setup", DONE, FIRST_EVENT),
    ("spvdbg check -- --", FILE, ""),
    ("spvdbg check -- --help", FILE, ""),
    ("spvdbg check -", FILE, ""),
    # numbers from 1 to 64, as Rust reads them
    ("spvdbg make", USAGE, USAGE_LINE),
    ("spvdbg make 0", USAGE, USAGE_LINE),
    ("spvdbg make 65", USAGE, USAGE_LINE),
    ("spvdbg make -1", USAGE, USAGE_LINE),
    ("spvdbg make -- -1", USAGE, USAGE_LINE),
    ("spvdbg make one", USAGE, USAGE_LINE),
    ("spvdbg make 1.0", USAGE, USAGE_LINE),
    ("spvdbg make 1 1", USAGE, USAGE_LINE),
    ("spvdbg make 4294967297", USAGE, USAGE_LINE),
]

# The listing of the shader, as the manual has it.
LISTING = """5: OpCapability 1
7: OpMemoryModel 0 1
10: OpEntryPoint 5 %7 "main"
15: OpExecutionMode %7 17 1 1 1
21: OpTypeVoid id=%1
23: OpTypeFunction id=%2 %1
26: OpTypeInt id=%3 32 0
30: OpTypePointer id=%4 7 %3
34: OpConstant type=%3 id=%5 40
38: OpConstant type=%3 id=%6 2
42: OpFunction type=%1 id=%7 0 %2
47: OpLabel id=%8
49: OpVariable type=%4 id=%9 7
53: OpStore %9 %5
56: OpLoad type=%3 id=%10 %9
60: OpIAdd type=%3 id=%11 %10 %6
65: OpReturn
66: OpFunctionEnd
"""

# Modules that debug, check and text refuse with one line.
REFUSED = [("magic.spv", "M2 at word 0"), ("opcode.spv", "M6 at word 60"), ("unended.spv", "M15 at word 42"), ("entry.spv", "M17 at word 0")]

def calls():
    """By file: what each call is, the module, the words, the setup, the commands, the status and what is written."""
    yield "commands.runs", [("commands", "first.spv", DEBUG, TEN_ROUNDS, commands, DONE, out) for commands, out in COMMANDS] + [
        ("schedules", "first-big.spv", DEBUG, setup, commands, DONE, out) for setup, commands, out in SCHEDULES
    ] + [("assembled", name, DEBUG, "spvdbg-setup 1\nrounds 20\n", commands, DONE, out) for name, commands, out in ASSEMBLED] + [
        (what, name, DEBUG, *row) for what, name, *row in places.calls()
    ] + list(manual_runs.calls())
    # what is made for a number, and the session over it
    lines = [debugged(n) for n in (1, 64)]
    yield "words.runs", [("words", "first.spv", words, TEN_ROUNDS, "goto 1\n", status, out) for words, status, out in WORDS] + [
        ("a listing", "first.spv", "spvdbg text module", "", "goto 1\n", DONE, LISTING)
    ] + [
        ("refused", name, words, TEN_ROUNDS, "goto 1\n", MODULE, "module refused: %s\n" % due)
        for name, due in REFUSED
        for words in (DEBUG, "spvdbg check module", "spvdbg text module")
    ] + [
        ("made", "first.spv", "spvdbg make %s" % n, "", "goto 1\n", DONE, lines[place][0]) for n, place in (("1", 0), ("+001", 0), ("64", 1))
    ] + [
        ("what is made for %d" % n, made_file(n), DEBUG, make.setup(n), make.commands(n), DONE, transcript) for n, (_, transcript) in zip((1, 64), lines)
    ]
    yield "setups.runs", [(what, name, DEBUG, *row) for what, name, *row in setups.calls()]
    yield "values.runs", [(what, name, DEBUG, *row) for what, name, *row in values.calls()]
    yield "invocations.runs", [("two", "two.spv", DEBUG, "spvdbg-setup 1\nrounds 20\n", "goto 1\n", DONE, setups.RETURNED)] + [
        ("several", "blocks.spv", DEBUG, setup, "goto 1\n", DONE, out) for setup, out in setups.OF_TWO
    ]
    by_file = [
        ("memory.runs", [memory_runs]), ("flow.runs", [flow]), ("group.runs", [group_runs, barrier_runs]), ("pointers.runs", [pointer_runs]),
        ("source.runs", [source_runs, stop_runs]), ("traces.runs", [traces, random_sessions]), ("variables.runs", [variable_runs, variables_told]), ("probes.runs", [probe_runs]),
        ("order.runs", [order_runs]),
    ]
    for file, runs in by_file:
        yield file, [(what, name, DEBUG, *row) for each in runs for what, name, *row in each.calls()]


# Lines with their canonical lines, or the code of their refusal, by hand from the manual's table of commands.
LINES = [
    ("", ""),
    ("   ", ""),
    (" goto   007", "goto 7"),
    ("goto 0", "goto 0"),
    ("goto 4294967295", "goto 4294967295"),
    ("goto 00004294967295", "goto 4294967295"),
    ("goto 4294967296", "C2"),
    ("goto 99999999999999999999999", "C2"),
    ("goto", "C2"),
    ("goto 1 2", "C2"),
    ("goto -1", "C2"),
    ("goto +1", "C2"),
    ("goto 1x", "C2"),
    ("goto\t7", "C1"),
    ("goto 7\t", "C2"),
    ("goto 7\r", "C2"),
    ("\tgoto 7", "C1"),
    ("Goto 7", "C1"),
    ("got 7", "C1"),
    ("gotoo 7", "C1"),
    ("7", "C1"),
    ("fwd", "C2"),
    ("fwd 1", "fwd 1"),
    ("fwd 5", "fwd 5"),
    ("fwd 0", "C2"),
    ("fwd 00", "C2"),
    ("fwd 1 1", "C2"),
    ("back", "C2"),
    ("back 1", "back 1"),
    ("back 010", "back 10"),
    ("back 4294967296", "C2"),
    ("stepi", "stepi 1"),
    ("stepi 3", "stepi 3"),
    ("stepi 0", "C2"),
    ("rstepi", "rstepi 1"),
    ("rstepi 99999999999", "C2"),
    ("step", "step"),
    ("step 1", "C2"),
    ("step\r", "C1"),
    ("next", "next"),
    ("finish", "finish"),
    ("rstep", "rstep"),
    ("rnext", "rnext"),
    ("rfinish", "rfinish"),
    ("  continue  ", "continue"),
    ("continue x", "C2"),
    ("rcontinue", "rcontinue"),
    ("where", "where"),
    ("where 0", "C2"),
    ("group", "group"),
    ("group 1", "C2"),
    ("focus 3", "focus 3"),
    ("focus", "C2"),
    ("focus x", "C2"),
    ("bt", "bt"),
    ("bt 1", "C2"),
    ("frame 02", "frame 2"),
    ("frame", "C2"),
    ("locals", "locals"),
    ("locals a", "C2"),
    ("globals", "globals"),
    ("regs", "regs"),
    ("list", "list"),
    ("list 3", "C2"),
    ("info", "info"),
    ("quit", "quit"),
    ("quit 0", "C2"),
    ("print a", "print a"),
    ("print a.b", "print a.b"),
    ("print   a.b[3]", "print a.b[3]"),
    ("print a[007].b[4]", "print a[7].b[4]"),
    ("print a[1][2]", "print a[1][2]"),
    ("print a.1", "print a.1"),
    ("print 12", "print 12"),
    ("print a%b", "print a%b"),
    ("print a:b", "print a:b"),
    ("print a\tb", "print a\tb"),
    ("print %5", "print %5"),
    ("print %007", "print %7"),
    ("print", "C2"),
    ("print a b", "C2"),
    ("print x[", "C2"),
    ("print x[]", "C2"),
    ("print x[1", "C2"),
    ("print x]", "C2"),
    ("print x]1[", "C2"),
    ("print [1]", "C2"),
    ("print .a", "C2"),
    ("print a.", "C2"),
    ("print a..b", "C2"),
    ("print a.%b", "C2"),
    ("print a.[1]", "C2"),
    ("print a[1]b", "C2"),
    ("print a[-1]", "C2"),
    ("print a[4294967296]", "C2"),
    ("print %", "C2"),
    ("print %x", "C2"),
    ("print %5[0]", "C2"),
    ("print %5.a", "C2"),
    ("watch a.b[3]", "watch a.b[3]"),
    ("watch %5", "watch %5"),
    ("watch", "C2"),
    ("unwatch 2", "unwatch 2"),
    ("unwatch", "C2"),
    ("break 5", "break 5"),
    ("break 05", "break 5"),
    ("break a.comp:05", "break a.comp:5"),
    ("break a:b:12", "break a:b:12"),
    ("break ::5", "break ::5"),
    ("break 5:6", "break 5:6"),
    ("break a:0", "break a:0"),
    ("break :5", "C2"),
    ("break a:", "C2"),
    ("break a", "C2"),
    ("break 5:", "C2"),
    ("break a:5x", "C2"),
    ("break a:4294967296", "C2"),
    ("break a b:5", "C2"),
    ("break", "C2"),
    ("delete 0", "delete 0"),
    ("delete", "C2"),
    ("tally", "tally"),
    ("tally 1", "C2"),
    ("drop 01", "drop 1"),
    ("drop", "C2"),
    ("halt 01 002", "halt 1 2"),
    ("halt  4294967295 4294967295", "halt 4294967295 4294967295"),
    ("halt 0 1", "halt 0 1"),
    ("halt 1 0", "C2"),
    ("halt 1", "C2"),
    ("halt 1 2 3", "C2"),
    ("halt 1 x", "C2"),
    ("halt 1 4294967296", "C2"),
    ("halt", "C2"),
    ("order 1 2", "order 1 2"),
    (" order  0  004294967295", "order 0 4294967295"),
    ("order 3 3", "C2"),
    ("order 4 3", "C2"),
    ("order 1", "C2"),
    ("order", "C2"),
    ("order 1 2 3", "C2"),
    ("order 1 x", "C2"),
    ("order 0 4294967296", "C2"),
    ("Order 1 2", "C1"),
    ("help", "C1"),
]


def write(name, data):
    with open(os.path.join(DATA, name), "wb") as file:
        file.write(data if isinstance(data, bytes) else data.encode())


def with_word(data, word, number):
    return data[: 4 * word] + struct.pack("<I", number) + data[4 * word + 4 :]


def modules():
    """The modules that are other modules with one word changed."""
    with open(os.path.join(TOP, "crates", "test_modules", "data", "first.spv"), "rb") as file:
        first = file.read()
    yield "first.spv", first
    yield "first-big.spv", b"".join(first[n : n + 4][::-1] for n in range(0, len(first), 4))
    yield "fault.spv", with_word(first, 63, 11)
    yield "magic.spv", with_word(first, 0, 0x07230204)
    yield "opcode.spv", with_word(first, 60, 0x00050081)
    yield "unended.spv", first[:264]
    yield "entry.spv", with_word(first, 18, 0)
    yield "unreachable.spv", with_word(first, 65, 0x000100FF)
    yield from setups.modules()
    yield from values.modules()
    yield from places.modules()
    yield from source_runs.modules()
    yield from variable_runs.modules()
    yield from stop_runs.modules_in_gate()
    yield from pointer_runs.modules()
    yield from barrier_runs.modules()
    for n in (1, 64):
        yield made_file(n), make.module(n)


def made_file(n):
    return "made-%d.spv" % n


def debugged(n):
    """What `make` writes for a number, and the transcript that it speaks of."""
    schedule = [number for _ in range(make.rounds(n)) for number in range(make.INVOCATIONS)]
    session, commands = Debugger(Shaped(make.module(n)), {0: make.INVOCATIONS * [0]}, schedule), make.commands(n)
    transcript = "".join(line + "\n" for command in commands.splitlines() if command != "quit" for line in session.answer(command))
    assert (len(transcript), sum(transcript.encode())) == make.TRANSCRIPTS[n]
    return make.told(n), transcript


def made(n):
    """What is made for a number: sizes, texts, and the module's listing."""
    module, setup, commands = make.module(n), make.setup(n), make.commands(n)
    listing, _ = laid_out([Inst(name, *operands) for name, operands in make.instructions(n)])
    sizes = "make %d: module %d, setup %d, commands %d\n" % (n, len(module), len(setup), len(commands))
    return sizes + setup + commands + listing + "status 0\n"


def undone(n, back=100_000):
    """A run by what is made for a number to its end, and so many steps back: its first and its last reply."""
    end = make.INVOCATIONS * make.rounds(n)
    position = end - back
    # the entries before the position that are of invocation 0
    before = (position + make.INVOCATIONS - 1) // make.INVOCATIONS
    first, last = "@%d i=0 finished" % end, "@%d i=0 %s" % (position, Places(make.module(n)).place(make.places(n)[before]))
    lines = ["undone %d" % n, "lines %d" % (2 * (1 + back)), "stop: done, all finished", first, "stop: done", last, "status 0"]
    return "".join(line + "\n" for line in lines)


# The shader of 64 with a probe of the stores of invocation 5 to its Workgroup variable: it makes one, by the event 453.
OWN = """own
stop: done, all finished
@1408 i=0 finished
probe 1: 1
halt 1 every 1
stop: halt 1
@454 i=0 main n.comp:8
probe 1: 1
stop: done
@453 i=0 main n.comp:8
probe 1: 0
status 0
"""


def followed():
    """The same sessions over a group that keeps ten marks and entries."""
    out = "followed\n"
    for what, _, _, _, _, written in probe_runs.calls():
        out += "%s\n%s" % (what, written)
    return out


def limited(limit=10, events=4):
    """What a group keeps whose journal has room for so many marks and entries, where events of the first module are made, and where as
    many are taken back. Each of them is a mark and two entries: what is stored or set and the pc, or the frame and the status at the
    return."""
    kept = max(events - limit // 3, 0)
    return "limit %d\n@%d kept %d\n@0 kept 0\n" % (limit, events, kept)


def main():
    out = arithmetic.written()
    # each byte as a line: only a line feed and a space are nothing
    write("bytes.commands", b"".join(bytes([byte]) + b"\n" for byte in range(256)))
    out += "bytes\n" + 254 * UNKNOWN + "status 0\n"
    for name, data in modules():
        write(name, data)
    for file, rows in calls():
        text, out = "", out + file + "\n"
        for what, module, words, setup, commands, status, written in rows:
            text += "== %s: %s: %s\n%s-- commands\n%s" % (what, module, words, setup, commands)
            out += "%s: %s: %s\n%sstatus %d\n" % (what, module, words, written, status)
        write(file, text)
    out += made(1) + made(64) + undone(64) + limited() + followed() + OWN
    write("lines", "".join(line + "\n" for line, _ in LINES))
    out += "lines\n" + "".join(due + "\n" for _, due in LINES)
    with open(os.path.join(FOLDER, "stdout"), "w") as file:
        file.write(out)


if __name__ == "__main__":
    main()
