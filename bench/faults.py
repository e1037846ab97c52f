#!/usr/bin/env python3
"""Calls of the program whose files, input and output fail, or give and take little at a call.

    bench/faults.py         writes data/ and the stored output of crates/test_faults

A row is a line `== WHAT: WORDS`, lines that say what fails and how much is given and taken at a call, the setup behind
`-- setup`, and the commands behind `-- commands`; what stands behind `-- on and on` is repeated, up to one more byte than the
input may have. What is written, how the call ends and what it asks for is worked out by hand: the lengths of the pieces are
those of the replies, and of what the output left of one.
"""
import os
import make
from listings import TOP

FOLDER = os.path.join(TOP, "crates", "test_faults")
DONE, MODULE, SETUP, FILE, READ, WRITE, LONG, FILE_LONG = 0, 3, 4, 5, 6, 7, 9, 10
DEBUG, CHECK = "spvdbg debug module.spv module.setup", "spvdbg check module.spv"
TEN_ROUNDS, REFUSED = "spvdbg-setup 1\nrounds 10\n", "rounds 1\n"
# One more byte than the input may have, and how many reads of 4,096 bytes take so many.
TOO_LONG, READS = 16_777_217, 4097

# The replies to the commands, of 29, 18 and 35 bytes.
COMMANDS = "goto 3\nregs\ngoto 9\n"
FIRST = "stop: done\n@3 i=0 %7 word 65\n"
ALL = FIRST + "%10 = 40\n%11 = 42\nstop: all finished\n@4 i=0 finished\n"
ACCEPTED = "accepted: words 67, instructions 18\n"
USAGE_LINE = "usage: spvdbg debug MODULE SETUP | check MODULE | make N | text MODULE\n"
HELP_OF_CHECK = "Usage: spvdbg check <MODULE>\n\nArguments:\n  <MODULE>  \n\nOptions:\n  -h, --help  Print help\n"
MADE = make.told(1)


def down(*lengths):
    """The pieces that are offered of replies, one byte of each being taken."""
    return [left for length in lengths for left in range(length, 0, -1)]


# What, the commands, lines on the outside, the status, what is written, how many reads were made, the bytes that these gave, and
# the pieces that were offered.
STREAMS = [
    ("all is well", COMMANDS, "", DONE, ALL, 2, 19, [29, 18, 35]),
    ("byte by byte", COMMANDS, "bytes of a read: 1\nbytes of a write: 1\n", DONE, ALL, 20, 19, down(29, 18, 35)),
    ("the first read fails", COMMANDS, "reads that fail: 0\n", READ, "", 1, 0, []),
    ("a read fails behind a line", COMMANDS, "bytes of a read: 9\nreads that fail: 1\n", READ, FIRST, 2, 9, [29]),
    ("a read fails in a line", COMMANDS, "bytes of a read: 6\nreads that fail: 1\n", READ, "", 2, 6, []),
    ("the first write fails", COMMANDS, "writes that fail: 0\n", WRITE, "", 1, 19, [29]),
    ("the second write fails", COMMANDS, "writes that fail: 1\n", WRITE, FIRST, 1, 19, [29, 18]),
    ("a write fails in a reply", COMMANDS, "bytes of a write: 1\nwrites that fail: 5\n", WRITE, "stop:", 1, 19, down(29)[:6]),
    ("nothing is read behind quit", "quit\n", "reads that fail: 1\n", DONE, "", 1, 5, []),
    ("quit without LF waits for more", "quit", "reads that fail: 1\n", READ, "", 2, 4, []),
    ("an empty reply isn't offered", "\n\nquit\ngoto 3\n", "reads that fail: 1\nwrites that fail: 0\n", DONE, "", 1, 14, []),
]
REPLIES = "\nregs\ngoto 3\n  \nregs\ngoto 9\nquit\n"
OFFERS = [
    ("a reply is one piece", REPLIES, "", DONE, ALL, 1, 33, [29, 18, 35]),
    ("what is left of a reply is offered again", REPLIES, "bytes of a write: 10\n", DONE, ALL, 1, 33, [29, 19, 9, 18, 8, 35, 25, 15, 5]),
]
ANY = f"bytes of a read: {TOO_LONG}\n"
ENDLESS = [
    ("lines of spaces without end", "-- on and on\n" + 255 * " " + "\n\n", ANY, LONG, "", READS, TOO_LONG, []),
    ("line feeds without end", "-- on and on\n\n\n", ANY, LONG, "", READS, TOO_LONG, []),
    ("a line without end", "goto 3\n-- on and on\nx\n", ANY, LONG, FIRST, READS, TOO_LONG, [29]),
    ("lines without end behind quit", "quit\n-- on and on\n\n\n", ANY, DONE, "", 1, 4096, []),
]

# What, the words, the setup, lines on the outside, the status, what is written, the file that failed, and the pieces.
FILES = [
    ("the module isn't read", DEBUG, TEN_ROUNDS, "readings that fail: 0\n", FILE, "", "module.spv", []),
    ("the setup isn't read", DEBUG, TEN_ROUNDS, "readings that fail: 1\n", FILE, "", "module.setup", []),
    # zeros fill the files: the next instruction of the module has no words, and the third line of the setup is one word
    ("a module of as many bytes as it may have", DEBUG, TEN_ROUNDS, "bytes of the module: 4194304\n", MODULE, "module refused: M5 at word 67\n", "", [30]),
    ("a module of one byte more", DEBUG, TEN_ROUNDS, "bytes of the module: 4194305\n", FILE_LONG, "", "", []),
    ("a module to be checked of one byte more", CHECK, TEN_ROUNDS, "bytes of the module: 4194305\n", FILE_LONG, "", "", []),
    ("a setup of as many bytes as it may have", DEBUG, TEN_ROUNDS, "bytes of the setup: 67108864\n", SETUP, "setup refused: S2 at line 3\n", "", [28]),
    ("a setup of one byte more", DEBUG, TEN_ROUNDS, "bytes of the setup: 67108865\n", FILE_LONG, "", "", []),
    ("the setup is refused", DEBUG, REFUSED, "", SETUP, "setup refused: S1 at line 1\n", "", [28]),
    ("the refusal isn't written", DEBUG, REFUSED, "writes that fail: 0\n", WRITE, "", "", [28]),
    ("the module is checked", CHECK, TEN_ROUNDS, "", DONE, ACCEPTED, "", [36]),
    ("one file is read and one piece written", CHECK, TEN_ROUNDS, "readings that fail: 1\nwrites that fail: 1\n", DONE, ACCEPTED, "", [36]),
    ("the module to be checked isn't read", CHECK, TEN_ROUNDS, "readings that fail: 0\n", FILE, "", "module.spv", []),
    ("the line of a check isn't written", CHECK, TEN_ROUNDS, "writes that fail: 0\n", WRITE, "", "", [36]),
    ("the usage line isn't written", "spvdbg check", TEN_ROUNDS, "writes that fail: 0\n", WRITE, "", "", [len(USAGE_LINE)]),
    ("the text of help isn't written", "spvdbg check --help", TEN_ROUNDS, "writes that fail: 0\n", WRITE, "", "", [len(HELP_OF_CHECK)]),
    ("a write fails in the text of help", "spvdbg help check", TEN_ROUNDS, "bytes of a write: 1\nwrites that fail: 6\n", WRITE, "Usage:", "", down(len(HELP_OF_CHECK))[:7]),
    ("nothing is read for made inputs", "spvdbg make 1", TEN_ROUNDS, "readings that fail: 0\nreads that fail: 0\n", DONE, MADE, "", [len(MADE)]),
    ("a write fails in the line of made inputs", "spvdbg make 1", TEN_ROUNDS, "bytes of a write: 1\nwrites that fail: 7\n", WRITE, "make 1:", "", down(len(MADE))[:8]),
    ("a write fails in the line of a check", CHECK, TEN_ROUNDS, "bytes of a write: 1\nwrites that fail: 8\n", WRITE, "accepted", "", down(36)[:9]),
]

# Lines on files of the system, which are there, too long, not there, and a folder.
EDGE = """files
five 5: abcde, taken 5, faults 0 []
five 4: the file is too long, taken 5, faults 0 []
absent 5: the file cannot be read, taken 0, faults 1 [absent]
/ 5: the file cannot be read, taken 0, faults 2 [/]
reads
1 of 7 0, faults 0
failed, faults 1
1 of 7 0, faults 1
failed, faults 2
writes
0 of [], faults 0
failed at [01], faults 1
2 of [12345], faults 1
2 of [345], faults 1
failed at [5], faults 2
1234
"""


def ending(status, file, reads, taken, pieces):
    longest = 4096 if reads else 0
    return f"-- status {status}, file [{file}], reads {reads}, longest {longest}, taken {taken}, pieces{''.join(f' {it}' for it in pieces)}\n"


def main():
    calls = due = ""
    for what, commands, lines, status, written, reads, taken, pieces in STREAMS + OFFERS + ENDLESS:
        calls += f"== {what}: {DEBUG}\n{lines}-- setup\n{TEN_ROUNDS}-- commands\n{commands}"
        due += f"{what}: {DEBUG}\n{written}" + ending(status, "", reads, taken, pieces)
    for what, words, setup, lines, status, written, file, pieces in FILES:
        calls += f"== {what}: {words}\n{lines}-- setup\n{setup}-- commands\n{COMMANDS}"
        due += f"{what}: {words}\n{written}" + ending(status, file, 0, 0, pieces)
    with open(os.path.join(FOLDER, "data", "calls"), "w") as out:
        out.write(calls)
    with open(os.path.join(FOLDER, "data", "files"), "w") as out:
        out.write("".join(line.split(":")[0] + "\n" for line in EDGE.split("\n") if line.startswith(("five", "absent", "/"))))
    with open(os.path.join(FOLDER, "data", "five"), "w") as out:
        out.write("abcde")
    with open(os.path.join(FOLDER, "stdout"), "w") as out:
        out.write(due + EDGE)


if __name__ == "__main__":
    main()
