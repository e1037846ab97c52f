#!/usr/bin/env python3
"""Refuses memory at each allocation of some sessions in turn, and looks how each ends, outside the gate.

    bench/refused_memory.py PROGRAM [WORD]     the sessions whose name has the word, else all
    bench/refused_memory.py --try N            one by `rt try --fail-alloc N`, in the kit's address checks: for a doubtful one

PROGRAM is any build that takes its memory from the C library. A library of a few lines, which `cc` makes in a folder of its own and which
stands before the C library, counts the calls of malloc and realloc and refuses one of them, or that one and all behind it. Each has to
end with status 8, to write the front of what the whole session writes and nothing else, and to say so on standard error. Two kinds of
places differ: where std asks for room by a hint and is refused that alone, it goes on without, and the session is whole; and behind the end
of a session its words are read once more, for the names that a complaint may have, and a refusal there changes nothing. How many places
were tried is said for each session, and into how many different fronts they cut what is written.
"""
import os
import subprocess
import sys
import tempfile
import source_runs
from listings import TOP

MOST_OF_ONE = 60
REFUSING = """
#include <fcntl.h>
#include <stddef.h>
#include <stdlib.h>
#include <unistd.h>
void *__libc_malloc(size_t);
void *__libc_realloc(void *, size_t);
static unsigned long calls, at, stays;
__attribute__((constructor)) static void begin(void) {
  const char *word = getenv("REFUSED_AT");
  at = word ? strtoul(word, 0, 10) : 0;
  stays = getenv("REFUSED_ON") != 0;
}
__attribute__((destructor)) static void end(void) {
  const char *name = getenv("CALLS_COUNTED");
  int file = name ? open(name, O_WRONLY | O_CREAT | O_TRUNC, 0600) : -1;
  if (file >= 0) { write(file, &calls, sizeof calls); close(file); }
}
static int refused(void) { calls++; return at && (calls == at || (stays && calls > at)); }
void *malloc(size_t size) { return refused() ? 0 : __libc_malloc(size); }
void *realloc(void *old, size_t size) { return refused() ? 0 : __libc_realloc(old, size); }
"""
RUNS = os.path.join(TOP, "crates", "test_runs", "data")
THIRTY = "spvdbg-setup 1\nrounds 30\n"
OF_64 = source_runs.BUFFER + "rounds 30\n"
# What each session is, its module, setup and commands: events one by one forth and back, phis, barriers, and each kind of command.
SESSIONS = [
    ("additions", "first.spv", "spvdbg-setup 1\nrounds 10\n", "goto 3\nregs\ngoto 9\nfwd 1\nback 1\nback 1\nback 1\nback 1\nquit\n"),
    ("events one by one, and back", "first.spv", "spvdbg-setup 1\nrounds 10\n", 5 * "fwd 1\n" + 5 * "back 1\n"),
    ("phis", "variable-phi.spv", THIRTY, "goto 5\nregs\nprint x\ngoto 9\nregs\ngoto 13\nregs\nback 4\nregs\nback 4\nregs\nback 4\nregs\ncontinue\n"),
    ("a barrier of 64", "source-exchange.spv", OF_64, "goto 576\ngroup\nback 1\ngroup\n"),
    (
        "a shader with debug records", "source-exchange.spv", OF_64,
        "break 7\ncontinue\nprint i\ndelete 1\nnext\nstep\nfocus 63\nprint i\nrstep\nfocus 64\nframe 9\nprint zz\nprint b.v[64]\ndelete 1\nbreak 99\ngoto 1408\n"
        "print b.v[0]\nprint b.v[63]\nstep\nrcontinue\n",
    ),
    (
        "breaks, watches and probes", "source-exchange.spv", OF_64,
        "watch b.v[0]\nbreak 10\ncontinue\nfwd 1\nrcontinue\nbt\nlist\nlocals\nglobals\nregs\ninfo\ntally\nhalt 3 32\ncontinue\nunwatch 1\nwatch i\nrstepi 3\nfinish\nrfinish\norder 500 700\norder 576 1408\norder 0 2000\n",
    ),
    ("inlined calls", "source-inlined.spv", "spvdbg-setup 1\nrounds 9\n", "next\nrstep\nrstep\nbt\nfinish\nframe 0\nlist\n"),
    ("calls", "source-called.spv", THIRTY, "goto 5\nbt\nframe 1\nregs\nback 3\nfinish\nregs\n"),
    ("a refused setup", "first.spv", "rounds 1\n", ""),
    ("a refused module", "unended.spv", THIRTY, ""),
]


class Refusing:
    """The program over the files of a session, with memory that is refused."""

    def __init__(self, program, folder, module, setup, commands):
        self.program, self.at = program, lambda name: os.path.join(folder, name)
        os.path.lexists(self.at("module")) and os.remove(self.at("module"))
        os.symlink(os.path.join(RUNS, module), self.at("module"))
        for name, text in (("setup", setup), ("commands", commands)):
            with open(self.at(name), "w") as file:
                file.write(text)

    def call(self, **environment):
        """The status, what is written and what is complained of."""
        words = [self.program, "debug", self.at("module"), self.at("setup")]
        with open(self.at("commands")) as file:
            done = subprocess.run(words, stdin=file, stdout=subprocess.PIPE, stderr=subprocess.PIPE, env={"LD_PRELOAD": self.at("refusing.so"), **environment})
        return done.returncode, done.stdout, done.stderr

    def count(self):
        """How often the whole session asks for memory, with its status and what it writes."""
        status, out, _ = self.call(CALLS_COUNTED=self.at("count"))
        with open(self.at("count"), "rb") as file:
            return int.from_bytes(file.read(), sys.byteorder), status, out


def tried(session):
    """How many places were refused, at how many of them the program did without, how many stand behind the end, how many fronts were
    written, and what is wrong."""
    count, status, whole = session.count()
    fronts, wrong, without, behind = set(), [], 0, 0
    for at in range(1, count + 1):
        alone, on = session.call(REFUSED_AT=str(at)), session.call(REFUSED_AT=str(at), REFUSED_ON="1")
        if alone[:2] == on[:2] == (status, whole):
            behind += 1
            continue
        without += alone[:2] == (status, whole)
        for ended, out, said in [on] if alone[:2] == (status, whole) else [alone, on]:
            fronts.add(len(out))
            if behind or ended != 8 or not whole.startswith(out) or said != b"spvdbg: out of memory\n":
                wrong.append((at, ended, out[-100:], said[-100:]))
    if session.call(REFUSED_AT=str(count + 1))[:2] != (status, whole):
        wrong.append("another answer without a refusal")
    return count - behind, without, behind, len(fronts), wrong


def by_rt(at):
    """One refusal by the kit, of the first session."""
    _, module, setup, commands = SESSIONS[0]
    with tempfile.NamedTemporaryFile("w") as file:
        file.write(setup)
        file.flush()
        words = ["rt", "try", "--fail-alloc", at, "--seconds", "600", "--data", "module=" + os.path.join(RUNS, module), "--data", "setup=" + file.name, "--", "debug", "module", "setup"]
        done = subprocess.run(words, cwd=os.path.join(TOP, "crates", "spvdbg"), input=commands.encode(), stdout=subprocess.PIPE)
    print("%r, status %d" % (done.stdout, done.returncode))


def main():
    if sys.argv[1] == "--try":
        return by_rt(sys.argv[2])
    program, word, bad = os.path.abspath(sys.argv[1]), (sys.argv[2:] or [""])[0], 0
    with tempfile.TemporaryDirectory() as folder:
        with open(os.path.join(folder, "refusing.c"), "w") as file:
            file.write(REFUSING)
        subprocess.run(["cc", "-O1", "-w", "-shared", "-fPIC", "-o", os.path.join(folder, "refusing.so"), file.name], check=True)
        for what, *session in SESSIONS:
            if word in what:
                *counts, wrong = tried(Refusing(program, folder, *session))
                print("%s: %d places refused, %d of them done without, %d behind the end, %d fronts, %d wrong" % (what, *counts, len(wrong)), flush=True)
                for it in wrong[:MOST_OF_ONE]:
                    print("    %r" % (it,))
                bad += len(wrong)
    sys.exit(bad > 0)


if __name__ == "__main__":
    main()
