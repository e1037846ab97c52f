#!/usr/bin/env python3
"""Tries a program with mutants of the repository's shaders, and holds it to what is true of every input, outside the gate.

    bench/mutations.py PROGRAM [--seed N] [--count N] [--jobs N] [--kind KIND] [--only KIND:NUMBER] [--keep FOLDER]

So many mutants (100,000) of each kind are tried: `modules`, `setups`, `lines` of commands and `words` of the command line, as mutants.py
draws them. One is always the same for its seed and number. Of every call has to be true:

- it ends by itself, within SECONDS of the processor, with a status of the table in docs/MANUAL.md that these inputs can have;
- what is written is the one line of the refusal, or whole replies: each has the form of its command, or is a refusal that it can have,
  and C1, C2 and C11 stand exactly where the grammar of lines is broken;
- called again it writes the same bytes;
- at the position where a session ends all that commands show is the same after `goto 0` and forward again;
- `check` and `text` say the same of a module as `debug` does.

One process makes one session; those of `lines` have LINES each. With --jobs several processes try at a time. A mutant that fails is told
with its kind and number, which --only tries again, and --keep writes its files into a folder.
"""
import argparse
import multiprocessing
import os
import random
import re
import resource
import shutil
import signal
import sys
import tempfile
from collections import Counter
import grammar
import mutants

KINDS, LINES, SECONDS, MEMORY = ("modules", "setups", "lines", "words"), 50, 60, 2 << 30
USAGE = b"usage: spvdbg debug MODULE SETUP | check MODULE | make N | text MODULE\n"
# Two commands that are always refused, and do nothing; no other command replies both lines.
APART, IS_APART = b"focus 4294967295\ndrop 4294967295\n", b"refused: C3 no such invocation\nrefused: C7 no such number\n"
SHOWING = [b"where", b"group", b"bt", b"regs", b"locals", b"globals", b"list", b"tally", b"info"]
SHORT, AT_ONCE = 12, 100


class Wrong(Exception):
    """What isn't true of a call."""


def need(holds, what, *more):
    if not holds:
        raise Wrong(" ".join([what] + ["%r" % (it,) for it in more])[:600])


def seconds_of(pid):
    """The seconds of the processor that a process has taken. A clock would stop a program that waits for the processor."""
    with open("/proc/%d/stat" % pid) as file:
        fields = file.read().rsplit(")", 1)[1].split()
    return (int(fields[11]) + int(fields[12])) / os.sysconf("SC_CLK_TCK")


class Program:
    """The program in a folder of its own, with the files of a call."""

    def __init__(self, path, folder):
        self.path, self.folder = path, folder
        os.chdir(folder)

    def put(self, name, data):
        with open(name, "wb") as file:
            file.write(data)

    def call(self, words, commands=b""):
        """The status and what is written."""
        self.put("commands", commands)
        opened = [(os.POSIX_SPAWN_OPEN, 0, "commands", os.O_RDONLY, 0), (os.POSIX_SPAWN_OPEN, 1, "replies", os.O_WRONLY | os.O_CREAT | os.O_TRUNC, 0o600)]
        pid = os.posix_spawn(self.path, [b"spvdbg"] + words, {}, file_actions=opened + [(os.POSIX_SPAWN_OPEN, 2, "/dev/null", os.O_WRONLY, 0)])

        def look(*_):
            if seconds_of(pid) < SECONDS:
                signal.alarm(SECONDS)
            else:
                os.kill(pid, signal.SIGKILL)

        signal.signal(signal.SIGALRM, look)
        signal.alarm(SECONDS)
        _, status = os.waitpid(pid, 0)
        signal.alarm(0)
        with open("replies", "rb") as file:
            return os.waitstatus_to_exitcode(status), file.read()

    def debug(self, commands):
        return self.call([b"debug", b"module", b"setup"], commands)


# ---- what is true

def look_at_refusal(status, out, data, setup):
    """Of a call that opened nothing: one line, with a code and a place that there are."""
    if status == 3:
        found = re.fullmatch(rb"module refused: M(\d+) at word (\d+)\n", out)
        need(found, "the refusal of a module is", out)
        code, word = map(int, found.groups())
        need(1 <= code <= 18 and (word < len(data) // 4 or word == 0), "no such place", out)
        need(code not in (1, 2, 17) or word == 0, "the place is", out)
    else:
        need(status == 4, "the status is", status, out[-200:])
        found = re.fullmatch(rb"setup refused: S(\d+) at line (\d+)\n", out)
        need(found, "the refusal of a setup is", out)
        code, line = map(int, found.groups())
        need(1 <= code <= 10 and line <= setup.count(b"\n") + 1, "no such place", out)
        need((line == 0) == (code in (6, 9, 10)), "the place is", out)


def look_at_replies(lines, out):
    """Of the lines of a session and `where` behind them: each reply has its form. Where it ends, and the focus."""
    parts = out.split(IS_APART)
    need(len(parts) == len(lines) + 1, "there are so many replies for so many lines", len(parts) - 1, len(lines))
    for line, reply in zip(lines + [b"where"], parts):
        what = grammar.wrong_of(line, reply)
        need(not what, "%s:" % what, line[:200], reply[-300:])
    return re.fullmatch(rb"@(\d+) i=(\d+) .*\n", parts[-1], re.DOTALL).groups()


def look_at_session(program, lines, data, setup, more=()):
    """A session, the same once more, and behind it what is shown there before and after `goto 0`. The status."""
    commands = b"".join(line + b"\n" + APART for line in lines) + b"where\n"
    status, out = program.debug(commands)
    if status:
        look_at_refusal(status, out, data, setup)
        need(program.debug(commands) == (status, out), "another answer when asked again, to", out)
        return status, out
    position, focus = look_at_replies(lines, out)
    shown = b"goto %s\n" % position + b"".join(it + b"\n" for it in [*SHOWING, *more]) + APART
    status, again = program.debug(commands + APART + shown + b"goto 0\n" + APART + shown)
    need(status == 0, "the status is, behind `goto 0`", status)
    need(again.startswith(out + IS_APART), "other replies when asked again, behind", os.path.commonprefix([out, again])[-200:])
    parts = again[len(out + IS_APART) :].split(IS_APART)
    need(len(parts) == 4 and not parts[3], "there are so many replies behind `goto 0`", len(parts))
    before, start, after, _ = parts
    need(re.match(rb"stop: done[^\n]*\n@%s i=%s " % (position, focus), before), "the position is shown as", before[:200])
    need(re.match(rb"stop: done, start[^\n]*\n@0 i=%s " % focus, start), "the start is shown as", start)
    need(before == after, "`goto 0` and forward again shows otherwise, behind", os.path.commonprefix([before, after])[-200:], after[-200:])
    return 0, out


def look_at_module(program, data, setup, status, out, name):
    """`check` or `text` of the module beside what `debug` said."""
    told, said = program.call([name, b"module"])
    need(told in (0, 3), "%s ends with" % name.decode(), told)
    if told == 3:
        look_at_refusal(told, said, data, b"")
    if not re.search(rb"^ *(entry|spec) ", setup, re.MULTILINE) and status != 4:
        need((told, told and said) == (status, status and out), "%s says otherwise than debug:" % name.decode(), said[:100], out[:100])
    if told == 0:
        count = len(mutants.Words(data).insts)
        due = b"accepted: words %d, instructions %d\n" % (len(data) // 4, count)
        need(said == due if name == b"check" else said.startswith(b"5: Op") and said.count(b"\n") == count, "%s says" % name.decode(), said[:100], due)


# ---- the mutants

class Tried:
    """The mutants of a seed, tried one by one."""

    def __init__(self, path, seed):
        self.seed, self.calls = seed, mutants.calls()
        self.modules, self.by_module = {}, {}
        for call in self.calls:
            self.by_module.setdefault(call.module, []).append(call)
            self.modules.setdefault(call.module, mutants.Words(call.data))
        self.texts = {name: [text for text in it.texts() if text and not set(text) & set(b" .[]%\n")] for name, it in self.modules.items()}
        self.lines = [line for call in self.calls for line in call.commands.split(b"\n") if line != b"quit"]
        self.program = Program(path, tempfile.mkdtemp(prefix="mutations-", dir="/dev/shm" if os.path.isdir("/dev/shm") else None))
        self.put(self.calls[0].data, self.calls[0].setup)
        if grammar.REFUSALS.get(self.program.debug(b"order 1 0\n")[1]) == 1:
            grammar.NOT_BUILT.add(b"order")

    def drawn(self, chance):
        return chance.choice(self.by_module[chance.choice(list(self.by_module))])

    def some_lines(self, chance, call, count):
        """Lines as they are, in the module's own names."""
        own, texts = [line for line in call.commands.split(b"\n") if line not in (b"", b"quit")] or [b"where"], self.texts[call.module]
        return [chance.choice(own) if chance.random() < 0.3 else mutants.drawn_line(chance, texts) for _ in range(count)]

    def put(self, data, setup):
        self.program.put("module", data)
        self.program.put("setup", setup)

    def modules_one(self, chance, number):
        call = self.drawn(chance)
        data, lines = mutants.mutant_module(chance, self.modules[call.module]), self.some_lines(chance, call, SHORT)
        self.put(data, call.setup)
        status, out = look_at_session(self.program, lines, data, call.setup, [b"print %%%d" % chance.randrange(200) for _ in range(4)])
        look_at_module(self.program, data, call.setup, status, out, b"check" if number % 2 else b"text")
        return outcome(status, out)

    def setups_one(self, chance, _):
        call = self.drawn(chance)
        setup = mutants.mutant_setup(chance, call.setup)
        self.put(call.data, setup)
        return outcome(*look_at_session(self.program, self.some_lines(chance, call, SHORT), call.data, setup))

    def lines_one(self, chance, _):
        call = self.drawn(chance)
        self.put(call.data, call.setup)
        own = self.some_lines(chance, call, LINES)
        lines = [mutants.mutant_line(chance, chance.choice(self.lines) if chance.random() < 0.1 else line) if chance.random() < 0.7 else line for line in own]
        lines = [line if grammar.due(line) != "quit" else line + b" x" for line in lines]
        return outcome(*look_at_session(self.program, lines, call.data, call.setup, [line for line in lines if line.startswith(b"print ")][:9]))

    def words_one(self, chance, _):
        call, words = self.calls[0], mutants.mutant_words(chance)
        self.put(call.data, call.setup)
        status, out = self.program.call(words, call.commands)
        need(status in (0, 2, 3, 4, 5), "the status is", status, words)
        need(status != 2 or out == USAGE, "the usage is", out, words)
        need(status != 5 or not out, "of a file that isn't there is said", out, words)
        need(status != 0 or out.endswith(b"\n"), "what is written doesn't end:", out[-100:], words)
        need(self.program.call(words, call.commands) == (status, out), "another answer when asked again, to", words)
        return outcome(status, b"" if status in (0, 2) else out)

    def one(self, kind, number):
        """The outcome of a mutant, and what is wrong with it or none."""
        try:
            return getattr(self, kind + "_one")(random.Random("%d %s %d" % (self.seed, kind, number)), number), None
        except Wrong as wrong:
            return "wrong", str(wrong)


def outcome(status, out):
    """What a call came to, for the counts: its status, with the code of a refusal or the fault of a run."""
    found = re.match(rb"(?:module|setup) refused: (\w+)", out) if status else re.search(rb"stop: [^\n]*?(fault F\d|stuck|all finished|schedule ended)", out)
    return "%d%s" % (status, " " + found.group(1).decode() if found else "")


# ---- many

def begin(path, seed):
    global TRIED
    resource.setrlimit(resource.RLIMIT_AS, (MEMORY, MEMORY))
    TRIED = Tried(path, seed)


def some(kind_and_numbers):
    """The outcomes of some mutants of a kind, and those that are wrong."""
    kind, first, end = kind_and_numbers
    counts, wrong = Counter(), []
    for number in range(first, end):
        came_to, what = TRIED.one(kind, number)
        counts[came_to] += 1
        if what:
            wrong.append((kind, number, what))
    return kind, counts, wrong


def outcomes(path, seed, pieces, jobs):
    """Those of all pieces, in this process or in several."""
    if jobs == 1:
        begin(path, seed)
        yield from map(some, pieces)
        shutil.rmtree(TRIED.program.folder)
        return
    with multiprocessing.Pool(jobs, begin, (path, seed)) as pool:
        yield from pool.imap(some, pieces)


def tried_again(path, seed, only, keep):
    kind, number = only.split(":")
    begin(path, seed)
    print("%s %s: %s" % (kind, number, TRIED.one(kind, int(number))))
    if keep:
        shutil.copytree(TRIED.program.folder, keep, dirs_exist_ok=True)
    shutil.rmtree(TRIED.program.folder)


def main():
    words = argparse.ArgumentParser(usage=__doc__)
    words.add_argument("program")
    for name, value in (("seed", 1), ("count", 100_000), ("jobs", 1)):
        words.add_argument("--" + name, type=int, default=value)
    for name in ("kind", "only", "keep"):
        words.add_argument("--" + name)
    asked = words.parse_args()
    path = os.path.abspath(asked.program)
    if asked.only:
        return tried_again(path, asked.seed, asked.only, asked.keep and os.path.abspath(asked.keep))
    pieces = []
    for kind in [asked.kind] if asked.kind else KINDS:
        count = -(-asked.count // LINES) if kind == "lines" else asked.count
        pieces += [(kind, first, min(first + AT_ONCE, count)) for first in range(0, count, AT_ONCE)]
    counts, all_wrong = {}, 0
    for kind, some_counts, wrong in outcomes(path, asked.seed, pieces, asked.jobs):
        counts.setdefault(kind, Counter()).update(some_counts)
        all_wrong += len(wrong)
        for it in wrong:
            print("%s %d: %s" % it, flush=True)
    for kind, of_kind in counts.items():
        sessions = " (sessions of %d lines)" % LINES if kind == "lines" else ""
        print("%s%s: %d tried; %s" % (kind, sessions, sum(of_kind.values()), ", ".join("%s: %d" % it for it in sorted(of_kind.items()))), flush=True)
    print("%d wrong" % all_wrong)
    sys.exit(all_wrong > 0)


if __name__ == "__main__":
    main()
