#!/usr/bin/env python3
"""Calls a program with the words, setups and inputs of crates/test_runs/data/*.runs, and compares it with the stored output.

    bench/stored_runs.py PROGRAM [FILE.runs..]     all files, where none is named

It takes any build, also one without proofs, and says where a call first differs. The status of the process is compared too.
"""
import os
import re
import subprocess
import sys
import tempfile

FOLDER = os.path.join(os.path.dirname(os.path.abspath(__file__)), "..", "crates", "test_runs")
DATA = os.path.join(FOLDER, "data")


def text_of(path):
    with open(path, "rb") as file:
        return file.read()


def files():
    """The files of calls, in the order of the stored output."""
    listed = re.search(r"const CALLS: [^=]*= \[(.*?)\];", text_of(os.path.join(FOLDER, "src", "main.rt")).decode(), re.DOTALL)
    return re.findall(r'"([^"]*)"', listed.group(1))


def calls(file):
    """The line of each call, its setup and its commands."""
    for part in text_of(os.path.join(DATA, file)).split(b"== ")[1:]:
        line, rest = part.split(b"\n", 1)
        yield (line, *rest.split(b"-- commands\n", 1))


def called(program, line, setup, commands):
    """What a call writes, and its status; none where its words don't begin with the program's name."""
    _, module, words = line.decode().split(": ", 2)
    name, *words = words.split(" ")
    if name != "spvdbg":
        return None
    with tempfile.TemporaryDirectory() as folder:
        os.symlink(os.path.join(DATA, module), os.path.join(folder, "module"))
        os.symlink(program, os.path.join(folder, "spvdbg"))
        with open(os.path.join(folder, "setup"), "wb") as file:
            file.write(setup)
        done = subprocess.run([os.path.join(folder, "spvdbg")] + words, cwd=folder, input=commands, stdout=subprocess.PIPE, stderr=subprocess.DEVNULL)
    return done.stdout + b"status %d\n" % done.returncode


def difference(made, due):
    """The first lines that differ, and their number."""
    made, due = made.split(b"\n"), due.split(b"\n")
    at = next((at for at, pair in enumerate(zip(made, due)) if pair[0] != pair[1]), min(len(made), len(due)) - 1)
    return "line %d: %r, due %r" % (1 + at, made[at : at + 2], due[at : at + 2])


def main():
    program, asked, stored, at = os.path.abspath(sys.argv[1]), sys.argv[2:], text_of(os.path.join(FOLDER, "stdout")), 0
    for file in files():
        at, count, wrong = stored.index(b"\n%s\n" % file.encode(), at - 1 if at else 0) + len(file) + 2, 0, 0
        for line, setup, commands in calls(file):
            assert stored.startswith(line + b"\n", at), "%s: the stored output hasn't %s" % (file, line)
            end = re.compile(rb"^status \d+\n", re.MULTILINE).search(stored, at + len(line) + 1).end()
            due, at = stored[at + len(line) + 1 : end], end
            made = called(program, line, setup, commands) if not asked or file in asked else None
            if made not in (None, due):
                wrong += 1
                print("%s: %s: %s" % (file, line.decode(), difference(made, due)), flush=True)
            count += made is not None
        print("%s: %d of %d differ" % (file, wrong, count), flush=True)


if __name__ == "__main__":
    main()
