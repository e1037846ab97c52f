#!/usr/bin/env python3
"""Measures single lines of commands over modules that are made to be the worst for them, outside the gate.

    bench/worst_commands.py PROGRAM [WORD]     the rows whose name has the word, else all

A line has at most 4,096 bytes and a module at most 4 MiB. Beside each line stand the bytes of its reply, the seconds of the processor and
the MiB that it takes beyond a session with the commands before it alone: the bars are a second and 400 MiB. The program gets ADDRESSES
bytes of addresses and PATIENCE seconds, so that a row far over the bar ends with status 8 or by a signal. Motions are measured too, where what is looked at on the way is the
worst, over so many events as the row says. The modules are in worst_modules.py.
"""
import os
import resource
import subprocess
import sys
import tempfile
import worst_modules

MOST_SECONDS, MOST_MEMORY, ADDRESSES, PATIENCE, PIECE = 1.0, 400, 1_300 << 20, 4, 1 << 20


class Sessions:
    """Sessions over one module."""

    def __init__(self, program, folder, data, setup):
        self.program, self.folder = program, folder
        for name, content in (("module", data), ("setup", setup.encode())):
            with open(os.path.join(folder, name), "wb") as file:
                file.write(content)

    def run(self, commands):
        """The status, the bytes of the replies with their first ones, the seconds and the greatest resident size in MiB."""
        at = lambda name: os.path.join(self.folder, name)
        with open(at("commands"), "w") as file:
            file.write(commands)
        words = ["/usr/bin/time", "-f", "%M", "-o", at("size"), self.program, "debug", at("module"), at("setup")]

        def limit():
            resource.setrlimit(resource.RLIMIT_AS, (ADDRESSES, ADDRESSES))
            resource.setrlimit(resource.RLIMIT_CPU, (PATIENCE, PATIENCE + 1))

        with open(at("commands")) as file:
            process = subprocess.Popen(words, stdin=file, stdout=subprocess.PIPE, stderr=subprocess.DEVNULL, preexec_fn=limit)
        size, first, last = 0, b"", b""
        for piece in iter(lambda: process.stdout.read(PIECE), b""):
            size, first, last = size + len(piece), first or piece[:100], piece[-200:]
        _, status, used = os.wait4(process.pid, 0)
        process.returncode = os.waitstatus_to_exitcode(status)
        with open(at("size")) as file:
            memory = int(file.read().split()[-1]) / 1024
        return process.returncode, size, last, used.ru_utime + used.ru_stime, memory


def row(sessions, what, bytes_, without, before, line, due):
    """A line behind some commands, beside these alone; it replies so many bytes or more, where the row says how many are due."""
    _, replied, _, least, held = without
    ended, size, last, seconds, memory = sessions.run(before + line + "\n")
    seconds, memory = seconds - least, memory - held
    is_over = ended != 0 or seconds > MOST_SECONDS or memory > MOST_MEMORY
    note = "over %d s" % PATIENCE if ended < 0 or ended > 128 else "status %d" % ended if ended else "over" if is_over else ""
    if last.endswith(b"refused: C1 unknown command\n"):
        note = "not built"
    elif ended == 0 and size - replied < due:
        note, is_over = (note + " %s replied" % last[-60:]).strip(), True
    shown = "`%s`" % (line if len(line) < 40 else line[:30] + "..")
    return "| %s | %s | %s | %s | %.2f s | %.0f MiB | %s |" % (what, format(bytes_, ","), shown, format(size - replied, ","), seconds, memory, note), is_over


def main():
    program, word, over = os.path.abspath(sys.argv[1]), (sys.argv[2:] or [""])[0], []
    print("| module | bytes | line | bytes of the reply | seconds | memory | |\n|---|---|---|---|---|---|---|", flush=True)
    with tempfile.TemporaryDirectory() as folder:
        for what, make, setup, before, lines in worst_modules.ROWS:
            if word not in what:
                continue
            data = make()
            assert len(data) <= 4_194_304, (what, len(data))
            sessions = Sessions(program, folder, data, setup)
            without = sessions.run(before)
            if without[0]:
                print("| %s | %s | | | %.2f s | %.0f MiB | opening: status %d |" % (what, format(len(data), ","), *without[3:], without[0]), flush=True)
            for line, due in lines if not without[0] else []:
                assert len(line) <= 4096
                text, is_over = row(sessions, what, len(data), without, before, line, due)
                print(text, flush=True)
                over += [what + ": " + line[:40]] * is_over
    print("%d over the bar or wrong%s" % (len(over), ": " + ", ".join(over) if over else ""))
    sys.exit(len(over) > 0)


if __name__ == "__main__":
    main()
