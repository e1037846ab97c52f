#!/usr/bin/env python3
"""Tries examples/setup.py on every module of the repository, outside the gate.

    bench/setups.py         says of each module whether `debug` opens it with the setup that is written for it; the status is 1 where
                            one isn't opened. `SPVDBG` names the program, else it is the one that examples/build.sh keeps

Modules that `check` refuses are counted apart, and so are those that have too many cells with the fewest bytes (S10), which no setup
fits.
"""
import glob
import os
import subprocess
import sys
import tempfile

TOP = os.path.join(os.path.dirname(os.path.abspath(__file__)), "..")
PROGRAM = os.environ.get("SPVDBG") or os.path.join(TOP, "crates", "spvdbg", "out", "spvdbg")
OPENS, FAILS, REFUSED, TOO_LARGE = "open", "don't", "are refused", "are too large for any setup"
MODULE_REFUSED = 3


def ran(words, **how):
    return subprocess.run(words, stdout=subprocess.PIPE, stderr=subprocess.PIPE, **how)


def outcome(module):
    """What comes of the module with the setup that is written for it."""
    if ran([PROGRAM, "check", module]).returncode == MODULE_REFUSED:
        return REFUSED
    made = ran([sys.executable, os.path.join(TOP, "examples", "setup.py"), module], env={**os.environ, "SPVDBG": PROGRAM})
    with tempfile.NamedTemporaryFile() as setup:
        setup.write(made.stdout)
        setup.flush()
        answer = ran([PROGRAM, "debug", module, setup.name], input=b"fwd 1\n")
    if made.returncode == answer.returncode == 0:
        return OPENS
    if answer.stdout.startswith(b"setup refused: S10 "):
        return TOO_LARGE
    print("%s: %s" % (module, (made.stderr or answer.stdout).decode().strip()))
    return FAILS


def main():
    modules = sorted(glob.glob(os.path.join(TOP, "examples", "*", "*.spv")) + glob.glob(os.path.join(TOP, "crates", "*", "data", "*.spv")))
    outcomes = [outcome(module) for module in modules]
    print("%d modules: %s" % (len(outcomes), ", ".join("%d %s" % (outcomes.count(it), it) for it in (OPENS, FAILS, REFUSED, TOO_LARGE))))
    return 1 if FAILS in outcomes else 0


if __name__ == "__main__":
    sys.exit(main())
