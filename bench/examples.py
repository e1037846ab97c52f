#!/usr/bin/env python3
"""Compiles the examples again and compares the bytes, outside the gate.

    bench/examples.py       runs the commands of each examples/*/README.md that make modules, in their order, on copies of the
                            sources, and says whether they give the modules that stand there; the status is 1 where one doesn't

The compilers are those of Debian 12: glslang-tools 12.0.0, glslc 2023.2, spirv-tools 2023.1. Others may give other bytes.
"""
import glob
import os
import shlex
import shutil
import subprocess
import sys
import tempfile

EXAMPLES = os.path.join(os.path.dirname(os.path.abspath(__file__)), "..", "examples")
COMPILERS = ("glslangValidator", "glslc", "spirv-as", "spirv-opt")


def commands(folder):
    """The words of each line of a folder's README.md that makes a module there; one with NAME tells of modules elsewhere."""
    with open(os.path.join(folder, "README.md")) as file:
        for line in file:
            words = shlex.split(line) if line.startswith("    ") else []
            if words and words[0] in COMPILERS and "NAME" not in line:
                yield words


def compiled(folder):
    """What the commands of a folder make of its sources: the name and the bytes of each module."""
    with tempfile.TemporaryDirectory() as room:
        for path in glob.glob(os.path.join(folder, "*.comp")) + glob.glob(os.path.join(folder, "*.spvasm")):
            shutil.copy(path, room)
        for words in commands(folder):
            subprocess.run(words, cwd=room, check=True, stdout=subprocess.DEVNULL)
            name = words[words.index("-o") + 1]
            with open(os.path.join(room, name), "rb") as file:
                yield name, file.read()


def main():
    well = True
    for folder in sorted(glob.glob(os.path.join(EXAMPLES, "*", ""))):
        made = set()
        for name, data in compiled(folder):
            made.add(name)
            with open(os.path.join(folder, name), "rb") as file:
                is_same = data == file.read()
            well = well and is_same
            print("%s %s/%s" % ("same" if is_same else "DIFFERS", os.path.basename(os.path.dirname(folder)), name))
        for path in glob.glob(os.path.join(folder, "*.spv")):
            if os.path.basename(path) not in made:
                well = False
                print("NO COMMAND for %s" % path)
    return 0 if well else 1


if __name__ == "__main__":
    sys.exit(main())
