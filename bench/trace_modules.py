#!/usr/bin/env python3
"""Compiles the shaders of bench/traces/ to the modules that bench/traces.py reads, four of each, beside them or in crates/test_runs/data/.

    bench/trace_modules.py          writes NAME-gVS.spv, NAME-gVS-opt.spv, NAME-g.spv and NAME-g-opt.spv of each shader

Those in gVS are by `glslangValidator -gVS` and have records of NonSemantic.Shader.DebugInfo.100, those in g by `glslc -g` and have
OpLine; `spirv-opt -O` makes those in opt. A function whose name begins with `apart` gets the control DontInline, which GLSL has no
word for, so that a module has calls that were inlined beside ones that are made. `#line` with the name of another file stands
behind `FAR`, which only `glslc` gets: `glslangValidator -gVS` of 2023 crashes at it.
"""
import os
import struct
import subprocess
import tempfile
from listings import TOP

FOLDER = os.path.join(TOP, "bench", "traces")
DATA = os.path.join(TOP, "crates", "test_runs", "data")
NAMES = ["levels", "exchange", "loops", "cases", "parts", "files", "early", "sides", "tallies", "dense", "own"]
FORMS = ["gVS", "gVS-opt", "g", "g-opt"]
# The modules of which the gate has whole runs.
IN_GATE = [("levels", "gVS-opt"), ("exchange", "gVS-opt"), ("files", "gVS-opt"), ("files", "g")]
# The module of which the gate has a run with its variables.
VARIABLES_IN_GATE = ("parts", "gVS-opt")
# The module with variables of each invocation's own, over which the gate has sessions that are drawn at random.
OWN_IN_GATE = ("own", "gVS")
COMPILERS = {
    "gVS": ["glslangValidator", "-V", "-gVS", "--target-env", "spirv1.6"],
    "g": ["glslc", "-g", "--target-env=vulkan1.2", "-DFAR"],
}
APART, DONT_INLINE = b"apart", 2


def file_of(name, form):
    return "trace-%s-%s.spv" % (name, form)


def path_of(name, form):
    return os.path.join(DATA if (name, form) in IN_GATE + [VARIABLES_IN_GATE, OWN_IN_GATE] else FOLDER, file_of(name, form))


def insts(words):
    """Where each instruction begins, its opcode and how many words it has."""
    at = 5
    while at < len(words):
        yield at, words[at] & 0xFFFF, words[at] >> 16
        at += words[at] >> 16


def kept_apart(data):
    """The module, in which the calls of some functions aren't inlined."""
    words = list(struct.unpack("<%dI" % (len(data) // 4), data))
    named = lambda at: struct.pack("<I", words[at + 2]) + struct.pack("<I", words[at + 3])
    apart = {words[at + 1] for at, op, count in insts(words) if op == 5 and count > 3 and named(at).startswith(APART)}
    for at, op, _ in insts(words):
        if op == 54 and words[at + 2] in apart:
            words[at + 3] = DONT_INLINE
    return struct.pack("<%dI" % len(words), *words)


def main():
    with tempfile.TemporaryDirectory() as folder:
        plain, optimized = os.path.join(folder, "plain.spv"), os.path.join(folder, "optimized.spv")
        for name in NAMES:
            for form, compiler in COMPILERS.items():
                # (the name of the source is part of the module)
                subprocess.run(compiler + [name + ".comp", "-o", plain], cwd=FOLDER, check=True, stdout=subprocess.DEVNULL)
                with open(plain, "rb") as file:
                    data = kept_apart(file.read())
                with open(plain, "wb") as file:
                    file.write(data)
                subprocess.run(["spirv-opt", "-O", plain, "-o", optimized], check=True)
                for end, path in (("", plain), ("-opt", optimized)):
                    with open(path, "rb") as file, open(path_of(name, form + end), "wb") as copy:
                        copy.write(file.read())


if __name__ == "__main__":
    main()
