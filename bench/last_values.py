"""What the buffers of shaders hold at the end of a run, worked out by the interpreters of flow.py, group_runs.py and memory_runs.py over
modules without debug records, and as `print` has to show it of modules with them.

The interpreters know nothing of debug records: the names are those of OpName and OpMemberName of the module that they run. Debian's
glslangValidator gives some members the name of another member of their type in its debug records, so values are compared without
names, and members are asked for where their names are right.
"""
import os
import re
import struct
import subprocess
import tempfile
import flow
import group_runs
import memory_runs
from variables_told import Told

COMPILER = ["glslangValidator", "-V", "--target-env", "vulkan1.2"]
INT, VECTOR, ARRAY, RUNTIME, STRUCT = 21, 23, 28, 29, 30


def compiled(source, *more):
    with tempfile.TemporaryDirectory() as folder:
        made = os.path.join(folder, "made.spv")
        if "\n" in source:
            with open(os.path.join(folder, "source.comp"), "w") as file:
                file.write(source)
            source = os.path.join(folder, "source.comp")
        subprocess.run(COMPILER + [*more, source, "-o", made], check=True, stdout=subprocess.DEVNULL)
        with open(made, "rb") as file:
            return file.read()


class Named:
    """The types of a module, with the names of its variables and members."""

    def __init__(self, data):
        words, at = struct.unpack("<%dI" % (len(data) // 4), data), 5
        self.types, self.names, self.members, self.variables, self.strides, self.offsets = {}, {}, {}, {}, {}, {}
        while at < len(words):
            op, args = words[at] & 0xFFFF, words[at + 1 : at + (words[at] >> 16)]
            string = lambda rest: struct.pack("<%dI" % len(rest), *rest).split(b"\0")[0].decode()
            if op == 5:
                self.names[args[0]] = string(args[1:])
            elif op == 6:
                self.members[args[0], args[1]] = string(args[2:])
            elif op == 71 and args[1] == 6:
                self.strides[args[0]] = args[2]
            elif op == 72 and args[2] == 35:
                self.offsets[args[0], args[1]] = args[3]
            elif op in (INT, VECTOR, ARRAY, RUNTIME, STRUCT, 32):
                self.types[args[0]] = (op, *args[1:])
            elif op == 59:
                self.variables[args[1]] = (args[2], args[0])
            at += words[at] >> 16

    def text(self, ty, value):
        kind, *args = self.types[ty]
        if kind == STRUCT:
            return "{%s}" % ", ".join("%s = %s" % (self.members[ty, k], self.text(part, value[k])) for k, part in enumerate(args))
        if isinstance(value, list):
            return "[%s]" % ", ".join(self.text(args[0], part) for part in value)
        return str(value - (1 << args[0]) if args[1] and value >> args[0] - 1 else value)

    def printed(self, name, ty, value):
        """`print` of a block and of each of its members, with what is due."""
        rows = [(name, ty, value)] + [("%s.%s" % (name, self.members[ty, k]), part, value[k]) for k, part in enumerate(self.types[ty][1:])]
        return [("print " + path, ["%s = %s" % (path, self.text(part, whole))]) for path, part, whole in rows]


def of_groups():
    for name, buffers, _ in group_runs.RUNS:
        source = os.path.join(group_runs.SHADERS, name + ".comp")
        plain = compiled(source)
        named, module = Named(plain), group_runs.Module(plain)
        group = group_runs.length_of(module, buffers)
        rows = [row for id, (storage, ty) in module.variables.items() if storage == group_runs.BUFFER for row in named.printed(named.names[id], ty, group.memory[(id,)][0])]
        yield name, compiled(source, "-gVS"), group_runs.setup_of(buffers), rows


def of_flow():
    for name, source in (("loops", flow.LOOPS), ("cases", flow.CASES)):
        plain = compiled(source)
        named, memory = Named(plain), flow.Recorded(plain, flow.buffers(plain)).memory
        root, ty = next((id, named.types[pointer][2]) for id, (_, pointer) in named.variables.items() if named.names[id] == "b")
        value = [memory[root, 0, (0,)], [memory[root, 0, (1, k)] for k in range(4)]]
        yield name, compiled(source, "-gVS"), flow.SETUP, named.printed("b", ty, value)


def read(m, data, ty, at=0):
    """A part of a block; a runtime array has as many elements as are whole."""
    kind, *args = m.types[ty]
    if kind == RUNTIME:
        return [read(m, data, args[0], at + k * m.strides[ty]) for k in range((len(data) - at) // m.strides[ty])]
    parts = m.parts(ty) if kind in (VECTOR, ARRAY, STRUCT) else None
    if parts is None:
        return m.read(data, ty, at)
    return [read(m, data, part, at + m.start(ty, k)) for k, part in enumerate(parts)]


def of_memory():
    made = {}
    for name, module, inputs, spec, _ in memory_runs.RUNS:
        kind = module.split("-")[0]
        if module.endswith("glslc") or kind not in ("structs", "nested", "layouts"):
            continue
        if kind not in made:
            source = os.path.join(memory_runs.SHADERS, kind + ".comp")
            made[kind] = compiled(source), compiled(source, "-gVS")
        plain, with_records = made[kind]
        named, m = Named(plain), memory_runs.Module(plain, spec)
        run = memory_runs.Run(m, {key: bytearray(data) for key, data in inputs["buffers"].items()}, bytearray(inputs["push"]))
        memory_runs.transcript(m, run, ())
        rows = [row for id, data in run.bytes.items() for row in named.printed(named.names[id], run.types[id][1], read(m, data, run.types[id][1]))]
        yield name, with_records, memory_runs.setup_of(inputs, spec), rows


def nameless(line):
    """A line without the names of members."""
    return re.sub(r"([{ ])\w+ = ", r"\1", line)


def is_named(told, path):
    """Whether a path of a member names it alone in the debug records."""
    name, *member = path.encode().split(b".")
    of_name = [ident for ident in told.globals() if told.name(ident) == name]
    return not member or [each for each, _ in told.parts((told.ids[of_name[0]][1][1], ()))].count(member[0]) == 1


def of_all():
    yield from of_groups()
    yield from of_flow()
    yield from of_memory()


def runs():
    """Of each run its name, the module with debug records, the setup, and commands with what is due, without names of members."""
    for name, data, setup, rows in of_all():
        told = Told(data)
        asked = [(command, [nameless(line) for line in due]) for command, due in rows if is_named(told, command[6:])]
        yield "the last values of " + name, data, "".join(line + "\n" for line in setup), asked
