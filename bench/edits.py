#!/usr/bin/env python3
"""Tries the wrong bodies that the gate passes over: bench/edits.sh says how it is called.

An edit is tried on a copy of the crates in the room. First the functions that a crate's edits change are proved as they stand;
then each edit is made, and the function that it changes is checked alone, over what the first check kept. What is refused
there is refused by the function's own contract, or by that of a call in it. Where the function is still proved the whole crate
is checked, since a caller may need what the edit broke. What was tried stands in the room's table, a line each, as soon as it
is known, and isn't tried again while the crate and those below it stay as they are.
"""
import argparse
import fcntl
import glob
import hashlib
import os
import re
import shutil
import signal
import subprocess
import sys
import tempfile
import threading
import time

TOP = os.path.dirname(os.path.dirname(os.path.abspath(__file__)))
PARTS = ("src", "specs", "proofs")
RT = os.environ.get("RT", "rt").split()
REFUSED, PROVED, UNKNOWN = "refused", "NOT REFUSED", "not tried"
STOPPED, LOCK, RUNNING = threading.Event(), threading.Lock(), set()

# What a check says where the edited text can't be read, and where a proof file names what the edit took away: neither is a refusal.
LOST = r"(is not in scope|has no field|has no `|was not admitted)"
UNREAD = r"\berror\[[\w-]+\]|^(\./)?(src|specs)/\S+:\d+: error: .*" + LOST
NAMED = r"(note: )?(\./)?proofs/.*" + LOST


def text_of(path):
    with open(path, encoding="utf-8") as file:
        return file.read()


class Tree:
    """The crates of the working tree, which is only read."""

    def __init__(self):
        rows = re.findall(r"^(\w+):(.*)$", text_of(f"{TOP}/crates.txt"), re.M)
        self.uses = {name: [it for it in rest.split() if os.path.isdir(f"{TOP}/crates/{it}")] for name, rest in rows}
        self.sums, self.kit = {}, subprocess.run(["rt", "version"], stdout=subprocess.PIPE, check=True).stdout

    def sum(self, name):
        """A sum of all that a check of a crate stands on."""
        if name not in self.sums:
            made = hashlib.sha256(self.kit)
            for part in PARTS:
                for path in sorted(glob.glob(f"{TOP}/crates/{name}/{part}/**/*", recursive=True)):
                    if os.path.isfile(path):
                        made.update(f"{path[len(TOP):]}\0{text_of(path)}\0".encode())
            for below in sorted(self.uses[name]):
                made.update(self.sum(below))
            self.sums[name] = made.digest()
        return self.sums[name]


class Edit:
    """A file of must-fail/: pairs of a text that stands once in a file and what stands there then."""

    def __init__(self, tree, path):
        self.crate = path.split("/")[-3]
        self.name = os.path.basename(path).split(".edit")[0]
        self.is_in_gate = path.endswith(".edit")
        self.texts, self.functions, self.changes, self.fault = {}, set(), None, None
        said = text_of(path)
        self.key = hashlib.sha256(tree.sum(self.crate) + said.encode()).hexdigest()[:16]
        self.read(said)

    def read(self, said):
        file = old = None
        for line in said.split("\n"):
            if line.startswith("file: "):
                file = line[6:].strip()
                self.texts.setdefault(file, text_of(f"{TOP}/crates/{self.crate}/{file}"))
            elif line.startswith("old: "):
                old = line[5:]
            elif line.startswith("new:"):
                text = self.texts[file]
                if text.count(old) != 1:
                    self.fault = f"its old text stands {text.count(old)} times in {file}"
                    return
                module, owner, function = place_of(file, text, text.index(old))
                if function:
                    self.functions.add("::".join([*module, *([owner[0] + owner[1]] if owner else []), function]))
                    self.changes = f"{owner[0]}::{function}" if owner else function
                self.texts[file] = text.replace(old, line[5:])


def place_of(file, text, at):
    """The module of a place in a file of src/, the type and the trait of the impl that it is in, and the function."""
    owner = function = indent = None
    for line in text[:at].split("\n"):
        if line.startswith(("impl", "trait", "pub trait")):
            owner = owner_in(line)
        found = re.match(r"( *)(?:pub(?:\([^)]*\))? )?(?:const )?fn (\w+)", line)
        if found:
            indent, function = found.groups()
        elif line == "}":
            owner = function = None
        elif function and line == indent + "}":
            function = None
    module = [it for it in file[len("src/") : -len(".rt")].split("/") if it not in ("lib", "main", "mod")]
    return module, owner, function


def owner_in(line):
    """The type of an impl or the name of a trait, and the trait of an impl. A check writes them as one word."""
    named = re.match(r"(?:pub )?(?:impl|trait)(?:<.*?>)? (?:\w+::)*(\w+)(?:<.*?>)?(?: for (?:\w+::)*(\w+))?", line)
    first, other = named.groups() if named else ("", None)
    return (other, first) if other else (first, "")


class Room:
    """A copy of the crates, in which one edit at a time is made."""

    def __init__(self, folder):
        self.folder = folder
        os.makedirs(f"{folder}/crates", exist_ok=True)
        for file in ("crates.txt", "HANDLES"):
            shutil.copy2(f"{TOP}/{file}", folder)
        for name in os.listdir(f"{TOP}/crates"):
            self.put_back(name)

    def put_back(self, name):
        """Gives a crate the texts of the tree; what checks kept in its folder out/ stays."""
        for part in PARTS:
            shutil.rmtree(f"{self.folder}/crates/{name}/{part}", ignore_errors=True)
            if os.path.isdir(f"{TOP}/crates/{name}/{part}"):
                shutil.copytree(f"{TOP}/crates/{name}/{part}", f"{self.folder}/crates/{name}/{part}")

    def check(self, name, functions):
        """The status and the lines of a check of these functions, or of the crate, and the seconds of a processor that it took."""
        words = [*RT, "check", "--jobs", "1"]
        for function in sorted(functions):
            words += ["--only", function]
        with tempfile.TemporaryFile("w+", errors="replace") as said:
            at = f"{self.folder}/crates/{name}"
            child = subprocess.Popen(words, cwd=at, stdin=subprocess.DEVNULL, stdout=said, stderr=subprocess.STDOUT, start_new_session=True)
            RUNNING.add(child.pid)
            _, ended, used = os.wait4(child.pid, 0)
            RUNNING.discard(child.pid)
            said.seek(0)
            status = os.WEXITSTATUS(ended) if os.WIFEXITED(ended) else -os.WTERMSIG(ended)
            return status, said.read().rstrip("\n").split("\n"), used.ru_utime + used.ru_stime

    def make(self, edit):
        for file, text in edit.texts.items():
            with open(f"{self.folder}/crates/{edit.crate}/{file}", "w", encoding="utf-8") as out:
                out.write(text)


def refusal_in(lines):
    """The function that isn't proved, and its goal, by what a check says; none where it says no such thing."""
    goal = None
    for line in lines:
        lacks = re.match(r"(?:fn|impl|struct|enum) \w+::(\S+): (?:no proof|not proved)(.*)", line)
        shown = re.match(r"(?:note: )?\S+?:\d+:\d+: (?:error: `([\w-]+)`|it is not proved .*?\(`([\w-]+)`\))", line)
        if shown and not goal and not re.match(NAMED, line):
            goal = shown.group(1) or shown.group(2)
        if lacks:
            named = re.search(r"did not prove `([\w-]+)`", lacks.group(2))
            return lacks.group(1), (named.group(1) if named else goal)
    return None, goal


def judged(status, lines):
    """What a check says of an edit: whether it is refused, by which function and goal."""
    if status == 0:
        return PROVED, "", ""
    unread = [it for it in lines if re.search(UNREAD, it)]
    function, goal = refusal_in(lines)
    if status == 1 and goal and not unread and any(it.startswith(("only=", "logic=not-proved")) for it in lines):
        return REFUSED, function or "", goal
    told = unread or [it for it in lines if ": error" in it] or lines
    return UNKNOWN, function or "", told[0][:160]


class Table:
    """What was tried: a line for each edit, added as soon as it is known."""

    def __init__(self, path):
        self.path, self.rows = path, {}
        for line in text_of(path).splitlines() if os.path.exists(path) else []:
            row = line.split("\t")
            if len(row) == 7:
                self.rows[row[0]] = row

    def add(self, edit, verdict, function, goal, seconds):
        row = [edit.key, edit.crate, edit.name, verdict, function, goal.replace("\t", " "), f"{seconds:.0f}"]
        with LOCK:
            print(f"{edit.crate}/{edit.name}: {verdict}{f', {function}: {goal}' if verdict != PROVED else ''} ({seconds:.0f} s)", flush=True)
            if verdict != UNKNOWN:
                self.rows[edit.key] = row
                with open(self.path, "a", encoding="utf-8") as out:
                    out.write("\t".join(row) + "\n")


def try_edit(room, table, edit):
    """Tries an edit at the functions that it changes, and at the whole crate where these are proved with it."""
    room.make(edit)
    status, lines, seconds = room.check(edit.crate, edit.functions)
    if edit.functions and status in (0, 2, 3) and not STOPPED.is_set():
        status, lines, more = room.check(edit.crate, set())
        seconds += more
    room.put_back(edit.crate)
    if not STOPPED.is_set():
        table.add(edit, *judged(status, lines), seconds)


def try_crate(room, table, edits):
    """Tries the edits of one crate, if the functions that they change are proved as they stand."""
    name = edits[0].crate
    functions = {it for edit in edits for it in edit.functions}
    status, lines, seconds = room.check(name, functions) if functions else (0, [], 0)
    print(f"{name}: {len(functions)} functions as they stand, status {status} ({seconds:.0f} s)", flush=True)
    if status in (1, 3):
        print("\n".join([f"{name}: not proved as it stands, so its edits aren't tried:", *lines[-6:]]), flush=True)
        return
    for edit in edits:
        if STOPPED.is_set():
            return
        try_edit(room, table, edit)


def work(number, folder, table, queue):
    room = Room(f"{folder}/{number}")
    while not STOPPED.is_set():
        with LOCK:
            if not queue:
                return
            edits = queue.pop(0)
        try_crate(room, table, edits)


def run(args, table, edits):
    """Tries what isn't in the table yet, several crates side by side."""
    queue = {}
    for edit in edits:
        if edit.fault:
            print(f"{edit.crate}/{edit.name}: BAD EDIT: {edit.fault}", flush=True)
        elif args.anew or edit.key not in table.rows:
            queue.setdefault(edit.crate, []).append(edit)
    queue = list(queue.values())
    workers = [threading.Thread(target=work, args=(n, args.room, table, queue), daemon=True) for n in range(args.jobs)]
    for worker in workers:
        worker.start()
    try:
        while any(it.is_alive() for it in workers):
            time.sleep(0.5)
    except KeyboardInterrupt:
        STOPPED.set()
        for group in list(RUNNING):
            os.killpg(group, signal.SIGTERM)
        print("stopped: what is known stands in the table", flush=True)


def shown(edits, table):
    """The rows as docs/CLAIMS.md has them: crate, edit, what it changes, by what it is refused, and whether the gate tries it."""
    before = None
    for edit in edits:
        row = table.rows.get(edit.key)
        changes = edit.changes or next(iter(edit.texts))
        first = edit.crate if edit.crate != before else ""
        cells = [first, f"`{edit.name}`", f"`{changes}`", refused_by(row) if row else "", "yes" if edit.is_in_gate else ""]
        print("|" + "|".join(f" {it} " if it else " " for it in cells) + "|")
        before = edit.crate


def refused_by(row):
    """What a row of the table says of the refusal: the function that isn't proved, and the clause that doesn't hold."""
    _, _, _, verdict, function, goal, _ = row
    owner, _, name = function.rpartition("::")
    last = owner.split("::")[-1]
    named = f"`{last}::{name}`" if last[:1].isupper() else f"`{name}`"
    return verdict if verdict != REFUSED else f"{named}{clause_of(goal)}"


def clause_of(goal):
    """A goal's clause: of `returns-in_ok-x-clause-lane` it is `lane`. A contract of one clause has no name for it."""
    front, _, clause = goal.rpartition("-clause-") if "-clause-" in goal else (goal, "", "")
    asked = re.match(r"(.*?)-requires", front)
    if asked:
        return f": `{clause or 'requires'}` of `{asked.group(1)}`"
    return f": `{clause}`" if clause else "" if goal.startswith("returns") else f": `{goal}`"


def chosen(tree, names, with_gate):
    """The edits that are named by crate or as CRATE/EDIT; all without names. In the order of crates.txt."""
    edits = []
    for crate in tree.uses:
        paths = sorted(glob.glob(f"{TOP}/crates/{crate}/must-fail/*.edit.md"))
        paths += sorted(glob.glob(f"{TOP}/crates/{crate}/must-fail/*.edit")) if with_gate else []
        edits += [Edit(tree, path) for path in sorted(paths)]
    lacking = [it for it in names if not any(it in (edit.crate, f"{edit.crate}/{edit.name}") for edit in edits)]
    if lacking:
        sys.exit(f"edits.sh: no edit is named {lacking[0]}")
    return [it for it in edits if not names or it.crate in names or f"{it.crate}/{it.name}" in names]


def main():
    words = argparse.ArgumentParser(prog="edits.sh")
    words.add_argument("names", nargs="*", metavar="NAME")
    words.add_argument("--jobs", type=int, default=1)
    words.add_argument("--room", default=f"{tempfile.gettempdir()}/spvdbg-edits")
    words.add_argument("--anew", action="store_true")
    words.add_argument("--gate", action="store_true")
    words.add_argument("--table", action="store_true")
    args = words.parse_args()
    signal.signal(signal.SIGTERM, signal.default_int_handler)
    edits = chosen(Tree(), args.names, args.gate)
    os.makedirs(args.room, exist_ok=True)
    table = Table(f"{args.room}/table.tsv")
    if not args.table:
        with open(f"{args.room}/lock", "w") as lock:
            fcntl.flock(lock, fcntl.LOCK_EX)
            run(args, table, edits)
    shown(edits, table)
    tried = [table.rows[it.key][3] for it in edits if it.key in table.rows]
    print(f"{len(edits)} edits: {tried.count(REFUSED)} refused, {tried.count(PROVED)} not refused, {len(edits) - len(tried)} not tried")
    sys.exit(0 if tried.count(REFUSED) == len(edits) else 1)


if __name__ == "__main__":
    main()
