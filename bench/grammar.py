"""The grammar of lines of commands, and the forms of their replies, as docs/MANUAL.md has them.

`due` says of a line what is due before anything is looked at: a code of C1, C2 and C11, or the first word. `wrong_of` says what is wrong
with the reply to a line, if anything is.
"""
import re

MOST_BYTES, MOST = 4096, 2**32 - 1
TEXTS = {
    1: "unknown command", 2: "arguments", 3: "no such invocation", 4: "no such frame", 5: "no such name", 6: "no such part", 7: "no such number",
    8: "no code at that line", 9: "list full", 10: "no source text", 11: "line too long", 12: "focus finished", 13: "past the end",
}
REFUSALS = {b"refused: C%d %s\n" % (code, text.encode()): code for code, text in TEXTS.items()}
NAME = rb"[^ .\[\]%][^ .\[\]]*"
PATH = re.compile(rb"%%(\d+)|%s(?:\.%s|\[\d+\])*" % (NAME, NAME), re.DOTALL)
PLACE = re.compile(rb"(?:.+:)?(\d+)", re.DOTALL)

CAUSE = rb"(?:break \d+|watch \d+|halt \d+|done|start|all finished|stuck|fault F\d i=\d+ word \d+|schedule ended)"
STANDS = rb"@\d+ i=\d+ [^\n]*\n"
MOTION = re.compile(rb"stop: (?:%s(?:, %s)*)\n%s" % (CAUSE, CAUSE, STANDS))
NAMED = rb"[^\n]* = [^\n]*\n"
# By word: what stands behind it, the form of its reply, and the codes of its refusals.
WORDS = {
    **{word: ("number", MOTION, ()) for word in (b"goto",)},
    **{word: ("positive", MOTION, ()) for word in (b"fwd", b"back")},
    b"stepi": ("count", MOTION, (12,)),
    b"rstepi": ("count", MOTION, ()),
    **{word: ("", MOTION, (12,)) for word in (b"step", b"next", b"finish", b"rnext", b"rfinish")},
    **{word: ("", MOTION, ()) for word in (b"rstep", b"continue", b"rcontinue")},
    b"where": ("", re.compile(STANDS), ()),
    b"group": ("", re.compile(rb"(?:i=\d+ (?:finished|(?:ready|arrived|passed) [^\n]*)\n)+"), ()),
    b"focus": ("number", re.compile(STANDS), (3,)),
    b"bt": ("", re.compile(rb"(?:#\d+ [^\n]*\n)+"), (12,)),
    b"frame": ("number", re.compile(rb"#\d+ [^\n]*\n"), (12, 4)),
    b"locals": ("", re.compile(rb"(?:%s)*" % NAMED), (12,)),
    b"globals": ("", re.compile(rb"(?:%s)*" % NAMED), ()),
    b"print": ("path", re.compile(NAMED), (5, 6)),
    b"regs": ("", re.compile(rb"(?:%\d+ = [^\n]*\n)*"), (12,)),
    b"list": ("", re.compile(rb"(?: *\d+[> ] [^\n]*\n){1,5}"), (12, 10)),
    b"break": ("place", re.compile(rb"break \d+ at [^\n]*:\d+\n"), (8, 9)),
    b"delete": ("number", re.compile(rb"deleted \d+\n"), (7,)),
    b"watch": ("path", re.compile(rb"watch \d+: %s" % NAMED), (5, 6, 9)),
    b"unwatch": ("number", re.compile(rb"unwatched \d+\n"), (7,)),
    b"info": ("", re.compile(rb"words \d+, instructions \d+, ignored \d+, invocations \d+, entries \d+\n"), ()),
    b"tally": ("", re.compile(rb"(?:probe \d+: \d+\n)*"), ()),
    b"drop": ("number", re.compile(rb"dropped \d+\n"), (7,)),
    b"halt": ("numbers", re.compile(rb"halt \d+ every \d+\n"), (7,)),
    b"order": ("number number", re.compile(rb"order \d+ \d+: (?:free|event \d+ arrives at a barrier|events \d+ and \d+ on &%\d+(?:\[-?\d+\])*)\n"), (2, 13)),
    b"quit": ("", re.compile(b""), ()),
}
# The commands that the program under trial doesn't have yet.
NOT_BUILT = set()


def is_number(word, least=0):
    return re.fullmatch(rb"\d+", word) is not None and least <= int(word.lstrip(b"0")[:11] or b"0") <= MOST


def fits(form, words):
    """Whether words are what stands behind a command."""
    if form == "":
        return not words
    if form == "numbers":
        return len(words) == 2 and is_number(words[0]) and is_number(words[1], 1)
    if form == "number number":
        return len(words) == 2 and all(map(is_number, words))
    if form == "count" and not words:
        return True
    if len(words) != 1:
        return False
    word, = words
    if form == "path":
        found = PATH.fullmatch(word)
        numbers = [found.group(1)] if found and found.group(1) else re.findall(rb"\[(\d+)\]", word)
        return found is not None and all(map(is_number, numbers))
    if form == "place":
        found = PLACE.fullmatch(word)
        return found is not None and is_number(found.group(1))
    return is_number(word, 0 if form == "number" else 1)


def due(line):
    """`C11`, `C1` or `C2`, nothing for a line without words, else the word."""
    words = [word for word in line.split(b" ") if word]
    if len(line) > MOST_BYTES:
        return "C11"
    if not words:
        return ""
    if words[0] not in WORDS or words[0] in NOT_BUILT:
        return "C1"
    return words[0].decode() if fits(WORDS[words[0]][0], words[1:]) else "C2"


def numbered(pattern, reply, first, apart=None):
    """Whether the numbers of the lines of a reply go up from the first one, one by one where `apart` is 1."""
    numbers = [int(it) for it in re.findall(pattern, reply, re.MULTILINE)]
    if apart == 1:
        return numbers == list(range(first, first + len(numbers)))
    return all(low < high for low, high in zip([first - 1] + numbers, numbers))


ORDERED = {"group": (rb"^i=(\d+) ", 0, 1), "bt": (rb"^#(\d+) ", 0, 1), "regs": (rb"^%(\d+) = ", 1), "tally": (rb"^probe (\d+): ", 1), "list": (rb"^ *(\d+)[> ] ", 1, None)}


def wrong_of(line, reply):
    """What is wrong with the reply to a line, or none."""
    what = due(line)
    code = REFUSALS.get(reply)
    if what == "":
        return None if reply == b"" else "a reply to a line without words"
    if what in ("C1", "C2", "C11"):
        return None if code == int(what[1:]) else "%s is due" % what
    _, form, codes = WORDS[what.encode()]
    if code is not None:
        return None if code in codes else "no such refusal is due"
    if not form.fullmatch(reply):
        return "the reply hasn't the form of its command"
    if what in ORDERED and not numbered(ORDERED[what][0], reply, *ORDERED[what][1:]):
        return "the lines aren't in order"
    return None
