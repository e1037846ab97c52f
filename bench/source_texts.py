"""A module whose files have texts of many kinds, and the lines that `list` is to show of them, by hand.

Each row of WINDOWS is a Source and a line of it, and what is shown about that line, or none.
"""
from assembler import Assembled
from source_modules import add, function, line, scope, start, strings, types, unit

TWELVE = "\n".join("line %d" % n for n in range(1, 13))
TEXTS = strings(
    nmain="main", twelve="twelve.comp", ttwelve=TWELVE, returns="returns.comp", treturns="one\r\ntwo\r\n\r\nfour\r\r\nfive\r", split="split.comp",
    part1="ab\r", part2="\ncd", part3="", part4="ef\n\n", empty="empty.comp", tempty="", feed="feed.comp", tfeed="\n", plain="plain.comp",
    both="both.comp", tboth="of the debug set\n", later="later.comp", tlater="the second\n", tthird="the third\n", nothing="nothing.comp", lost="lost\n",
    again="twice.comp", again2="twice.comp", tagain="by its name\n", bytes="bytes.comp", tbytes="\ta\x07\x1bb\x7f\n\u00e9 \u2026\n>\n",
    tall="tall.comp", ttall="\n" * 1001, tonly="only an OpSource\n", nameless="", tnameless="without a name\n",
)
OP_SOURCES = [
    (None, "SourceContinued", '"of no source"'),
    (None, "Source", 2, 450, "plain", '"plain\r"'), (None, "SourceContinued", '"\nsource"'), (None, "SourceContinued", '"s\n"'),
    (None, "Source", 2, 450, "both", '"of OpSource\n"'), (None, "Source", 2, 450, "plain", '"not the first\n"'),
    (None, "Source", 2, 450), (None, "SourceContinued", '"of a source without a file"'), (None, "Source", 2, 450, "tonly"),
]


def source(name, *text):
    return "s" + name, "DebugSource", name, *text


def continued(text):
    return "-", "DebugSourceContinued", text


SOURCES = [
    continued("lost"), source("twelve", "ttwelve"), source("returns", "treturns"),
    source("split", "part1"), continued("part2"), continued("part3"), continued("part4"),
    source("nothing"), continued("lost"), source("empty", "tempty"), source("feed", "tfeed"), source("plain"), source("both", "tboth"),
    source("later"), ("-", "DebugSource", "later", "tlater"), ("-", "DebugSource", "later", "tthird"), continued("lost"),
    ("-", "DebugSource", "again2", "tagain"), source("again"), source("bytes", "tbytes"), source("tall", "ttall"), source("nameless", "tnameless"),
]
WINDOWS = [
    ("twelve", 1, ["     1> line 1", "     2  line 2", "     3  line 3"]),
    ("twelve", 2, ["     1  line 1", "     2> line 2", "     3  line 3", "     4  line 4"]),
    ("twelve", 3, ["     1  line 1", "     2  line 2", "     3> line 3", "     4  line 4", "     5  line 5"]),
    ("twelve", 9, ["     7  line 7", "     8  line 8", "     9> line 9", "    10  line 10", "    11  line 11"]),
    ("twelve", 11, ["     9  line 9", "    10  line 10", "    11> line 11", "    12  line 12"]),
    ("twelve", 12, ["    10  line 10", "    11  line 11", "    12> line 12"]),
    ("twelve", 13, ["    11  line 11", "    12  line 12"]),
    ("twelve", 14, ["    12  line 12"]),
    ("twelve", 15, None),
    ("twelve", 0xFFFFFFFF, None),
    ("twelve", 0, None),
    # a CR goes with the LF behind it, and with nothing else
    ("returns", 3, ["     1  one", "     2  two", "     3> ", "     4  four\r", "     5  five\r"]),
    ("split", 1, ["     1> ab", "     2  cdef", "     3  "]),
    ("split", 3, ["     1  ab", "     2  cdef", "     3> "]),
    ("split", 6, None),
    ("empty", 1, None),
    ("feed", 1, ["     1> "]),
    ("feed", 3, ["     1  "]),
    ("feed", 4, None),
    ("plain", 1, ["     1> plain", "     2  sources"]),
    ("both", 1, ["     1> of the debug set"]),
    ("later", 1, ["     1> the second"]),
    ("nothing", 1, None),
    ("again", 1, ["     1> by its name"]),
    ("bytes", 2, ["     1  \ta\x07\x1bb\x7f", "     2> \u00e9 \u2026", "     3  >"]),
    ("tall", 999, ["   997  ", "   998  ", "   999> ", "  1000  ", "  1001  "]),
    ("nameless", 1, ["     1> without a name"]),
]


def module():
    body = [("main", "Function", "void", 0, "fn"), ("-", "Label"), scope("dmain")]
    for name, at, _ in WINDOWS:
        body += [line("s" + name, at), add()]
    body += [(None, "Return",), (None, "FunctionEnd",)]
    described = SOURCES + unit("stwelve") + [function("dmain", "nmain", "stwelve")]
    return Assembled(start(1, (), TEXTS + OP_SOURCES) + types() + described + body)
