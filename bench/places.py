"""Where the instructions of a module stand, as replies tell it, worked out here apart from the program, by the module alone.

The frames that are shown of an instruction, each with its name, file and line, are those of bench/records.py. A frame without a
name is told by the id of its function, one without a line by the word of the instruction; bytes below 32 and the byte 127 are `?`.
"""
import struct
import records

LITTLE = 0x07230203


def words_of(data):
    """The words of a module in either byte order."""
    count = len(data) // 4
    words = list(struct.unpack("<%dI" % count, data))
    return words if words[0] == LITTLE else list(struct.unpack(">%dI" % count, data))


def plain(data):
    return bytes(63 if byte < 32 or byte == 127 else byte for byte in data).decode()


class Places:
    def __init__(self, data):
        self.words = words_of(data)
        self.module = records.Module(self.words)

    def frames(self, word):
        """The frames that are shown of the instruction at a word, the innermost first: the text, the file and the line of each."""
        function, frames = self.module.stands[word]
        for name, file, line in frames:
            where = "%s:%d" % (plain(file), line) if line else "word %d" % word
            yield "%s %s" % (plain(name) if name else "%%%d" % function, where), file, line

    def place(self, word):
        """What position lines and the lines of `group` tell of an instruction: its innermost frame."""
        return next(self.frames(word))[0]

    def stack(self, words):
        """All frames of calls that stand at some words, the innermost first: of each the number of its call, the text, the file and the line."""
        return [(call, *frame) for call, word in enumerate(words) for frame in self.frames(word)]

    def bt(self, words):
        return ["#%d %s" % (k, text) for k, (_, text, _, _) in enumerate(self.stack(words))]

    def list(self, words, k=0):
        """The lines around that of a frame, two on each side as far as there are."""
        _, _, file, line = self.stack(words)[k]
        text = self.module.files().get(file) if line else None
        if text is None:
            return ["refused: C10 no source text"]
        *ended, last = text.split(b"\n")
        lines = [each.removesuffix(b"\r") for each in ended] + [last] * (last != b"")
        near = [n for n in range(line - 2, line + 3) if 1 <= n <= len(lines)]
        return ["%6d%s %s" % (n, ">" if n == line else " ", lines[n - 1].decode()) for n in near] or ["refused: C10 no source text"]

    def info(self, invocations, entries):
        """The size of the module and of its run."""
        numbers = len(self.words), len(self.module.insts), len(self.module.malformed), invocations, entries
        return ["words %d, instructions %d, ignored %d, invocations %d, entries %d" % numbers]
