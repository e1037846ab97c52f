"""Sessions with breakpoints and watches: `break`, `delete`, `watch` and `unwatch`, worked out here apart from the program.

A break has the instructions that begin its line somewhere. A watch has what it looks at: of which invocation, in which call, which
bits of which variable. At which positions one of them hits is looked up in the whole run, whichever way the run goes then.
"""
from places import plain
from variables_told import NO_NAME, UNBOUND, Variables

OF_STOPS = ("break", "delete", "watch", "unwatch")
MOST_BREAKS, MOST_WATCHES = 64, 32
NO_NUMBER, NO_CODE, FULL = "refused: C7 no such number", "refused: C8 no code at that line", "refused: C9 list full"


class Debugger(Variables):
    """A session with all commands."""

    def __init__(self, *of_run):
        super().__init__(*of_run)
        # by number: the words of a break, and what a watch looks at
        self.breaks, self.watches, self.next_break, self.next_watch = {}, {}, 1, 1

    # ---- where they hit

    def hit(self):
        of_break = lambda words: set().union(*[self.run.landings.get(word, set()) for word in words])
        return [("break %d" % k, of_break(words)) for k, words in sorted(self.breaks.items())] + [
            ("watch %d" % k, self.changes(key)) for k, key in sorted(self.watches.items())
        ]

    def changes(self, key):
        """The positions at which what a watch looks at isn't what it was one event before."""
        if key not in self.run.changed:
            group, positions = self.run.at(0, self.made(self.shaped.code, self.buffers, self.schedule)), set()
            before = self.looked_at(group, key)
            while group.events < self.run.end:
                group.event()
                after = self.looked_at(group, key)
                if after != before:
                    positions.add(group.events)
                before = after
            self.run.changed[key] = positions
        return self.run.changed[key]

    def looked_at(self, group, key):
        """The bits that a watch looks at; none where its call isn't there."""
        number, depth, function, variable, inlined, first, count = key
        one = group.invocations[number]
        if depth is None:
            bits = group.global_bits(one, variable)
            bits = bits + [UNBOUND] * (first + count - len(bits))
        elif len(one.frames) <= depth or one.frames[depth].function != function:
            return None
        else:
            bits = group.local_bits(one.frames[depth], variable, inlined)
        return bits[first : first + count]

    # ---- commands

    def do_break(self, place):
        """A place is a line of the selected frame's file, or a file and a line."""
        file, _, line = str(place).rpartition(":")
        if file:
            file = file.encode()
        else:
            stack = self.shaped.places.stack(self.words(self.focus))
            _, _, file, at = stack[self.frame] if stack else (0, "", b"", 0)
            if not at:
                return [NO_CODE]
        words = frozenset(word for word, head in self.shaped.places.module.heads_at.items() if head == (file, int(line)))
        if not words:
            return [NO_CODE]
        if len(self.breaks) == MOST_BREAKS:
            return [FULL]
        self.breaks[self.next_break] = words
        self.next_break += 1
        return ["break %d at %s:%d" % (self.next_break - 1, plain(file), int(line))]

    def do_delete(self, number):
        return ["deleted %d" % number] if self.breaks.pop(number, None) else [NO_NUMBER]

    def do_watch(self, path):
        found = NO_NAME if path.startswith("%") else self.found(path)
        if isinstance(found, str):
            return [found]
        if len(self.watches) == MOST_WATCHES:
            return [FULL]
        variable, first, count, ty, is_open = found
        frame, _, inlined = self.selected()
        if self.told.ids[variable][0] == 18:
            call = None, 0, variable, 0
        else:
            frames = self.group.invocations[self.focus].frames
            call = next(k for k, each in enumerate(frames) if each is frame), frame.function, variable, inlined
        self.watches[self.next_watch] = (self.focus, *call, first, count)
        self.next_watch += 1
        return ["watch %d: %s = %s" % (self.next_watch - 1, plain(path.encode()), self.text_of(*found))]

    def do_unwatch(self, number):
        return ["unwatched %d" % number] if self.watches.pop(number, None) else [NO_NUMBER]
