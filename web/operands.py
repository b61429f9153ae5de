"""Where the operands of a WebAssembly function are made: for each value on the stack, the place in the code behind the instruction that made it.

`Operands` is told of each instruction as it is copied, with the place behind it. A value's place is None where it isn't known: behind a branch that is
always taken, and at the start of a block with parameters.
"""

ONE, TWO = (1, 1), (2, 1)
# how many values each plain instruction takes and makes
TAKES = {
    0x01: (0, 0), 0x1A: (1, 0), 0x1B: (3, 1), 0x1C: (3, 1), 0x20: (0, 1), 0x21: (1, 0), 0x22: ONE, 0x23: (0, 1), 0x24: (1, 0), 0x3F: (0, 1), 0x40: ONE,
    **dict.fromkeys(range(0x28, 0x36), ONE), **dict.fromkeys(range(0x36, 0x3F), (2, 0)), **dict.fromkeys(range(0x41, 0x45), (0, 1)),
    **dict.fromkeys(range(0x45, 0x67), TWO), **dict.fromkeys(range(0x67, 0xC5), TWO), 0x45: ONE, 0x50: ONE,
    **dict.fromkeys((*range(0x67, 0x6A), *range(0x79, 0x7C), *range(0x8B, 0x92), *range(0x99, 0xA0), *range(0xA7, 0xC5)), ONE),
}
BLOCK, LOOP, IF, ELSE, END, BR, BR_IF, BR_TABLE, RETURN, UNREACHABLE = 0x02, 0x03, 0x04, 0x05, 0x0B, 0x0C, 0x0D, 0x0E, 0x0F, 0x00
ALWAYS_LEAVES = (BR, BR_TABLE, RETURN, UNREACHABLE)


class Operands:
    """The stack of a function: the place of each value, and for each open block where its values begin."""

    def __init__(self, types, results):
        self.types, self.places = types, []
        # of each block: where its values begin, how many values a branch to it carries, its parameters and its results
        self.blocks = [(0, results, 0, results)]

    def take(self):
        """The place of the value on top, which is taken off."""
        return self.places.pop() if len(self.places) > self.blocks[-1][0] else None

    def take_many(self, count):
        return [self.take() for _ in range(count)]

    def plain(self, opcode, place):
        takes, makes = TAKES[opcode]
        self.take_many(takes)
        self.places += [place] * makes

    def call(self, kind, place):
        """A call of a function of this type."""
        takes, makes = self.types[kind]
        self.take_many(takes)
        self.places += [place if makes == 1 else None] * makes

    def counts(self, kind):
        """How many values a block takes and makes, by its type: none, one, or as a function's."""
        return self.types[kind] if kind >= 0 else (0, 0 if kind == -64 else 1)

    def control(self, opcode, immediate, place):
        """A block's beginning or end, or a branch."""
        if opcode in (BLOCK, LOOP, IF):
            takes, makes = self.counts(immediate)
            self.take_many(takes + (opcode == IF))
            self.blocks.append((len(self.places), takes if opcode == LOOP else makes, takes, makes))
            self.places += [None] * takes
        elif opcode == ELSE:
            begin, _, takes, _ = self.blocks[-1]
            self.places[begin:] = [None] * takes
        elif opcode == END:
            begin, _, _, makes = self.blocks.pop()
            self.places[begin:] = [place if makes == 1 else None] * makes
        elif opcode in ALWAYS_LEAVES:
            del self.places[self.blocks[-1][0]:]
        else:
            self.branch(immediate, place)

    def branch(self, label, place):
        """A branch that may be taken: what it carries has to stay as it is up to here, so it counts as made here."""
        self.take()
        carried = self.blocks[-1 - label][1]
        kept = self.take_many(carried)
        self.places += [place if carried == 1 else None for _ in kept]
