"""Requests of a store at random: which of them are refused is computed by the counts of docs/STORES.md, and what was answered is held to its laws."""
import random
import struct

PAGE = 4096
NEW, ALLOC, FREE, UNIQUE, UNIQUE_FREE, KEY, OPEN, CLOSE, KEY_FREE = range(4, 13)
LONGEST = 1 << 20


def class_of(size):
    return next(size_of for size_of in (32 << shift for shift in range(8)) if size <= size_of)


class Counts:
    """What a store holds, by counts alone; objects have the number of the request that made them."""

    def __init__(self, pages):
        self.fresh, self.freed = pages, 0
        self.regions = {0: [0, 0, True]}                 # pages, bytes left of the current one, whether it is a handle; number 0 is the heap
        self.keys, self.unique, self.classes = {}, {}, {}

    def page(self):
        if self.freed:
            self.freed -= 1
        elif self.fresh:
            self.fresh -= 1
        else:
            return False
        return True

    def make(self, number, is_key):
        if not self.page():
            return False
        self.regions[number] = [1, PAGE, not is_key]
        if is_key:
            self.keys[number] = "closed"
        return True

    def block(self, region, size):
        """Whether a block of a region is granted."""
        if size > LONGEST:
            return False
        size = max(8, (size + 7) // 8 * 8)
        held = self.regions[region]
        if size > PAGE:
            needed = -(-size // PAGE)
            if needed > self.fresh:
                return False
            self.fresh -= needed
            held[0] += needed
            return True
        if held[1] < size:
            if not self.page():
                return False
            held[0], held[1] = held[0] + 1, PAGE
        held[1] -= size
        return True

    def unique_block(self, number, size):
        if size > PAGE:
            return False
        slot = class_of(size)
        vacant = self.classes.setdefault(slot, 0)
        if not vacant:
            if not self.page():
                return False
            vacant = PAGE // slot
        self.classes[slot] = vacant - 1
        self.unique[number] = slot
        return True

    def free_unique(self, number):
        self.classes[self.unique.pop(number)] += 1

    def free(self, number):
        self.freed += self.regions.pop(number)[0]
        self.keys.pop(number, None)


def literal(number):
    return struct.pack("<BI", 0, number & 0xFFFFFFFF)


def answer_of(number):
    return struct.pack("<BI", 1, number)


def region(number):
    return answer_of(number) if number else literal(0)


NONE = literal(0)


class Sequence:
    """Requests up to the first that is refused, or up to a number of them: their bytes, the ending that the rules give, and what each was.

    Of the requests of a right kind that would be refused so many are left out: in a small arena almost each would be, and end the run.
    """

    def __init__(self, seed, pages, most, wrong, left_out=0.0):
        self.random = random.Random(seed)
        self.left_out = left_out
        self.counts = Counts(pages)
        self.bytes, self.ending, self.made = b"", "ended 0", [None]
        self.numbers, self.pages = 0, pages
        while self.numbers < most and self.ending == "ended 0":
            self.wrong_request() if self.random.random() < wrong else self.request()
        self.bytes += b"\xff"

    def ask(self, call, first, second, ending, what=None):
        """Appends a request; request n is the n-th from 1 on, and answers count from 0."""
        self.bytes += bytes([call]) + first + second
        self.ending = ending
        self.numbers += 1
        self.made.append(what)

    def asked(self, call, first, second, is_granted, what=None):
        if not is_granted and self.left_out and self.random.random() < self.left_out:
            return
        self.ask(call, first, second, "ended 0" if is_granted else "exhausted", what)

    def handles(self):
        return [number for number, held in self.counts.regions.items() if held[2]]

    def size(self):
        kind = self.random.random()
        if kind < 0.7:
            return self.random.randrange(0, 200)
        if kind < 0.95:
            return self.random.randrange(0, 4097)
        return self.random.choice([0, 8, 4088, 4089, 4096, 4097, 8192, self.random.randrange(4097, 60000), LONGEST, LONGEST + 1])

    def request(self):
        me, counts, pick = self.numbers + 1, self.counts, self.random
        lexical = [number for number in self.handles() if number and number not in counts.keys]
        closed = [number for number, state in counts.keys.items() if state == "closed"]
        opened = [number for number, state in counts.keys.items() if state == "open"]
        call = pick.choice([NEW, ALLOC, ALLOC, ALLOC, ALLOC, FREE, UNIQUE, UNIQUE, UNIQUE, UNIQUE_FREE, UNIQUE_FREE, KEY, OPEN, CLOSE, KEY_FREE])
        if call in (NEW, KEY):
            self.asked(call, NONE, NONE, counts.make(me, call == KEY), (call, me))
        elif call == ALLOC:
            chosen, size = pick.choice(self.handles()), self.size()
            self.asked(call, self.named(chosen), literal(size), counts.block(chosen, size), (call, chosen, max(8, (size + 7) // 8 * 8)))
        elif call == UNIQUE:
            size = min(self.size(), 4096) if pick.random() < 0.98 else 4097
            self.asked(call, literal(size), NONE, counts.unique_block(me, size), (call, me, size and class_of(min(size, 4096)) or 32))
        elif call == UNIQUE_FREE and counts.unique:
            chosen = pick.choice(list(counts.unique))
            counts.free_unique(chosen)
            self.asked(call, self.named(chosen), NONE, True, (call, chosen))
        elif call == FREE and lexical:
            self.end(call, pick.choice(lexical))
        elif call == KEY_FREE and closed:
            self.end(call, pick.choice(closed))
        elif call == OPEN and closed:
            self.turn(call, pick.choice(closed), "open")
        elif call == CLOSE and opened:
            self.turn(call, pick.choice(opened), "closed")

    def named(self, number):
        """A live object's number or address: what its request answered."""
        return answer_of(number - 1) if number else literal(0)

    def end(self, call, number):
        self.counts.free(number)
        self.asked(call, self.named(number), NONE, True, (call, number))

    def turn(self, call, number, state):
        self.counts.keys[number] = state
        self.counts.regions[number][2] = state == "open"
        self.asked(call, self.named(number), NONE, True, (call, number))

    def wrong_request(self):
        """A request that no state allows, or that the state doesn't."""
        pick, counts = self.random, self.counts
        wrong = [(FREE, literal(0)), (FREE, literal(4097)), (ALLOC, literal(pick.randrange(5000, 1 << 32))), (UNIQUE_FREE, literal(0)), (KEY_FREE, literal(0)),
                 (UNIQUE_FREE, literal(0x0FFFFFE0)), (OPEN, literal(0xFFFFFFFF)), (CLOSE, literal(0)), (14, literal(0)), (3, literal(3)), (13, literal(0))]
        for number, state in counts.keys.items():
            wrong += [(FREE, self.named(number)), (CLOSE if state == "closed" else OPEN, self.named(number))]
            wrong.append((ALLOC if state == "closed" else KEY_FREE, self.named(number)))
        wrong += [(call, self.named(number)) for number in self.handles() if number and number not in counts.keys for call in (OPEN, CLOSE, KEY_FREE, UNIQUE_FREE)]
        wrong += [(call, self.named(number)) for number in counts.unique for call in (FREE, OPEN)]
        call, first = pick.choice(wrong)
        self.ask(call, first, literal(1), "fault BadCall")

    def broken_laws(self, output, arena_at):
        """What of the answers breaks a law of docs/STORES.md; a text each."""
        answers = [word for (word,) in struct.iter_unpack("<I", output[: len(output) // 4 * 4])]
        live, blocks, found = {}, {}, []
        for number, answer in enumerate(answers, 1):
            call, owner, *rest = self.made[number]
            if call in (NEW, KEY):
                if answer == 0 or answer in live.values():
                    found.append(f"request {number}: the number {answer}")
                live[number] = answer
            elif call in (ALLOC, UNIQUE):
                low, high = answer, answer + rest[0]
                if low % 8 or low < arena_at or high > arena_at + self.pages * PAGE or any(low < end and begin < high for begin, end, _ in blocks.values()):
                    found.append(f"request {number}: the block at 0x{answer:08x}")
                blocks[number] = (low, high, owner if call == ALLOC else ("unique", number))
            elif call == UNIQUE_FREE:
                del blocks[owner]
            elif call in (FREE, KEY_FREE):
                del live[owner]
                blocks = {at: block for at, block in blocks.items() if block[2] != owner}
        return found
