"""Makes of a WebAssembly module with addresses of 64 bits one with addresses of 32 bits, which every engine of today knows.

The program keeps its 64 bits: a pointer is an i64 in its variables and in memory. Only where memory or the table is accessed, the address is cut
to 32 bits by i32.wrap_i64. The module never has more than 4 GiB, so each address that it uses is one of 32 bits already. What is changed:

- The memory and the table are declared with indices of 32 bits, and the offsets of their segments are i32.
- In front of a load, of call_indirect and of memory.grow an i32.wrap_i64 is put. The address of a store lies below other values, and so do those of
  memory.copy and memory.fill: they are cut where they are made (`Operands`), or where that isn't known, the values above are put aside meanwhile.
- The results of memory.size and memory.grow are made i64 again.
- Sections of names and of the like are left out.

`Unknown` is raised at anything else that depends on the width, so that nothing is passed on half changed.
"""
from operands import Operands

I32, I64, F32, F64 = 0x7F, 0x7E, 0x7D, 0x7C
WRAP, EXTEND_SIGNED, EXTEND_UNSIGNED = 0xA7, 0xAC, 0xAD
LOCAL_GET, LOCAL_SET = 0x20, 0x21
# the type of the value of each store, from i32.store on
STORED = dict(zip(range(0x36, 0x3F), (I32, I64, F32, F64, I32, I32, I64, I64, I64)))
LOADS = range(0x28, 0x36)
BLOCKS = (0x02, 0x03, 0x04)
# one index: br, br_if, call, the locals and the globals
ONE_INDEX = (0x0C, 0x0D, 0x10, 0x20, 0x21, 0x22, 0x23, 0x24)
# the beginnings and ends of blocks, and the branches
CONTROL = (0x00, 0x02, 0x03, 0x04, 0x05, 0x0B, 0x0C, 0x0D, 0x0E, 0x0F)
# nothing behind them: unreachable, nop, else, end, return, drop, select, and all comparisons, sums and conversions
ALONE = (0x00, 0x01, 0x05, 0x0B, 0x0F, 0x1A, 0x1B, *range(0x45, 0xC5))


class Unknown(Exception):
    """The module has something that this doesn't know."""


def number(data, at):
    """An unsigned LEB128, and where it ends."""
    value = shift = 0
    while True:
        byte = data[at]
        at += 1
        value |= (byte & 0x7F) << shift
        if byte < 0x80:
            return value, at
        shift += 7


def leb(value):
    out = bytearray()
    while value >= 0x80:
        out.append(value & 0x7F | 0x80)
        value >>= 7
    out.append(value)
    return bytes(out)


def signed(data, at):
    """A signed LEB128, and where it ends."""
    start = at
    value, at = number(data, at)
    bits = 7 * (at - start)
    return (value - (1 << bits) if data[at - 1] & 0x40 else value), at


def signed_leb(value):
    out = bytearray()
    while not -64 <= value < 64:
        out.append(value & 0x7F | 0x80)
        value >>= 7
    out.append(value & 0x7F)
    return bytes(out)


class Locals:
    """The locals of a function: those that it has, and one more of each type that is asked for."""

    def __init__(self, count):
        self.count, self.added = count, []

    def of(self, kind, which=0):
        if (kind, which) not in self.added:
            self.added.append((kind, which))
        return leb(self.count + self.added.index((kind, which)))


def cut(out, places):
    """Cuts values where they were made. The places of values that lie higher come first, so that the others stay."""
    for place in sorted(places, reverse=True):
        out.insert(place, WRAP)


def store(out, stack, slots, kind):
    """What stands in front of a store: the address below the value is cut."""
    _, address = stack.take_many(2)
    if address is not None:
        cut(out, [address])
        return
    place = slots.of(kind)
    out += bytes([LOCAL_SET]) + place + bytes([WRAP, LOCAL_GET]) + place


def bulk(out, data, at, stack, slots):
    """memory.copy and memory.fill: two addresses, or one and a byte, and a length of 64 bits on top."""
    kind, end = number(data, at)
    if kind <= 7:
        stack.plain(0x22, None)
        out += bytes([0xFC]) + data[at:end]
        stack.places[-1] = len(out)
        return end
    if kind not in (10, 11) or any(data[end:end + 12 - kind]):
        raise Unknown(f"the instruction fc {kind}")
    end += 12 - kind
    length, second, first = stack.take_many(3)
    wide = [length, second, first] if kind == 10 else [length, first]
    if None not in wide:
        cut(out, wide)
    else:
        lower, upper = slots.of(I64 if kind == 10 else I32), slots.of(I64, 1)
        out += bytes([LOCAL_SET]) + upper + bytes([LOCAL_SET]) + lower + bytes([WRAP, LOCAL_GET]) + lower
        out += bytes([WRAP] * (kind == 10)) + bytes([LOCAL_GET]) + upper + bytes([WRAP])
    out += bytes([0xFC]) + data[at:end]
    return end


def access(out, data, at):
    """The alignment and the offset of a load or a store."""
    align, at = number(data, at)
    offset, at = number(data, at)
    if align > 16 or offset >= 1 << 32:
        raise Unknown(f"an access with the alignment {align} and the offset {offset}")
    out += leb(align) + leb(offset)
    return at


def plain(out, opcode, data, at):
    """An instruction that doesn't depend on the width: it is copied, its indices as short as they can be. Its first index is answered too."""
    out.append(opcode)
    value = None
    if opcode in ALONE:
        return at, value
    if opcode in ONE_INDEX:
        value, at = number(data, at)
        out += leb(value)
    elif opcode in BLOCKS or opcode in (0x41, 0x42):
        value, at = signed(data, at)
        out += signed_leb(value)
    elif opcode in (0x43, 0x44):
        end = at + (4 if opcode == 0x43 else 8)
        out += data[at:end]
        at = end
    elif opcode in (0x0E, 0x1C):
        count, at = number(data, at)
        out += leb(count)
        for _ in range(count + (opcode == 0x0E)):
            index, at = number(data, at)
            out += leb(index)
    else:
        raise Unknown(f"the instruction {opcode:#04x}")
    return at, value


def of_table(out, data, at, stack):
    """call_indirect: its type, and the table 0."""
    kind, at = number(data, at)
    table, at = number(data, at)
    if table:
        raise Unknown("a second table")
    out += bytes([WRAP, 0x11]) + leb(kind) + leb(table)
    stack.take()
    stack.call(kind, len(out))
    return at


def of_memory(out, opcode, data, at, stack, slots):
    """A load, a store, memory.size or memory.grow."""
    if opcode in (0x3F, 0x40):
        out += bytes([0x3F, 0, EXTEND_UNSIGNED] if opcode == 0x3F else [WRAP, 0x40, 0, EXTEND_SIGNED])
        at += 1
    elif opcode in LOADS:
        out += bytes([WRAP, opcode])
        at = access(out, data, at)
    else:
        store(out, stack, slots, STORED[opcode])
        out.append(opcode)
        return access(out, data, at)
    stack.plain(opcode, len(out))
    return at


def code(data, at, end, slots, stack, calls):
    """The instructions of a function, changed. `calls` has the type of each function."""
    out = bytearray()
    while at < end:
        opcode = data[at]
        at += 1
        if 0x28 <= opcode <= 0x40:
            at = of_memory(out, opcode, data, at, stack, slots)
        elif opcode == 0x11:
            at = of_table(out, data, at, stack)
        elif opcode == 0xFC:
            at = bulk(out, data, at, stack, slots)
        else:
            at, index = plain(out, opcode, data, at)
            if opcode == 0x10:
                stack.call(calls[index], len(out))
            elif opcode in CONTROL:
                stack.control(opcode, index, len(out))
            else:
                stack.plain(opcode, len(out))
    return bytes(out)


def function(data, at, end, kind, types, calls):
    """A function's locals and instructions, changed."""
    parameters, results = types[kind]
    groups, at = number(data, at)
    count, kept = parameters, b""
    for _ in range(groups):
        many, at = number(data, at)
        kept += leb(many) + data[at:at + 1]
        count, at = count + many, at + 1
    slots = Locals(count)
    body = code(data, at, end, slots, Operands(types, results), calls)
    added = b"".join(leb(1) + bytes([kind]) for kind, _ in slots.added)
    return leb(groups + len(slots.added)) + kept + added + body


def codes(data, types, calls, imported):
    """The section of code. `calls` has the type of each function, of which the first ones are imported."""
    count, at = number(data, 0)
    out = [leb(count)]
    for which in range(count):
        size, at = number(data, at)
        body = function(data, at, at + size, calls[imported + which], types, calls)
        out += [leb(len(body)), body]
        at += size
    return b"".join(out)


def limits(data):
    """The section of memories or of tables, with one entry, whose indices are made 32 bits wide."""
    count, at = number(data, 0)
    if count != 1:
        raise Unknown(f"{count} memories, or tables")
    kind = data[at:at + 1] if data[at] == 0x70 else b""
    at += len(kind)
    flags, at = number(data, at)
    if not flags & 4:
        raise Unknown("a memory or a table whose indices have 32 bits already")
    sizes = []
    while at < len(data):
        value, at = number(data, at)
        sizes.append(min(value, 65536 if not kind else (1 << 32) - 1))
    return leb(count) + kind + leb(flags & ~4) + b"".join(map(leb, sizes))


def segments(data, is_data):
    """The section of elements or of data: each with an offset that is a constant."""
    count, at = number(data, 0)
    out = bytearray(leb(count))
    for _ in range(count):
        flags, at = number(data, at)
        if flags or data[at] not in (0x41, 0x42):
            raise Unknown(f"a segment with the flags {flags}")
        value, at = signed(data, at + 1)
        if data[at] != 0x0B:
            raise Unknown("a segment whose offset is no constant")
        value = value & 0xFFFFFFFF
        out += leb(flags) + b"\x41" + signed_leb(value - (1 << 32) if value >> 31 else value) + b"\x0b"
        many, start = number(data, at + 1)
        at = start + many
        if is_data:
            out += leb(many) + data[start:at]
            continue
        at = start
        out += leb(many)
        for _ in range(many):
            value, at = number(data, at)
            out += leb(value)
    return bytes(out)


def sections(module):
    """The number and the bytes of each section, but of those of names and the like."""
    if module[:8] != b"\0asm\1\0\0\0":
        raise Unknown("no WebAssembly module")
    at = 8
    while at < len(module):
        kind = module[at]
        size, at = number(module, at + 1)
        if kind:
            yield kind, module[at:at + size]
        at += size


def counts_of_types(data):
    """How many parameters and results each type of a function has."""
    count, at = number(data, 0)
    found = []
    for _ in range(count):
        if data[at] != 0x60:
            raise Unknown("a type that is no function's")
        many, at = number(data, at + 1)
        results, at = number(data, at + many)
        found.append((many, results))
        at += results
    return found


def imports(data):
    """The types of the imported functions. No memory and no table is imported."""
    count, at = number(data, 0)
    found = []
    for _ in range(count):
        for _ in range(2):
            size, at = number(data, at)
            at += size
        if data[at] != 0:
            raise Unknown("an import that is no function")
        kind, at = number(data, at + 1)
        found.append(kind)
    return found


def functions(data):
    """The types of the module's own functions."""
    count, at = number(data, 0)
    found = []
    for _ in range(count):
        kind, at = number(data, at)
        found.append(kind)
    return found


def narrow(module):
    """The module with addresses of 32 bits."""
    out, types, imported, calls = [module[:8]], [], [], []
    for kind, data in sections(module):
        if kind == 1:
            types = counts_of_types(data)
        elif kind == 2:
            imported = imports(data)
        elif kind == 3:
            calls = imported + functions(data)
        elif kind in (4, 5):
            data = limits(data)
        elif kind in (9, 11):
            data = segments(data, kind == 11)
        elif kind == 10:
            data = codes(data, types, calls, len(imported))
        elif kind not in (6, 7, 12):
            raise Unknown(f"a section {kind}")
        out += [bytes([kind]), leb(len(data)), data]
    return b"".join(out)
