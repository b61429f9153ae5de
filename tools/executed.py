"""How often each line of a source was executed: from an image, its map, and the lines of `run --counts`."""
import bisect
import collections
import os
import re

import found_tests
import siblings

join = siblings.tool("join")
CODE_BASE = 0x10000
# of each version the length of the header, and where the length of the code stands
HEADERS, CODE_LENGTH = {1: 24, 2: 28}, 12
CONDITIONAL = 0x63

Count = collections.namedtuple("Count", "executed left within")
# what begins at an address: its line of the joined text, and whether a check or a call is in it
Range = collections.namedtuple("Range", "address line")
# a function: its name, its first and last address, and the line of its name
Function = collections.namedtuple("Function", "name first last line")
Call = collections.namedtuple("Call", "at callee")
Branch = collections.namedtuple("Branch", "at line taken passed")
# a stack of calls: the number of the one around its innermost call, that call, and the instructions that were executed with just these calls
Stack = collections.namedtuple("Stack", "around at executed")
# how many functions of a stack are shown
MOST_SHOWN = 100


def words_of(image):
    """The instructions of an image."""
    number = lambda at: int.from_bytes(image[at : at + 4], "little")
    start = HEADERS[number(4)]
    return [number(at) for at in range(start, start + number(CODE_LENGTH), 4)]


def heads_of(text):
    """The line of each function's name."""
    tokens = [it for it in found_tests.tokens_of(text) if it.kind not in ("blank", "comment")]
    found, depth = {}, 0
    for at, token in enumerate(tokens):
        depth += {b"{": 1, b"}": -1}.get(token.text, 0) if token.kind == "sign" else 0
        follows = tokens[at + 1].text if at + 1 < len(tokens) else b""
        if depth == 0 and token.kind == "word" and follows == b"(":
            found.setdefault(token.text.decode(), text.count(b"\n", 0, token.at) + 1)
    return found


class Profile:
    """A run: what its map and its counts say."""

    def __init__(self, text, image, rows, counted):
        self.words, self.heads = words_of(image), heads_of(text)
        self.functions, self.ranges, self.calls, self.checked = [], [], {}, set()
        self.read_map(rows)
        self.starts = [it.address for it in self.ranges]
        self.counts, self.unfinished, self.stacks = {}, collections.Counter(), []
        self.read_counts(counted)

    def read_map(self, rows):
        for row in rows.splitlines():
            kind, address, *rest = row.split(" ")
            at = int(address, 16)
            if kind == "function":
                name = rest[3]
                self.functions.append(Function(name, at, int(rest[0], 16), self.heads.get(name, 1)))
            elif kind == "line":
                self.ranges.append(Range(at, int(rest[0].partition(":")[0])))
            elif kind == "raise":
                self.checked.add(self.ranges[-1].address)
            elif kind == "call":
                self.calls[at] = Call(at, rest[1])

    def read_counts(self, counted):
        for row in counted:
            kind, address, *numbers = row.split(" ")
            if kind == "count":
                self.counts[int(address, 16)] = Count(*map(int, numbers))
            elif kind == "stack":
                around, at, executed = numbers
                self.stacks.append(Stack(int(around), int(at, 16), int(executed)))
            elif kind == "active":
                self.unfinished[int(address, 16)] += int(numbers[0])

    def executed(self, at):
        return self.counts[at].executed if at in self.counts else 0

    def range_at(self, at, function):
        """What the instruction at an address of a function is of; none of its beginning."""
        number = bisect.bisect_right(self.starts, at) - 1
        found = self.ranges[number] if number >= 0 else None
        return found if found and found.address >= function.first else None

    def line_at(self, at, function):
        found = self.range_at(at, function)
        return found.line if found else function.line

    def lines(self):
        """How often each line with code was executed: as often as what is executed most of what begins in it."""
        found = {}
        for it in self.ranges:
            found[it.line] = max(found.get(it.line, 0), self.executed(it.address))
        return found

    def branches(self):
        """The conditional branches of conditions, and not of checks, with how often each way was gone."""
        for function in self.functions:
            for at in range(function.first, function.last + 4, 4):
                here = self.range_at(at, function)
                if self.words[(at - CODE_BASE) // 4] & 0x7F == CONDITIONAL and here and here.address not in self.checked:
                    count = self.counts.get(at, Count(0, 0, 0))
                    yield Branch(at, here.line, count.left, count.executed - count.left)

    def cost(self, function):
        """The executed instructions of each line of a function."""
        found = collections.Counter()
        for at in range(function.first, function.last + 4, 4):
            if at in self.counts:
                found[self.line_at(at, function)] += self.executed(at)
        return found

    def calls_of(self, function):
        """The calls of a function that were made, with their line, how often, and the instructions that were executed in them."""
        for call in self.calls.values():
            if function.first <= call.at <= function.last and call.at in self.counts:
                count = self.counts[call.at]
                yield call.callee, self.line_at(call.at, function), count.executed, count.within + self.unfinished[call.at]


def by_part(parts, lines):
    """Values of lines of the joined text, by part: of each the path, and pairs of its own line and the value."""
    found = {path: [] for path, _ in parts}
    for line, value in lines:
        path, own = join.place_of(parts, line)
        found[path].append((own, value))
    return found


def percent(hit, found):
    return f"{100 * hit / found:.1f}%" if found else "none"


def lcov(profile, parts):
    """The tracefile of lcov: https://ltp.sourceforge.net's format, of lines, functions and branches."""
    lines = by_part(parts, profile.lines().items())
    functions = by_part(parts, [(it.line, (it.name, profile.executed(it.first))) for it in profile.functions])
    branches = by_part(parts, [(it.line, it) for it in profile.branches()])
    rows = []
    for path, _ in parts:
        rows += ["TN:", f"SF:{os.path.abspath(path)}"]
        rows += [f"FN:{line},{name}" for line, (name, _) in functions[path]]
        rows += [f"FNDA:{count},{name}" for _, (name, count) in functions[path]]
        rows += [f"FNF:{len(functions[path])}", f"FNH:{sum(count > 0 for _, (_, count) in functions[path])}"]
        hit = 0
        for block, (line, it) in enumerate(branches[path]):
            ways = (it.taken, it.passed)
            hit += sum(way > 0 for way in ways)
            rows += [f"BRDA:{line},{block},{at},{way if sum(ways) else '-'}" for at, way in enumerate(ways)]
        rows += [f"BRF:{2 * len(branches[path])}", f"BRH:{hit}"]
        rows += [f"DA:{line},{count}" for line, count in sorted(lines[path])]
        rows += [f"LF:{len(lines[path])}", f"LH:{sum(count > 0 for _, count in lines[path])}", "end_of_record"]
    return "\n".join(rows) + "\n"


def callgrind(profile, parts, command):
    """The format of callgrind, of lines and calls: callgrind_annotate and kcachegrind read it."""
    place = lambda line: join.place_of(parts, line)
    total = sum(it.executed for it in profile.counts.values())
    rows = ["version: 1", "creator: cycc", f"cmd: {command}", "positions: line", "events: Instructions", f"summary: {total}", ""]
    heads = {it.name: it for it in profile.functions}
    before = sum(it.executed for at, it in profile.counts.items() if not any(f.first <= at <= f.last for f in profile.functions))
    if "main" in heads:
        path, line = place(heads["main"].line)
        rows += [f"fl={os.path.abspath(path)}", "fn=(start)", f"1 {before}", "cfn=main", f"calls=1 {line}", f"1 {total - before}", ""]
    for function in profile.functions:
        costs = profile.cost(function)
        if costs:
            rows += [f"fl={os.path.abspath(place(function.line)[0])}", f"fn={function.name}"]
            rows += [f"{place(line)[1]} {cost}" for line, cost in sorted(costs.items())]
            for callee, line, times, within in profile.calls_of(function):
                path, head = place(heads[callee].line)
                rows += [f"cfl={os.path.abspath(path)}", f"cfn={callee}", f"calls={times} {head}", f"{place(line)[1]} {within}"]
            rows.append("")
    return "\n".join(rows) + "\n"


def folded(profile):
    """The executed instructions of each stack of calls, a line each, as flamegraph.pl and speedscope read it. A function that calls itself stands once in a
    row, and of a stack the outermost functions are shown."""
    shown, found = [], {}
    for stack in profile.stacks:
        names = ("(start)",)
        if shown:
            around, name = shown[stack.around], profile.calls[stack.at].callee if stack.at in profile.calls else "main"
            names = around if name == around[-1] or len(around) == MOST_SHOWN else (*around, name)
        shown.append(names)
        found[names] = found.get(names, 0) + stack.executed
    return "".join(f"{';'.join(names)} {count}\n" for names, count in found.items() if count)


def summary(profile):
    """One line: how many lines, functions and branches were reached."""
    lines, ways = profile.lines(), [way for it in profile.branches() for way in (it.taken, it.passed)]
    reached = [profile.executed(it.first) for it in profile.functions]
    hit = lambda values: percent(sum(it > 0 for it in values), len(values))
    return f"coverage: {hit(lines.values())} of {len(lines)} lines, {hit(reached)} of {len(reached)} functions, {hit(ways)} of {len(ways)} ways of branches"
