"""What the scripts of this folder share: the lines of crates.txt, the seconds of docs/GATE.md, and how crates are put one after the other."""
import pathlib
import re

TOP = pathlib.Path(__file__).resolve().parent.parent
GATE = TOP / "docs" / "GATE.md"
# What a crate without a figure is taken to cost, in processor seconds, beside its lines of code.
LEAST = 10
# How much a further job adds to the speed of a check, of what the first one has.
FURTHER = 0.6
# From how many seconds on further jobs pay: each of them reads all crates below anew.
LONG = 60


def groups():
    """The headings of crates.txt with the crates below each, in the order of the file."""
    found = []
    for line in (TOP / "crates.txt").read_text().splitlines():
        heading = re.fullmatch(r"## (.*)", line)
        if heading:
            found.append((heading[1], []))
        elif ":" in line and not line.startswith("#"):
            found = found or [("", [])]
            found[-1][1].append(line.partition(":")[0].split()[0])
    return found


def uses():
    """The crates of this repository that each crate's line names. Those of the kit are left out."""
    lines = [line.partition("#")[0] for line in (TOP / "crates.txt").read_text().splitlines()]
    named = {line.partition(":")[0].split()[0]: line.partition(":")[2].split() for line in lines if ":" in line}
    return {name: [it for it in below if it in named] for name, below in named.items()}


def below(graph, top):
    """A crate and all that it stands on."""
    found, left = set(), [top]
    while left:
        name = left.pop()
        if name not in found:
            found.add(name)
            left += graph[name]
    return found


def lines_of(name):
    """How many lines of code a crate has, contracts among them."""
    return sum(len(file.read_text().splitlines()) for file in (TOP / "crates" / name / "src").rglob("*.rt"))


def seconds():
    """The processor seconds of each crate's proof by the table of docs/GATE.md, and a guess by its lines where the table has none."""
    found = {}
    if GATE.exists():
        for row in re.finditer(r"^\| `(\w+)` \| *(\d+) *\|", GATE.read_text(), re.MULTILINE):
            found.setdefault(row[1], int(row[2]))
    return {name: found.get(name) or LEAST + lines_of(name) // 8 for name in uses()}


def rests(graph, cost):
    """The seconds of the longest way up from each crate, itself among them."""
    found = {}

    def rest(name):
        if name not in found:
            found[name] = cost[name] + max((rest(it) for it in graph if name in graph[it]), default=0)
        return found[name]

    for name in graph:
        rest(name)
    return found


def shares(ready, rest, cost, free, most=4):
    """How many jobs each of these crates gets at once: one each, those with the longest rest first, and to the first long one what nobody else can use."""
    first = sorted(ready, key=lambda it: -rest[it])[:max(free, 0)]
    given, spare = {name: 1 for name in first}, free - len(first)
    for name in first:
        more = min(max(spare, 0), most - 1) if cost[name] >= LONG else 0
        given[name] += more
        spare -= more
    return given


def schedule(graph, cost, cores, most=4):
    """The seconds of clock that these crates take where they are proved in the order of `shares`."""
    rest, left, done, going, clock = rests(graph, cost), dict(cost), set(), {}, 0.0
    while len(done) < len(graph):
        ready = [it for it in graph if it not in done and it not in going and all(d in done for d in graph[it])]
        going.update(shares(ready, rest, cost, cores - sum(going.values()), most))
        speed = {name: 1 + (jobs - 1) * FURTHER for name, jobs in going.items()}
        step = min(left[name] / speed[name] for name in going)
        for name in [*going]:
            left[name] -= step * speed[name]
            if left[name] < 1e-6:
                done.add(name)
                del going[name]
        clock += step
    return clock
