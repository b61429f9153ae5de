"""The code of the proved libraries, as the kit keeps it beside each proof: what calls what, and what types hold.

A library is a folder `NAME.rlib`. In it, toolchain/mir.json has the code of all its functions, and interface/toolchain/mir.json those that other crates may
call. A call names a function, or a method of an implementation of a trait, with the implementations that it is given. So what a call reaches is known but
for what a caller gives: its own reader, writer or store. Nothing is known of what tests say: each branch counts as if it were taken.

A node is one of:

- ("function", its name, the implementations that it is given);
- ("given", a trait, the number of a method): a method of what the caller gives;
- ("foreign", a symbol): a function in C;
- ("unknown", a sentence): what this can't follow.
"""
import functools
import json
import os
import pathlib
import re
import shutil
import sys

sys.dont_write_bytecode = True
import crates

# An implementation that is given implementations, and so on: no code of today goes deeper than four.
DEEPEST = 10
PUBLIC = re.compile(r'\["([^"]+)",\{"lifetimes":\d+,"outlives":')


class Differs(Exception):
    """A library isn't there, or not as this knows it."""


def branched(words):
    """A function's code as a tree: (`Seq`, a, b), (`If`, test, a, b), (`Switch`, what, pairs of values and code), (`Block`, a), (`Loop`, a) or (`Leaf`, it)."""
    words = iter(words)

    def next_one():
        word = next(words)
        if word == "Seq":
            return word, next_one(), next_one()
        if word in ("Block", "Loop"):
            return word, next_one()
        if isinstance(word, dict) and "If" in word:
            return "If", word["If"], next_one(), next_one()
        if isinstance(word, dict) and "Switch" in word:
            what, values, has_rest = word["Switch"]
            return "Switch", what, [(it, next_one()) for it in [*values, *[None] * has_rest]]
        return "Leaf", word

    found = next_one()
    if next(words, None) is not None:
        raise Differs("the code of a function isn't as this script knows it")
    return found


def parts(it, names):
    """All parts of a function's code with one of these names."""
    if isinstance(it, dict):
        for name, inner in it.items():
            if name in names:
                yield name, inner
            yield from parts(inner, names)
    elif isinstance(it, list):
        for inner in it:
            yield from parts(inner, names)


def shown(of):
    """A type, in short."""
    if isinstance(of, str):
        return of
    name, inner = next(iter(of.items()))
    if name == "Named":
        given = [shown(it) for it in inner[1]]
        return inner[0]["name"].rpartition("::")[2] + (f"<{', '.join(given)}>" if given else "")
    if name == "Ref":
        return ("&" if inner[1] == "Imm" else "&mut ") + shown(inner[2])
    if name == "Struct":
        return f"({', '.join(shown(it) for it in inner[1])})"
    return f"u{inner}" if name == "Int" else name


def name_of(of):
    """The name of a struct or an enum."""
    return of["Named"][0]["name"] if isinstance(of, dict) and "Named" in of else None


def with_types(of, given):
    """A type with these in place of its parameters."""
    if isinstance(of, dict):
        return given[of["Param"]] if "Param" in of else {kind: with_types(inner, given) for kind, inner in of.items()}
    return [with_types(it, given) for it in of] if isinstance(of, list) else of


class Code:
    """All libraries that are asked for; those of the kit are read when something of them is called."""

    def __init__(self, names, top=crates.TOP):
        self.functions, self.methods, self.types, self.public = {}, {}, {}, {}
        self.own, self.top, self.read = set(names), top, set()
        self.kit = pathlib.Path(os.path.realpath(shutil.which("rt"))).parent.parent / "rlibs"
        for name in names:
            self.library(name)

    def place(self, name):
        return self.top / "crates" / name / "out" / "rlib" / f"{name}.rlib" if name in self.own else self.kit / f"{name}.rlib"

    def rows(self, name, part):
        try:
            return json.loads((self.place(name) / part / "toolchain" / "mir.json").read_text())
        except (OSError, ValueError) as why:
            raise Differs(f"the proved library {name} can't be read: {why}") from why

    def library(self, name):
        """Reads a library, once."""
        if name in self.read:
            return
        self.read.add(name)
        for function, it in self.rows(name, "."):
            self.functions[function] = it
            of = it["generics"]["method_of"]
            if isinstance(of, dict) and "Impl" in of:
                self.methods[tuple(of["Impl"])] = function
            self.know(it)
        if name in self.own:
            text = (self.place(name) / "interface" / "toolchain" / "mir.json").read_text()
            # (of what is public only the names are looked at, since the code is above)
            self.public |= {it: self.functions[it] for it in PUBLIC.findall(text) if it in self.functions and not it.endswith("+decl")}

    def know(self, it):
        for of in it["types"]:
            self.types.setdefault(of["name"], of["shape"])

    def library_of(self, name):
        """Reads the library that has this function or implementation."""
        first = name.partition("::")[0]
        if first in self.own or (self.kit / f"{first}.rlib").is_dir():
            self.library(first)

    @functools.lru_cache(maxsize=None)
    def calls(self, name):
        return list(parts(self.functions[name]["body"], {"Fn", "Method", "Foreign", "CallV", "VtMethod"}))

    def given(self, it, around):
        """An implementation, in a function that is given others."""
        if "Given" in it:
            return around[it["Given"]]
        name, _, inner = it["Impl"]
        return "impl", name, tuple(self.given(one, around) for one in inner)

    def called(self, kind, what, around):
        """What a call leads to."""
        if kind == "Foreign":
            return "foreign", what["symbol"]
        if kind == "Fn":
            return "function", what[0], tuple(self.given(it, around) for it in what[1]["dicts"])
        if kind != "Method":
            return "unknown", "a call through a value"
        of, number, more = self.given(what[0], around), what[1], what[2]["dicts"]
        if of[0] == "given":
            return "given", of[1], number
        self.library_of(of[1])
        method = self.methods.get((of[1], number))
        if method is None:
            return "unknown", f"method {number} of {of[1]}"
        return "function", method, of[2] + tuple(self.given(it, around) for it in more)

    def next_nodes(self, node):
        """What a node calls."""
        if node[0] != "function":
            return []
        _, name, around = node
        if max(map(self.depth, around), default=0) > DEEPEST:
            return [("unknown", f"{name} is given too much")]
        self.library_of(name)
        if name not in self.functions:
            return [("unknown", f"{name} has no code")]
        return [self.called(kind, what, around) for kind, what in self.calls(name)]

    def depth(self, of):
        return 1 + max(map(self.depth, of[2]), default=0) if of[0] == "impl" else 0

    def start(self, name):
        """The node of a public function, whose caller gives what its bounds ask for."""
        bounds = self.public[name]["generics"]["bounds"]
        return "function", name, tuple(("given", it["of"]) for it in bounds)

    def graph(self, nodes):
        """All nodes that these reach, with what each calls."""
        found, left = {}, list(nodes)
        while left:
            node = left.pop()
            if node not in found:
                found[node] = self.next_nodes(node)
                left += found[node]
        return found

    def type_of(self, function, place):
        """The type of what is in a place of a function, or None where this can't say it."""
        of, variant = function["locals"][place["local"]]["ty"], None
        for step in place["steps"]:
            kind, inner = next(iter(step.items()))
            if kind == "Variant":
                variant = inner
            elif kind == "Deref":
                of, variant = inner, None
            elif kind == "Field" and name_of(of) in self.types:
                of, variant = self.field(of, variant, inner), None
            else:
                return None
        return of

    def field(self, of, variant, number):
        """The type of a field of a struct, or of a variant, whose field 0 is its number."""
        shape, given = self.types[name_of(of)], of["Named"][1]
        if variant is None:
            return with_types(shape["Fields"][number], given)
        return with_types(shape["Variants"][variant][number - 1], given) if number else None

    def held(self, of, inside=frozenset()):
        """The names of the types that a type has in it."""
        if isinstance(of, (str, int)):
            return set()
        if isinstance(of, list):
            return set().union(*(self.held(it, inside) for it in of))
        found = set()
        for kind, inner in of.items():
            if kind == "Named":
                name = inner[0]["name"]
                more = self.types[name] if name in self.types and name not in inside else []
                found |= {name} | self.held(inner[1], inside) | self.held(more, inside | {name})
            elif isinstance(inner, (list, dict)):
                # (a reference begins with its lifetime)
                found |= self.held(inner[2] if kind == "Ref" else inner, inside)
        return found


def reaching(graph, seeds):
    """The nodes from which one of these is reached, themselves among them."""
    callers = {}
    for node, called in graph.items():
        for it in called:
            callers.setdefault(it, []).append(node)
    found, left = set(seeds), list(seeds)
    while left:
        for it in callers.get(left.pop(), []):
            if it not in found:
                found.add(it)
                left.append(it)
    return found
