"""The test functions of a source of several parts, found by its tokens: what tools/test_functions runs.

A test is `void test_NAME()` with a body. Comments of lines directly above it, and those between its `{` and its first token, may say more of its run: a
line `// input: TEXT` is what it reads, `// writes: TEXT` what it has to write, `// ends: TEXT` how it has to end, as `ended 0` or `raised Array_bounds`,
and `// pages: N`, `// stack-pages: N`, `// steps: N` what it has. In a text `\\n`, `\\t`, `\\\\` and `\\x` with two digits stand for a byte.
Several lines of one key are one text.
"""
import re

TOKEN = re.compile(rb"""
    (?P<comment> //[^\n]* | /\*.*?\*/ )
  | (?P<text> "(?:\\.|[^"\\\n])*" | '(?:\\.|[^'\\\n])*' )
  | (?P<word> `?[A-Za-z_][A-Za-z0-9_]* )
  | (?P<number> [0-9][A-Za-z0-9_]* )
  | (?P<blank> [\x20\t-\r]+ )
  | (?P<sign> . )""", re.VERBOSE | re.DOTALL)
NUMBERS = {"pages": "--pages", "stack-pages": "--stack-pages", "steps": "--steps"}
TEXTS = ("input", "writes", "ends")
ESCAPES = {b"n": b"\n", b"t": b"\t", b"r": b"\r", b"0": b"\0", b"\\": b"\\"}


class Wrong(Exception):
    """What is wrong with a test, with its offset in the text."""

    def __init__(self, at, why):
        super().__init__(why)
        self.at = at


class Token:
    def __init__(self, kind, text, at):
        self.kind, self.text, self.at = kind, text, at


class Test:
    """A test function: its name, the offset of the name in the text, and what its comments say."""

    def __init__(self, name, at, told):
        self.name, self.at = name, at
        self.input, self.writes = told.get("input", b""), told.get("writes")
        self.ends = told.get("ends", b"ended 0").decode(errors="replace")
        self.options = [word for key, option in NUMBERS.items() if key in told for word in (option, told[key].decode())]


def tokens_of(text):
    return [Token(it.lastgroup, it[0], it.start()) for it in TOKEN.finditer(text)]


def unescaped(text):
    """The bytes that a comment's text stands for."""
    return re.sub(rb"\\(?:x([0-9A-Fa-f]{2})|(.))", lambda it: bytes([int(it[1], 16)]) if it[1] else ESCAPES.get(it[2], it[0]), text)


def told_by(comments):
    """What the comments say of a run, by the keys."""
    found = {}
    for it in comments:
        said = re.fullmatch(rb"//\s*([a-z-]+): ?(.*)", it.text.rstrip(b"\r"))
        key = said[1].decode() if said else ""
        if key in TEXTS:
            found[key] = found.get(key, b"") + unescaped(said[2])
        elif key in NUMBERS:
            if not re.fullmatch(rb"[0-9]+", said[2].strip()):
                raise Wrong(it.at, f"'{key}' wants a number")
            found[key] = said[2].strip()
    return found


def lines_above(tokens, at):
    """The comments of whole lines directly above a token, without an empty line between."""
    found = []
    while at >= 2 and tokens[at - 1].kind == "blank" and tokens[at - 1].text.count(b"\n") == 1 and tokens[at - 2].text.startswith(b"//"):
        found.insert(0, tokens[at - 2])
        at -= 2
    return found


def comments_behind(tokens, at):
    """The comments from a token to the next one that is none."""
    found = []
    while at + 1 < len(tokens) and tokens[at + 1].kind in ("blank", "comment"):
        at += 1
        found += [tokens[at]] if tokens[at].kind == "comment" else []
    return found


def outer(tokens):
    """Where the tokens stand that are outside all braces, and those that open one there."""
    depth, found = 0, []
    for at, it in enumerate(tokens):
        if depth == 0 and it.kind not in ("blank", "comment"):
            found.append(at)
        depth += {b"{": 1, b"}": -1}.get(it.text, 0) if it.kind == "sign" else 0
    return found


def heads_of(tokens):
    """Of each function `NAME(..)` outside of braces: where its type's last token, its name and its `{` stand, and whether it has parameters."""
    places = outer(tokens)
    for k in range(1, len(places) - 2):
        name, opens = tokens[places[k]], tokens[places[k + 1]]
        if name.kind != "word" or opens.text != b"(":
            continue
        close = next((j for j in range(k + 2, len(places)) if tokens[places[j]].text == b")"), None)
        if close is None or close + 1 >= len(places) or tokens[places[close + 1]].text != b"{":
            continue
        inside = [tokens[places[j]].text for j in range(k + 2, close)]
        yield places[k - 1], places[k], places[close + 1], inside not in ([], [b"void"])


def tests_of(text):
    """The tests of a text, and the names and offsets of functions `test_..` that are none, since they have a result or parameters."""
    tokens, found, others = tokens_of(text), [], []
    for before, name, brace, has_parameters in heads_of(tokens):
        it = tokens[name]
        if not it.text.startswith(b"test_"):
            continue
        if has_parameters or tokens[before].text != b"void":
            others.append((it.text.decode(), it.at))
            continue
        comments = [*lines_above(tokens, before), *comments_behind(tokens, brace)]
        found.append(Test(it.text.decode(), it.at, told_by(comments)))
    return found, others


def has_main(text):
    tokens = tokens_of(text)
    return any(tokens[name].text == b"main" for _, name, _, _ in heads_of(tokens))


def end_of(tokens, brace):
    """Where the `}` stands that belongs to a `{`."""
    depth = 0
    for at in range(brace, len(tokens)):
        depth += {b"{": 1, b"}": -1}.get(tokens[at].text, 0) if tokens[at].kind == "sign" else 0
        if depth == 0:
            return at
    return None


def without_main(text):
    """The text with another name of four letters for each `main`, so that positions stay, and that name.

    At the end of that function stands a `return`, which only a `main` may leave out."""
    tokens = tokens_of(text)
    taken = {it.text for it in tokens if it.kind == "word"}
    letters = [bytes([it]) for it in range(ord("A"), ord("Z") + 1)]
    other = next(one + two + b"in" for one in [b"M", *letters] for two in [b"a", *letters] if one + two + b"in" not in taken)
    ends = {end_of(tokens, brace) for _, name, brace, _ in heads_of(tokens) if tokens[name].text == b"main"}
    pieces = [other if it.kind == "word" and it.text == b"main" else it.text for it in tokens]
    return b"".join(b"return 0;" + it if at in ends else it for at, it in enumerate(pieces)), other.decode()
