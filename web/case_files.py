"""The cases of crates/case_runs/data (docs/TESTS.md), read for the runs of the WebAssembly module: those of which `cycc` reads a text and writes texts."""
import base64
import re

DIGITS = "0123456789ABCDEFGHIJKLMNOPQRSTUVWXYZabcdefghijklmnopqrstuvwxyz"
# commands of the program case_runs alone, which cycc doesn't have
OTHERS = ("tokens", "parse", "judge", "homes", "lacking")


class Case:
    """A case, or a file's beginning: a name, and parts by their keys. A part is its text, and whether it is lines."""

    def __init__(self, text):
        text = text[:-1] if text.endswith("\n") else text
        self.name, _, parts = text.partition("\n-- ")
        self.parts = []
        for part in parts.split("\n-- ") if parts else []:
            first, has_lines, lines = part.partition("\n")
            key, is_word, word = first.partition(": ")
            self.parts.append((key, word, False) if is_word else (first, lines, bool(has_lines)))

    def part(self, key):
        return next(((text, has_lines) for name, text, has_lines in self.parts if name == key), None)

    def word(self, key, otherwise=None):
        part = self.part(key)
        return part[0] if part else otherwise

    def commands(self):
        return [text for key, text, _ in self.parts if key == "command"]


def meant(part):
    """The bytes of a part, where \\x and two hexadecimal digits are a byte."""
    if part is None:
        return b""
    text, has_lines = part
    bytes_of = re.sub(rb"\\x([0-9a-fA-F]{2})", lambda it: bytes([int(it[1], 16)]), text.encode())
    return bytes_of + (b"\n" if has_lines else b"")


def short(number):
    last, first = number % 62, number // 62 % 62
    return DIGITS[last] + (DIGITS[first] if first else "")


def pieced(part):
    """The bytes of a part of pieces: each line is a count and a piece."""
    found = []
    for line in part[0].split("\n"):
        times, _, piece = line.partition(" ")
        piece = piece if " " in line else "\n"
        for number in range(int(times) if times.isdigit() else 0):
            found.append("".join(str(number) if it == "#" else short(number) if it == "$" else it for it in piece))
    return "".join(found).encode()


def source_of(case, data):
    if case.part("file"):
        return (data / case.word("file")).read_bytes()
    if case.part("source"):
        text, has_lines = case.part("source")
        return text.encode() + (b"\n" if has_lines else b"")
    if case.part("pieces"):
        return pieced(case.part("pieces"))
    return meant(case.part("bytes"))


def wanted(head, case):
    """What a case expects, as the runner compares it."""
    says = case.part("says")
    written = pieced(case.part("writes_pieces")) if case.part("writes_pieces") else meant(case.part("writes"))
    says_bytes = meant(says)
    if says_bytes and not says[1]:
        says_bytes += b"\n"
    status = int(case.word("status") or head.word("status") or 0)
    return {"status": status, "writes": encoded(written), "says": encoded(says_bytes), "pages": int(case.word("pages", -1)), "calls": case.word("calls")}


def encoded(data):
    return base64.b64encode(data).decode()


def runs_of(path, data):
    """The runs of a file: one for each command of each case. Those of the program case_runs alone are counted beside."""
    head, *cases = (data / path).read_text().split("\n== ")
    head, found, others = Case(head), [], 0
    for case in map(Case, cases):
        for command in case.commands() or head.commands():
            if command.split(" ")[0] in OTHERS:
                others += 1
                continue
            given = {it: int(case.word(it, 0)) for it in ("read_fails", "write_fails", "write_takes_nothing")}
            found.append({"file": path, "name": case.name, "words": command.split(" ")[1:], "source": encoded(source_of(case, data)),
                          "input": encoded(meant(case.part("input"))), **given, "takes_one": case.part("calls") is not None, "wanted": wanted(head, case)})
    return found, others
