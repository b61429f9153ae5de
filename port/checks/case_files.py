"""The files of cases of crates/case_runs (docs/TESTS.md), as far as a case runs an image."""
import dataclasses
import pathlib
import re

DIGITS = "0123456789ABCDEFGHIJKLMNOPQRSTUVWXYZabcdefghijklmnopqrstuvwxyz"
# what a board can't be given, or can't tell
LEFT_OUT = ("read_fails", "write_fails", "write_takes_nothing", "calls")


@dataclasses.dataclass
class Case:
    """A run: of a text that is compiled first, or of an image's bytes."""

    name: str
    is_text: bool
    content: bytes
    given: bytes
    options: dict
    status: int
    writes: bytes
    says: str | None                                     # None where the command asks for no ending


def from_escapes(text):
    return re.sub(rb"\\x([0-9a-fA-F]{2})", lambda found: bytes([int(found[1], 16)]), text)


def short(number):
    """A number in one or two of 62 digits, the last one first."""
    last, first = number % 62, number // 62 % 62
    return (DIGITS[last] + (DIGITS[first] if first else "")).encode()


def from_pieces(text):
    made = []
    for line in text.splitlines():
        times, _, piece = line.partition(b" ")
        made += [piece.replace(b"#", str(number).encode()).replace(b"$", short(number)) if piece else b"\n" for number in range(int(times or 0))]
    return b"".join(made)


def parts_of(path):
    """The name and the parts of each case, behind those of the file's beginning."""
    head, found, key = {}, [], None
    current = head
    for line in path.read_bytes().split(b"\n"):
        part = re.fullmatch(rb"-- ([a-z_]+)(?:: ?(.*))?", line)
        if line.startswith(b"== "):
            current, key = {"name": line[3:].decode("latin1")}, None
            found.append(current)
        elif part:
            key = part[1].decode()
            if part[2] is not None:
                current[key] = current.get(key, b"") + b"\n" + part[2] if key == "command" else part[2]
                key = None
            else:
                current[key] = []
        elif key:
            current[key].append(line)
    for case in [head, *found]:
        for key, lines in case.items():
            if isinstance(lines, list):
                while lines and not lines[-1]:
                    lines.pop()
                case[key] = b"".join(line + b"\n" for line in lines)
    return [{**head, **case} for case in found]


def options_of(words):
    """The options of a command that have a number."""
    return {word[2:]: int(words[at + 1]) for at, word in enumerate(words[:-1]) if word.startswith("--") and words[at + 1].isdigit()}


def content_of(parts, data):
    for key, made in (("source", bytes), ("pieces", from_pieces), ("file", lambda path: (data / path.decode()).read_bytes())):
        if key in parts:
            return made(parts[key])
    return b""


def cases_of(data, file):
    """The runs of a file of cases, in the folder of the data."""
    for parts in parts_of(pathlib.Path(data) / file):
        command = re.search(rb"^cycc (run|exec) .*", parts.get("command", b""), re.MULTILINE)
        if not command or any(key in parts for key in LEFT_OUT):
            continue
        words = command[0].decode().split()
        if "--help" in words:
            continue
        is_text = words[1] == "run"
        content = content_of(parts, pathlib.Path(data)) if is_text else from_escapes(parts.get("bytes", b""))
        says = parts.get("says", b"").decode("latin1") if "--ending" in words or parts.get("status") == b"8" else None
        yield Case(f"{file}: {parts['name']}", is_text, content, from_escapes(parts.get("input", b"")), options_of(words), int(parts.get("status", b"0")),
                   from_escapes(parts.get("writes", b"")), says)
