"""Runs of an image by the program and on a board, and what is compared of them."""
import dataclasses
import os
import pathlib
import re
import struct
import subprocess
import sys
import tempfile

TOP = pathlib.Path(__file__).resolve().parent.parent.parent
sys.path.insert(0, str(TOP / "tools"))
import importlib.machinery
import importlib.util


def tool(name):
    loader = importlib.machinery.SourceFileLoader(name, str(TOP / "tools" / name))
    module = importlib.util.module_from_spec(importlib.util.spec_from_loader(name, loader))
    loader.exec_module(module)
    return module


board = tool("board")
place = board.place
PROGRAM = os.environ.get("CYCC", str(TOP / "cycc"))
UNPROVED = b"cycc: nothing of this run is proved\n"
SECONDS = 600
# what a board's numbers have a name for in `exec --stats`
COUNTED = ("instructions", "pages", "putchar", "getchar", "region_new", "region_alloc", "region_free", "unique_alloc", "unique_free", "key_new", "key_open",
           "key_close", "key_free")


@dataclasses.dataclass
class Run:
    """How a run ended, and what it wrote and counted."""

    status: int
    output: bytes
    ending: str
    counts: dict
    stack: int = 0


def told(status, output, error):
    lines = error.replace(UNPROVED, b"").decode("latin1").split("\n")
    counts = {words[0]: int(words[1]) for words in map(str.split, lines[1:]) if len(words) == 2 and words[1].isdigit()}
    return Run(status, output, re.sub(r"^.*: ", "image: ", lines[0]), {name: counts.get(name, 0) for name in COUNTED}, counts.get("stack", 0))


def compiled(text, room, pages, stack_pages):
    """The image of a text and its map, or None where it is rejected."""
    source, image, chart = (os.path.join(room, name) for name in ("a.cyc", "a.img", "a.map"))
    pathlib.Path(source).write_bytes(text)
    words = [PROGRAM, "compile", source, image, "--map", chart, "--pages", str(pages), "--stack-pages", str(stack_pages)]
    for old in (image, chart):
        pathlib.Path(old).unlink(missing_ok=True)
    if subprocess.run(words, stdin=subprocess.DEVNULL, capture_output=True).returncode:
        return None
    return pathlib.Path(image).read_bytes(), pathlib.Path(chart).read_text()


def by_program(content, given, room, steps=20_000_000):
    path = os.path.join(room, "e.img")
    pathlib.Path(path).write_bytes(content)
    words = [PROGRAM, "exec", path, "--ending", "--stats", "--steps", str(steps)]
    ran = subprocess.run(words, input=given, capture_output=True, timeout=SECONDS)
    return told(ran.returncode, ran.stdout, ran.stderr)


class Board:
    """A board with its monitor, which counts. It runs many images in one run of QEMU."""

    def __init__(self, name, **options):
        self.name = name
        self.elf = board.monitor(name, tests="yes", **options)
        self.is_small = board.is_small(name)
        self.file_at, self.memory = board.facts(name)
        makefile = (board.PORT / "Makefile").read_text()
        self.batch_at = int(re.search(rf"BATCH_{name} = (0x[0-9A-Fa-f]+)u", makefile)[1], 16)

    def file_of(self, content, chart):
        """The board's file of an image."""
        return board.placed_small(content, chart, self.name) if self.is_small else place.unmoved(content)

    def once(self, jobs, seconds):
        """What QEMU writes of images with their inputs, and whether it came to the end."""
        content = b"".join(entry(file, given) for file, given in jobs) + bytes(8)
        with tempfile.TemporaryDirectory() as room:
            path = os.path.join(room, "batch")
            pathlib.Path(path).write_bytes(board.in_elf(content, self.batch_at))
            words = board.qemu_words(self.name, self.elf, path, more=["-icount", "shift=0", "-m", "512M"][: None if self.name == "virt" else 2])
            try:
                return subprocess.run(words, stdin=subprocess.DEVNULL, stdout=subprocess.PIPE, timeout=seconds).stdout, True
            except subprocess.TimeoutExpired as late:
                return late.stdout or b"", False

    def run(self, jobs, seconds=SECONDS):
        """The runs of images with their inputs. One that comes to no end in this time has that as its ending, and the rest are run again."""
        runs = []
        while len(runs) < len(jobs):
            written, is_whole = self.once(jobs[len(runs) :], seconds)
            runs += runs_of(written)
            if not is_whole:
                runs.append(told(124, b"", b"no end"))
            elif len(runs) < len(jobs):
                runs.append(told(125, b"", b"QEMU ended"))
        return runs


def entry(file, given):
    """What batch.c reads of an image: its file begins a page, and so does the next entry."""
    head = struct.pack("<II", len(given), -(-len(file) // place.PAGE) * place.PAGE) + given
    return head + bytes(-len(head) % place.PAGE) + file + bytes(-len(file) % place.PAGE)


def runs_of(written):
    """The runs that a board's monitor wrote in pieces, as far as each is whole."""
    runs, at, output, said = [], 0, b"", b""
    while at + 8 <= len(written):
        letter, count = struct.unpack_from("<II", written, at)
        piece = written[at + 8 : at + 8 + count]
        at += 8 + count
        if len(piece) < count:
            break
        if letter == ord("o"):
            output += piece
        elif letter == ord("s"):
            said += piece
        else:
            runs.append(told(struct.unpack("<I", piece)[0], output, said))
            output, said = b"", b""
    return runs


def differences(wanted, found, counts=COUNTED):
    """What differs between two runs, a text each. At a fault instructions aren't compared: the one at fault may be counted or not."""
    seen = []
    for what, one, other in (("output", wanted.output, found.output), ("status", wanted.status, found.status), ("ending", wanted.ending, found.ending)):
        if one != other:
            seen.append(f"{what} {one!r} | {other!r}"[:200])
    for name in counts:
        if wanted.counts[name] != found.counts[name] and not (name == "instructions" and wanted.status in (5, 8)) and wanted.status != 8:
            seen.append(f"{name} {wanted.counts[name]} | {found.counts[name]}")
    return seen
