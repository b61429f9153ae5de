"""The page without its compiler, for tests of the page alone: its worker answers with canned words (stub/worker.mjs), and the module is an empty one."""
import json
import re
import shutil

import content
from page_driver import ENDLESS, LISTED, RAISE, TOP

EMPTY_MODULE = b"\0asm\1\0\0\0"
COUNTS = "instructions 120\ncalls 5\nstack 64\npages 1\nputchar 13\nexit 1\n"
# the names that a test's source returns without declaring them
UNKNOWN = ("m", "one", "unknown")


def bare(text):
    return re.sub(r"\s", "", text)


def position(text, what):
    """The line and the column of the first place of a piece of a text."""
    before = text[:text.index(what)]
    return f"program.cyc:{before.count(chr(10)) + 1}:{len(before) - before.rfind(chr(10))}"


def rejected():
    """The rejected sources of the tutorial, each with its fault's name, and how many characters lie before it."""
    found, name = {}, ""
    for row in (row for lesson in content.lessons(TOP) for row in lesson["rows"]):
        source = row["refused"]
        whole = source if re.search(r"\bmain\s*\(", source) else f"{source} int main() {{ }}"
        column = int(row["at"].partition(":")[2])
        # (a row without a fault's name has that of the row above)
        name = (re.findall(r"`(\w+)`", row["what"]) or [name])[-1]
        found[bare(whole)] = {"name": name, "before": len(bare(source.encode()[:column - 1].decode()))}
    return found


def runs():
    """What the runs of the tests' sources print."""
    hello = (TOP / "examples" / "hello.cyc").read_text()
    raised = f"raised Array_bounds\n{position(RAISE, 'i]')}: Array_bounds\n{position(RAISE, 'at(a')}: call of at\n"
    return {bare(hello): {"out": "hello, world\n", "err": f"ended 0\n{COUNTS}", "status": 0},
            bare(RAISE): {"out": "000", "err": f"{raised}{COUNTS}", "status": 2}}


def put(folder):
    """Makes the page with the stub in a folder."""
    for kind in ("*.html", "*.css", "*.mjs"):
        for file in (TOP / "web").glob(kind):
            shutil.copyfile(file, folder / file.name)
    (folder / "content.json").write_text(content.made(TOP, "This page's program: none. A stub answers with canned words."), encoding="utf-8")
    (folder / "cycc.wasm").write_bytes(EMPTY_MODULE)
    listed = {"source": bare(LISTED), **{kind: (TOP / "web" / "stub" / f"listed.{kind}").read_text() for kind in ("map", "dump")}}
    canned = {"rejected": rejected(), "runs": runs(), "endless": ENDLESS, "unknown": UNKNOWN, "listed": listed}
    worker = (TOP / "web" / "stub" / "worker.mjs").read_text()
    (folder / "worker.mjs").write_text(f"const CANNED = {json.dumps(canned)};\n{worker}")
