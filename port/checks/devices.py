"""The test of lib/device.cyc on the boards that have devices."""
import pathlib
import subprocess
import tempfile

import boards

OUTPUT = b"lamp 1\nlamp 0\nlamp 1\nlamp 0\n"
# what lib/tests/blink.cyc has otherwise on a board: the lamp is a pin there, whose register has four bytes
CHANGED = {"virt": [], "sifive_e": [(b"0x10000007", b"0x1001200C"), (b"load8(lamp", b"load32(lamp"), (b"store8(lamp", b"store32(lamp")]}
# what the board doesn't list, has no registers or isn't a multiple of the width ends the run behind its output: the call, and the output
REFUSED = [("device_load32(0x80000000u)", "no device"), ("device_store8(0x10000008u, 1u)", "a byte past a device"), ("device_load32(0x10000005u)", "not aligned"),
           ("device_load(3, 0x10000000u)", "a width of 3"), ("device_store32(0x0200BFFEu, 0u)", "across a device's end"), ("device_request('x', 1, 0u)", "no such request")]


def part(name):
    return (boards.TOP / "lib" / name).read_bytes()


def on_board(board, text, room, elf):
    """The run of a text with the part device.cyc, by the board's own console."""
    path = pathlib.Path(room) / "file"
    path.write_bytes(boards.board.in_elf(board.file_of(*boards.compiled(text, room, 1, 1)), board.file_at))
    words = boards.board.qemu_words(board.name, elf, path, more=["-icount", "shift=0"])
    ran = subprocess.run(words, stdin=subprocess.DEVNULL, capture_output=True, timeout=boards.SECONDS)
    return boards.told(ran.returncode, ran.stdout, ran.stderr)


def run_devices(board, words):
    if board.name not in CHANGED:
        print(f"devices: not run: {board.name} has none")
        return 0
    elf, bad, blink = boards.board.monitor(board.name, devices="yes"), 0, part("tests/blink.cyc")
    for old, new in CHANGED[board.name]:
        blink = blink.replace(old, new)
    with tempfile.TemporaryDirectory() as room:
        run = on_board(board, blink + part("device.cyc") + part("io.cyc"), room, elf)
        if (run.output, run.ending) != (OUTPUT, "ended 0"):
            print(f"devices: blink: {run.output!r}, {run.ending}")
            bad += 1
        for call, why in REFUSED:
            run = on_board(board, f"int main() {{ putchar('a'); {call}; putchar('b'); }}\n".encode() + part("device.cyc"), room, elf)
            if (run.output, run.ending, run.status) != (b"a", "write fault", 6):
                print(f"devices: {why}: {run.output!r}, {run.ending}")
                bad += 1
    print(f"devices: a lamp by a timer, and {len(REFUSED)} registers that may not be reached; {bad} differ")
    return bad
