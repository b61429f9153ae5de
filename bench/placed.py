"""A built program whose code begins at other places: how fast a loop runs depends on where the linker happens to put it."""
import os
import shutil
import subprocess

# in steps of a function's alignment, up to a length after which the times come again
PLACES = range(16, 272, 16)
PAD = """    .text
    .globl bench_pad
bench_pad:
    .skip {}
"""


def libraries():
    """What a program of the kit is linked with."""
    kit = os.path.dirname(os.path.dirname(os.path.realpath(shutil.which("rt"))))
    return [os.path.join(kit, "c", name) for name in ("libos_c.a", "liblibc_c.a")]


def programs(folder, made):
    """The paths of programs, one after the other, of an object file that rt made, each with its code some bytes further on. Needs gcc."""
    pad, program = os.path.join(folder, "pad.s"), os.path.join(folder, "placed")
    for length in PLACES:
        with open(pad, "w", encoding="ascii") as file:
            file.write(PAD.format(length))
        subprocess.run(["gcc", "-no-pie", "-o", program, pad, made, *libraries()], check=True, stderr=subprocess.DEVNULL)
        yield program
