"""Images of C texts by a cross compiler for the machine's instructions, without optimization, where there is one."""
import os
import shutil
import struct
import subprocess

COMPILERS = ["riscv64-unknown-elf-gcc", "riscv32-unknown-elf-gcc", "riscv64-linux-gnu-gcc"]
FLAGS = ["-O0", "-march=rv32im", "-mabi=ilp32", "-fwrapv", "-ffreestanding", "-fno-pic", "-no-pie", "-static", "-nostdlib",
         "-fno-stack-protector", "-fno-asynchronous-unwind-tables", "-Wl,--build-id=none", "-Wl,--no-warn-rwx-segments"]
# what a text may call, and how a run begins and ends: the number of a call is in a7
HEADER = "int putchar(int character);\nint getchar(void);\n"
START = """    .section .text.start, "ax"
    .globl _start, putchar, getchar
_start:
    call main
    li a7, 0
    ecall
putchar:
    li a7, 1
    ecall
    ret
getchar:
    li a7, 2
    ecall
    ret
"""
# the machine's areas of code and of data
CODE_BASE, DATA_BASE = 0x00010000, 0x00200000
SECTIONS = f"""ENTRY(_start)
SECTIONS {{
    . = {CODE_BASE};
    .text : {{ *(.text.start) *(.text .text.*) }}
    . = {DATA_BASE};
    .data : {{ *(.rodata .rodata.* .srodata .srodata.*) *(.data .data.* .sdata .sdata.*) *(.bss .bss.* .sbss .sbss.* COMMON) }}
    /DISCARD/ : {{ *(.comment) *(.eh_frame*) *(.note*) *(.riscv.attributes) }}
}}
"""
LOADED = 1


def compiler():
    """The command of the first cross compiler that is there, or None."""
    return next(filter(None, map(shutil.which, COMPILERS)), None)


def segments(program):
    """The loaded bytes of a program file of 32 bits by their first address, with the zeros behind them."""
    table, = struct.unpack_from("<I", program, 28)
    size, count = struct.unpack_from("<HH", program, 42)
    found = {}
    for place in range(table, table + size * count, size):
        kind, offset, address, _, held, taken = struct.unpack_from("<6I", program, place)
        if kind == LOADED and taken:
            found[address] = program[offset:offset + held] + bytes(taken - held)
    return found


def write_image(text, image, folder):
    """Compiles a C text to an image of one page, and answers how many bytes its code has."""
    beside = {"header.h": HEADER, "start.s": START, "sections.ld": SECTIONS}
    for name, content in beside.items():
        with open(os.path.join(folder, name), "w", encoding="ascii") as file:
            file.write(content)
    header, start, sections = (os.path.join(folder, name) for name in beside)
    program = os.path.join(folder, "cross")
    subprocess.run([compiler(), *FLAGS, "-include", header, "-T", sections, "-o", program, start, "-x", "c", text], check=True)
    with open(program, "rb") as file:
        loaded = segments(file.read())
    code, data = loaded[CODE_BASE], loaded.get(DATA_BASE, b"")
    code += bytes(-len(code) % 4)
    with open(image, "wb") as file:
        file.write(b"CYI1" + struct.pack("<5I", 1, 0, len(code), len(data), 1) + code + data)
    return len(code)
