"""Images that try what they may not: hostile.cases as images for a board, with the endings that the rules give."""
import os
import pathlib
import re
import struct
import subprocess

HERE = pathlib.Path(__file__).resolve().parent
CROSS = "riscv64-unknown-elf-"
DATA_BYTES = bytes([6, 0, 0, 0, 0, 0, 0, 7])
HEADER = 28

MACROS = """
    .macro bye
    li a7, 0
    li a0, 0
    ecall
    .endm
    .macro KEPT_REGISTERS call
    .set number, 1000
    .irp register, ra, gp, tp, t0, t1, t2, s0, s1, a1, a2, a3, a4, a5, a6, s2, s3, s4, s5, s6, s7, s8, s9, s10, s11, t3, t4, t5, t6
    li \\register, number
    .set number, number + 1
    .endr
    li a7, \\call
    ecall
    li a0, 1
    addi a7, a7, -\\call
    bnez a7, 2f
    .set number, 1000
    .irp register, ra, gp, tp, t0, t1, t2, s0, s1, a1, a2, a3, a4, a5, a6, s2, s3, s4, s5, s6, s7, s8, s9, s10, s11, t3, t4, t5, t6
    addi \\register, \\register, -number
    bnez \\register, 2f
    .set number, number + 1
    .endr
    li a0, 0
2:  li a7, 0
    ecall
    .endm
"""


def read_cases():
    """The name, the ending and the instructions of each."""
    lines = (HERE / "hostile.cases").read_text().splitlines()
    return [tuple(part.strip() for part in line.split("|", 2)) for line in lines if line and not line.startswith("#")]


def code_of(areas, number):
    """Where the code of a case begins: where it is copied to, or where it lies among the others."""
    return areas["CODE"] + areas.get("APART", 0) * number


def source_of(cases, areas):
    """One text of assembly for all cases, each from its own label on; CODE_END of a case is behind its own instructions."""
    text = "    .option norelax\n    .option norvc\n" + "".join(f"    .equ {name}, {value:#x}\n" for name, value in areas.items()) + MACROS
    for number, (_, _, code) in enumerate(cases):
        code = code.replace("here:", f"here_{number}:").replace("; ", "\n").replace("CODE_END", f"(CODE + CODE_BYTES_{number})")
        code = re.sub(r"\bCODE\b", f"{code_of(areas, number):#x}", code)
        text += f"case_{number}:\n{code}\nbehind_{number}:\n"
    return text


def assembled(text, room, lengths):
    """The bytes of all cases and where their labels stand. Lengths are given, since an absolute address can't have one that comes later."""
    source, made, raw = (os.path.join(room, name) for name in ("hostile.S", "hostile.o", "hostile.bin"))
    pathlib.Path(source).write_text("".join(f"    .equ CODE_BYTES_{number}, {length}\n" for number, length in enumerate(lengths)) + text)
    subprocess.run([CROSS + "gcc", "-march=rv32im_zicsr", "-mabi=ilp32", "-c", source, "-o", made], check=True)
    subprocess.run([CROSS + "objcopy", "-O", "binary", "-j", ".text", made, raw], check=True)
    names = subprocess.run([CROSS + "nm", made], check=True, capture_output=True, text=True).stdout
    labels = {name: int(value, 16) for value, kind, name in map(str.split, names.splitlines()) if kind in "tT"}
    return pathlib.Path(raw).read_bytes(), labels


def images(areas, room):
    """Each case's name, image and ending, with its address as the image's own, for these areas."""
    cases = read_cases()
    text = source_of(cases, areas)
    lengths = [4096] * len(cases)
    for _ in range(3):
        raw, labels = assembled(text, room, lengths)
        lengths = [labels[f"behind_{number}"] - labels[f"case_{number}"] for number in range(len(cases))]
    for number, (name, ending, _) in enumerate(cases):
        first = labels[f"case_{number}"]
        code = raw[first : first + lengths[number]]
        data = b"" if name.startswith("no data:") else DATA_BYTES
        content = struct.pack("<7I", 0x31495943, 2, 0, len(code), len(data), 1, 1) + code + data
        own = {**areas, "CODE": code_of(areas, number)}
        yield name, content, ending_of(ending, labels.get(f"here_{number}", first) - first, {**own, "CODE_END": own["CODE"] + len(code)})


def ending_of(ending, here, areas):
    """The line of an ending. The address of a fault is the image's own: how far it is from the code's start."""
    found = re.fullmatch(r"(Illegal|Access|Misaligned|Break|BadCall)(?: at (.*))?", ending)
    if not found:
        return ending
    at = areas["CODE"] + here
    if found[2]:
        at = sum(areas[word] if word in areas else int(word, 16) for word in found[2].replace("- 4", "+ -4").split(" + "))
    return f"fault {found[1]} at 0x{(at - areas['CODE'] + 0x00010000) & 0xFFFFFFFF:08x}"
