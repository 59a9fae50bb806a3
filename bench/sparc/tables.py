#!/usr/bin/env python3
"""Prints the rows of the emulated tables of sparc_sim's tests, as qemu-sparc gives them.

Needs binutils-sparc64-linux-gnu and qemu-user. Works in the current directory, where it leaves table.s, table.o, table.
"""
import struct
import subprocess

PAIRS = [(0, 0), (1, 2), (7, 0xFFFFFFFF), (0x80000000, 0xFFFFFFFF), (0x7FFFFFFF, 0x80000000),
         (0x12345678, 0x9ABCDEF1), (0xFFFFFFFF, 1), (5, 5)]
COMPARED = PAIRS + [(3, 0xFFFFFFFD), (0x80000001, 1), (2, 1)]
SHIFTED = [(0x80000001, 1), (0x89ABCDEF, 31), (0x7FFFFFFF, 36), (5, 0)]
DIVIDED = [(0, 100, 7), (1, 5, 3), (0xFFFFFFFF, 0xFFFFFF9C, 7), (0xFFFFFFFF, 0xFFFFFF9C, 0xFFFFFFF9), (5, 0, 2),
           (0x80000000, 0, 0xFFFFFFFF), (0x7FFFFFFF, 0xFFFFFFFF, 1), (0, 0xFFFFFFFE, 0xFFFFFFFF),
           (0xFFFFFFFF, 0x80000000, 1), (0, 0x80000000, 1), (1, 0, 0x80000000), (0xFFFFFFFE, 1, 0x10)]
OPERATIONS = "add and or xor sub andn orn xnor umul smul subcc".split()
CONDITIONS = "n e le l leu cs neg vs a ne g ge gu cc pos vc".split()
DATA = (0x81027FF3, 0x00FF80FE)
LOADS = [("ld", range(0, 8, 4)), ("ldub", range(6)), ("lduh", range(0, 8, 2)), ("ldsb", range(8)), ("ldsh", range(0, 8, 2))]
STORES = [("st", [0]), ("stb", range(4)), ("sth", [0, 2])]

lines, names = [], []


def keep(name, register):
    lines.extend([f"set buffer+{4 * len(names)},%g7", f"st {register},[%g7]"])
    names.append(name)


def operation(op, y, a, b):
    lines.extend([f"set {a},%g1", f"set {b},%g2", f"set {y},%g4", "wr %g4,0,%y", "nop", "nop", "nop",
                  f"{op} %g1,%g2,%g3", "rd %y,%g6"])
    keep(f"{op} y={y:08x} {a:08x} {b:08x} ->", "%g3")
    keep("  and y", "%g6")


for op in OPERATIONS:
    for a, b in PAIRS:
        operation(op, 0x55, a, b)
for op in ("sll", "srl", "sra"):
    for a, b in SHIFTED:
        operation(op, 0x55, a, b)
for op in ("udiv", "sdiv"):
    for y, a, b in DIVIDED:
        operation(op, y, a, b)
for a, b in COMPARED:
    lines.extend([f"set {a},%g1", f"set {b},%g2", "mov 0,%g5"])
    for place, condition in enumerate(CONDITIONS):
        lines.extend([f"set {1 << place},%g4", "subcc %g1,%g2,%g3", f"b{condition} 1f", "nop", "ba 2f", "nop",
                      "1: or %g5,%g4,%g5", "2: nop"])
    keep(f"branches taken after subcc {a:08x} {b:08x}", "%g5")
for op, offsets in LOADS:
    for offset in offsets:
        lines.extend(["set data,%g1", f"set {offset},%g2", f"{op} [%g1+%g2],%g3"])
        keep(f"{op} at {offset}", "%g3")
for op, offsets in STORES:
    for offset in offsets:
        lines.extend(["set scratch,%g1", f"set {DATA[0]},%g4", "st %g4,[%g1]", f"set {offset},%g2",
                      "set 0x1234abcd,%g3", f"{op} %g3,[%g1+%g2]", "ld [%g1],%g4"])
        keep(f"{op} at {offset}", "%g4")
lines.extend(["mov 4,%g1", "mov 1,%o0", "set buffer,%o1", f"set {4 * len(names)},%o2", "ta 0x10",
              "mov 1,%g1", "mov 0,%o0", "ta 0x10"])

with open("table.s", "w") as out:
    out.write("\t.text\n\t.global _start\n_start:\n" + "".join(f"\t{line}\n" for line in lines))
    out.write(f"\t.data\n\t.align 8\ndata:\t.word {DATA[0]},{DATA[1]}\nscratch:\t.word 0\n")
    out.write(f"\t.bss\n\t.align 8\nbuffer:\t.skip {4 * len(names)}\n")
subprocess.check_call(["sparc64-linux-gnu-as", "-32", "-Av8", "table.s", "-o", "table.o"])
subprocess.check_call(["sparc64-linux-gnu-ld", "-m", "elf32_sparc", "table.o", "-o", "table"])
answer = subprocess.run(["qemu-sparc", "./table"], capture_output=True, check=True).stdout
for name, (value,) in zip(names, struct.iter_unpack(">I", answer)):
    print(f"{name} {value:08x}")
