#!/usr/bin/env python3
"""Writes the rows `case` of crates/machine_tests/data/mips.txt: what one instruction leaves in $10, HI, LO
and in four words of memory, as qemu-mipsel has it. Needs gcc-mipsel-linux-gnu and qemu-user.

Each row is the instruction's word, $8 and $9 before it, and $10, HI, LO and the memory's second word after it.
Before it HI is 0x11111111, LO is 0x22222222, $10 is 0x33333333, and the memory has the bytes of MEMORY."""
import os
import subprocess
import tempfile

from words import words

MEMORY = [0x80, 0x7F, 0x01, 0xFF, 0xFE, 0x80, 0x34, 0x92, 0x56, 0x78, 0x9A, 0xBC, 0x00, 0xFF, 0x7F, 0x80]
MIN, MAX, ONES = 0x80000000, 0x7FFFFFFF, 0xFFFFFFFF
BASE = "base"  # $8 points at the second word of the memory

CASES = []


def case(asm, a, b):
    CASES.append((asm, a, b))


for name in ("addu", "subu", "and", "or", "xor", "nor", "slt", "sltu"):
    for a, b in ((MAX, 1), (MIN, ONES), (0x12345678, 0xF0F00F0F)):
        case(f"{name} $10,$8,$9", a, b)
for name in ("sllv", "srlv", "srav"):
    for a, b in ((4, 0x87654321), (35, MIN)):
        case(f"{name} $10,$9,$8", a, b)
for name, amount in (("sll", 0), ("sll", 31), ("srl", 31), ("srl", 7), ("sra", 31), ("sra", 7)):
    case(f"{name} $10,$9,{amount}", 0, 0x87654321)
for name in ("mult", "multu"):
    for a, b in ((MIN, MIN), (ONES, ONES), (0x12345678, 0x9ABCDEF0)):
        case(f"{name} $8,$9", a, b)
for name in ("div", "divu"):
    for a, b in ((7, 2), (0xFFFFFFF9, 2), (7, 0xFFFFFFFE), (MIN, 3)):
        case(f"{name} $0,$8,$9", a, b)
for name, value in (("addiu", -1), ("addiu", 0x7FFF), ("slti", -1), ("sltiu", -1), ("andi", 0xFF00), ("ori", 0xFF00), ("xori", 0xFFFF)):
    for a in (0, 0xFFFF8000):
        case(f"{name} $10,$8,{value}", a, 0)
case("lui $10,0x8001", 0, 0)
case("mfhi $10", 0, 0)
case("mflo $10", 0, 0)
case("mthi $9", 0, 0x55555555)
case("mtlo $9", 0, 0x55555555)
for name, places in (("lb", (-4, -3, 1)), ("lbu", (-4, 3)), ("lh", (-4, -2, 0)), ("lhu", (-4, 2)), ("lw", (-4, 0, 8))):
    for at in places:
        case(f"{name} $10,{at}($8)", BASE, 0)
for name, places in (("sb", (0, 3)), ("sh", (0, 2)), ("sw", (0,))):
    for at in places:
        case(f"{name} $9,{at}($8)", BASE, 0x89ABCDEF)


def program(found):
    """A program in C and assembler that runs each case and prints a line for it."""
    body = []
    for i, ((_, a, b), word) in enumerate(zip(CASES, found)):
        first = "(unsigned)(memory + 4)" if a == BASE else f"{a}u"
        body.append(f"  run{i}({first}, {b}u);")
    code = []
    for i, word in enumerate(found):
        code.append(
            f"""static void run{i}(unsigned a, unsigned b) {{
  unsigned r, hi, lo;
  for (int i = 0; i < 16; i++) memory[i] = start[i];
  __asm__ volatile (".set noreorder\\n .set noat\\n move $8,%3\\n move $9,%4\\n li $10,0x33333333\\n li $11,0x11111111\\n"
    " mthi $11\\n li $11,0x22222222\\n mtlo $11\\n nop\\n nop\\n .word 0x{word:08x}\\n nop\\n nop\\n"
    " move $11,$10\\n mfhi $12\\n mflo $13\\n move %0,$11\\n move %1,$12\\n move %2,$13\\n .set reorder\\n"
    : "=&r"(r), "=&r"(hi), "=&r"(lo) : "r"(a), "r"(b) : "$8", "$9", "$10", "$11", "$12", "$13", "hi", "lo", "memory");
  printf("%08x %08x %08x %02x%02x%02x%02x\\n", r, hi, lo, memory[7], memory[6], memory[5], memory[4]);
}}"""
        )
    start = ", ".join(str(byte) for byte in MEMORY)
    return (
        "#include <stdio.h>\n"
        f"static const unsigned char start[16] = {{{start}}};\n"
        "static unsigned char memory[16] __attribute__((aligned(16)));\n" + "\n".join(code) + "\nint main(void) {\n" + "\n".join(body) + "\n  return 0;\n}\n"
    )


if __name__ == "__main__":
    found = words([asm for asm, _, _ in CASES])
    with tempfile.TemporaryDirectory() as folder:
        source, made = os.path.join(folder, "a.c"), os.path.join(folder, "a")
        open(source, "w").write(program(found))
        subprocess.check_call(["mipsel-linux-gnu-gcc", "-static", "-O1", "-o", made, source])
        lines = subprocess.check_output(["qemu-mipsel", made]).decode().split("\n")
    for (asm, a, b), word, line in zip(CASES, found, lines):
        a = 0x10000004 if a == BASE else a
        after = " ".join(line.split())
        print(f"# {asm}")
        print(f"case 0x{word:08x} 0x{a:08x} 0x{b:08x} => Went {after}")
