#!/usr/bin/env python3
"""Writes the rows `mips` of crates/machine_tests/data/words.txt: one word for each instruction, as the
GNU assembler writes it. Needs binutils-mipsel-linux-gnu. The text of each instruction is written by hand."""
import os
import subprocess
import tempfile

ROWS = []
TYPES = {field: "Register {{ number: {} }}" for field in ("rd", "rs", "rt", "base")}
TYPES.update(shamt="ShiftAmount {{ bits: {} }}", target="Target {{ index: {} }}")


def row(asm, name, **fields):
    """One line of assembler, and the instruction with its fields, as `Debug` writes it."""
    inner = ", ".join(f"{field}: {TYPES.get(field, '{}').format(value)}" for field, value in fields.items())
    ROWS.append((asm, f"{name} {{ {inner} }}" if fields else name))


for name, amount in (("Sll", 3), ("Srl", 31), ("Sra", 17)):
    row(f"{name.lower()} $5,$6,{amount}", name, rd=5, rt=6, shamt=amount)
for name in ("Sllv", "Srlv", "Srav"):
    row(f"{name.lower()} $7,$8,$9", name, rd=7, rt=8, rs=9)
row("jr $31", "Jr", rs=31)
row("jalr $30,$25", "Jalr", rd=30, rs=25)
row("syscall", "Syscall")
row("break", "Break")
row("mfhi $11", "Mfhi", rd=11)
row("mthi $12", "Mthi", rs=12)
row("mflo $13", "Mflo", rd=13)
row("mtlo $14", "Mtlo", rs=14)
for name, rs, rt in (("Mult", 15, 16), ("Multu", 17, 18), ("Div", 19, 20), ("Divu", 21, 22)):
    first = "" if name.startswith("Mul") else "$0,"
    row(f"{name.lower()} {first}${rs},${rt}", name, rs=rs, rt=rt)
for name in ("Addu", "Subu", "And", "Or", "Xor", "Nor", "Slt", "Sltu"):
    row(f"{name.lower()} $1,$2,$3", name, rd=1, rs=2, rt=3)
row("bltz $4,.-16", "Bltz", rs=4, offset=0xfffb)
row("bgez $4,.+16", "Bgez", rs=4, offset=3)
row("j 0x0abcde0", "J", target=0x2af378)
row("jal 0x0fffff8", "Jal", target=0x3ffffe)
row("beq $10,$11,.+8", "Beq", rs=10, rt=11, offset=1)
row("bne $12,$13,.-4", "Bne", rs=12, rt=13, offset=0xfffe)
row("blez $14,.+4", "Blez", rs=14, offset=0)
row("bgtz $15,.+32", "Bgtz", rs=15, offset=7)
for name, value in (("Addiu", -32768), ("Slti", -1), ("Sltiu", 32767), ("Andi", 0xFFFF), ("Ori", 0x8000), ("Xori", 0x1234)):
    row(f"{name.lower()} $16,$17,{value}", name, rt=16, rs=17, immediate=value & 0xFFFF)
row("lui $18,0xfedc", "Lui", rt=18, immediate=0xfedc)
for name, at in (("Lb", -1), ("Lh", -2), ("Lw", -4), ("Lbu", 1), ("Lhu", 2), ("Sb", 32767), ("Sh", -32768), ("Sw", 16)):
    row(f"{name.lower()} $19,{at}($20)", name, rt=19, base=20, offset=at & 0xFFFF)


def words(lines):
    """The words that the assembler makes of some lines."""
    with tempfile.TemporaryDirectory() as folder:
        source, made, flat = (os.path.join(folder, name) for name in ("a.s", "a.o", "a.bin"))
        with open(source, "w") as f:
            f.write(".set noreorder\n.set noat\n.set nomacro\n.text\n" + "\n".join(lines) + "\n")
        subprocess.check_call(["mipsel-linux-gnu-as", "-mips1", "-o", made, source])
        subprocess.check_call(["mipsel-linux-gnu-objcopy", "-O", "binary", "-j", ".text", made, flat])
        data = open(flat, "rb").read()
        return [int.from_bytes(data[4 * i : 4 * i + 4], "little") for i in range(len(lines))]


if __name__ == "__main__":
    for (asm, insn), word in zip(ROWS, words([asm for asm, _ in ROWS])):
        print(f"mips 0x{word:08x} => {insn} {word:08x}")
