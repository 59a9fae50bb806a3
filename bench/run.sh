#!/usr/bin/env bash
# run.sh [ITERATIONS]: times the simulators over a counted loop, and qemu-user on the same loop beside them.
# The program is crates/bench/out/bench, which `rt run` in crates/bench makes. What is not installed is left out.
set -eu
iterations=${1:-40000000}
here=$(cd "$(dirname "$0")" && pwd)
bench=${BENCH:-$here/../crates/bench/out/bench}
folder=$(mktemp -d)
trap 'rm -rf "$folder"' EXIT
cd "$folder"
: >empty

le32() { printf "$(printf '\\x%02x\\x%02x\\x%02x\\x%02x' $(($1 & 255)) $(($1 >> 8 & 255)) $(($1 >> 16 & 255)) $(($1 >> 24 & 255)))"; }
be32() { printf "$(printf '\\x%02x\\x%02x\\x%02x\\x%02x' $(($1 >> 24 & 255)) $(($1 >> 16 & 255)) $(($1 >> 8 & 255)) $(($1 & 255)))"; }

# seven instructions a turn: lw, addiu, addu, sw, sltu, bne and xor in its slot
mips_loop() {
    printf 'LDBI\x01\x01\x00\x00'
    be32 $((0x400000)) && be32 52 && be32 4
    for word in 0x3c081000 $((0x3c090000 | iterations >> 16)) $((0x35290000 | iterations & 65535)) \
        0x8d0a0000 0x2529ffff 0x01495021 0xad0a0000 0x0009582b 0x1520fffa 0x01496026 0x24020003 0x00002021 0x0000000c; do
        le32 $((word))
    done
    be32 0
}

mips_peer() {
    cat >loop.s <<END
        .set noreorder
        .data
word:   .word 0
        .text
        .globl __start
__start: lui \$8, %hi(word)
        addiu \$8, \$8, %lo(word)
        lui \$9, $((iterations >> 16))
        ori \$9, \$9, $((iterations & 65535))
loop:   lw \$10, 0(\$8)
        addiu \$9, \$9, -1
        addu \$10, \$10, \$9
        sw \$10, 0(\$8)
        sltu \$11, \$0, \$9
        bne \$9, \$0, loop
        xor \$12, \$10, \$9
        li \$2, 4001
        move \$4, \$0
        syscall
END
    mipsel-linux-gnu-as -mips1 -o loop.o loop.s && mipsel-linux-gnu-ld -o loop loop.o
}

# the same on the SPARC: ld, add, add, st, subcc, bne and xor in its slot
sparc_loop() {
    printf 'LDBI\x01\x02\x00\x00'
    be32 $((0x400000)) && be32 48 && be32 4
    for word in 0x13040000 $((0x11000000 | iterations >> 10)) $((0x90122000 | iterations & 1023)) \
        0xd4026000 0x90023fff 0x94028008 0xd4226000 0x80a20000 0x12bffffb 0x961a8008 0x90102000 0x91d02013; do
        be32 $((word))
    done
    be32 0
}

sparc_peer() {
    cat >sparc.s <<END
        .data
        .align 4
word:   .word 0
        .text
        .globl _start
_start: sethi %hi(word), %o1
        or %o1, %lo(word), %o1
        sethi %hi($iterations), %o0
        or %o0, %lo($iterations), %o0
loop:   ld [%o1], %o2
        add %o0, -1, %o0
        add %o2, %o0, %o2
        st %o2, [%o1]
        subcc %o0, %g0, %g0
        bne loop
        xor %o2, %o0, %o3
        mov 1, %g1
        mov 0, %o0
        ta 0x10
END
    sparc64-linux-gnu-as -32 -Av8 -o sparc.o sparc.s && sparc64-linux-gnu-ld -m elf32_sparc -o sparc_loop sparc.o
}

# timed NAME COMMAND..: prints the seconds of the user's time that a command takes
timed() {
    local TIMEFORMAT=%U
    { time "$@" >last 2>/dev/null; } 2>&1
}

# compared TARGET PEER PROGRAM: five runs of a loop by turns with its peer's, their medians and the ratio
compared() {
    local target=$1 peer=$2 program=$3 steps=$((iterations * 7))
    echo "$steps steps of the $target loop, user seconds of five runs by turns"
    for _ in 1 2 3 4 5; do
        timed "$bench" run $target.img empty output >>$target.times
        cut -d' ' -f1-5 last
        if [ -n "$program" ]; then timed "$peer" -singlestep "./$program" >>$peer.times; fi
    done
    for name in $target $peer; do
        [ -e $name.times ] || continue
        sort -n $name.times | awk -v n=$name -v s=$steps '{ t[NR] = $1; line = line " " $1 } END { m = t[3]; printf "%s%s: median %.2f s, %.0f million steps a second\n", n, line, m, s / m / 1e6 }'
    done
    if [ -n "$program" ]; then
        echo "steps a second, ours by $peer's: $(paste -d' ' <(sort -n $target.times) <(sort -n $peer.times) | awk 'NR == 3 { printf "%.2f", $2 / $1 }')"
    fi
}

program=
mips_loop >mips.img
if command -v qemu-mipsel >/dev/null && command -v mipsel-linux-gnu-as >/dev/null; then mips_peer && program=loop; fi
compared mips qemu-mipsel "$program"

program=
sparc_loop >sparc.img
if command -v qemu-sparc >/dev/null && command -v sparc64-linux-gnu-as >/dev/null; then sparc_peer && program=sparc_loop; fi
compared sparc qemu-sparc "$program"

"$here/postscript.sh"
"$here/front.sh"
