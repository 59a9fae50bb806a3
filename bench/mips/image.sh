#!/usr/bin/env bash
# image.sh PROGRAM.c IMAGE [FLAGS]: the image of a freestanding C program for the MIPS, made by gcc.
# Needs gcc-mipsel-linux-gnu. PROGRAM.c calls getchar and putchar and nothing else.
set -eu
here=$(cd "$(dirname "$0")" && pwd)
source=$1 image=$2
shift 2
folder=$(mktemp -d)
trap 'rm -rf "$folder"' EXIT
mipsel-linux-gnu-as -mips1 -mno-abicalls -o "$folder/start.o" "$here/start.s" 2>/dev/null ||
    mipsel-linux-gnu-as -mips1 -o "$folder/start.o" "$here/start.s"
mipsel-linux-gnu-gcc -march=mips1 -mabi=32 -mno-abicalls -fno-pic -G0 -msoft-float -ffreestanding -fno-builtin \
    -mno-check-zero-division -mno-explicit-relocs -fno-tree-loop-distribute-patterns -nostdlib -O2 "$@" \
    -c -o "$folder/program.o" "$source"
(cd "$folder" && mipsel-linux-gnu-ld -T "$here/../image.ld" -o program start.o program.o)
"$here/../write_image.sh" 1 mipsel-linux-gnu "$folder/program" "$image"
