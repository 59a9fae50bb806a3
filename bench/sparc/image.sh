#!/usr/bin/env bash
# image.sh PROGRAM.c IMAGE [FLAGS]: the image of a freestanding C program for the SPARC, made by gcc.
# Needs gcc-sparc64-linux-gnu. PROGRAM.c calls getchar and putchar and nothing else.
set -eu
here=$(cd "$(dirname "$0")" && pwd)
source=$1 image=$2
shift 2
folder=$(mktemp -d)
trap 'rm -rf "$folder"' EXIT
sparc64-linux-gnu-as -32 -Av8 -o "$folder/start.o" "$here/start.s"
sparc64-linux-gnu-gcc -m32 -mcpu=v8 -msoft-float -mno-app-regs -fno-pic -ffreestanding -fno-builtin \
    -fno-tree-loop-distribute-patterns -nostdlib -O2 "$@" -c -o "$folder/program.o" "$source"
(cd "$folder" && sparc64-linux-gnu-ld -m elf32_sparc -T "$here/../image.ld" -o program start.o program.o)
"$here/../write_image.sh" 2 sparc64-linux-gnu "$folder/program" "$image"
