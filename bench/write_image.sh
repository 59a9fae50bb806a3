#!/usr/bin/env bash
# write_image.sh TARGET PREFIX PROGRAM IMAGE: the image file of a linked program, whose text and data are taken by PREFIX-objcopy.
# TARGET is the target byte: 1 is the MIPS, 2 the SPARC. The entry is the start of the text.
set -eu
target=$1 prefix=$2 program=$3 image=$4
folder=$(mktemp -d)
trap 'rm -rf "$folder"' EXIT
"$prefix-objcopy" -O binary -j .text "$program" "$folder/text"
"$prefix-objcopy" -O binary -j .data "$program" "$folder/data" 2>/dev/null || : >"$folder/data"
[ -e "$folder/data" ] || : >"$folder/data"
be32() { printf "$(printf '\\x%02x\\x%02x\\x%02x\\x%02x' $(($1 >> 24 & 255)) $(($1 >> 16 & 255)) $(($1 >> 8 & 255)) $(($1 & 255)))"; }
{
    printf 'LDBI\x01'
    printf "\\x0$target"
    printf '\x00\x00'
    be32 $((0x400000))
    be32 "$(stat -c %s "$folder/text")"
    be32 "$(stat -c %s "$folder/data")"
    cat "$folder/text" "$folder/data"
} >"$image"
