#!/usr/bin/env bash
# programs.sh: makes each C program of bench/programs for both targets and for the host with gcc, and compares what the
# simulator's run prints, and its status, with the host's. Needs gcc, gcc-mipsel-linux-gnu and gcc-sparc64-linux-gnu.
set -eu
here=$(cd "$(dirname "$0")" && pwd)
bench=${BENCH:-$here/../crates/bench/out/bench}
input=$here/../crates/bench/data/sort.in
folder=$(mktemp -d)
trap 'rm -rf "$folder"' EXIT

# compared TARGET FIELD LEVEL: one program at one level; FIELD is the place in the line of the register of the status
compared() {
    "$here/$1/image.sh" "$source" "$folder/image" "$3" 2>/dev/null
    line=$("$bench" run "$folder/image" "$input" "$folder/output")
    if [[ $line == exit* ]] && [ $((16#$(cut -d' ' -f"$2" <<<"$line"))) = "$status" ] && cmp -s "$folder/output" "$folder/expected"; then
        echo "$1 $name $3: $(cut -d' ' -f1-3 <<<"$line"), the host's output"
    else
        echo "$1 $name $3: DIFFERS: $line"
        exit 1
    fi
}

for source in "$here"/programs/*.c; do
    name=$(basename "$source" .c)
    gcc -O2 -w -o "$folder/host" "$source"
    "$folder/host" <"$input" >"$folder/expected" && status=0 || status=$?
    # $4 is the fifth of the words after `registers`, %o0 the ninth
    for level in -O0 -O1 -O2 -Os; do
        compared mips 11 $level
    done
    # at the other levels gcc uses ADDcc and ANDcc, which the subset lacks
    compared sparc 15 -O0
done
