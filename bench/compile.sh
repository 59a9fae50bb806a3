#!/usr/bin/env bash
# compile.sh [TIMES]: times `ldb cc` for both targets over a text of nearly 40,000 tokens, and gcc, clang and tcc (-O0 -g -c) on the same text beside it
# where they are installed, TIMES times each by turns (7 if left out). A time is the user's and the system's time of a whole run, with what is written.
# The program is crates/ldb/out/ldb, which `rt run` in crates/ldb makes.
set -eu
times=${1:-7}
here=$(cd "$(dirname "$0")" && pwd)
ldb=${LDB:-$here/../crates/ldb/out/ldb}
if [ ! -x "$ldb" ]; then echo "ldb is not built: rt run in crates/ldb"; exit 0; fi
folder=$(mktemp -d)
trap 'rm -rf "$folder"' EXIT
cd "$folder"

# functions with declarations, loops, conditions, member and array accesses, of 96 tokens each
{
    echo 'struct node { int key; char tag[4]; struct node *next; };'
    echo 'int table[64]; struct node *first;'
    for n in $(seq 415); do
        cat <<END
int work$n(int count, struct node *at) {
    int i, sum = 0;
    for (i = 0; i < count; i++) {
        sum += table[i & 63] * (i + $n) - (sum >> 3);
        if (at && at->key == sum) return at->tag[i % 4] + 'a';
    }
    table[count & 63] = sum; at->next = first;
    return sum;
}
END
    done
    echo 'int main(void) { return work1(10, first); }'
} >text.c

# timed COMMAND..: prints the seconds of the user's and the system's time that a command takes
timed() {
    local TIMEFORMAT='%U %S'
    { time "$@" >last 2>/dev/null || true; } 2>&1 | awk '{ print $1 + $2 }'
}

run() {
    case $1 in
    mips | sparc) timed "$ldb" cc "$1" image table text.c ;;
    *) timed "$1" -w -O0 -g -c -o object text.c ;;
    esac
}

"$ldb" cc mips image table text.c
echo "compile: $(wc -c <text.c) bytes of source, $(wc -c <image) bytes of image for MIPS; seconds of $times runs by turns"
for _ in $(seq "$times"); do
    for who in mips sparc gcc clang tcc; do
        case $who in
        gcc | clang | tcc) [ -n "$(type -P $who)" ] || continue ;;
        esac
        run $who >>times.$who
    done
done
for who in mips sparc gcc clang tcc; do
    [ -e times.$who ] || continue
    sort -n times.$who | awk -v n=$who '{ t[NR] = $1; line = line " " $1 } END { printf "%s%s: median %.3f s\n", n, line, t[int((NR + 1) / 2)] }'
done
