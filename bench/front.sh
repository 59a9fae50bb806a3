#!/usr/bin/env bash
# front.sh [TIMES]: times the front over texts of nearly 40,000 tokens, and gcc and tcc on the same texts beside it where they are installed, TIMES times
# each by turns (7 if left out). The first text is the usual one; each of the others is the dearest of one kind.
# The program is crates/front_bench/out/front_bench, which `rt run` in crates/front_bench makes.
set -eu
times=${1:-7}
here=$(cd "$(dirname "$0")" && pwd)
bench=${FRONT_BENCH:-$here/../crates/front_bench/out/front_bench}
if [ ! -x "$bench" ]; then echo "front_bench is not built: rt run in crates/front_bench"; exit 0; fi
folder=$(mktemp -d)
trap 'rm -rf "$folder"' EXIT
cd "$folder"

# functions with declarations, loops, conditions, member and array accesses, of 96 tokens each
usual() {
    echo 'struct node { int key; char tag[4]; struct node *next; };'
    echo 'int table[64]; struct node *first;'
    for n in $(seq 415); do
        cat <<END
int work$n(int count, struct node *at) {
    int i, sum = 0;
    for (i = 0; i < count; i++) {
        sum += table[i & 63] * (i + $n) - (sum >> 3);
        if (at && at->key == sum) return at->tag[i % 4] + 'a';
    }
    table[count & 63] = sum; at->next = first;
    return sum;
}
END
    done
    echo 'int main(void) { return work1(10, first); }'
}

# a struct with 6,400 members, which 2,200 others contain
wide() {
    echo "struct wide { char a0$(seq -f ', a%g' 1 6399 | tr -d '\n'); };"
    seq -f 'struct s%g { char n; struct wide w; };' 1 2200
    echo 'int main(void) { return 0; }'
}

# a struct that is doubled 18 times, which 2,900 others contain
doubled() {
    echo 'struct d0 { char a, b; };'
    for n in $(seq 18); do echo "struct d$n { struct d$((n - 1)) a, b; };"; done
    seq -f 'struct s%g { char n; struct d18 d; };' 1 2900
    echo 'int main(void) { return 0; }'
}

# a struct with 9,000 members, the last of which is named 5,000 times
members() {
    echo "struct wide { int a0$(seq -f ', a%g' 1 9000 | tr -d '\n'); } v;"
    echo 'int main(void) {'
    yes 'v.a9000;' | head -5000
    echo 'return 0; }'
}

# 3,900 objects of 1,048,576 bytes that begin with one zero
zeros() {
    seq -f 'char z%g[1048576]={0};' 1 3900
    echo 'int main(void) { return 0; }'
}

# 19,900 names at file scope
names() {
    echo "int g0$(seq -f ', g%g' 1 19900 | tr -d '\n');"
    echo 'int main(void) { return 0; }'
}

# a pointer that is 60 deep, named 19,800 times
deep() {
    echo "int $(yes '*' | head -60 | tr -d '\n')p; int main(void) {"
    yes "p$(yes ',p' | head -49 | tr -d '\n');" | head -396
    echo 'return 0; }'
}

# timed COMMAND..: prints the seconds of the user's and the system's time that a command takes
timed() {
    local TIMEFORMAT='%U %S'
    { time "$@" >last 2>/dev/null || true; } 2>&1 | awk '{ print $1 + $2 }'
}

ours() { timed "$bench" front text.c; }
gcc90() { timed gcc -std=c90 -w -fsyntax-only text.c; }
tcc() { timed command tcc -w -c -o /dev/null text.c; }

for shape in ${SHAPES:-usual wide doubled members zeros names deep}; do
    $shape >text.c
    rm -f times.*
    ours >/dev/null
    echo "front, $shape: $(wc -c <text.c) bytes, $(head -1 last), $(($(wc -l <last) - 1)) stopping points; seconds of $times runs by turns"
    for _ in $(seq "$times"); do
        for who in ours gcc90 tcc; do
            case $who in
            gcc90) command -v gcc >/dev/null || continue ;;
            tcc) [ -n "$(type -P tcc)" ] || continue ;;
            esac
            $who >>times.$who
        done
    done
    for who in ours gcc90 tcc; do
        [ -e times.$who ] || continue
        sort -n times.$who | awk -v n=$who '{ t[NR] = $1; line = line " " $1 } END { printf "%s%s: median %.3f s\n", n, line, t[int((NR + 1) / 2)] }'
    done
done
