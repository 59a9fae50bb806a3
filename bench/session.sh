#!/usr/bin/env bash
# session.sh [TIMES]: times sessions of `ldb go` for both targets, and of gdb over what gcc (-g -O0) makes of the same text where both are installed,
# TIMES times each by turns (5 if left out). A time is the user's and the system's time of a whole call, which compiles, reads the table, runs the
# program and answers. `start` ends at its first stop, so what a command takes is the difference to it, divided by how many there are. Those whose
# names begin with `ten` are sessions with a program of ten lines: up to its first stop, and with 1,000 commands of a kind behind that; `lists` lists
# 5,000 frames twice, since a compiled program has no room for 10,000 (docs/code.md). `self` is the call `self 1`, which gdb has not.
# The program is crates/ldb/out/ldb, which `rt run` in crates/ldb makes, or LDB=PROGRAM.
set -eu
times=${1:-5}
here=$(cd "$(dirname "$0")" && pwd)
ldb=${LDB:-$here/../crates/ldb/out/ldb}
if [ ! -x "$ldb" ]; then echo "ldb is not built: rt run in crates/ldb"; exit 0; fi
folder=$(mktemp -d)
trap 'rm -rf "$folder"' EXIT
cd "$folder"
: >in

cat >text.c <<'END'
struct node { int key; char tag[4]; struct node *next; };
struct node nodes[300];
int sum;
int work(int n) {
  sum = sum + n;
  if (n > 0) return work(n - 1);
  return sum;
}
int main(void) {
  int i;
  work(4999);
  for (i = 0; i < 1000000; i = i + 1)
    sum = sum + i % 7;
  return 0;
}
END

cat >ten.c <<'END'
int calls;
int fact(int n) {
  calls = calls + 1;
  if (n <= 1) return 1;
  return n * fact(n - 1);
}
int main(void) {
  int i;
  for (i = 0; i < 1000; i = i + 1) fact(10);
  return 0; }
END

# text_of NAME: the program of a session
text_of() {
    case $1 in
    ten*) echo ten ;;
    *) echo text ;;
    esac
}

# repeated COUNT LINE: a line so many times
repeated() { yes "$2" | head -n "$1" || true; }

# session NAME: the commands of a session, for ldb
session() {
    case $1 in
    ten*) echo 'break ten.c:3' ;;
    *) echo 'break text.c:7' ;;
    esac
    echo continue
    case $1 in
    start | ten) ;;
    ten_steps) echo 'clear ten.c:3'; repeated 1000 step ;;
    ten_prints) repeated 1000 'print calls' ;;
    ten_evals) repeated 1000 'eval n * 3 + calls' ;;
    lists) repeated 2 frames ;;
    frames) repeated 10 frames ;;
    nodes) repeated 100 'print nodes' ;;
    print) repeated 2000 'print sum' ;;
    eval) repeated 2000 'eval nodes[n + 2].key * 3 + sum' ;;
    stops) echo 'clear text.c:7'; echo 'break text.c:13'; repeated 5000 continue ;;
    steps) echo 'clear text.c:7'; repeated 5000 step ;;
    esac
    echo quit
}

# the same for gdb, which is told `run` first
for_gdb() {
    echo 'set pagination off'
    session "$1" | sed -e '2s/continue/run/' -e 's/^eval /print /' -e 's/^frames$/backtrace/' -e 's/^clear .*:[37]$/delete/'
}

# timed FILE COMMAND..: adds the seconds of the user's and the system's time that a command takes to a file
timed() {
    local TIMEFORMAT='%U %S' into=$1
    shift
    { time "$@" >last 2>/dev/null || true; } 2>&1 | awk '{ print $1 + $2 }' >>"$into"
}

# one_session WHO NAME
one_session() {
    case $1 in
    gdb) timed "times.$1.$2" gdb -nx -batch -x "$2.gdb" "$(text_of "$2").host" ;;
    *) timed "times.$1.$2" "$ldb" go "$1" in out "$(text_of "$2").c" <"$2.ldb" ;;
    esac
}

names="start lists frames nodes print eval stops steps ten ten_steps ten_prints ten_evals"
whom="mips sparc"
if [ -n "$(type -P gdb)" ] && [ -n "$(type -P gcc)" ]; then
    whom="$whom gdb"
    for text in text ten; do gcc -g -O0 -w -o $text.host $text.c; done
fi
for name in $names; do
    session $name >$name.ldb
    for_gdb $name >$name.gdb
done
for _ in $(seq "$times"); do
    for name in $names; do
        for who in $whom; do one_session $who $name; done
    done
    timed times.both.self "$ldb" self 1
done
for name in $names self; do
    for who in $whom both; do
        [ -e times.$who.$name ] || continue
        sort -n times.$who.$name | awk -v n="$name $who" '{ t[NR] = $1; line = line " " $1 } END { printf "%s%s: median %.3f s\n", n, line, t[int((NR + 1) / 2)] }'
    done
done
