#!/usr/bin/env bash
# postscript.sh [TURNS]: times two loops under the interpreter, and under Ghostscript beside it where that is installed.
# The program is crates/ps_bench/out/ps_bench, which `rt run` in crates/ps_bench makes. A time is the user's time of a run
# with many turns less that of a run of an empty text. The steps are those that the interpreter counts.
set -eu
turns=${1:-20000000}
here=$(cd "$(dirname "$0")" && pwd)
bench=${PS_BENCH:-$here/../crates/ps_bench/out/ps_bench}
if [ ! -x "$bench" ]; then echo "ps_bench is not built: rt run in crates/ps_bench"; exit 0; fi
folder=$(mktemp -d)
trap 'rm -rf "$folder"' EXIT
cd "$folder"
: >empty.ps
echo "0 $turns { 1 add } repeat" >add.ps
echo "/x 0 def $turns { /x /x load 1 add def } repeat x" >load.ps

# timed COMMAND..: prints the seconds of the user's time that a command takes
timed() {
    local TIMEFORMAT=%U
    { time "$@" >last 2>/dev/null; } 2>&1
}

ours() { timed "$bench" postscript "$1"; }
peer() { timed gs -q -dNODISPLAY -dBATCH "$1"; }

# compared NAME: five runs of a text by turns with Ghostscript's, less those of an empty text, their medians and the ratio
compared() {
    local name=$1 who steps
    ours $name.ps >/dev/null
    steps=$(tail -1 last | cut -d' ' -f1)
    echo "$name: $(cat $name.ps) leaves $(head -1 last) in $steps steps, user seconds of five runs by turns"
    for _ in 1 2 3 4 5; do
        for who in ours peer; do
            if [ $who = peer ] && ! command -v gs >/dev/null; then continue; fi
            echo "$($who $name.ps) $($who empty.ps)" | awk '{ print $1 - $2 }' >>$name.$who
        done
    done
    for who in ours peer; do
        [ -e $name.$who ] || continue
        sort -n $name.$who | awk -v n=$who -v s="$steps" '{ t[NR] = $1; line = line " " $1 } END { printf "%s%s: median %.2f s, %.1f million steps a second\n", n, line, t[3], s / t[3] / 1e6 }'
    done
    if [ -e $name.peer ]; then
        echo "steps a second, ours by Ghostscript's: $(paste -d' ' <(sort -n $name.ours) <(sort -n $name.peer) | awk 'NR == 3 { printf "%.2f", $2 / $1 }')"
    fi
}

compared add
compared load
