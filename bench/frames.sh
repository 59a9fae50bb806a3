#!/usr/bin/env bash
# frames.sh: times walks over made stacks of 1,000, 2,000, 5,000 and 10,000 frames on both targets, each walked 100 times.
# The program is crates/link_bench/out/link_bench, which `rt run` in crates/link_bench makes. A time is the user's time of
# a run less that of a run with one frame, the median of five runs by turns; beside it stands how often the time of 1,000
# frames it is.
set -eu
here=$(cd "$(dirname "$0")" && pwd)
bench=${LINK_BENCH:-$here/../crates/link_bench/out/link_bench}
if [ ! -x "$bench" ]; then echo "link_bench is not built: rt run in crates/link_bench"; exit 0; fi
folder=$(mktemp -d)
trap 'rm -rf "$folder"' EXIT
cd "$folder"

# timed COMMAND..: prints the seconds of the user's time that a command takes
timed() {
    local TIMEFORMAT=%U
    { time "$@" >last 2>/dev/null; } 2>&1
}

for _ in 1 2 3 4 5; do
    for target in mips sparc; do
        word=
        if [ $target = sparc ]; then word=sparc; fi
        for frames in 1000 2000 5000 10000; do
            time=$(timed "$bench" frames $frames $word)
            if [ "$(cat last)" != "answered $((100 * frames))" ]; then echo "$target $frames: $(cat last)"; exit 1; fi
            echo "$time $(timed "$bench" frames 1 $word)" | awk '{ print $1 - $2 }' >>$target.$frames
        done
    done
done
for target in mips sparc; do
    for frames in 1000 2000 5000 10000; do
        echo "$frames $(sort -n $target.$frames | sed -n 3p)"
    done | awk -v t=$target 'NR == 1 { first = $2 } { printf "%s %d frames, 100 walks: %.3f s, %.1f times that of 1,000\n", t, $1, $2, $2 / first }'
done
