#!/usr/bin/env bash
# Times `grid explain` and `grid draw` beside `grid replay` on the scripts of bench/replay.sh, by turns, and prints the best of
# RUNS runs each. Run it from the repository's top, after `rt run` in crates/grid has built the program: bench/explain.sh
# [LINES..]. A script has at most 16 MB, which are about 140,000 lines. GRID names another program.
set -euo pipefail

GRID=${GRID:-crates/grid/out/grid}
RUNS=${RUNS:-3}
if [ ! -x "$GRID" ]; then
    echo "no program at $GRID: build it with 'cd crates/grid && rt run', or set GRID" >&2
    exit 1
fi
DIR=$(mktemp -d)
trap 'rm -r "$DIR"' EXIT

# Runs a command of the program on a script: appends the seconds to a file, and keeps the peak memory in KiB.
measure() {
    local start=$EPOCHREALTIME
    /usr/bin/time -q -o "$DIR/peak.$1" -f %M "$GRID" "$1" < "$DIR/script" > /dev/null || {
        echo "$1 ended with status $?" >&2
        exit 1
    }
    awk -v from="$start" -v to="$EPOCHREALTIME" 'BEGIN { printf "%.3f\n", to - from }' >> "$DIR/seconds.$1"
}

[ $# -gt 0 ] || set -- 1000 10000 100000
printf '%10s %10s %10s %14s %12s\n' lines command seconds lines/second peak_KiB
for lines in "$@"; do
    bench/sessions.py "$lines" > "$DIR/script"
    rm -f "$DIR"/seconds.*
    for _ in $(seq "$RUNS"); do
        for command in replay explain draw; do
            measure "$command"
        done
    done
    for command in replay explain draw; do
        awk -v l="$lines" -v c="$command" -v s="$(sort -n "$DIR/seconds.$command" | head -n 1)" -v p="$(cat "$DIR/peak.$command")" \
            'BEGIN { printf "%10d %10s %10.3f %14.0f %12d\n", l, c, s, (s > 0 ? l / s : 0), p }'
    done
done
