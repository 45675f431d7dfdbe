#!/usr/bin/env bash
# Times `grid replay` on scripts of sessions: puts and gets, pings, refused messages, comments and histories. Run it
# from the repository's top, after `rt run` in crates/grid has built the program: bench/replay.sh [LINES..]. A script
# has at most 16 MB, which are about 140,000 lines. GRID names another program.
set -euo pipefail

GRID=${GRID:-crates/grid/out/grid}
if [ ! -x "$GRID" ]; then
    echo "no program at $GRID: build it with 'cd crates/grid && rt run', or set GRID" >&2
    exit 1
fi
DIR=$(mktemp -d)
trap 'rm -r "$DIR"' EXIT

# Runs the program on a script: its exit status, the seconds and the peak memory in KiB.
measure() {
    local start=$EPOCHREALTIME status=0
    /usr/bin/time -q -o "$DIR/peak" -f %M "$GRID" replay < "$1" > /dev/null || status=$?
    awk -v from="$start" -v to="$EPOCHREALTIME" -v status="$status" \
        '{ printf "%d %.3f %d\n", status, to - from, $1 }' "$DIR/peak"
}

[ $# -gt 0 ] || set -- 1000 10000 100000
printf '%10s %10s %14s %12s\n' lines seconds lines/second peak_KiB
for lines in "$@"; do
    bench/sessions.py "$lines" > "$DIR/script"
    read -r status seconds peak < <(measure "$DIR/script")
    if [ "$status" != 0 ]; then
        echo "the script of $lines lines ended with status $status" >&2
        exit 1
    fi
    awk -v l="$lines" -v s="$seconds" -v p="$peak" 'BEGIN { printf "%10d %10.3f %14.0f %12d\n", l, s, (s > 0 ? l / s : 0), p }'
done
