#!/usr/bin/env bash
# What a look-up of a near client costs whose cache is full, with `grid replay`: `hot` hits, of the same ten keys, however many
# others are kept; `ordered` hits, each of the entry that wasn't used for longest; `scattered` hits, of all keys in an order that is
# neither that of their last use nor that in memory; `misses` of keys that it doesn't keep, whose answers it is handed after every
# 100 look-ups, so that each takes the place of an entry; and scattered hits of a cache `alone`, without a script
# (crates/near_bench). Beside it in the same run stands what any C++ program would keep entries in (near_peer.cpp), with the same
# look-ups: a miss is there a look-up and an entry, and no get. `memory` looks nothing up: it says how long one wait for memory takes
# in as many places as there are entries (near_memory.cpp). Run it from anywhere, after `rt run` in crates/grid and in
# crates/near_bench has built the programs: bench/near.sh [ENTRIES..]. GRID and LOOKS name other ones, and KINDS some of the six.
#
# A script fills a cache and then makes MANY look-ups. BY says in what these are counted:
#
#     time            nanoseconds of processor time, from when the cache is full to the last look-up (near_run.py). RUNS says how
#                     often a script runs, sizes, grid and peer by turns; the fastest run of each counts
#     instructions    as valgrind counts them in one run with FEW look-ups and one with MANY: what they differ in. They don't vary,
#                     nor hang on what else the machine does
#     lines           lines of memory of 64 bytes that valgrind finds neither in a first cache of 48 KB nor in a second of 2 MB,
#                     as a processor's own are: what a look-up has to wait for, from a cache that processors share or from memory.
#                     `alone`, since a script's end, which gives back each entry in the order of use, would be counted too
#
# `alone` are as many look-ups, 30 times over, so that they can be timed, and that each entry was looked up in the shorter run too.
set -euo pipefail

cd "$(dirname "$0")/.."
GRID=${GRID:-crates/grid/out/grid}
LOOKS=${LOOKS:-crates/near_bench/out/near_bench}
RUNS=${RUNS:-7}
FEW=${FEW:-5000}
MANY=${MANY:-95000}
BY=${BY:-time}
for program in "$GRID" "$LOOKS"; do
    if [ ! -x "$program" ]; then
        echo "no program at $program: build it with 'rt run' in its crate, or set GRID or LOOKS" >&2
        exit 1
    fi
done
case $BY in
    time) KINDS=${KINDS:-hot ordered scattered misses alone memory} ;;
    instructions) KINDS=${KINDS:-hot ordered scattered misses alone} ;;
    lines) KINDS=alone ;;
    *) echo "BY is time, instructions or lines" >&2; exit 1 ;;
esac
DIR=$(mktemp -d)
trap 'rm -r "$DIR"' EXIT
g++ -std=c++17 -O2 -o "$DIR/peer" bench/near_peer.cpp
g++ -std=c++17 -O2 -o "$DIR/near_memory" bench/near_memory.cpp

sizes=("$@")
[ $# -gt 0 ] || sizes=(10 1000 100000)

# Writes a part of a script: `fill` makes a cache of so many entries and fills it, and the others look so many keys up. Look-ups stand
# at the same lines for all sizes, so that the numbers of lines, which are printed, have as many digits.
write_part() {
    python3 - "$1" "$2" "$3" "${sizes[@]}" <<'PY'
import struct
import sys

part, entries, lookups, *sizes = sys.argv[1], *map(int, sys.argv[2:])
TOGETHER = 100
HOT = 10

# A key's first four bytes are a hash, which says its partition; these have no content.
def key_of(number):
    return (struct.pack(">I", 1 + number) + bytes.fromhex("fffffff5")).hex()

def look_up(numbers, feeds):
    for place, number in enumerate(numbers, 1):
        print("nearget 0", key_of(number))
        if feeds and place % TOGETHER == 0:
            print("nearfeed 0 1000000")
    if feeds:
        print("nearfeed 0 1000000")

# Between the number of a key and that of the next one.
STEPS = {"hot": max(1, entries // HOT), "ordered": 1, "scattered": 7919}

def lines_of(keys):
    return keys + keys // TOGETHER

if part == "fill":
    print("grid 1 0 10")
    print("# as many lines as it takes to fill the largest\n" * (max(map(lines_of, sizes)) - lines_of(entries)), end="")
    print("open 0 0")
    print("near 0 6d", entries)
    look_up(range(entries), feeds=True)
if part in STEPS:
    look_up((place * STEPS[part] % entries for place in range(lookups)), feeds=False)
if part == "misses":
    look_up(range(entries, entries + lookups), feeds=True)
PY
}

# The words by which the grid or its peer runs a script.
grid=("$GRID" replay)
peer=("$DIR/peer")

# Runs the grid or its peer on a script, or so many look-ups of a cache alone; in front of it whatever else is given.
run_on() {
    local who=$1 work=$2
    shift 2
    case $kind/$who in
        alone/grid) "$@" "$LOOKS" "$entries" "$work" > "$DIR/transcript" ;;
        alone/peer) "$@" "${peer[@]}" "$entries" "$work" > "$DIR/transcript" ;;
        */grid) "$@" "${grid[@]}" < "$work" > "$DIR/transcript" ;;
        */peer) "$@" "${peer[@]}" < "$work" > "$DIR/transcript" ;;
    esac
}

# The nanoseconds of processor time that a run takes.
nanoseconds_of() {
    local TIMEFORMAT='%U %S'
    { time run_on "$1" "$2"; } 2> "$DIR/time" || { echo "$1 ended badly on $2" >&2; exit 1; }
    awk '{ printf "%d\n", ($1 + $2) * 1000000000 }' "$DIR/time"
}

# The instructions, or the lines of memory, of a run.
counted_of() {
    case $BY in
        instructions)
            run_on "$1" "$2" valgrind --tool=callgrind --callgrind-out-file=/dev/null 2>&1 |
                awk '/Collected/ { print $NF }'
            ;;
        lines)
            run_on "$1" "$2" valgrind --tool=cachegrind --cachegrind-out-file=/dev/null --cache-sim=yes \
                --I1=32768,8,64 --D1=49152,12,64 --LL=2097152,16,64 2>&1 |
                awk '/LLd misses/ { gsub(",", ""); print $4 }'
            ;;
    esac
}

# What a look-up costs in one run, once the cache is full.
timed_look() {
    local fill=$DIR/fill.$entries looks=$DIR/$kind.$entries
    case $1 in
        grid) bench/near_run.py "$fill" "$looks" "${grid[@]}" ;;
        peer) bench/near_run.py "$fill" "$looks" "${peer[@]}" ;;
    esac
}

# What a look-up costs by the difference of a run with few look-ups and one with many.
differing_look() {
    local few=$((30 * FEW)) many=$((30 * MANY)) looks=$((30 * (MANY - FEW))) cost=counted_of
    if [ "$kind" != alone ]; then
        few=$DIR/few many=$DIR/many looks=$((MANY - FEW))
        { cat "$DIR/fill.$entries"; write_part "$kind" "$entries" "$FEW"; } > "$few"
        cat "$DIR/fill.$entries" "$DIR/$kind.$entries" > "$many"
    fi
    [ "$BY" != time ] || cost=nanoseconds_of
    awk -v few="$($cost "$1" "$few")" -v many="$($cost "$1" "$many")" -v looks="$looks" \
        'BEGIN { printf "%.1f\n", (many - few) / looks }'
}

look_of() {
    case $BY/$kind in
        time/memory) "$DIR/near_memory" "$entries" ;;
        */alone | instructions/*) differing_look "$1" ;;
        *) timed_look "$1" ;;
    esac
}

# Who looks up: to wait for memory is the same for both.
sides() {
    [ "$kind" = memory ] || echo grid
    echo peer
}

# Does something for each size, kind and side, in this order.
for_each() {
    for entries in "${sizes[@]}"; do
        for kind in $KINDS; do
            for who in $(sides); do
                "$@"
            done
        done
    done
}

# What a look-up costs in one run more, in a file of its size, kind and side.
measure() {
    look_of "$who" >> "$DIR/cost.$entries.$kind.$who"
}

# Prints what a look-up costs.
tell() {
    awk -v kind="$kind" -v entries="$entries" -v who="$who" -v by="$BY" \
        -v each="$(sort -n "$DIR/cost.$entries.$kind.$who" | head -n 1)" 'BEGIN {
            if (by == "time") {
                printf "%9s %10d %6s %20.0f %16.0f\n", kind, entries, who, each, (each > 0 ? 1000000000 / each : 0)
            } else {
                printf "%9s %10d %6s %20.1f\n", kind, entries, who, each
            }
        }'
}

for entries in "${sizes[@]}"; do
    for part in fill $KINDS; do
        write_part "$part" "$entries" "$MANY" > "$DIR/$part.$entries"
    done
done
[ "$BY" = time ] || RUNS=1
for _ in $(seq "$RUNS"); do
    for_each measure
done
case $BY in
    time) printf '%9s %10s %6s %20s %16s\n' look-ups entries who nanoseconds/look-up look-ups/second ;;
    *) printf '%9s %10s %6s %20s\n' look-ups entries who "$BY/look-up" ;;
esac
for_each tell
