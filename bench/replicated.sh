#!/usr/bin/env bash
# Times `grid replay` on puts that a backup acknowledges, each delivered by `flow`: `steady` on 3 members with 1 backup,
# and `crashes` with a crash and a promotion every 1,000 lines. A member that crashed doesn't come back, so `crashes` runs
# scripts of 7,000 lines on 8 members, one after another, each with 6 crashes, and after each a join for the next backup.
# Every second line has two puts, so there is a put for each line. Run it from the repository's top, after `rt run` in
# crates/grid has built the program: bench/replicated.sh [LINES..]. GRID names another program.
set -euo pipefail

GRID=${GRID:-crates/grid/out/grid}
if [ ! -x "$GRID" ]; then
    echo "no program at $GRID: build it with 'cd crates/grid && rt run', or set GRID" >&2
    exit 1
fi
DIR=$(mktemp -d)
trap 'rm -r "$DIR"' EXIT

# Writes a script of one kind with this many lines.
write_script() {
    python3 - "$1" "$2" <<'PY'
import struct
import sys

kind, lines = sys.argv[1], int(sys.argv[2])
FIRST, LAST = 0xC000, 0x2000
AUTHENTICATION, SET = 0x000100, 0x010F00
PARTITION, PARTITIONS, NAME, KEYS = 5, 271, b"m", 50
LINES_OF_A_PRIMARY = 1000
members = 3 if kind == "steady" else 8

def frame(flags, payload):
    return struct.pack("<IH", len(payload) + 6, flags) + payload

def message(first, *payloads):
    payloads = [first, *payloads]
    last = len(payloads) - 1
    return b"".join(frame((FIRST if place == 0 else 0) | (LAST if place == last else 0), payload)
                    for place, payload in enumerate(payloads))

def head(kind, correlation):
    return struct.pack("<iqi", kind, correlation, PARTITION)

# A key's first four bytes are a hash; these are of one partition.
def put(call):
    key = struct.pack(">I", PARTITION + PARTITIONS * (call % KEYS)) + bytes.fromhex("fffffff5")
    return message(head(SET, call) + struct.pack("<qq", 1, 0), NAME, key, b"v%d" % (call // KEYS % 10))

made = [f"grid {members} 1 1000000"]
for member in range(members):
    client = struct.pack("<BQQB", 0, 0, member, 1)
    opening = b"CP2" + message(head(AUTHENTICATION, 0) + client, b"dev")
    made += [f"open {member} {member}", f"bytes {member} {opening.hex()}"]

# A member crashes, its backup is promoted, and the member behind that one becomes the next backup.
def promote(primary):
    following = (primary + 1) % members
    joiner = (primary + 2) % members
    made.extend([f"crash {primary}", f"detect {primary}", f"flow {PARTITION} 100"])
    made.extend([f"join {PARTITION} {joiner}", f"flow {PARTITION} 100"])
    return following

primary, call, since = PARTITION % members, 0, len(made)
while len(made) < lines - 2:
    if kind == "crashes" and len(made) - since >= LINES_OF_A_PRIMARY:
        primary, since = promote(primary), len(made)
    made.append(f"bytes {primary} {(put(call) + put(call + 1)).hex()}")
    made.append(f"flow {PARTITION} 100")
    call += 2
made += ["#"] * (lines - 1 - len(made)) + ["end"]
print("\n".join(made))
PY
}

# Runs the program on a script: its exit status, the seconds and the peak memory in KiB.
measure() {
    local start=$EPOCHREALTIME status=0
    /usr/bin/time -q -o "$DIR/peak" -f %M "$GRID" replay < "$1" > /dev/null || status=$?
    awk -v from="$start" -v to="$EPOCHREALTIME" -v status="$status" \
        '{ printf "%d %.3f %d\n", status, to - from, $1 }' "$DIR/peak"
}

# Prints a row of the table: of a kind and so many lines, in scripts of this many at most.
row() {
    local kind=$1 lines=$2 most=$3 left=$2 total=0 highest=0 status seconds peak
    while [ "$left" -gt 0 ]; do
        local count=$((left < most ? left : most))
        write_script "$kind" "$count" > "$DIR/script"
        read -r status seconds peak < <(measure "$DIR/script")
        if [ "$status" != 0 ]; then
            echo "the script of $count lines of $kind ended with status $status" >&2
            exit 1
        fi
        total=$(awk -v a="$total" -v b="$seconds" 'BEGIN { print a + b }')
        highest=$((peak > highest ? peak : highest))
        left=$((left - count))
    done
    awk -v k="$kind" -v l="$lines" -v s="$total" -v p="$highest" \
        'BEGIN { printf "%8s %10d %10.3f %14.0f %12d\n", k, l, s, (s > 0 ? l / s : 0), p }'
}

[ $# -gt 0 ] || set -- 1000 10000 100000
printf '%8s %10s %10s %14s %12s\n' kind lines seconds lines/second peak_KiB
for lines in "$@"; do
    row steady "$lines" 100000
done
for lines in "$@"; do
    row crashes "$lines" 7000
done
