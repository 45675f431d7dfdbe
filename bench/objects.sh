#!/usr/bin/env bash
# Times `grid replay` on objects of one partition: `keys` puts as many keys as half the script's lines and reads each,
# `queue` fills a queue with an item a line and drains it, `counter` adds to one key's value by a processor. Run it from
# the repository's top, after `rt run` in crates/grid has built the program: bench/objects.sh [LINES..]. A script has at
# most 16 MB, which are about 110,000 lines. GRID names another program.
set -euo pipefail

GRID=${GRID:-crates/grid/out/grid}
if [ ! -x "$GRID" ]; then
    echo "no program at $GRID: build it with 'cd crates/grid && rt run', or set GRID" >&2
    exit 1
fi
DIR=$(mktemp -d)
trap 'rm -r "$DIR"' EXIT

# Writes a script of one kind with this many lines. A line of `queue` has two calls, else one: so the queue holds as many
# items as there are lines, and the script stays below 16 MB.
write_script() {
    python3 - "$1" "$2" <<'PY'
import struct
import sys

kind, lines = sys.argv[1], int(sys.argv[2])
FIRST, LAST = 0xC000, 0x2000
AUTHENTICATION, SET, GET, EXECUTE, OFFER, POLL = 0x000100, 0x010F00, 0x010200, 0x012E00, 0x030100, 0x030500
PARTITION, PARTITIONS, NAME = 5, 271, b"m"
OPENING, CLOSING = 3, 1

def frame(flags, payload):
    return struct.pack("<IH", len(payload) + 6, flags) + payload

def message(first, *payloads):
    payloads = [first, *payloads]
    last = len(payloads) - 1
    return b"".join(frame((FIRST if place == 0 else 0) | (LAST if place == last else 0), payload)
                    for place, payload in enumerate(payloads))

def head(kind, correlation):
    return struct.pack("<iqi", kind, correlation, PARTITION)

# A key's first four bytes are a hash; these are of one partition.
def key_of(number):
    return struct.pack(">I", PARTITION + PARTITIONS * number) + bytes.fromhex("fffffff5")

# Keys come in an order that isn't theirs.
def shuffled(call, count):
    return call * 7919 % count

def set_key(call, number):
    return message(head(SET, call) + struct.pack("<qq", 1, 0), NAME, key_of(number), b"v")

def get_key(call, number):
    return message(head(GET, call) + struct.pack("<q", 1), NAME, key_of(number))

def add_one(call):
    return message(head(EXECUTE, call) + struct.pack("<q", 1), NAME, struct.pack("<iq", 1, 1), key_of(0))

def offer(call):
    return message(head(OFFER, call), NAME, b"v")

def poll(call):
    return message(head(POLL, call), NAME)

def calls_of_line(line, count):
    half = count // 2
    if kind == "keys":
        return set_key(line, shuffled(line, half)) if line < half else get_key(line, shuffled(line - half, half))
    if kind == "counter":
        return add_one(line)
    one = offer if line < half else poll
    return one(2 * line) + one(2 * line + 1)

print("grid 1 0 1000000")
print("open 0 0")
client = struct.pack("<BQQB", 0, 0, 7, 1)
print("bytes 0", (b"CP2" + message(head(AUTHENTICATION, 0) + client, b"dev")).hex())
count = max(2, (lines - OPENING - CLOSING) // 2 * 2)
for line in range(count):
    print("bytes 0", calls_of_line(line, count).hex())
for line in range(OPENING + count, lines - CLOSING):
    print("#")
print("end")
PY
}

# Runs the program on a script: its exit status, the seconds and the peak memory in KiB.
measure() {
    local start=$EPOCHREALTIME status=0
    /usr/bin/time -q -o "$DIR/peak" -f %M "$GRID" replay < "$1" > /dev/null || status=$?
    awk -v from="$start" -v to="$EPOCHREALTIME" -v status="$status" \
        '{ printf "%d %.3f %d\n", status, to - from, $1 }' "$DIR/peak"
}

[ $# -gt 0 ] || set -- 1000 10000 100000
printf '%8s %10s %10s %14s %12s\n' objects lines seconds lines/second peak_KiB
for kind in keys queue counter; do
    for lines in "$@"; do
        write_script "$kind" "$lines" > "$DIR/script"
        read -r status seconds peak < <(measure "$DIR/script")
        if [ "$status" != 0 ]; then
            echo "the script of $lines lines of $kind ended with status $status" >&2
            exit 1
        fi
        awk -v k="$kind" -v l="$lines" -v s="$seconds" -v p="$peak" \
            'BEGIN { printf "%8s %10d %10.3f %14.0f %12d\n", k, l, s, (s > 0 ? l / s : 0), p }'
    done
done
