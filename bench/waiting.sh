#!/usr/bin/env bash
# Times `grid replay` on calls that wait: `offers` wait on one queue with room for one, and then as many polls each have the
# first of them leave; `polls` wait on an empty queue, and then as many offers do; `late` are polls whose deadlines come all
# at one `clock` line. Run it from the repository's top, after `rt run` in crates/grid has built the program:
# bench/waiting.sh [CALLS..]. GRID names another program.
set -euo pipefail

GRID=${GRID:-crates/grid/out/grid}
if [ ! -x "$GRID" ]; then
    echo "no program at $GRID: build it with 'cd crates/grid && rt run', or set GRID" >&2
    exit 1
fi
DIR=$(mktemp -d)
trap 'rm -r "$DIR"' EXIT

# Writes a script of one kind with so many calls that wait.
write_script() {
    python3 - "$1" "$2" <<'PY'
import struct
import sys

kind, calls = sys.argv[1], int(sys.argv[2])
FIRST, LAST = 0xC000, 0x2000
AUTHENTICATION, OFFER, POLL, OFFER_WAIT, POLL_WAIT = 0x000100, 0x030100, 0x030500, 0x038000, 0x038100
PARTITION, NAME, AT_ONCE = 5, b"q", 200

def frame(flags, payload):
    return struct.pack("<IH", len(payload) + 6, flags) + payload

def message(first, *payloads):
    payloads = [first, *payloads]
    last = len(payloads) - 1
    return b"".join(frame((FIRST if place == 0 else 0) | (LAST if place == last else 0), payload)
                    for place, payload in enumerate(payloads))

def head(kind, correlation):
    return struct.pack("<iqi", kind, correlation, PARTITION)

def offer(call):
    return message(head(OFFER, call), NAME, b"v")

def poll(call):
    return message(head(POLL, call), NAME)

def offer_wait(call, timeout):
    return message(head(OFFER_WAIT, call) + struct.pack("<q", timeout), NAME, b"v")

def poll_wait(call, timeout):
    return message(head(POLL_WAIT, call) + struct.pack("<q", timeout), NAME)

made = ["grid 1 0 1"]
for conn in range(2):
    client = struct.pack("<BQQB", 0, 0, conn, 1)
    opening = b"CP2" + message(head(AUTHENTICATION, 0) + client, b"dev")
    made += [f"open {conn} 0", f"bytes {conn} {opening.hex()}"]

# Many messages come in one line, as many as fit.
def bring(conn, messages):
    for first in range(0, len(messages), AT_ONCE):
        made.append(f"bytes {conn} {b''.join(messages[first:first + AT_ONCE]).hex()}")

if kind == "offers":
    bring(1, [offer(0)])
    bring(0, [offer_wait(call, -1) for call in range(calls)])
    bring(1, [poll(call) for call in range(1, calls + 2)])
elif kind == "polls":
    bring(0, [poll_wait(call, -1) for call in range(calls)])
    bring(1, [offer(call) for call in range(calls)])
else:
    bring(0, [poll_wait(call, 1000) for call in range(calls)])
    made.append("clock 0 1000")
made.append("end")
print("\n".join(made))
PY
}

# Prints a row of the table: the exit status has to be 0.
row() {
    local kind=$1 calls=$2 start status=0
    write_script "$kind" "$calls" > "$DIR/script"
    start=$EPOCHREALTIME
    "$GRID" replay < "$DIR/script" > /dev/null || status=$?
    if [ "$status" != 0 ]; then
        echo "the script of $calls calls of $kind ended with status $status" >&2
        exit 1
    fi
    awk -v k="$kind" -v c="$calls" -v from="$start" -v to="$EPOCHREALTIME" \
        'BEGIN { s = to - from; printf "%8s %8d %10.3f %14.0f\n", k, c, s, (s > 0 ? c / s : 0) }'
}

[ $# -gt 0 ] || set -- 25000 50000 100000
printf '%8s %8s %10s %14s\n' kind calls seconds calls/second
for kind in offers polls late; do
    for calls in "$@"; do
        row "$kind" "$calls"
    done
done
