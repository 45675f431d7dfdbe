#!/usr/bin/env bash
# Times the reading of a connection's bytes into messages, which come in pieces of 1, 100 and 65,536 bytes: a stream of
# small messages, and one of messages with frames of 1 MB. Run it from the repository's top, after `rt run` in
# crates/grid_scenarios has built the program: bench/codec.sh [MEGABYTES]. READER names another program.
set -euo pipefail

READER=${READER:-crates/grid_scenarios/out/grid_scenarios}
if [ ! -x "$READER" ]; then
    echo "no program at $READER: build it with 'cd crates/grid_scenarios && rt run', or set READER" >&2
    exit 1
fi
DIR=$(mktemp -d)
trap 'rm -r "$DIR"' EXIT

# Writes a stream of about so many bytes: its prefix, and messages of one kind.
write_stream() {
    python3 - "$1" "$2" <<'PY'
import struct
import sys

kind, size = sys.argv[1], int(sys.argv[2])

def frame(flags, payload):
    return struct.pack("<IH", len(payload) + 6, flags) + payload

key = bytes.fromhex("00000005fffffff56b")
head = frame(0xC000, struct.pack("<iqiqq", 0x010100, 1, 5, 1, 0))
value = bytes.fromhex("00000000fffffff576") if kind == "small" else bytes(1048570)
message = head + frame(0, b"m") + frame(0, key) + frame(0x2000, value)
count = max(1, size // len(message))
sys.stdout.buffer.write(b"CP2" + message * count)
PY
}

printf '%8s %8s %12s %10s %14s\n' stream piece bytes seconds bytes/second
for kind in small large; do
    write_stream "$kind" $((${1:-64} * 1048576)) > "$DIR/stream"
    bytes=$(stat -c %s "$DIR/stream")
    for piece in 1 100 65536; do
        start=$EPOCHREALTIME
        "$READER" "$DIR/stream" "$piece" > /dev/null
        awk -v k="$kind" -v p="$piece" -v b="$bytes" -v from="$start" -v to="$EPOCHREALTIME" \
            'BEGIN { s = to - from; printf "%8s %8d %12d %10.3f %14.0f\n", k, p, b, s, (s > 0 ? b / s : 0) }'
    done
done
