#!/usr/bin/env bash
# Times turns on a counter: one thread on a free one (`one`), four threads on one (`shared`), and four threads on a
# counter each (`apart`), by a turn cell, and by a mutex with a condition variable. Run it from the repository's top,
# after `rt run` in crates/turns_bench has built the program: bench/turns.sh [TURNS]. TURNS is how many each thread takes;
# of the mutex on a shared counter, which is slow, a tenth. TURNS_BENCH names another program.
#
# Then it times calls, one after another, that go to another thread and back: through a queue of jobs and parcels, and
# through a mutex and a condition variable for each way. Those by `once` are made by the caller itself, while the worker of
# the queue stands by. `busy` has the next call follow at once, a tenth of TURNS of them; `parked` has the other thread sleep
# before each, 1,000 of them. Calls a second are those of one caller that waits for each.
set -euo pipefail

TURNS_BENCH=${TURNS_BENCH:-crates/turns_bench/out/turns_bench}
if [ ! -x "$TURNS_BENCH" ]; then
    echo "no program at $TURNS_BENCH: build it with 'cd crates/turns_bench && rt run', or set TURNS_BENCH" >&2
    exit 1
fi

# The best of three runs: the turns counted, and the seconds.
measure() {
    local start line best=
    for _ in 1 2 3; do
        start=$EPOCHREALTIME
        line=$("$TURNS_BENCH" "$@")
        best=$(awk -v from="$start" -v to="$EPOCHREALTIME" -v best="$best" \
            'BEGIN { s = to - from; printf "%.6f", (best == "" || s < best ? s : best) }')
    done
    line=${line#*: }
    echo "${line% turns} $best"
}

turns=${1:-1000000}
printf '%8s %8s %10s %10s %14s\n' by shape turns seconds turns/second
for shape in one shared apart; do
    for means in cell lock; do
        each=$turns
        if [ "$means $shape" = "lock shared" ]; then
            each=$(((turns + 9) / 10))
        fi
        read -r count seconds < <(measure "$means" "$shape" "$each")
        awk -v m="$means" -v k="$shape" -v c="$count" -v s="$seconds" \
            'BEGIN { printf "%8s %8s %10d %10.3f %14.0f\n", m, k, c, s, (s > 0 ? c / s : 0) }'
    done
done

echo
printf '%8s %8s %10s %14s %10s %10s\n' by other calls calls/second p50/ns p99/ns
for pace in busy parked; do
    for means in queue once lock; do
        count=$(((turns + 9) / 10))
        if [ "$pace" = parked ]; then
            count=1000
        fi
        "$TURNS_BENCH" calls "$means" "$pace" "$count" |
            awk -v m="$means" -v k="$pace" '{ printf "%8s %8s %10d %14d %10d %10d\n", m, k, $4, $6, $10, $13 }'
    done
done
