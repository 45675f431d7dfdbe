#!/usr/bin/env bash
# Does a near client's hit take longer with a full cache of 1,000 or 100,000 entries than with one of 10? By the instructions that
# valgrind counts it may not, in a script and of the cache alone; nor by the clock, where the same ten keys are looked up in each.
# Of look-ups of all keys by the clock it says nothing: these wait for memory, and do take longer (docs/COSTS.md). It runs
# bench/near.sh. Run it from anywhere, after `rt ci`, or `rt run` in crates/grid and in crates/near_bench, has built the programs:
# tests/near.sh. GRID and LOOKS name other ones. The last line is 'N passed, M failed', and the exit status is 0 where none failed.
set -u
cd "$(dirname "$0")/.." || exit 1

passed=0
failed=0
room=$(mktemp -d) || exit 1
trap 'rm -r "$room"' EXIT

# By how many hundredths of the least the hits of this kind differ between the three sizes.
growth() {
    awk -v kind="$1" '$1 == kind && $3 == "grid" {
            if (!sizes++ || $4 < least) least = $4
            if ($4 > most) most = $4
        }
        END { if (sizes == 3 && least > 0) printf "%d\n", 100 * (most - least) / least; else print 100 }' "$room/looks"
}

# Do the hits of this kind differ by less than so many hundredths?
check() {
    local kind=$1 bound=$2 hundredths
    hundredths=$(growth "$kind")
    if [ "$hundredths" -lt "$bound" ]; then
        passed=$((passed + 1))
    else
        failed=$((failed + 1))
        echo "near, $kind: hits differ by $hundredths hundredths between 10, 1,000 and 100,000 entries"
        cat "$room/looks"
    fi
}

measure() {
    bench/near.sh 10 1000 100000 >"$room/looks" 2>"$room/err" || cat "$room/err"
}

# They differed by less than one hundredth when this was written; to go over the known rows at each hit made it twenty-seven.
BY=instructions KINDS='scattered alone' MANY=25000 measure
check scattered 2
check alone 2

# The fastest of nine runs of each size. A clock is never as sure as a count: hence the wide bound.
BY=time KINDS=hot RUNS=9 measure
check hot 50

echo "$passed passed, $failed failed"
[ "$failed" = 0 ]
