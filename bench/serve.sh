#!/usr/bin/env bash
# Times `grid serve` beside Redis, memcached and an echo, each over TCP on this machine: bench/serve.sh [SECONDS], from the
# repository's top once ./build has made the program. SECONDS is how long each shape of calls is timed, 5 where it isn't given. GRID
# names another program; KINDS, as "grid redis", some of the kinds; SHAPES, as "1 16p", some of the shapes; THREADS on how many threads
# the clients are, a quarter of the processors where it isn't given, and one at least. bench/plot.py draws what it prints.
#
# The kinds: `grid` has three members and one backup, `grid-1` one member and no backup; `redis` one replica, and answers before it has
# a write; `redis-wait` the same with `WAIT 1` behind each write, which is what the grid promises; memcached keeps one copy and has the
# four threads of its default; `echo` is one thread that sends back what comes: the floor. Where the echo isn't above each of the
# others at 1 connection, the run is to be thrown away, and the last line says so.
#
# The shapes: 1, 16, 64 and 512 connections, each with one call under way; `16p`, 16 connections with 16 calls each under way; `16k`, 16
# connections and values of 16 KB; `busy`, 16 connections beside as many busy processes as there are processors; `idle`, one connection
# beside 1,000 that say nothing.
#
# load.c makes the calls, in a closed loop: each connection sends its next call once one before is answered. Half are puts and half are
# gets of 64-byte values, over 6,000 keys. A grid's connections are spread over the members, and send what their member is primary of.
# A put of the grid answers the value before it; Redis's SET, as it is mostly used, answers OK. Redis writes nothing to disk here, as
# the grid doesn't.
#
# The processor time at rest and the memory are those of all processes of a kind: Redis has two, the others one. A kind that
# isn't installed is left out, with a word, and the exit status is then 1.
set -euo pipefail

cd "$(dirname "$0")/.."
seconds=${1:-5}
grid=${GRID:-crates/grid/out/grid}
kinds=${KINDS:-grid grid-1 redis redis-wait memcached echo}
shapes=${SHAPES:-1 16 64 512 16p 16k busy idle}
processors=$(nproc)
threads=${THREADS:-$((processors > 7 ? processors / 4 : 1))}
keys=6000
work=$(mktemp -d)
started=()

# Ends what this script started, by its number.
stop_all() {
    local pid
    for pid in "${started[@]}"; do
        kill "$pid" 2>/dev/null || true
    done
    for pid in "${started[@]}"; do
        timeout 5 tail --pid="$pid" -f /dev/null || kill -KILL "$pid" 2>/dev/null || true
    done
    started=()
}

cleanup() {
    stop_all
    rm -rf "$work"
}
trap cleanup EXIT

# Ports that nobody listens at, one behind the other, below those that the system gives to clients: the first of so many.
free_ports() {
    local first port
    for _ in {1..100}; do
        first=$((20000 + RANDOM % 12000))
        for ((port = first; port < first + $1; port++)); do
            if (exec 3<>"/dev/tcp/127.0.0.1/$port") 2>/dev/null; then
                continue 2
            fi
        done
        echo "$first"
        return
    done
    echo "no ports are free" >&2
    exit 1
}

# Waits until a process listens at a port.
wait_for() {
    for _ in {1..100}; do
        if (exec 3<>"/dev/tcp/127.0.0.1/$2") 2>/dev/null; then
            return
        fi
        if ! kill -0 "$1" 2>/dev/null; then
            break
        fi
        sleep 0.1
    done
    echo "nobody listens at port $2:" >&2
    tail -n 5 "$work"/*.log >&2
    exit 1
}

# Starts a grid of so many members and backups. It goes on once its control script has ended.
start_grid_of() {
    port=$(free_ports "$1")
    members=$1
    "$grid" serve --members "$1" --backups "$2" --capacity 1000 --port "$port" --stay \
        <<<end >"$work/grid.out" 2>"$work/grid.log" &
    started+=($!)
    wait_for $! $((port + $1 - 1))
}

start_grid() {
    start_grid_of 3 1
}

start_grid-1() {
    start_grid_of 1 0
}

start_redis() {
    port=$(free_ports 2)
    members=1
    local quiet=(--bind 127.0.0.1 --save "" --appendonly no --dir "$work" --repl-diskless-sync-delay 0)
    redis-server --port "$port" "${quiet[@]}" >"$work/redis.log" 2>&1 &
    started+=($!)
    wait_for $! "$port"
    redis-server --port $((port + 1)) "${quiet[@]}" --replicaof 127.0.0.1 "$port" >"$work/replica.log" 2>&1 &
    started+=($!)
    wait_for $! $((port + 1))
    for _ in {1..100}; do
        if redis-cli -p $((port + 1)) info replication | grep -q '^master_link_status:up'; then
            return
        fi
        sleep 0.1
    done
    echo "the replica didn't reach its master" >&2
    exit 1
}

start_redis-wait() {
    start_redis
}

start_memcached() {
    port=$(free_ports 1)
    members=1
    # the user counts only where root runs this
    memcached -l 127.0.0.1 -p "$port" -U 0 -u nobody >"$work/memcached.log" 2>&1 &
    started+=($!)
    wait_for $! "$port"
}

start_echo() {
    port=$(free_ports 1)
    members=1
    "$work/echo" "$port" >"$work/echo.log" 2>&1 &
    started+=($!)
    wait_for $! "$port"
}

# Makes calls on the kind: the options, and then the connections and what load.c shall do.
load() {
    local options=()
    while [ "${1:0:1}" = - ]; do
        options+=("$1" "$2")
        shift 2
    done
    timeout 600 "$work/load" "${options[@]}" "${kind%-1}" "$port" "$members" "$@"
}

# Keeps each processor busy, until they are stopped.
start_busy() {
    busy=()
    for ((at = 0; at < processors; at++)); do
        (while :; do :; done) &
        busy+=($!)
    done
    started+=("${busy[@]}")
}

stop_busy() {
    kill "${busy[@]}"
    wait "${busy[@]}" 2>/dev/null || true
}

# Calls of this shape.
time_shape() {
    local run=("$keys" run "$seconds")
    case $1 in
    16p) load -t "$threads" -p 16 16 "${run[@]}" ;;
    16k) load -t "$threads" -v 16384 16 "${run[@]}" ;;
    busy)
        local status=0
        start_busy
        load -t "$threads" 16 "${run[@]}" || status=$?
        stop_busy
        return "$status"
        ;;
    idle) load -i 1000 1 "${run[@]}" ;;
    *) load -t "$threads" "$1" "${run[@]}" ;;
    esac
}

# Starts the kind anew, with nothing kept.
start_anew() {
    stop_all
    "start_$kind"
}

# A line of times for each shape. A client knows what it reads by the length that it put, so values of 16 KB have a server of their own.
time_calls() {
    local shape line
    for shape in $shapes; do
        [ "$shape" != 16k ] || start_anew
        if ! line=$(time_shape "$shape"); then
            printf '%-10s %11s %12s\n' "$kind" "$shape" failed
            continue
        fi
        # calls, seconds, calls a second, and the times of the median, of 99 and of 999 in a thousand
        set -- $line
        printf '%-10s %11s %12d %9.1f %9.1f %9.1f\n' "$kind" "$shape" "$3" "$4" "$5" "$6" | tee -a "$work/times"
        [ "$shape" != 16k ] || start_anew
    done
}

time_kind() {
    "start_$kind"
    time_calls
    local rest
    rest=$(load 64 "$keys" idle 10 "${started[@]}")
    start_anew
    local memory
    memory=$(load 16 "$keys" memory 10000 1000000 "${started[@]}")
    stop_all
    set -- $memory
    printf '%-10s %11.2f %16d %16d\n' "$kind" "$rest" "$1" "$2" >>"$work/rest"
}

is_there() {
    case $1 in
    grid | grid-1)
        if [ ! -x "$grid" ]; then
            echo "no program at $grid: build it with ./build, or set GRID" >&2
            return 1
        fi
        ;;
    redis | redis-wait)
        if ! command -v redis-server >/dev/null; then
            echo "no redis-server: 'apt-get install redis-server'" >&2
            return 1
        fi
        ;;
    memcached)
        if ! command -v memcached >/dev/null; then
            echo "no memcached: 'apt-get install memcached'" >&2
            return 1
        fi
        ;;
    esac
}

cc -O2 -pthread -o "$work/load" bench/load.c
cc -O2 -o "$work/echo" bench/echo.c
: >"$work/rest"
: >"$work/times"
echo "$processors processors, load $(cut -d ' ' -f 1 /proc/loadavg), clients on $threads threads, $seconds seconds a shape"
printf '%-10s %11s %12s %9s %9s %9s\n' kind shape calls/second p50/us p99/us p99.9/us
missing=0
for kind in $kinds; do
    if is_there "$kind"; then
        time_kind
    else
        missing=1
    fi
done
echo
printf '%-10s %11s %16s %16s\n' kind 'at rest/%' 'kB at 10,000' 'kB at 1,000,000'
cat "$work/rest"
echo
# Whether the floor is the fastest at one connection.
awk '$2 == "1" { if ($1 == "echo") floor = $3; else if ($3 > most) most = $3 }
    END { if (floor && floor <= most) print "the echo was not the fastest: throw this run away" }' "$work/times"
exit $missing
