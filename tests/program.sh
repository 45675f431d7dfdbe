#!/usr/bin/env bash
# Runs the program `grid` as it is run by hand: its words, its exit statuses, and what it writes to its streams. Run it
# from anywhere, after `rt ci` or `rt run` in crates/grid has built the program: tests/program.sh. GRID names another.
# The last line is 'N passed, M failed', and the exit status is 0 where none failed. A server that serves is run by serve.py.
set -u
cd "$(dirname "$0")/.." || exit 1

grid=${GRID:-crates/grid/out/grid}
script=crates/grid/stdin
usage='usage: grid replay < SCRIPT             runs a script and prints its transcript'
passed=0
failed=0
room=$(mktemp -d) || exit 1
trap 'rm -r "$room"' EXIT

# Is what came the same as what was wanted? Counts it, and tells where it isn't.
compare() {
    if [ "$2" = "$3" ]; then
        passed=$((passed + 1))
    else
        failed=$((failed + 1))
        printf "program, %s: '%s' in place of '%s'\n" "$1" "$3" "$2"
    fi
}

# Runs the program with these words, for a minute at most.
run() {
    timeout 60 "$grid" "$@" >"$room/out" 2>"$room/err"
    status=$?
}

# Runs the program with these words, with a terminal for its standard error.
run_at_terminal() {
    python3 tests/terminal.py "$room/err" timeout 60 "$grid" "$@" >"$room/out"
    status=$?
}

# Did the last run of this name end with this status, print this, and write this as the first line of standard error?
ended() {
    compare "$1, exit status" "$2" "$status"
    compare "$1, standard output" "$3" "$(cat "$room/out")"
    compare "$1, standard error" "$4" "$(head -n 1 "$room/err")"
}

if [ ! -x "$grid" ]; then
    echo "no program at $grid: build it with 'rt ci', or set GRID"
    echo '0 passed, 1 failed'
    exit 1
fi

# Words that are no command, one of them no text.
run <"$script"
ended 'no words' 1 '' "$usage"
for words in 'Serve' 'Replay' 'replay x' 'Explain' 'explain x' 'draw x' 'Sample 0' 'sample' 'sample x' 'sample 01' 'sample -1' 'sample 4294967296' \
    'sample 0 0' '--help x' '--version x' $'\xff'; do
    # shellcheck disable=SC2086
    run $words <"$script"
    ended "the words $words" 1 '' "$usage"
done

# The usage and the version are asked for.
run
help=$(cat "$room/err")
for words in '--help' 'replay --help' 'compose --help' 'explain --help' 'draw --help' 'sample --help'; do
    # shellcheck disable=SC2086
    run $words <"$script"
    ended "the words $words" 0 "$help" ''
done
for words in '--version' 'replay --version' 'compose --version' 'explain --version' 'draw --version' \
    'sample --version' 'serve --version'; do
    # shellcheck disable=SC2086
    run $words <"$script"
    ended "the words $words" 0 'grid 0.1.0' ''
done

# The usage names each command. A server's options are asked for, and others are told.
for command in 'grid replay' 'grid compose' 'grid explain' 'grid draw' 'grid serve'; do
    compare "the usage of $command" 1 "$(grep -c "$command .*<" <<<"$help")"
done
compare 'the usage of grid sample' 1 "$(grep -c 'grid sample NUMBER ' <<<"$help")"
run serve --help <"$script"
compare 'the options, exit status' 0 "$status"
compare 'the options, standard error' '' "$(cat "$room/err")"
for option in members backups capacity port stay; do
    compare "the option --$option" 1 "$(grep -c -- "--$option " "$room/out")"
done
run serve x <"$script"
ended 'the words serve x' 1 '' "error: unexpected argument 'x' found"
run serve --members 9 <"$script"
ended 'the words serve --members 9' 1 '' "error: invalid value '9' for '--members <NUMBER>': 9 is not in 1..=8"

# Scripts that end, are refused, and go past a limit.
run replay <"$script"
ended 'a script' 0 "$(cat crates/grid/stdout)" ''
run replay <<<'grid 1 0 10'
ended 'a script without an end' 2 $'1 ok\nrefused 1 noend' ''
{ echo 'grid 1 0 10'; head -c 70000 /dev/zero | tr '\0' '#'; } >"$room/long"
run replay <"$room/long"
ended 'a long line' 5 $'1 ok\nlimit 2 line' ''

# Prints the script of a message too long: behind a first frame of 22 bytes come two of 1,048,576, none of them final. Its bytes
# are four megabytes, so it is made here and is no scenario.
long_message() {
    echo 'grid 1 0 10'
    echo 'open 0 0'
    {
        printf '4350321600000000c000000000000000000000000000000000'
        for _ in 1 2; do
            printf '000010000000'
            head -c 2097140 /dev/zero | tr '\0' '0'
        done
        echo
    } | fold -w 64000 | sed 's/^/bytes 0 /'
    echo 'bytes 0 00'
    echo 'end'
}

# Prints what comes of it: the connection closes at the line of the last byte, and nothing comes of a byte behind that.
long_message_closes() {
    seq 1 68 | sed 's/$/ ok/'
    echo '68 close 0 1048601 longmessage'
    echo '69 nothing'
    echo '70 ok'
}

long_message >"$room/message"
run replay <"$room/message"
ended 'a message too long' 0 "$(long_message_closes)" ''

# Words that are composed: they are those of scenarios, and one of each message. And words that nobody says.
data=crates/compose_lines/data
for words in "$data"/*/*.words; do
    name=${words#"$data/"}
    name=${name%.words}
    run compose <"$words"
    ended "the words of $name" 0 "$(cat "crates/grid_scenarios/data/$name.script")" ''
done
for words in tests/words/*.words; do
    run compose <"$words"
    ended "the words of $words" 0 "$(cat "${words%.words}.script")" ''
done
run compose <<<$'grid 1 0 10\nsay 0 fly'
ended 'words that nobody says' 2 $'grid 1 0 10\nrefused 2 word' ''
run compose <<<$'grid 1 0 10\nsay 0 put m text:k\nend'
ended 'words that say too little' 2 $'grid 1 0 10\nrefused 2 count' ''

# Stories in words, with what is told of them and their pictures.
for words in docs/pictures/*.words; do
    name=${words%.words}
    "$grid" compose <"$words" >"$room/script"
    run explain <"$room/script"
    ended "the story of $name" 0 "$(cat "$name.explained")" ''
    run draw <"$room/script"
    ended "the picture of $name" 0 "$(cat "$name.svg")" ''
done

# What is told and drawn of scripts that don't end.
run explain <<<'grid 1 0 10'
ended 'a story without an end' 2 $'1 grid of 1 member with 0 backups and queues of 10\nrefused 1 noend' ''
run draw <<<'grid 1 0 10'
compare 'a picture without an end, exit status' 2 "$status"
compare 'a picture without an end, what it says' 1 "$(grep -c '>refused 1 noend</text>' "$room/out")"
run draw <"$room/long"
compare 'a picture of a long line, exit status' 5 "$status"
compare 'a picture of a long line, what it says' 1 "$(grep -c '>limit 2 line</text>' "$room/out")"

# Samples: the summaries are those of another program, twice the same. Nothing is told of how far they are, since no one looks.
for summary in tests/samples/*.summary; do
    number=${summary#tests/samples/}
    number=${number%.summary}
    run sample "$number" <"$script"
    ended "the sample of $number" 0 "$(cat "$summary")" ''
done
run sample 0 <.
ended 'the sample of 0 again, which reads nothing' 0 "$(cat tests/samples/0.summary)" ''
run_at_terminal sample 0
compare 'a sample at a terminal, exit status' 0 "$status"
compare 'a sample at a terminal, how far it is' $'grid: 2000 lines run\ngrid: 1000 calls made' \
    "$(grep -E 'grid: (2000 lines run|1000 calls made)' "$room/err")"

# Standard input that can't be read, and standard output that can't be written.
for words in 'replay' 'explain' 'draw'; do
    run $words <.
    ended "a directory and $words" 3 '' "grid: standard input can't be read"
done
for words in 'replay' 'compose' 'explain' 'draw' 'sample 0' '--help' 'serve --help' '--version'; do
    # shellcheck disable=SC2086
    timeout 60 "$grid" $words <"$script" >/dev/full 2>"$room/err"
    compare "a full disk and $words, exit status" 4 $?
    compare "a full disk and $words, standard error" "grid: standard output can't be written" "$(cat "$room/err")"
done

# Standard error that can't be written.
timeout 60 "$grid" replay <. >"$room/out" 2>/dev/full
compare 'a full standard error, exit status' 3 $?

# Runs the program with these words and less and less memory, from 16 megabytes on. Did some run end for want of it, tell
# so, and print nothing?
want_of_memory() {
    local kilobytes
    for ((kilobytes = 16384; kilobytes > 0; kilobytes -= 128)); do
        timeout 60 prlimit --as=$((kilobytes * 1024)) "$grid" "$@" <"$script" >"$room/out" 2>"$room/err"
        status=$?
        if [ "$status" = 7 ] && [ "$(cat "$room/err")" = 'grid: out of memory' ] && [ ! -s "$room/out" ]; then
            echo yes
            return
        fi
        # the system refuses to start it
        [ "$status" -ge 126 ] && break
    done
    echo no
}

# Want of memory for a script, and for the words, before there is a command.
compare 'a script in little memory, told' yes "$(want_of_memory replay)"
printf -v long '%0100000d' 0
compare 'long words in little memory, told' yes \
    "$(want_of_memory "$long" "$long" "$long" "$long" "$long" "$long" "$long" "$long" "$long" "$long")"

# Installed: the program, its manual page, a unit, and the client for Python.
GRID=$grid ./install "$room/prefix" >"$room/installed"
compare 'an installation, exit status' 0 $?
compare 'an installation, what it tells' 4 "$(grep -c "^$room/prefix/" "$room/installed")"
compare 'the installed program' 'grid 0.1.0' "$("$room/prefix/bin/grid" --version)"
manual=$room/prefix/share/man/man1/grid.1
compare 'the manual page, its version' '.TH GRID 1 "" "grid 0.1.0"' "$(head -n 1 "$manual")"
for option in members backups capacity port stay; do
    compare "the manual page, --$option" 1 "$(grep -c "^[.]B --$option" <(sed 's/\\-/-/g' "$manual"))"
done
compare 'the installed unit' "ExecStart=$room/prefix/bin/grid" \
    "$(grep -o '^ExecStart=[^ ]*' "$room/prefix/lib/systemd/system/grid.service")"
options=$(sed -n 's/^Environment="GRID_OPTIONS=\(.*\)"$/\1/p' "$room/prefix/lib/systemd/system/grid.service")
# shellcheck disable=SC2086
run serve --stay $options --help
compare "the installed unit's options" 0 "$status"
compare 'the installed client' grid_client \
    "$(PYTHONPATH=$(dirname "$(tail -n 1 "$room/installed")") python3 -c 'import grid_client; print(grid_client.GridClient.__module__.split(".")[0])')"
GRID=$room/none ./install "$room/prefix" 2>"$room/err"
compare 'an installation without a program' 1 $?
./install 2>"$room/err"
compare 'an installation without a place' 2 $?

echo "$passed passed, $failed failed"
[ "$failed" = 0 ]
