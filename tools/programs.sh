#!/bin/sh
# Whether the programs, as `rt ci` or `rt run` has built them, write to standard output and to standard error, and end with the
# status, that docs/DECISIONS.md, docs/CONTROLLER.md and docs/REEL.md say: on inputs that were worked out by hand, on input that
# pauses or cannot be read, and on output that cannot be written. Silent where they do; prints what differs, and then ends with
# status 1.
cd "$(dirname "$0")/.." || exit 1
export LC_ALL=C
dir=$(mktemp -d) || exit 1
trap 'rm -rf "$dir"' EXIT
status=0

differs() {
    printf 'programs: %s\n' "$*" >&2
    status=1
}

# The octets that hex pairs spell.
octets() { # PAIR..
    for pair; do
        printf "\\$(printf %03o "0x$pair")"
    done
}

# A text, so many times.
repeated() { # TIMES TEXT
    awk -v times="$1" -v text="$2" 'BEGIN { while (times-- > 0) printf "%s", text }'
}

# What is written is to be as expected.
same() { # WHAT EXPECTED WRITTEN
    cmp -s "$2" "$3" && return
    differs "$1 is not as expected (<), but (>):"
    od -c "$2" >"$2.od"
    od -c "$3" >"$3.od"
    diff "$2.od" "$3.od" | head -n 20 >&2
}

# Runs a program on the file `in`: it is to write what the files `out` and `remarks` hold, and to end with this status.
runs() { # PROGRAM WHAT STATUS
    "crates/$1/out/$1" <"$dir/in" >"$dir/written" 2>"$dir/said"
    ended=$?
    [ "$ended" -eq "$3" ] || differs "$1, $2: status $ended, and not $3"
    same "$1, $2: standard output" "$dir/out" "$dir/written"
    same "$1, $2: standard error" "$dir/remarks" "$dir/said"
}

# Runs a program on two pieces of input, the second a moment after the first, as `runs` does on a file.
runs_paused() { # PROGRAM WHAT PIECE PIECE
    { printf "$3" && sleep 0.2 && printf "$4"; } | "crates/$1/out/$1" >"$dir/written" 2>"$dir/said"
    ended=$?
    [ "$ended" -eq 0 ] || differs "$1, $2: status $ended, and not 0"
    same "$1, $2: standard output" "$dir/out" "$dir/written"
    same "$1, $2: standard error" "$dir/remarks" "$dir/said"
}

# A program failed at what it read or wrote: status 1, one line on standard error in its name, and nothing on standard output.
has_failed() { # PROGRAM WHAT STATUS
    [ "$3" -eq 1 ] || differs "$1, $2: status $3, and not 1"
    [ "$(wc -l <"$dir/said")" -eq 1 ] && grep -q "^$1: ." "$dir/said" || differs "$1, $2: says on standard error $(cat "$dir/said")"
    [ ! -s "$dir/written" ] || differs "$1, $2: writes to standard output"
}

# A directory cannot be read, and nothing can be written to a full disk; the file `in` is what there would be to answer.
fails() { # PROGRAM
    timeout 20 "crates/$1/out/$1" </ >"$dir/written" 2>"$dir/said"
    has_failed "$1" 'a directory' $?
    : >"$dir/written"
    [ -c /dev/full ] || return
    timeout 20 "crates/$1/out/$1" <"$dir/in" >/dev/full 2>"$dir/said"
    has_failed "$1" 'a full disk' $?
}

# Each program, with its input cut in the middle of a line, of a pair of digits or of a record; and where it fails.
cut_input() {
    : >"$dir/remarks"
    printf 'invoke 1 operation 43 parameter 02 01 05 at 11\n  drop party 5\nfault 11 at 2 element\n' >"$dir/out"
    runs_paused decode 'input that pauses' '1C 0C 91 A1 09 02 01 01 02 0' '1 2B 02 01 05\n1C 00'
    echo '1C 00' >"$dir/in"
    fails decode
    printf 'gone 0\ngone 0\nsteps 2 refused 0\n' >"$dir/out"
    runs_paused exchange 'input that pauses' 'level 10 4 subscribed active\ncalling 1\nanswer 1 1 sp' 'eech'
    printf 'level 10 4 subscribed active\ncalling 1\n' >"$dir/in"
    fails exchange
    octets 02 01 01 04 02 01 01 01 00 00 00 08 00 00 00 02 43 4F 4E 46 >"$dir/out"
    runs_paused record 'input that pauses' 'level 10 4 subscribed active\ncalling 1\nanswer 1 1 sp' 'eech'
    fails record
    echo 'calls 2 refused 0' >"$dir/out"
    runs_paused replay 'input that pauses' '\002\001\001\004\002\001' '\001\001\000\000\000\010\000\000\000\002CONF'
    octets 00 00 00 00 00 00 00 00 43 4F 4E 46 >"$dir/in"
    fails replay
}

# A script with each kind of answer: 127 and 64 are the last reference and leg, and 128 messages are the most that wait. Before
# the account of the second exchange come 90 steps, of which five are refused.
answered_script() {
    cat <<'END'
collect
level 10 9 subscribed active
level 10 4 subscribed active
level 10 4 subscribed active
hang up
collect
calling 0
calling 127
hold 127
answer 127 64 speech
calling 1
answer 1 64 speech
clearing 1
facility 127 1C 00
facility 127 1D 01 91
facility 127 1C 02 91
facility 127 1C 01 92
facility 127 1C 01 91
facility 127 1C 04 91 A1 01 02
facility 127 1C 03 91 A1 00
facility 127 1C 06 91 A2 03 02 01 01
facility 127 1C 09 91 A1 06 02 01 7F 02 01 2E
facility 127 1C 0A 91 A1 07 02 02 80 00 02 01 29
facility 127 1C 0C 91 A1 09 02 01 01 02 01 28 02 01 02
collect
answer 1 1 speech
facility 1 1C 0C 91 A1 09 02 01 02 02 01 29 02 01 00
END
    isolate='facility 127 1C 0C 91 A1 09 02 01 03 02 01 2C 02 01 01\n'
    reattach='facility 127 1C 0C 91 A1 09 02 01 03 02 01 2D 02 01 01\n'
    repeated 31 "$isolate$reattach"
    repeated 1 "$isolate"
    cat <<'END'
clearing 1
facility 127 1C 0C 91 A1 09 02 01 04 02 01 2D 02 01 01
collect
clearing 1
disconnect 127
END
}

script_answers() {
    cat <<'END'
no level
level refused 2
steps 0 refused 0
not understood
collected 0
refused 3
gone 0
refused 4
gone 0
gone 0
refused 5
refused 5
fault 11 at 2 element
fault 12 at 0 element
fault 13 at 1 element
fault 14 at 2 element
fault 15 at 3 component reply 62 1C 08 91 A4 05 05 00 80 01 00
fault 16 at 5 component reply 62 1C 08 91 A4 05 05 00 80 01 02
fault 17 at 5 component reply 62 1C 08 91 A4 05 05 00 80 01 01
fault 18 at 3 argument
fault 18 at 8 argument reply 62 1C 09 91 A4 06 02 01 7F 81 01 01
fault 19 at 12 argument reply 62 1C 0A 91 A4 07 02 02 80 00 81 01 02
gone 0 reply 62 1C 13 91 A2 10 02 01 01 30 0B 02 01 28 30 06 02 01 00 02 01 00
notify 64 6E 27 01 C2
collected 1
gone 0
gone 0 reply 45 08 02 82 9F 1C 0E 91 A2 0B 02 01 02 30 06 02 01 29 02 01 01
END
    repeated 63 'gone 0 reply 62 1C 06 91 A2 03 02 01 03\n'
    echo 'refused 6'
    echo 'gone 0 reply 62 1C 09 91 A4 06 02 01 04 81 01 03'
    isolated='notify 1 6E 27 01 C5\nnotify 64 6E 27 01 C7\n'
    reattached='notify 1 6E 27 01 C6\nnotify 64 6E 27 01 C8\n'
    repeated 1 'notify 1 6E 27 01 C2\nnotify 64 6E 27 01 C4\n'
    repeated 31 "$isolated$reattached"
    repeated 1 "$isolated"
    cat <<'END'
collected 128
gone 1 to 127 62 1C 0C 91 A1 09 02 01 00 02 01 2E 02 01 01
gone 0
conference 0 size 2 ending
party 0 leg 64 joined heard 0
steps 90 refused 5
END
}

exchange_answers() {
    answered_script >"$dir/in"
    script_answers >"$dir/out"
    : >"$dir/remarks"
    runs exchange 'each kind of answer' 0
}

# No script: an empty reel, and a word that there was no level.
record_nothing() {
    : >"$dir/in"
    octets 00 00 00 00 00 00 00 00 43 4F 4E 46 >"$dir/out"
    echo 'record: no level' >"$dir/remarks"
    runs record 'no input' 1
}

# A script with lines of each kind that is remarked on. Its calls are that of line 6 and the request of line 16.
odd_script() {
    cat <<'END'
calling 1
level 31 4 subscribed active
level 10 9 subscribed active
hang up
level 10 4 subscribed active
calling 1

level 3 1 subscribed idle
calling 128
answer 1 65 speech
facility 1 1D 01 91
setup 1 speech 1C 04 91 A1 01 02
facility 1 1C 09 91 A1 06 02 01 01 02 01 29
collect
away facility 1 1C 0C 91 A1 09 02 01 01 02 01 28 02 01 03
facility 1 1C 0C 91 A1 09 02 01 01 02 01 28 02 01 03
facility 128 1C 0C 91 A1 09 02 01 01 02 01 28 02 01 03
clearing
END
}

odd_remarks() {
    cat <<'END'
record: line 1: no level
record: line 2: level refused 1
record: line 3: level refused 2
record: line 4: not understood
record: line 8: second level
record: line 9: refused 3
record: line 10: refused 3
record: line 11: fault 12 at 0 element
record: line 12: fault 16 at 5 component
record: line 13: fault 19 at 11 argument
record: line 17: refused 3
record: line 18: not understood
END
}

record_odd_lines() {
    odd_script >"$dir/in"
    {
        octets 02 01 01
        octets 10 05 01 1C 0C 91 A1 09 02 01 01 02 01 28 02 01 03
        octets 00 00 00 14 00 00 00 02 43 4F 4E 46
    } >"$dir/out"
    odd_remarks >"$dir/remarks"
    runs record 'odd lines' 0
}

# A script whose 21,840 calls make a reel of just 65,536 octets, with one call and one odd line behind them.
long_script() {
    echo 'level 10 4 subscribed active'
    repeated 21838 'calling 1\n'
    repeated 2 'answer 1 1 speech\n'
    echo 'calling 1'
    echo 'hang up'
}

# The records of so many calls of the one kind, and of the other.
records() { # CALLINGS ANSWERS
    repeated "$1" '\002\001\001'
    repeated "$2" '\004\002\001\001\001'
}

# The greatest reel.
full_reel() {
    records 21838 2
    octets 00 00 FF F4 00 00 55 50 43 4F 4E 46
}

# The reel is closed when it is full, and can be replayed: of its calls the first calling and the first answer are accepted.
record_until_full() {
    long_script >"$dir/in"
    full_reel >"$dir/out"
    echo 'record: line 21842: reel full after 21840 calls' >"$dir/remarks"
    runs record 'a script that fills the reel' 1
    cp "$dir/written" "$dir/in"
    echo 'calls 21840 refused 21838' >"$dir/out"
    : >"$dir/remarks"
    runs replay 'the reel that is full' 0
}

# A reel without a record, and one that is full, but for a record that is not counted: the first place, and the last that there is.
replay_at_its_ends() {
    octets 00 00 00 00 00 00 00 00 43 4F 4E 46 >"$dir/in"
    echo 'calls 0 refused 0' >"$dir/out"
    : >"$dir/remarks"
    runs replay 'the empty reel' 0
    octets 02 01 00 00 00 00 03 00 00 00 01 43 4F 4E 46 >"$dir/in"
    refused 'the first record at fault' '10 at 0'
    { records 21838 2 && octets 00 00 FF F4 00 00 55 4F 43 4F 4E 46; } >"$dir/in"
    refused 'the full reel with another count' '10 at 65524'
}

# The input is to be refused so, with this on standard error.
refused() { # WHAT REFUSAL [REMARK]
    echo "reel refused $2" >"$dir/out"
    if [ $# -gt 2 ]; then echo "$3"; fi >"$dir/remarks"
    runs replay "$1" 1
}

# Too few octets.
replay_too_short() {
    : >"$dir/in"
    refused 'no input' 9
    octets 00 00 00 00 00 00 00 43 4F 4E 46 >"$dir/in"
    refused 'eleven octets' 9
}

# What would be a reel, but for its length; and input that goes on, of which 65,537 octets at most are read.
replay_too_long() {
    { records 21840 1 && octets 00 00 FF F5 00 00 55 51 43 4F 4E 46; } >"$dir/in"
    refused '65,537 octets' 9
    { full_reel && echo; } >"$dir/in"
    refused 'the full reel and a line feed' 9
    repeated 200000 y >"$dir/in"
    refused '200,000 octets' 9
    left=$({ crates/replay/out/replay >"$dir/written"; cat; } <"$dir/in" | wc -c)
    [ "$left" -ge 134463 ] || differs "replay, 200,000 octets: leaves $((left)) unread, and not 134463"
}

# Records that are unlawful: a reference of 0, one that runs into the trailer, one too many counted, and an element at fault, which
# is told where all before it is lawful.
replay_unlawful() {
    octets 02 01 01 02 01 00 00 00 00 06 00 00 00 02 43 4F 4E 46 >"$dir/in"
    refused 'a reference out of range' '10 at 3'
    octets 02 01 01 03 01 02 00 00 00 06 00 00 00 02 43 4F 4E 46 >"$dir/in"
    refused 'a record into the trailer' '10 at 3'
    octets 02 01 01 00 00 00 03 00 00 00 02 43 4F 4E 46 >"$dir/in"
    refused 'a record too many counted' '10 at 3'
    octets 02 01 01 0D 05 01 1C 09 91 A1 06 02 01 01 02 01 29 00 00 00 11 00 00 00 02 43 4F 4E 46 >"$dir/in"
    refused 'an element at fault' '10 at 3' 'replay: fault 19 at 11 argument'
    octets 02 01 01 0D 05 00 1C 09 91 A1 06 02 01 01 02 01 29 00 00 00 11 00 00 00 02 43 4F 4E 46 >"$dir/in"
    refused 'an element at fault behind a reference out of range' '10 at 3'
}

for program in decode exchange record replay; do
    [ -x "crates/$program/out/$program" ] || differs "crates/$program/out/$program is not built"
done
[ "$status" -eq 0 ] || exit 1
cut_input
exchange_answers
record_nothing
record_odd_lines
record_until_full
replay_at_its_ends
replay_too_short
replay_too_long
replay_unlawful
exit "$status"
