#!/bin/sh
# Whether each program, as `rt ci` or `rt run` has built it, ends as it should where memory runs out, a read or a write fails, or a
# write takes no octet: each of these calls is made to fail in turn, once. It has to end with status 1 and one line on standard
# error, having written a beginning of what is due. And input and output that are interrupted, and go octet by octet, are to make no
# difference. Silent where all this is so; prints what differs, and then ends with status 1. The calls fail by tools/failing.c, which
# the kit's compiler makes a library that is loaded below the program.
cd "$(dirname "$0")/.." || exit 1
export LC_ALL=C
dir=$(mktemp -d) || exit 1
trap 'rm -rf "$dir"' EXIT
status=0

differs() {
    printf 'failing: %s\n' "$*" >&2
    status=1
}

# Runs a program on the file `in` with this call failing; where there was such a call, the file `failed` is not empty.
run() { # PROGRAM KIND NUMBER
    FAIL=$2 FAIL_AT=$3 timeout 20 env LD_PRELOAD="$dir/failing.so" "crates/$1/out/$1" \
        <"$dir/in" >"$dir/written" 2>"$dir/said" 9>"$dir/failed"
}

# The program is to have done all that is due.
is_done() { # PROGRAM WHAT STATUS
    [ "$3" -eq 0 ] || differs "$1, $2: status $3, and not 0"
    cmp -s "$dir/due" "$dir/written" || differs "$1, $2: writes what is not due"
    [ ! -s "$dir/said" ] || differs "$1, $2: says on standard error $(cat "$dir/said")"
}

# The program is to have failed so, with this call failing.
has_failed() { # PROGRAM WHAT STATUS LINE
    [ "$3" -eq 1 ] || differs "$1, $2: status $3, and not 1"
    [ "$(wc -l <"$dir/said")" -eq 1 ] && grep -qx "$4" "$dir/said" || differs "$1, $2: says on standard error $(cat "$dir/said")"
    head -c "$(wc -c <"$dir/written")" "$dir/due" | cmp -s - "$dir/written" || differs "$1, $2: writes what is not due"
}

# Each call of a kind in turn, until there is no further one.
fails_in_turn() { # PROGRAM KIND LINE
    number=1
    while run "$1" "$2" "$number"; ended=$?; [ -s "$dir/failed" ]; do
        has_failed "$1" "$2 $number" "$ended" "$3"
        number=$((number + 1))
    done
    is_done "$1" "no $2 failing" "$ended"
    [ "$number" -gt 1 ] || differs "$1: no $2 fails"
}

# All this of a program, on the file `in`.
fails() { # PROGRAM
    "crates/$1/out/$1" <"$dir/in" >"$dir/due" 2>"$dir/said" || differs "$1: status $?"
    fails_in_turn "$1" malloc "$1: out of memory"
    fails_in_turn "$1" read "$1: ..*"
    fails_in_turn "$1" write "$1: ..*"
    fails_in_turn "$1" nothing "$1: failed to write whole buffer"
}

# The same, and in pieces.
fails_and_runs_in_pieces() { # PROGRAM
    fails "$1"
    run "$1" pieces 0
    is_done "$1" 'in pieces' $?
}

# The first write to standard error fails, of what is remarked or told of a fault: one line says so in its place, and of standard
# output a beginning is there.
fails_to_remark() { # PROGRAM
    "crates/$1/out/$1" <"$dir/in" >"$dir/due" 2>"$dir/remarked"
    [ -s "$dir/remarked" ] || differs "$1: remarks on nothing"
    run "$1" error 1
    has_failed "$1" 'a write to standard error' $? "$1: ..*"
    [ -s "$dir/failed" ] || differs "$1: no write to standard error fails"
    ! cmp -s "$dir/remarked" "$dir/said" || differs "$1: remarks though that failed"
}

# A file so many times over: input of more than one block, of whose answers a beginning is written before the end is read.
often() { # TIMES FILE
    i=0
    while [ "$i" -lt "$1" ]; do
        cat "$2"
        i=$((i + 1))
    done
}

clang=$(dirname "$(readlink -f "$(command -v rt)")")/../toolchain/bin/clang
if ! "$clang" -shared -fPIC -O1 -nostdlib -fuse-ld=lld -o "$dir/failing.so" tools/failing.c; then
    differs 'tools/failing.c is not compiled'
    exit 1
fi
cp samples/trace.txt "$dir/in"
fails_and_runs_in_pieces decode
cp samples/morning.txt "$dir/in"
fails_and_runs_in_pieces exchange
fails_and_runs_in_pieces record
cp samples/morning.reel "$dir/in"
fails_and_runs_in_pieces replay
printf 'level 10 4 subscribed active\nnonsense\ncalling 1\n' >"$dir/in"
fails_to_remark record
printf '\005\005\001\034\001\221\000\000\000\006\000\000\000\001CONF' >"$dir/in"
fails_to_remark replay
often 70 samples/trace.txt >"$dir/in"
fails decode
often 80 samples/morning.txt >"$dir/in"
fails exchange
exit "$status"
