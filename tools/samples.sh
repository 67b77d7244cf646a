#!/bin/sh
# Whether the gate runs the programs on the samples, and wants the answers that stand beside them and in samples/README.md: the
# files of samples/ are held to the stdin and stdout of the crates. Prints what differs; status 1 if anything does.
cd "$(dirname "$0")/.." || exit 1
export LC_ALL=C
status=0

differs() {
    printf 'samples: %s\n' "$*" >&2
    status=1
}

# The answers on the page below a heading.
answers() { # HEADING
    awk -v heading="$1" '/^# / { here = $0 == heading } /^```/ { inside = !inside; next } here && inside' samples/README.md
}

# Two files have the same octets.
same() { # FILE FILE
    cmp -s "$1" "$2" || differs "$1 and $2 differ"
}

# A file has this text in it.
holds() { # FILE WHAT TEXT
    case $3 in '') differs "$2: nothing is there" ;; esac
    case $(tr -d '\000' <"$1") in *"$3"*) ;; *) differs "$1 does not hold $2" ;; esac
}

same samples/morning.txt crates/record/stdin
same samples/morning.reel crates/record/stdout
same samples/morning.reel crates/replay/stdin
holds crates/replay/stdout 'the answers to the reel' "$(answers '# A reel')"
holds crates/exchange/stdin 'the scripts' "$(cat samples/morning.txt samples/annex-a.txt samples/notifications.txt)"
holds crates/exchange/stdout 'the answers to the scripts' "$(cat samples/morning.out samples/annex-a.out samples/notifications.out)"
holds crates/decode/stdin 'the trace' "$(cat samples/trace.txt)"
holds crates/decode/stdout 'the answers to the trace' "$(answers '# A trace to learn from')"
exit $status
