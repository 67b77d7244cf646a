#!/bin/sh
# Times `record` and `replay` on a full reel of random calls and compares them with the model in Python.
# usage: bench/reel.sh [SEED]; seed 1 unless told otherwise.
# Goal: a reel of 65,536 octets is checked, and replayed, within 50 milliseconds, and in a time linear in its octets.
set -eu
cd "$(dirname "$0")/.."
. bench/timing.sh
seed=${1:-1}
dir=$(mktemp -d)
trap 'rm -rf "$dir"' EXIT

python3 bench/reel_scripts.py "$seed" 20000 > "$dir/script"

./lowhitape record < /dev/null > "$dir/empty" 2> "$dir/errors" || true   # builds, if need be
./lowhitape replay < "$dir/empty" > "$dir/errors"
record=target/bin/record                                # what the front has built, without the front's own time
replay=target/bin/replay

$record < "$dir/script" > "$dir/whole" 2> "$dir/errors" || true
python3 bench/reel_model.py record < "$dir/script" > "$dir/model"
python3 bench/reel_model.py half < "$dir/whole" > "$dir/half"
python3 bench/reel_model.py miscount < "$dir/whole" > "$dir/miscounted"
python3 bench/reel_model.py miscount < "$dir/half" > "$dir/half-miscounted"
: > "$dir/none"

# Each reel is replayed a hundred times, in turn with the others, so that other work on the machine weighs on all alike. Of a
# miscounted reel all records are checked, and none is replayed. What the programs say of a line or a fault is not shown.
for run in $(seq 100); do
    for reel in none half-miscounted miscounted half whole; do
        microseconds $replay "$dir/$reel" "$dir/$reel.out" >> "$dir/$reel.times" 2> "$dir/errors"
    done
done

# least REEL: the least time of a reel
least() {
    sort -n "$dir/$1.times" | head -n 1
}
start=$(least none)
checking=$(least miscounted)
checking_half=$(least half-miscounted)
whole=$(least whole)
half=$(least half)
recording=$(best_of 20 $record "$dir/script" "$dir/recorded" 2> "$dir/errors")

octets=$(wc -c < "$dir/whole")
octets_half=$(wc -c < "$dir/half")

# row WHAT OCTETS TIME: a line of the table
row() {
    awk -v what="$1" -v octets="$2" -v time="$3" 'BEGIN { printf "%-28s %6d octets %8.2f ms\n", what, octets, time / 1e3 }'
}
row "replay, no reel (start-up)" 0 "$start"
row "checked, not replayed" "$octets_half" "$checking_half"
row "checked, not replayed" "$octets" "$checking"
row "checked and replayed" "$octets_half" "$half"
row "checked and replayed" "$octets" "$whole"
row "recorded from its script" "$octets" "$recording"
echo "(best of 100, recorded best of 20; goal for 65536 octets: at most 50 ms each)"
echo "whole : half, without the start-up (linear: about 2)"
echo "  checked, not replayed      $(ratio $((checking - start)) $((checking_half - start)))"
echo "  checked and replayed       $(ratio $((whole - start)) $((half - start)))"
echo "  replayed, the difference   $(ratio $((whole - checking)) $((half - checking_half)))"

# instructions REEL: how many it takes to replay a reel, which other work on the machine does not change
instructions() {
    valgrind --tool=callgrind --callgrind-out-file=/dev/null $replay < "$dir/$1" 2>&1 > "$dir/errors" | awk '/Collected/ { print $NF }'
}
if command -v valgrind > "$dir/errors"; then
    begun=$(instructions none)
    echo "whole : half, in instructions, without those of the start-up"
    echo "  checked, not replayed      $(ratio $(($(instructions miscounted) - begun)) $(($(instructions half-miscounted) - begun)))"
    echo "  checked and replayed       $(ratio $(($(instructions whole) - begun)) $(($(instructions half) - begun)))"
fi

# compare WHAT ANSWER MODEL: says whether an answer is the model's
compare() {
    if cmp -s "$2" "$3"; then
        echo "$1: equal to the model's"
        return
    fi
    echo "$1: not the model's"
    exit 1
}
compare "reel of $(wc -c < "$dir/whole") octets" "$dir/whole" "$dir/model"
for reel in whole half miscounted half-miscounted; do
    python3 bench/reel_model.py replay < "$dir/$reel" > "$dir/$reel.model"
    compare "replay: $(tail -n 1 "$dir/$reel.out")" "$dir/$reel.out" "$dir/$reel.model"
done
