#!/bin/sh
# Times `decode` beside the Python reader on the same random lines and compares their outputs.
# usage: bench/decode.sh [COUNT [SEED]]; 200,000 lines of seed 1 unless told otherwise.
# Goal: at least 50 times as fast as the Python reader, and a time linear in the lines.
set -eu
cd "$(dirname "$0")/.."
. bench/timing.sh
count=${1:-200000}
seed=${2:-1}
tenth=$((count / 10))
dir=$(mktemp -d)
trap 'rm -rf "$dir"' EXIT

if ! python3 -c 'import pyasn1' 2>/dev/null; then
    echo "bench/decode.sh: the yardstick needs Python 3 with pyasn1 (Debian: python3-pyasn1)" >&2
    exit 1
fi

python3 bench/lines.py "$count" "$seed" > "$dir/lines"
head -n "$tenth" "$dir/lines" > "$dir/tenth"

./lowhitape decode < /dev/null                        # builds, if need be
program=target/bin/decode                             # what the front has built, without the front's own time
$program < "$dir/lines" > "$dir/decode.out"           # warms up

start=$(best_of 5 "$program" /dev/null "$dir/none.out")
whole=$(best_of 5 "$program" "$dir/lines" "$dir/decode.out")
part=$(best_of 5 "$program" "$dir/tenth" "$dir/tenth.out")
python=$(microseconds "python3 bench/reader.py" "$dir/lines" "$dir/python.out")

awk -v count="$count" -v tenth="$tenth" -v start="$start" -v whole="$whole" -v part="$part" -v python="$python" '
BEGIN {
    printf "decode, no line                %10.3f s (start-up)\n", start / 1e6
    printf "decode, %8d lines         %10.3f s (best of 5)\n", tenth, part / 1e6
    printf "decode, %8d lines         %10.3f s (best of 5)\n", count, whole / 1e6
    printf "python, %8d lines         %10.3f s\n", count, python / 1e6
    printf "python : decode                %10.1f   (goal: at least 50)\n", python / whole
}'
printf '%8d : %8d lines      %10s   (linear: about 10; %s without the start-up)\n' "$count" "$tenth" \
    "$(ratio "$whole" "$part")" "$(ratio $((whole - start)) $((part - start)))"

if cmp -s "$dir/decode.out" "$dir/python.out"; then
    echo "outputs equal: $(wc -l < "$dir/python.out") lines"
else
    echo "outputs differ:"
    diff "$dir/decode.out" "$dir/python.out" | head -n 10
    exit 1
fi
