#!/bin/sh
# Times `exchange` on random scripts and compares its answers with those of the model in Python.
# usage: bench/exchange.sh [STEPS [SEED]]; 100,000 steps of seed 1 unless told otherwise.
# Goal: 100,000 steps within 2 seconds, and a time linear in the steps.
set -eu
cd "$(dirname "$0")/.."
. bench/timing.sh
steps=${1:-100000}
seed=${2:-1}
tenth=$((steps / 10))
dir=$(mktemp -d)
trap 'rm -rf "$dir"' EXIT

python3 bench/scripts.py "$seed" "$steps" > "$dir/script"
python3 bench/scripts.py "$seed" "$tenth" > "$dir/tenth"

./lowhitape exchange < /dev/null                      # builds, if need be
program=target/bin/exchange                           # what the front has built, without the front's own time
$program < "$dir/script" > "$dir/exchange.out"        # warms up

start=$(best_of 5 "$program" /dev/null "$dir/none.out")
whole=$(best_of 5 "$program" "$dir/script" "$dir/exchange.out")
part=$(best_of 5 "$program" "$dir/tenth" "$dir/tenth.out")
python=$(microseconds "python3 bench/exchange_model.py" "$dir/script" "$dir/python.out")
python3 bench/exchange_model.py < "$dir/tenth" > "$dir/python-tenth.out"

awk -v steps="$steps" -v tenth="$tenth" -v start="$start" -v whole="$whole" -v part="$part" -v python="$python" '
BEGIN {
    printf "exchange, no step              %10.3f s (start-up)\n", start / 1e6
    printf "exchange, %8d steps       %10.3f s (best of 5)\n", tenth, part / 1e6
    printf "exchange, %8d steps       %10.3f s (best of 5; goal for 100000: at most 2)\n", steps, whole / 1e6
    printf "python,   %8d steps       %10.3f s\n", steps, python / 1e6
    printf "steps a second                 %10.0f\n", steps * 1e6 / whole
}'
printf '%8d : %8d steps      %10s   (linear: about 10; %s without the start-up)\n' "$steps" "$tenth" \
    "$(ratio "$whole" "$part")" "$(ratio $((whole - start)) $((part - start)))"

# compare SCRIPT ANSWERS MODEL: says whether a script's answers are the model's, and where they first differ
compare() {
    if cmp -s "$2" "$3"; then
        echo "answers equal: $(wc -l < "$3") lines for $(wc -l < "$1") of the script"
        return
    fi
    echo "answers differ, exchange <, model >:"
    diff "$2" "$3" | head -n 10
    exit 1
}
compare "$dir/tenth" "$dir/tenth.out" "$dir/python-tenth.out"
compare "$dir/script" "$dir/exchange.out" "$dir/python.out"
