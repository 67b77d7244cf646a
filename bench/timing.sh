# Timing, for the other scripts of this folder, which read this one.

# microseconds COMMAND INPUT OUTPUT: the time of one run, whatever its status, since what it wrote is compared
microseconds() {
    begun=$(date +%s%N)
    $1 < "$2" > "$3" || true
    ended=$(date +%s%N)
    echo $(((ended - begun) / 1000))
}

# best_of RUNS COMMAND INPUT OUTPUT: the least time of so many runs
best_of() {
    runs=$1
    shift
    for run in $(seq "$runs"); do
        microseconds "$@"
    done | sort -n | head -n 1
}

# ratio WHOLE PART: the ratio of two times; that of times less the start-up may have no part left
ratio() {
    awk -v whole="$1" -v part="$2" 'BEGIN { if (part > 0) printf "%.2f", whole / part; else printf "not told apart" }'
}
