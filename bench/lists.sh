#!/usr/bin/env bash
# How long a list is read, and how long a feature is looked up in it.
#
# Run it at the top of the repository, once `rt run` or `rt ci` has built list_speed. It is no test: it
# prints a table and judges nothing. A list has ENTRIES lines of 16 bytes, in all 16 MiB, and the times are
# processor times, the least of RUNS, without the start of the program: to read the lists in milliseconds,
# and to look up a feature in nanoseconds, over features in another order than the list's.
#
#   features   each line is a feature
#   contexts   each line is a feature and itself as its context, half as many lines
#   both       two lists of features: what the stop list has is looked up in the alert list first
#   hit miss   features that the list has, and others
# shellcheck source=bench/common.sh
. "$(dirname "$0")/common.sh"

RUNS=${RUNS:-3}
ENTRIES=${ENTRIES:-1048576}
LIST_SPEED=${LIST_SPEED:-crates/list_speed/out/list_speed}

needs awk cut shuf wc
needs_program "$LIST_SPEED"

# Features of this form from a number on, as many as a list has entries.
features() { awk -v form="$1" -v n="$ENTRIES" 'BEGIN { for (i = 0; i < n; i++) printf form "\n", i }'; }

# The time to look up a line of a file in these lists, in nanoseconds, its reading included.
look_up() {
    local spent=$(($(least "$LIST_SPEED" "$1" "$2" "$3" 1) - $(least "$LIST_SPEED" "$1" "$2" "$work/none" 1)))
    awk -v ms="$spent" -v lines="$(wc -l < "$3")" 'BEGIN { printf "%.0f", ms * 1000000 / lines }'
}

# A row: the times of a stop list and an alert list, and of these hits.
row() {
    local name=$1 stop=$2 alert=$3 hits=$4 read
    read=$(($(least "$LIST_SPEED" "$stop" "$alert" "$work/none" 3) - $(least "$LIST_SPEED" "$stop" "$alert" "$work/none" 1)))
    printf '%-10s %8d %8s %8s\n' "$name" $((read / 2)) \
        "$(look_up "$stop" "$alert" "$hits")" "$(look_up "$stop" "$alert" "$work/misses")"
}

# The lines of a file four times, each time in another order.
mixed() { for _ in 1 2 3 4; do shuf "$1"; done; }

features 'h%07d.ex.com' > "$work/stop"
features 'other%07d.co' > "$work/alert"
features 'thing%07d.co' > "$work/others"
awk -v n="$ENTRIES" 'NR <= n / 2 { print $0 "\t" $0 }' "$work/stop" > "$work/pairs"
cut -f 1 "$work/pairs" > "$work/half"
mixed "$work/stop" > "$work/hits"
mixed "$work/half" > "$work/half_hits"
mixed "$work/others" > "$work/misses"
: > "$work/none"

printf '%-10s %8s %8s %8s\n' list 'read ms' 'hit ns' 'miss ns'
row features "$work/stop" "$work/none" "$work/hits"
row contexts "$work/pairs" "$work/none" "$work/half_hits"
row both "$work/stop" "$work/alert" "$work/hits"
