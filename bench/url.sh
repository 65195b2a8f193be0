#!/usr/bin/env bash
# The speed of the search for URLs and domains, beside GNU grep on the same file in the same run.
#
# Run it at the top of the repository, once `rt run` or `rt ci` has built the programs. It is no
# test: it prints a table and judges nothing. Each time is the least of RUNS runs.
#
#   program   MiB a second of `triage scan`, without the time that it takes on an empty image
#   search    MiB a second of `find_urls` alone: many runs over one buffer, less one run
#   grep      MiB a second of grep for the URLs, without the time that it takes on an empty file
#
# A ratio is that of its column to grep's. `-` stands where a program is missing, or where the time
# is too short to be told from that of the empty file.
# shellcheck source=bench/common.sh
. "$(dirname "$0")/common.sh"

RUNS=${RUNS:-20}
MANY=${MANY:-101}
TRIAGE=${TRIAGE:-crates/triage/out/triage}
SCAN_SPEED=${SCAN_SPEED:-crates/scan_speed/out/scan_speed}
SIZE=1048576
URLS='(https?|ftp)://[]A-Za-z0-9._~:/?#[@!$&'\''()*+,;=%-]+'

needs grep awk head cat
[ -n "${EPOCHREALTIME:-}" ] || { echo "skipped: bash 5 or later is needed"; exit 0; }

# Lines of 200 bytes, each with one URL.
text() {
    awk 'BEGIN {
        for (n = 0; n < 5243; n++) {
            line = sprintf("see http://host%d.example.com/path/%d?q=%d and then", n, n, n)
            while (length(line) < 199) line = line " words of a text"
            print substr(line, 1, 199)
        }
    }' | head -c "$SIZE"
}

run_triage() { "$TRIAGE" scan "$1" "$work/out" > /dev/null; }
run_grep() { grep -a -o -b -i -E "$URLS" "$1" | cat > /dev/null; }
run_search() { "$SCAN_SPEED" url "$1" "$2" > /dev/null; }

# The least time of a command by the clock, in microseconds.
least_clock() {
    local best=0 start spent
    for ((i = 0; i < RUNS; i++)); do
        rm -rf "$work/out"
        start=${EPOCHREALTIME/[.,]/}
        "$@"
        spent=$((${EPOCHREALTIME/[.,]/} - start))
        if ((i == 0 || spent < best)); then best=$spent; fi
    done
    echo "$best"
}

# MiB a second, of so many microseconds a run.
rate() { awk -v us="$1" -v runs="$2" 'BEGIN { if (us < 20) print "-"; else printf "%.0f", runs * 1000000 / us }'; }
ratio() { awk -v a="$1" -v b="$2" 'BEGIN { if (a == "-" || b == "-") print "-"; else printf "%.1f", a / b }'; }

head -c "$SIZE" /dev/zero > "$work/zeros"
head -c "$SIZE" /dev/urandom > "$work/random"
text > "$work/text"
: > "$work/empty"

empty_grep=$(least_clock run_grep "$work/empty")
[ -x "$TRIAGE" ] && empty_triage=$(least_clock run_triage "$work/empty")

printf '%-8s %9s %7s %9s %7s %9s\n' image program ratio search ratio grep
for image in zeros random text; do
    by_grep=$(rate $(($(least_clock run_grep "$work/$image") - empty_grep)) 1)
    by_triage=-
    [ -x "$TRIAGE" ] && by_triage=$(rate $(($(least_clock run_triage "$work/$image") - empty_triage)) 1)
    by_search=-
    if [ -x "$SCAN_SPEED" ]; then
        once=$(least_clock run_search "$work/$image" 1)
        by_search=$(rate $(($(least_clock run_search "$work/$image" "$MANY") - once)) $((MANY - 1)))
    fi
    printf '%-8s %9s %7s %9s %7s %9s\n' "$image" \
        "$by_triage" "$(ratio "$by_triage" "$by_grep")" "$by_search" "$(ratio "$by_search" "$by_grep")" "$by_grep"
done
