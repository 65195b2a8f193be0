#!/usr/bin/env bash
# The speed of each search over 64 MiB, without the start of a program and the reading of a file.
#
# Run it at the top of the repository, once `rt run` or `rt ci` has built scan_speed. It is no test:
# it prints a table of GB a second (10^9 bytes) and judges nothing. Each time is processor time, the
# least of RUNS runs, and a figure is that of MANY searches of one buffer, less that of one.
#
#   url net exec   the search for one scanner's shapes: `find_urls`, `find_packets`, `find_execs`
#   find           8 keywords, of which few stand there; `find1` and `find64` that many: `find_given_into`
#   pattern        4 patterns, of which few match; `pattern1` one: the same
#   word           words of 6 to 14 bytes: `find_words`
#   base64 hex utf16   where such texts begin: `find_texts`, `find_runs`
#   all            the features of a scan by every scanner but the one for words, without keywords and
#                  patterns, five levels deep: `scan_owned`
#   peer           only where PEER names another program that knows `scan [OPTIONS] IMAGE OUT`: its whole
#                  scan with the options PEER_WORDS, without the time that it takes on an empty image
#
# The images: files of this machine, one behind the other; random bytes; zeros. `-` stands where a
# program fails, or where the time is too short to be told.
# shellcheck source=bench/common.sh
. "$(dirname "$0")/common.sh"

RUNS=${RUNS:-10}
MANY=${MANY:-11}
SEARCHES=${SEARCHES:-url net exec find1 find find64 pattern1 pattern word base64 hex utf16 all}
SCAN_SPEED=${SCAN_SPEED:-crates/scan_speed/out/scan_speed}
PEER=${PEER:-}
PEER_WORDS=${PEER_WORDS:-}
SIZE=67108864

needs awk find head sort wc xargs cat
needs_program "$SCAN_SPEED"

# Files of the machine in the order of their names, up to 64 MiB of them.
files() {
    find /usr/bin /usr/lib /usr/share -type f -size -8192k -print0 2> /dev/null | sort -z \
        | xargs -0 cat 2> /dev/null | head -c "$SIZE"
}

run_peer() {
    rm -rf "$work/out"
    # shellcheck disable=SC2086
    "$PEER" scan $PEER_WORDS "$1" "$work/out" > /dev/null 2>&1
}

# GB a second of so many passes over an image, from the time of all and the time of what isn't counted.
rate() {
    awk -v all="$1" -v less="$2" -v passes="$3" -v size="$(wc -c < "$work/$image")" 'BEGIN {
        if (all == "" || less == "" || all - less < 5) print "-"
        else printf "%.2f", size * passes / (all - less) / 1000000
    }'
}

files > "$work/files"
head -c "$SIZE" /dev/urandom > "$work/random"
head -c "$SIZE" /dev/zero > "$work/zeros"
: > "$work/empty"

printf '%-8s' image
for search in $SEARCHES ${PEER:+peer}; do printf ' %8s' "$search"; done
printf '\n'
for image in files random zeros; do
    printf '%-8s' "$image"
    for search in $SEARCHES; do
        once=$(least "$SCAN_SPEED" "$search" "$work/$image" 1)
        many=$(least "$SCAN_SPEED" "$search" "$work/$image" "$MANY")
        printf ' %8s' "$(rate "$many" "$once" $((MANY - 1)))"
    done
    if [ -n "$PEER" ]; then
        printf ' %8s' "$(rate "$(least run_peer "$work/$image")" "$(least run_peer "$work/empty")" 1)"
    fi
    printf '\n'
done
