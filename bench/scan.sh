#!/usr/bin/env bash
# The speed and the memory of whole scans of large images, beside rg, grep and strings on the same images in the same run.
#
# Run it at the top of the repository, once `rt ci` or `make` has built the program. It is no test: it prints a table that README
# takes as it is, and judges nothing. Each image has MIB MiB, is made once, in the folder IMAGES or in a temporary one, and is read
# ahead of its first run, so that it comes from memory. A tool that is missing has no row. MB are millions of bytes, and each speed
# is that of the fastest of RUNS runs.
#
#   files random   the files of FOLDER in a tar, again and again where they are too few, and random bytes
#   processor      the image by the processor time of tool and system, on all processors
#   clock          the image by the time from start to end
#   memory         the most that the program had in memory
#   triage         `triage scan OPTIONS IMAGE OUT` with a new folder, its sync included
#   rg grep        each URL with its place, into a file
#   strings        each row of at least four printable bytes, into a file
# shellcheck source=bench/common.sh
. "$(dirname "$0")/common.sh"

RUNS=${RUNS:-3}
MIB=${MIB:-512}
FOLDER=${FOLDER:-/usr}
IMAGES=${IMAGES:-$work}
OPTIONS=${OPTIONS:-}
TRIAGE=${TRIAGE:-$PWD/crates/triage/out/triage}
# A bracket within a class stands behind a backslash for rg, and first in it for grep.
RG_URLS='(https?|ftp)://[\]A-Za-z0-9._~:/?#\[@!$&'\''()*+,;=%-]+'
GREP_URLS='(https?|ftp)://[]A-Za-z0-9._~:/?#[@!$&'\''()*+,;=%-]+'
TIMEFORMAT='%3R %3U %3S'
size=$((MIB * 1048576))

needs awk cat head mkdir mv realpath rm sleep stat tar
needs_program "$TRIAGE"
[ -d "$FOLDER" ] || { echo "skipped: no folder $FOLDER"; exit 0; }

# A tar that fails has ended at a closed pipe where its status is above 2.
files() { while tar -c -f - -C / --sort=name "$(realpath "$FOLDER")"; (($? <= 2)); do :; done; }
random() { cat /dev/urandom; }

run_triage() { "$TRIAGE" scan $OPTIONS "$1" "$work/out"; }
run_rg() { rg -a -o -b -N -i --no-config --no-unicode "$RG_URLS" "$1" > "$work/lines" || [ $? = 1 ]; }
run_grep() { grep -a -o -b -i -E "$GREP_URLS" "$1" > "$work/lines" || [ $? = 1 ]; }
run_strings() { strings -a "$1" > "$work/lines"; }

# The least processor time and the least time by the clock of a tool's runs, in milliseconds; nothing where it fails.
times_of() {
    local processor='' clock='' spent real user system
    for ((i = 0; i < RUNS; i++)); do
        rm -rf "$work/out"
        spent=$({ time "run_$1" "$2" > /dev/null 2>&1; } 2>&1) || return
        read -r real user system <<< "${spent//[.,]/}"
        real=$((10#$real))
        spent=$((10#$user + 10#$system))
        if [ -z "$processor" ] || ((spent < processor)); then processor=$spent; fi
        if [ -z "$clock" ] || ((real < clock)); then clock=$real; fi
    done
    echo "$processor $clock"
}

# The most memory of a scan, in kibibytes: what GNU time says, or else what /proc said last.
memory_of() {
    local most='' now pid
    rm -rf "$work/out"
    if [ -n "$(type -P time)" ]; then
        "$(type -P time)" -f %M -o "$work/memory" "$TRIAGE" scan $OPTIONS "$1" "$work/out" > /dev/null 2>&1 && cat "$work/memory"
        return
    fi
    "$TRIAGE" scan $OPTIONS "$1" "$work/out" > /dev/null 2>&1 &
    pid=$!
    while now=$(awk '/^VmHWM:/ { print $2 }' "/proc/$pid/status" 2> /dev/null) && [ -n "$now" ]; do
        most=$now
        sleep 0.01
    done
    wait "$pid"
    echo "$most"
}

printf '| image | tool | processor MB/s | clock MB/s | memory MB |\n|---|---|---|---|---|\n'
for image in files random; do
    file="$IMAGES/$image-$MIB.img"
    if [ "$(stat -c %s "$file" 2> /dev/null)" != "$size" ]; then
        mkdir -p "$IMAGES"
        "$image" 2> /dev/null | head -c "$size" > "$file.new"
        mv "$file.new" "$file"
    fi
    cat "$file" > /dev/null
    for tool in triage rg grep strings; do
        [ "$tool" = triage ] || command -v "$tool" > /dev/null || continue
        memory=
        [ "$tool" = triage ] && memory=$(memory_of "$file")
        awk -v row="$image $MIB MiB | $tool" -v times="$(times_of "$tool" "$file")" -v memory="$memory" -v size="$size" '
            function speed(ms) { return ms > 0 ? sprintf("%.0f", size / 1000 / ms) : "-" }
            BEGIN {
                split(times, ms, " ")
                printf "| %s | %s | %s | %s |\n", row, speed(ms[1]), speed(ms[2]), memory == "" ? "" : sprintf("%.0f", memory * 1024 / 1000000)
            }'
    done
done
