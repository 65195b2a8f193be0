#!/usr/bin/env bash
# Whether the histograms of scans are those that `sort` and `uniq` make of the feature files beside them.
#
# Run it at the top of the repository, once `rt ci` or `make` has built the program. It joins the files of FOLDER, scans PIECES pieces
# of 1 MiB of them, each with a few keywords, and compares all six histograms. It prints how many differ, and is no test of the gate.
. "$(dirname "$0")/common.sh"
. "$(dirname "$0")/../tests/histograms.sh"

TRIAGE=${TRIAGE:-$PWD/crates/triage/out/triage}
FOLDER=${FOLDER:-/usr}
PIECES=${PIECES:-100}

needs cmp cut find head sed sort split tr uniq xargs
needs_program "$TRIAGE"

find "$FOLDER" -xdev -type f -size +4k -print0 2> /dev/null | sort -z | xargs -0 cat 2> /dev/null | head -c "$((PIECES * 1048576))" | split -b 1048576 -a 4 - "$work/piece"

compared=0
different=0
rows=0
for piece in "$work"/piece*; do
    rm -rf "$work/have" "$work/want"
    "$TRIAGE" scan --find the --find http --find GNU "$piece" "$work/have" > /dev/null || { echo "not done: $piece"; exit 1; }
    mkdir "$work/want"
    cp "$work/have"/{url,domain,ip,ether,find}.txt "$work/want"
    histograms "$work/want"
    for file in "$work/want"/*histogram.txt; do
        compared=$((compared + 1))
        rows=$((rows + $(wc -l < "$file") - 2))
        cmp -s "$file" "$work/have/${file##*/}" || { different=$((different + 1)); echo "differs: ${piece##*/} ${file##*/}"; }
    done
done
echo "$compared histograms with $rows rows, $different differ"
