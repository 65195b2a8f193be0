#!/usr/bin/env bash
# How long `triage generate` takes for an image of SIZE bytes, and where its time goes.
#
# Run it at the top of the repository, once `rt ci` or `make` has built the program. It is no test: it prints the processor time of
# the program and of the system, the least of RUNS runs, and then how many instructions go into the image, the scan and the report of
# an image of 4 MiB, by callgrind.
. "$(dirname "$0")/common.sh"

TRIAGE=${TRIAGE:-$PWD/crates/triage/out/triage}
RUNS=${RUNS:-5}
SIZE=${SIZE:-67108864}

needs valgrind callgrind_annotate awk
needs_program "$TRIAGE"

echo "generate 7 $SIZE: $(least "$TRIAGE" generate 7 "$SIZE") ms"

valgrind --tool=callgrind --callgrind-out-file="$work/calls" "$TRIAGE" generate 7 4194304 > /dev/null 2>&1
callgrind_annotate --inclusive=yes --threshold=100 "$work/calls" | awk '
    function count(text) { gsub(/,/, "", text); return text + 0 }
    /PROGRAM TOTALS/ { all = count($1) }
    /report::write_report/ && !written { written = count($1) }
    /report::items_in/ && !scanned { scanned = count($1) }
    END {
        printf "instructions: %d million, of them image %d %%, scan %d %%, report %d %%\n", all / 1000000,
            100 * (all - written) / all, 100 * scanned / all, 100 * (written - scanned) / all
    }'
