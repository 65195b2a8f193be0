#!/usr/bin/env bash
# Whether a scan's time grows with its image and not faster, on images that a careless search is slow on.
#
# Run it at the top of the repository, once `rt run` or `rt ci` has built scan_speed. It is no test: it
# prints a table and judges nothing. For each image it prints the processor time of a scan by every scanner,
# five levels deep (`scan_speed all`), of 4 MiB and of 16 MiB of it, without the start of the program, in
# milliseconds, and how many times the one is in the other: 4 is linear. Each time is the least of RUNS.
#
#   letters digits pairs words   one run of Base64 letters, of hexadecimal digits, of UTF-16 pairs, of word bytes
#   mimeN                        Base64 text in lines of N letters with CR LF, of random bytes
#   hexN                         hexadecimal text in lines of N digits, of random bytes
#   xor                          random bytes, searched in the XOR view too (`scan_speed xor`)
# shellcheck source=bench/common.sh
. "$(dirname "$0")/common.sh"

RUNS=${RUNS:-3}
SCAN_SPEED=${SCAN_SPEED:-crates/scan_speed/out/scan_speed}
IMAGES=${IMAGES:-letters digits pairs words mime31 mime32 mime33 mime64 mime76 mime1000 mime70000 hex31 hex32 hex60 hex20000 xor}

needs awk base64 fold head od tr yes
needs_program "$SCAN_SPEED"

# An image of the name, without end.
bytes_of() {
    case $1 in
        letters) yes abcdefghijklmnop | tr -d '\n' ;;
        digits) yes 0123456789abcdef | tr -d '\n' ;;
        pairs) yes abcdefghijklmnop | tr '\n' 'q' | awk 'BEGIN { RS = "q" } { gsub(/./, "&\001"); printf "%s", $0 }' | tr '\001' '\000' ;;
        words) yes '!"%(),;<>@[]^{|}' | tr -d '\n' ;;
        xor) cat /dev/urandom ;;
        mime*) base64 -w "${1#mime}" /dev/urandom | awk '{ printf "%s\r\n", $0 }' ;;
        hex*) od -An -v -tx1 /dev/urandom | tr -d ' \n' | fold -w "${1#hex}" ;;
    esac
}

# The processor time of a scan of an image, in milliseconds, without the start of the program.
spent_on() {
    local search=all
    [ "$image" = xor ] && search=xor
    echo $(($(least "$SCAN_SPEED" "$search" "$1" 2) - $(least "$SCAN_SPEED" "$search" "$1" 1)))
}

printf '%-10s %10s %10s %7s\n' image '4 MiB' '16 MiB' times
for image in $IMAGES; do
    bytes_of "$image" 2> /dev/null | head -c 16777216 > "$work/large"
    head -c 4194304 "$work/large" > "$work/small"
    small=$(spent_on "$work/small")
    large=$(spent_on "$work/large")
    awk -v image="$image" -v small="$small" -v large="$large" 'BEGIN {
        printf "%-10s %10d %10d ", image, small, large
        if (small > 0) printf "%7.1f\n", large / small; else print "      -"
    }'
done
