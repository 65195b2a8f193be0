#!/usr/bin/env bash
# Whether the report of a large image is the same of one part and of many, and whatever its pages are, over images of file systems;
# whether it has each URL that grep finds there; and whether it has what stands behind 4 GiB.
#
# Run it at the top of the repository, once `rt ci` or `make` has built the program. It takes MIB MiB of the files of FOLDER, and makes
# an ext4 image of them by mke2fs and an ISO 9660 image by genisoimage, each where the tool is there. It prints a line for each
# comparison, ends with status 1 where one differs, and is no test of the gate, since its images depend on the machine.
# shellcheck source=bench/common.sh
. "$(dirname "$0")/../bench/common.sh"

TRIAGE=${TRIAGE:-$PWD/crates/triage/out/triage}
FOLDER=${FOLDER:-/usr}
MIB=${MIB:-64}
URLS='(https?|ftp)://[]A-Za-z0-9._~:/?#[@!$&'\''()*+,;=%-]+'
PATH=$PATH:/usr/sbin:/sbin

needs awk comm cut diff grep head mkdir realpath sort split stat tail tar truncate wc
needs_program "$TRIAGE"
different=0

# Says how a comparison went, by its status.
say() {
    local status=$? how=same
    [ "$status" = 0 ] || { how=differs; different=$((different + 1)); }
    printf '%-8s %-7s %s\n' "$1" "$how" "$2"
}

# Compares the report of a scan with these words with the one in `whole`, but for the spool, which has the pages.
alike() {
    local name=$1 what=$2
    shift 2
    rm -rf "$work/out"
    "$TRIAGE" scan "$@" "$work/out" > "$work/text" && diff -r -q -x spool.bin "$work/whole" "$work/out" &&
        [ "$(tail -n +2 "$work/text")" = "$(tail -n +2 "$work/whole_text")" ]
    say "$name" "$what"
}

# Scans an image in one page, in pages, in parts, and in both.
compare() {
    local name=$1 image=$2 size options
    local searches=(-e word --find Copyright --pattern '[A-Z][a-z]+ [0-9]{4}')
    size=$(stat -c %s "$image")
    rm -rf "$work/whole" "$work"/part*
    "$TRIAGE" scan "${searches[@]}" "$image" "$work/whole" > "$work/whole_text" && [ -s "$work/whole/url.txt" ]
    say "$name" "whole: $size bytes, $(head -n 1 "$work/whole_text")"

    # Matches of grep don't overlap, so the report may have more.
    grep -a -o -b -i -E "$URLS" "$image" | awk '{ at = index($0, ":"); print substr($0, 1, at - 1) "\t" substr($0, at + 1, 2048) }' | sort > "$work/found"
    tail -n +4 "$work/whole/url.txt" | cut -f 1,2 | sort | comm -23 "$work/found" - > "$work/missing"
    [ ! -s "$work/missing" ]
    say "$name" "grep: $(wc -l < "$work/found") URLs, $(wc -l < "$work/missing") of them missing"

    for options in '--page 65536' '--page 65536 --margin 131072' '--page 1000003' '--margin 131072'; do
        alike "$name" "pages: $options" $options "${searches[@]}" "$image"
    done
    split -b $((size / 50 + 1)) "$image" "$work/part"
    alike "$name" 'parts' "${searches[@]}" "$work"/part*
    alike "$name" 'parts and pages' --page 99991 "${searches[@]}" "$work"/part*
    rm -f "$work"/part*
}

# The last file of the tar is cut, and may be missing.
mkdir "$work/files"
tar -c -f - -C / --sort=name "$(realpath "$FOLDER")" 2> /dev/null | head -c $((MIB * 1048576)) | tar -x -f - -C "$work/files" --no-same-owner 2> /dev/null

# Makes the image of a name by a command, where its tool is there, and compares its reports.
image_by() {
    local name=$1
    shift
    command -v "$1" > /dev/null || return
    if "$@" > /dev/null 2>&1; then compare "$name" "$work/$name.img"; else say "$name" "not made by $1"; fi
    rm -f "$work/$name.img"
}
image_by ext4 mke2fs -q -F -t ext4 -i 4096 -d "$work/files" "$work/ext4.img" "$((2 * MIB + 16))M"
image_by iso genisoimage -quiet -R -o "$work/iso.img" "$work/files"

# The URL begins at the last byte below 4 GiB, in a file that has no other bytes.
truncate -s 4294967295 "$work/sparse.img"
printf 'http://a.b/c' >> "$work/sparse.img"
rm -rf "$work/out"
[ "$("$TRIAGE" scan --context 0 "$work/sparse.img" "$work/out")" = $'done pages=257 features=2\nurl.txt 1\ndomain.txt 1' ] &&
    [ "$(tail -q -n +4 "$work/out/url.txt" "$work/out/domain.txt")" = $'4294967295\thttp://a.b/c\thttp://a.b/c\n4294967302\ta.b\ta.b' ]
say sparse '4 GiB of zero bytes, and a URL'

[ "$different" = 0 ]
