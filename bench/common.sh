# What the scripts of this folder share; each of them reads it in first.
set -u
export LC_ALL=C
TIMEFORMAT='%3U %3S'

# Ends the script where one of these tools is missing.
needs() {
    local tool
    for tool in "$@"; do
        command -v "$tool" > /dev/null || { echo "skipped: no $tool"; exit 0; }
    done
}

# Ends the script where this program isn't built.
needs_program() { [ -x "$1" ] || { echo "skipped: no $1"; exit 0; }; }

# The least processor time of RUNS runs of a command, in milliseconds; nothing where it fails.
least() {
    local best='' spent
    for ((i = 0; i < RUNS; i++)); do
        spent=$({ time "$@" > /dev/null 2>&1; } 2>&1) || return
        spent=${spent//[.,]/}
        spent=$((10#${spent% *} + 10#${spent#* }))
        if [ -z "$best" ] || ((spent < best)); then best=$spent; fi
    done
    echo "$best"
}

needs mktemp
work=$(mktemp -d) || exit 1
trap 'rm -rf "$work"' EXIT
