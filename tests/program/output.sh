# Standard output that takes no text, and want of memory.

# Runs the program with these words and a full standard output, which must end with this status.
ends_full() {
    local status=$1 got=0
    shift
    "$PROGRAM" "$@" > /dev/full 2> "$scratch/stderr" < /dev/null || got=$?
    : > "$scratch/stdout"
    judge "$status" "$got" ''
}

if [ -c /dev/full ]; then
    begin 'a text that can not be printed'
    both image "$SEE"
    report out "$SEE_URL" "$SEE_DOMAIN"
    ends_full 13 scan image out

    begin 'a refusal that can not be printed'
    both image "$SEE"
    error='`triage --help` prints the words that there are\n'
    ends_full 2 scan image

    begin 'a help page that can not be printed'
    ends_full 13 --help
fi

# ---- memory

# Under the least limit at which an empty image is done, an image of many URLs wants memory, and says so.
begin 'no memory'
: > empty
urls_in_a_row 131072 > image
limited() { (ulimit -v "$1" && exec "$PROGRAM" scan "$2" out) > "$scratch/stdout" 2> "$scratch/stderr" < /dev/null; }
for kib in 4096 6144 8192 12288 16384; do
    limited "$kib" empty || continue
    got=0
    limited "$kib" image || got=$?
    rm -rf "$scratch/want"
    cp -r "$scratch/have" "$scratch/want"
    judge 14 "$got" 'no memory\n'
    break
done
