# The folder of the report and its files, and names.

begin 'a folder whose parents are missing'
both image "$SEE"
report new/deep/out "$SEE_URL" "$SEE_DOMAIN"
ends 0 "$SEE_TEXT" scan image new/deep/out

begin 'a folder that stands, with other files in it and a longer report'
both image 'ftp://a'
report out '0\tftp://a\tftp://a\n' ''
mkdir out
{ header url.txt; printf "$SEE_URL$SEE_URL"; } > out/url.txt
{ header domain.txt; printf "$SEE_DOMAIN"; } > out/domain.txt
both out/notes.txt 'kept'
both out/spool.bin 'kept too'
ends 0 'done pages=1 features=1\nurl.txt 1\n' scan image out

begin 'names with dots, blanks and a dash'
both 'a disk..v1.raw' "$SEE"
report '-out.d' "$SEE_URL" "$SEE_DOMAIN"
ends 0 "$SEE_TEXT" scan 'a disk..v1.raw' '-out.d'

begin 'an image that is read-only'
both image "$SEE"
chmod 400 image
report out "$SEE_URL" "$SEE_DOMAIN"
ends 0 "$SEE_TEXT" scan image out

begin 'a folder without a name'
both image "$SEE"
ends 8 'disk fault\n' scan image ''

begin 'a folder that is a file'
both image "$SEE"
ends 8 'disk fault\n' scan image image

begin 'a folder below a file'
both image "$SEE"
ends 8 'disk fault\n' scan image image/out

# A report file that is a link to TARGET: the program must end with a disk fault, and leave the other one in
# any state.
linked() {
    begin "$1 is a link to $2"
    both image "$SEE"
    mkdir out ../want/out
    ln -s "$2" "out/$1"
    local got=0
    "$PROGRAM" scan image out > "$scratch/stdout" 2> "$scratch/stderr" < /dev/null || got=$?
    rm -rf out ../want/out
    judge 8 "$got" 'disk fault\n'
}

# A full disk refuses the bytes; a file of the process's name takes them and can't be synced.
for file in $FILES $HISTOGRAMS; do
    [ -c /dev/full ] && linked "$file" /dev/full
    [ -w /proc/self/comm ] && linked "$file" /proc/self/comm
done

# A process that may write no byte: the report files stand empty or not at all.
begin 'files that may have no bytes'
both image "$SEE"
(
    trap '' XFSZ
    ulimit -f 0
    exec "$PROGRAM" scan image out
) 2>&1 < /dev/null | cat > "$scratch/stdout"
got=${PIPESTATUS[0]}
: > "$scratch/stderr"
rm -rf out
judge 8 "$got" 'disk fault\n'
