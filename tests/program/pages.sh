# Pages: neither their size nor that of the margin behind them changes a report, and there are at most 1,048,576.

# With pages of 512 bytes, and with one page of the default size.
for options in '--page 512' ''; do
    pages=1
    [ -z "$options" ] || pages=2

    begin "a URL across the border of two pages, ${options:-no option}"
    { head -c 511 /dev/zero; printf 'http://example.com/x'; head -c 493 /dev/zero; } | tee ../want/image > image
    report out "511\thttp://example.com/x\t$(zeros 16)http://example.com/x$(zeros 16)\n" \
        "518\texample.com\t$(zeros 9)http://example.com/x$(zeros 14)\n"
    ends 0 "done pages=$pages features=2\nurl.txt 1\ndomain.txt 1\n" scan $options image out

    begin "a word across the border of two pages, ${options:-no option}"
    printf '%508sstrawberry%506s' '' '' | tee ../want/image > image
    report out '' ''
    header wordlist.txt > ../want/out/wordlist.txt
    header wordlist_stopped.txt > ../want/out/wordlist_stopped.txt
    printf '508\tstrawberry\t%16sstrawberry%16s\n' '' '' >> ../want/out/wordlist.txt
    ends 0 "done pages=$pages features=1\nwordlist.txt 1\n" scan -e word $options image out
done

# Options of a scan of 2 MiB and one byte, and how many pages there are.
while IFS='|' read -r options pages; do
    begin "an image of 2 MiB and one byte, ${options:-no option}"
    {
        head -c 1048570 /dev/zero
        printf 'http://a.b/c'
        head -c 1048562 /dev/zero
        printf 'ftp://c.d'
    } | tee ../want/image > image
    report out "1048570\thttp://a.b/c\t$(zeros 16)http://a.b/c$(zeros 16)\n2097144\tftp://c.d\t$(zeros 16)ftp://c.d\n" \
        "1048577\ta.b\t$(zeros 9)http://a.b/c$(zeros 14)\n2097150\tc.d\t$(zeros 10)ftp://c.d\n"
    ends 0 "done pages=$pages features=4\nurl.txt 2\ndomain.txt 2\n" scan $options image out
done << END
|1
--page 1048576|3
--page 65536 --margin 131072|33
END

begin 'a URL across the border of two pages of the default size'
{ head -c 16777210 /dev/zero; printf 'http://a.b/c'; } | tee ../want/image > image
report out "16777210\thttp://a.b/c\t$(zeros 16)http://a.b/c\n" "16777217\ta.b\t$(zeros 9)http://a.b/c\n"
ends 0 'done pages=2 features=2\nurl.txt 1\ndomain.txt 1\n' scan image out

# ---- too many pages

# Ends a case of parts of these sizes, without a byte in them, which are too many pages. Links are not compared byte for byte, which would take a second.
ends_sparse() {
    local text=$1 size parts=()
    shift
    for size in "$@"; do
        truncate -s "$size" "part$size" 2> /dev/null || return
        ln "part$size" ../want
        parts+=("part$size")
    done
    ends 7 "$text" scan --page 512 "${parts[@]}" out
}

begin 'one page too many'
ends_sparse 'too many pages: 1048577\n' 536870913
begin 'one page too many, of two parts'
ends_sparse 'too many pages: 1048577\n' 268435456 268435457
begin 'more pages than four bytes count'
ends_sparse 'too many pages: 17179869185\n' 8796093022209

# A folder that is a file can't be made, which is tried once the pages are not too many.
for size in 536870912 536870913; do
    begin "an image of $size bytes, and a folder that is a file"
    truncate -s "$size" image
    ln image ../want
    case $size in
        536870912) ends 8 'disk fault\n' scan --page 512 image image ;;
        *) ends 7 'too many pages: 1048577\n' scan --page 512 image image ;;
    esac
done

# ---- read faults

# A file of the system that has fewer bytes than its size says, 4,096: the rest of it can't be read.
short=/sys/kernel/uevent_seqnum
if [ "$(stat -c %s "$short" 2> /dev/null)" = 4096 ]; then
    begin 'a page that can not be read'
    mkdir ../want/out
    ends 4 'read fault: page 0\n' scan "$short" out

    # Pages 0 to 2 and their margins end ahead of it.
    begin 'a page whose margin can not be read, and a report of an earlier scan'
    head -c 132608 /dev/zero | tee ../want/image > image
    mkdir out ../want/out
    both out/url.txt 'kept'
    ends 4 'read fault: page 3\n' scan --workers 1 --page 512 --margin 131072 image "$short" out
fi

# ---- files of the machine

# Ends a case: a scan with these words must leave in `out` what one with the words of `plain` does, and print the same, but
# for the number of pages.
plain=()
ends_alike() {
    local pages=$1 text
    shift
    text=$("$PROGRAM" scan "${plain[@]}" ../want/out < /dev/null 2>&1 | sed "1s/pages=[0-9]* /pages=$pages /" && echo .)
    ends 0 "${text%.}" scan "$@" out
}

# Texts, a program, and both encoded.
{
    cat "$top"/README.md "$top"/docs/*.md | head -c 16384
    cat /usr/share/common-licenses/* 2> /dev/null | head -c 16384
    head -c 16384 "$(type -P bash)"
    base64 "$top/README.md" | head -c 8192
    od -An -v -tx1 "$top/docs/FORMATS.md" | tr -d ' \n' | head -c 8192
} > "$scratch/files"
size=$(stat -c %s "$scratch/files")
echo The > "$scratch/stop"
echo GNU > "$scratch/alert"
searches=(-e word --find the --find GNU --pattern '[A-Z][a-z]+' --xor 32 --stop "$scratch/stop" --alert "$scratch/alert")

# Options, each with the size of their pages.
while IFS='|' read -r options page; do
    begin "files of the machine, $options"
    cp "$scratch/files" image
    cp image ../want
    plain=("${searches[@]}" image)
    ends_alike $(((size + page - 1) / page)) $options "${plain[@]}"
done << END
--page 512|512
--page 513|513
--page 65535|65535
--page 512 --margin 131072|512
--page 513 --margin 4194304|513
--margin 131072|16777216
END

begin 'files of the machine in parts and pages'
cp "$scratch/files" image
split -b 5000 image part
cp image part* ../want
plain=("${searches[@]}" image)
ends_alike $(((size + 511) / 512)) --page 512 "${searches[@]}" part*
