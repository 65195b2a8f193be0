# Shapes across the border of two pages. Each shape stands in a slot of its own, the slots of all shapes make a block, and an image
# is a block for each distance, in which each shape begins so many bytes ahead of a border of pages of 512 bytes.

# So many times a text.
times() { printf "$2%.0s" $(seq "$1"); }

# Writes these bytes, and zero bytes behind them up to so many bytes.
slot() {
    printf "$2" > "$scratch/slot"
    truncate -s "$1" "$scratch/slot"
    cat "$scratch/slot"
}

# The image of the slots in `shapes` at these distances.
blocks_at() {
    local distance
    for distance in "$@"; do
        head -c $((512 - distance)) /dev/zero
        cat "$scratch/shapes"
        head -c "$distance" /dev/zero
    done
}

# What must be found in it: a line of `found` is a file, a place in the slots, what the path has behind it, and the feature.
found_at() {
    awk -F'|' -v block=$(($(stat -c %s "$scratch/shapes") + 512)) -v distances="$*" '
        $1 != file { all(); file = $1 }
        { count += 1; place[count] = $2; path[count] = $3; feature[count] = $4 }
        END { all() }
        function all(many, at, k, i) {
            many = split(distances, at, " ")
            for (k = 1; k <= many; k++)
                for (i = 1; i <= count; i++)
                    print file "\t" (k - 1) * block + 512 - at[k] + place[i] path[i] "\t" feature[i]
            count = 0
        }' "$scratch/found"
}

# The paths and features of a report, each behind its file's name.
features_in() {
    (cd "$1" && awk -F'\t' 'FNR > 3 { print FILENAME "\t" $1 "\t" $2 }' url.txt domain.txt ip.txt ether.txt exec.txt unread.txt \
        find.txt wordlist.txt)
}

# Ends a case of this text: the image of `shapes` at these distances is scanned with the options of `plain` in one page, and in
# pages of 512 bytes. Both reports must be equal, and have the features of `found`.
ends_shapes() {
    local text=$1 got=0
    shift
    blocks_at "$@" | tee ../want/image > image
    found_at "$@" > ../want/features
    "$PROGRAM" scan "${plain[@]}" image ../want/out > /dev/null < /dev/null 2>&1
    "$PROGRAM" scan --page 512 --margin 131072 "${plain[@]}" image out > "$scratch/stdout" 2> "$scratch/stderr" < /dev/null || got=$?
    features_in out > features
    judge 0 "$got" "$text"
}

# ---- short shapes

HEADER='E\0\0s\0\0@\0@\021\270a\300\250\0\1\300\250\0\307'
{
    slot 1024 'http://www.example.com/a/path/of/some/length'
    slot 1024 "$HEADER"
    slot 1024 "\2\0\0\0\0\1\2\0\0\0\0\2\10\0$HEADER"
    slot 1024 '\177ELF\2\1\1\0\0\0\0\0\0\0\0\0\2\0>\0'
    slot 1024 "MZ$(times 58 '\\0')@\0\0\0PE\0\0\114\1\3\0\1\0\0\0"
    slot 1024 '\37\213\10'
    slot 1024 'PK\3\4'
    slot 1024 'heron of the sea'
    slot 1024 'AB 12345'
    slot 1024 'strawberry'
    slot 1024 'aHR0cDovL2V4YW1wbGUuY29tL2hlbGxvLXdvcmxkLTE='
    slot 1024 'aHR0cDovL2V4YW1wbGUuY29tL2hlbGxv\r\nLXdvcmxkLTE='
    slot 1024 '687474703a2f2f612e622f3031323334'
    slot 1024 'h\0t\0t\0p\0:\0/\0/\0w\0w\0w\0.\0e\0x\0a\0m\0p\0l\0e\0.\0n\0e\0t\0/\0'
    slot 1024 "$(printf 'http://example.org/x' | od -An -v -tu1 | awk '{ for (i = 1; i <= NF; i++) printf "\\%o", 255 - $i }')"
    slot 1024 'aHR0cDovL2V4YW1wbGUuY29tL2hlbGxv\r\nIGZ0cDovL2MuZC8gYW5kIG5vIG1vcmUg'
} > "$scratch/shapes"
cat > "$scratch/found" << 'END'
url.txt|0||http://www.example.com/a/path/of/some/length
url.txt|10240|-BASE64-0|http://example.com/hello-world-1
url.txt|11264|-BASE64-0|http://example.com/hello-world-1
url.txt|12288|-HEX-0|http://a.b/01234
url.txt|13312|-UTF16-0|http://www.example.net/
url.txt|14336|-XOR255-0|http://example.org/x
url.txt|15360|-BASE64-0|http://example.com/hello
url.txt|15360|-BASE64-25|ftp://c.d/
domain.txt|7||www.example.com
domain.txt|10240|-BASE64-7|example.com
domain.txt|11264|-BASE64-7|example.com
domain.txt|12288|-HEX-7|a.b
domain.txt|13312|-UTF16-7|www.example.net
domain.txt|14343|-XOR255-0|example.org
domain.txt|15360|-BASE64-7|example.com
domain.txt|15360|-BASE64-31|c.d
ip.txt|1024||192.168.0.1
ip.txt|1024||192.168.0.199
ip.txt|2062||192.168.0.1
ip.txt|2062||192.168.0.199
ether.txt|2048||02:00:00:00:00:01
ether.txt|2048||02:00:00:00:00:02
exec.txt|3072||ELF class=64 order=little type=2 machine=62
exec.txt|4096||PE machine=332 sections=3 time=1
unread.txt|5120||gzip
unread.txt|6144||zip
find.txt|7168||heron of the sea
find.txt|8192||AB 12345
wordlist.txt|9216||strawberry
wordlist.txt|11298||LXdvcmxkLTE=
wordlist.txt|15360|-BASE64-25|ftp://c.d/
END
plain=(-e word --context 128 --xor 255 --find 'heron of the sea' --pattern '[A-Z]{2} [0-9]{5}')
# At the distances from 383 on the border lies ahead of a shape, and within its context.
begin 'each shape, 1 to 40 bytes ahead of a border, and 0 to 129 bytes behind one'
ends_shapes 'done pages=1485 features=1395\nurl.txt 360\ndomain.txt 360\nip.txt 180\nether.txt 90\nexec.txt 90\nunread.txt 90\nfind.txt 90\nwordlist.txt 135\n' \
    {1..40} 383 384 385 511 512

# ---- shapes that reach over pages

# The slots begin at 0, 4096, 8192, 12288, 20480, 32768, 53248, 126976, 128000 and 129024.
{
    slot 4096 "http://$(times 3000 a)"
    slot 4096 "ftp://a.$(times 300 b).c/"
    slot 4096 "ftp://h.o:$(times 1500 x)@"
    slot 4096 "MZ$(times 58 '\\0')\\0\\20\\0\\0"
    slot 4096 'PE\0\0\114\1\3\0\1\0\0\0'
    slot 12288 "$(times 4073 ' \\0')h\\0t\\0t\\0p\\0:\\0/\\0/\\0w\\0w\\0w\\0.\\0e\\0x\\0a\\0m\\0p\\0l\\0e\\0.\\0n\\0e\\0t\\0/\\0"
    slot 20480 "$(times 8172 20)687474703a2f2f6578616d706c652e636f6d2f78"
    slot 73728 "$(printf '%49132shttp://example.com/x' '' | base64 -w 512 | sed 's/$/\\r\\n/' | tr -d '\n')"
    slot 1024 "$(times 256 '~')"
    slot 1024 "<$(times 254 '#')>"
    slot 1024 "$(times 257 '!')"
} > "$scratch/shapes"
cat > "$scratch/found" << END
url.txt|0||http://$(times 2041 a)
url.txt|4096||ftp://a.$(times 300 b).c/
url.txt|8192||ftp://h.o:$(times 1500 x)@
url.txt|20480|-UTF16-4073|http://www.example.net/
url.txt|32768|-HEX-8172|http://example.com/x
url.txt|53248|-BASE64-49132|http://example.com/x
domain.txt|4102||a.$(times 251 b)
domain.txt|20480|-UTF16-4080|www.example.net
domain.txt|32768|-HEX-8179|example.com
domain.txt|53248|-BASE64-49139|example.com
exec.txt|12288||PE machine=332 sections=3 time=1
find.txt|126976||$(times 256 '~')
find.txt|128000||<$(times 254 '#')>
wordlist.txt|20480|-UTF16-4073|http://www.example.net/
wordlist.txt|32768|-HEX-8172|http://example.com/x
wordlist.txt|53248|-BASE64-49132|http://example.com/x
wordlist.txt|126976||$(times 256 '~')
wordlist.txt|128000||<$(times 254 '#')>
END
plain=(-e word --word-max 256 --find "$(times 256 '~')" --pattern '<#{254}>')

begin 'shapes that reach over pages, 1 to 511 bytes ahead of a border'
ends_shapes 'done pages=1275 features=90\nurl.txt 30\ndomain.txt 20\nexec.txt 5\nfind.txt 10\nwordlist.txt 25\n' 1 128 129 300 511
