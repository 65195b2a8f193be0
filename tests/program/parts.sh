# Images that cannot be read, and images in parts, which are joined in the order of the words.

begin 'an image that is missing'
ends 4 'read fault: image\n' scan image out

begin 'a folder as image'
mkdir image ../want/image
ends 4 'read fault: image\n' scan image out

begin 'two parts'
both a 'see http:/'
both b '/example.com/a b'
report out "$SEE_URL" "$SEE_DOMAIN"
ends 0 "$SEE_TEXT" scan a b out

begin 'parts of one byte, and parts of none ahead of each and behind'
both none ''
parts=(none)
for ((i = 0; i < ${#SEE}; i++)); do
    both "part$i" "${SEE:i:1}"
    parts+=("part$i" none)
done
report out "$SEE_URL" "$SEE_DOMAIN"
ends 0 "$SEE_TEXT" scan "${parts[@]}" out

begin 'parts of no byte alone'
both none ''
report out '' ''
ends 0 'done pages=0 features=0\n' scan none none none out

begin 'the same part twice'
both a 'http://a.b/'
report out '0\thttp://a.b/http://a.b/\thttp://a.b/http://a.b/\n11\thttp://a.b/\thttp://a.b/http://a.b/\n' \
    '7\ta.b\thttp://a.b/http://a.b/\n18\ta.b\ttp://a.b/http://a.b/\n'
ends 0 'done pages=1 features=4\nurl.txt 2\ndomain.txt 2\n' scan a a out

begin 'a part and another one'
both a 'http://a.b'
both b '/x ftp://c.d'
report out '0\thttp://a.b/x\thttp://a.b/x ftp://c.d\n13\tftp://c.d\thttp://a.b/x ftp://c.d\n' \
    '7\ta.b\thttp://a.b/x ftp://c.d\n19\tc.d\tp://a.b/x ftp://c.d\n'
ends 0 'done pages=1 features=4\nurl.txt 2\ndomain.txt 2\n' scan a b out

begin 'the same parts in the other order'
both a 'http://a.b'
both b '/x ftp://c.d'
report out '3\tftp://c.dhttp://a.b\t/x ftp://c.dhttp://a.b\n12\thttp://a.b\t/x ftp://c.dhttp://a.b\n' \
    '9\tc.dhttp\t/x ftp://c.dhttp://a.b\n19\ta.b\tftp://c.dhttp://a.b\n'
ends 0 'done pages=1 features=4\nurl.txt 2\ndomain.txt 2\n' scan b a out

begin 'sixty-four parts'
both part 'ftp://a '
report out '' ''
lines_of_urls 64 >> ../want/out/url.txt
ends 0 'done pages=1 features=64\nurl.txt 64\n' scan $(yes part | head -n 64) out

begin 'sixty-five parts'
both part 'ftp://a '
ends_usage 'usage: word 66: too many\n' scan $(yes part | head -n 65) out

begin 'pages over the borders of parts'
head -c 511 /dev/zero | tee ../want/a > a
both b 'h'
both c 'ttp://a.b'
report out "511\thttp://a.b\t$(zeros 16)http://a.b\n" "518\ta.b\t$(zeros 9)http://a.b\n"
ends 0 'done pages=2 features=2\nurl.txt 1\ndomain.txt 1\n' scan --page 512 a b c out

begin 'parts whose names begin with a dash'
both -a 'see http:/'
both --log '/example.com/a b'
report out "$SEE_URL" "$SEE_DOMAIN"
ends 0 "$SEE_TEXT" scan ./-a --log out

# Parts of which one can't be opened.
for parts in 'a none' 'none a' 'a a none' 'a folder'; do
    begin "the parts $parts"
    both a "$SEE"
    mkdir folder ../want/folder
    ends 4 'read fault: image\n' scan $parts out
done

begin 'a stop list that is missing, and parts'
ends 4 'read fault: stop list\n' scan --stop none a --log out
