# Scans that are done.

begin 'a scan that is done'
both image "$SEE"
report out "$SEE_URL" "$SEE_DOMAIN"
ends 0 "$SEE_TEXT" scan image out

begin 'an empty image'
both image ''
report out '' ''
ends 0 'done pages=0 features=0\n' scan image out

begin 'a URL in a URL, and bytes that are escaped'
both image '\0\tHTTP://a.b/?u=http://c.d/\\\n'
report out '2\tHTTP://a.b/?u=http://c.d/\t\\x00\\x09HTTP://a.b/?u=http://c.d/\\x5C\\x0A\n16\thttp://c.d/\t\\x00\\x09HTTP://a.b/?u=http://c.d/\\x5C\\x0A\n' \
    '9\ta.b\t\\x00\\x09HTTP://a.b/?u=http://c.d/\\x5C\n23\tc.d\t//a.b/?u=http://c.d/\\x5C\\x0A\n'
ends 0 'done pages=1 features=4\nurl.txt 2\ndomain.txt 2\n' scan image out

begin 'packets, an executable, and members that are not read'
both image '\2\0\0\0\0\1\2\0\0\0\0\2\10\0E\0\0s\0\0@\0@\21\270a\300\250\0\1\300\250\0\307\177ELF\2\1\1\0\0\0\0\0\0\0\0\0\2\0>\0\37\213\10PK\3\4'
report out '' ''
{
    header ip.txt
    printf '14\t192.168.0.%s\t\\x02\\x00\\x00\\x00\\x00\\x01\\x02\\x00\\x00\\x00\\x00\\x02\\x08\\x00E\\x00\\x00s\\x00\\x00@\\x00@\\x11\\xB8a\\xC0\\xA8\\x00\\x01\\xC0\\xA8\\x00\\xC7\\x7FELF\\x02\\x01\\x01\\x00\\x00\\x00\\x00\\x00\\x00\\x00\\x00\\x00\n' 1 199
} > "$scratch/want/out/ip.txt"
{
    header ether.txt
    printf '0\t02:00:00:00:00:0%s\t\\x02\\x00\\x00\\x00\\x00\\x01\\x02\\x00\\x00\\x00\\x00\\x02\\x08\\x00E\\x00\\x00s\\x00\\x00@\\x00@\\x11\\xB8a\\xC0\\xA8\\x00\\x01\n' 1 2
} > "$scratch/want/out/ether.txt"
{
    header exec.txt
    printf '34\tELF class=64 order=little type=2 machine=62\t\\x00\\x00@\\x00@\\x11\\xB8a\\xC0\\xA8\\x00\\x01\\xC0\\xA8\\x00\\xC7\\x7FELF\\x02\\x01\\x01\\x00\\x00\\x00\\x00\\x00\\x00\\x00\\x00\\x00\\x02\\x00>\\x00\\x1F\\x8B\\x08PK\\x03\\x04\n'
} > "$scratch/want/out/exec.txt"
{
    header unread.txt
    printf '54\tgzip\t\\x02\\x01\\x01\\x00\\x00\\x00\\x00\\x00\\x00\\x00\\x00\\x00\\x02\\x00>\\x00\\x1F\\x8B\\x08PK\\x03\\x04\n'
    printf '57\tzip\t\\x00\\x00\\x00\\x00\\x00\\x00\\x00\\x00\\x00\\x02\\x00>\\x00\\x1F\\x8B\\x08PK\\x03\\x04\n'
} > "$scratch/want/out/unread.txt"
ends 0 'done pages=1 features=7\nip.txt 2\nether.txt 2\nexec.txt 1\nunread.txt 2\n' scan image out

begin 'URLs in Base64 over two lines, in hexadecimal digits and in UTF-16'
both image 'aHR0cDovL2V4YW1wbGUuY29tL2hlbGxv\r\nLXdvcmxkLTE= 687474703a2f2f612e622f3031323334 h\0t\0t\0p\0:\0/\0/\0c\0.\0d\0/\0'
report out '0-BASE64-0\thttp://example.com/hello-world-1\thttp://example.com/hello-world-1\n47-HEX-0\thttp://a.b/01234\thttp://a.b/01234\n80-UTF16-0\thttp://c.d/\thttp://c.d/\n' \
    '0-BASE64-7\texample.com\thttp://example.com/hello-world-1\n47-HEX-7\ta.b\thttp://a.b/01234\n80-UTF16-7\tc.d\thttp://c.d/\n'
ends 0 'done pages=1 features=6\nurl.txt 3\ndomain.txt 3\n' scan image out

begin 'a keyword, and a pattern at each place'
both image 'xaab'
report out '' ''
printf '1\taab\txaab\n1\taa\txaab\n2\ta\txaab\n' >> ../want/out/find.txt
ends 0 'done pages=1 features=3\nfind.txt 3\n' scan --find aab --pattern a+ image out

begin 'patterns whose places see nothing ahead, options in any order'
both image 'aab'
report out '' ''
printf '0\ta\taab\n1\ta\taab\n2\tb\taab\n' >> ../want/out/find.txt
ends 0 'done pages=1 features=3\nfind.txt 3\n' scan --pattern ^a --find b image out

begin 'keywords that overlap, two that are equal, one that begins with a dash'
both image 'aaa --find'
report out '' ''
printf '0\taa\taaa --find\n0\taa\taaa --find\n1\taa\taaa --find\n1\taa\taaa --find\n4\t--find\taaa --find\n' >> ../want/out/find.txt
ends 0 'done pages=1 features=5\nfind.txt 5\n' scan --find aa --find aa --find --find image out

begin 'histograms: services and domains in lower case, and nothing that is stopped'
both image 'HTTP://A.b/x http://a.B/y ftp://c.d/z'
both stop 'http://a.B/y\nc.d\n'
report out '0\tHTTP://A.b/x\tHTTP://A.b/x http://a.B/y ft\n26\tftp://c.d/z\t/x http://a.B/y ftp://c.d/z\n' \
    '7\tA.b\tHTTP://A.b/x http://a.B/y \n20\ta.B\t://A.b/x http://a.B/y ftp://c.d/z\n'
printf '13\thttp://a.B/y\tHTTP://A.b/x http://a.B/y ftp://c.d/z\n' >> ../want/out/url_stopped.txt
printf '32\tc.d\tp://a.B/y ftp://c.d/z\n' >> ../want/out/domain_stopped.txt
printf '# triage histogram, format 1\n# file: url_histogram.txt\nn=1\tHTTP://A.b/x\nn=1\tftp://c.d/z\n' > ../want/out/url_histogram.txt
printf '# triage histogram, format 1\n# file: url_services_histogram.txt\nn=1\tftp://c.d\nn=1\thttp://a.b\n' > ../want/out/url_services_histogram.txt
printf '# triage histogram, format 1\n# file: domain_histogram.txt\nn=2\ta.b\n' > ../want/out/domain_histogram.txt
ends 0 'done pages=1 features=6\nurl.txt 2\ndomain.txt 2\nurl_stopped.txt 1\ndomain_stopped.txt 1\n' scan --stop stop image out

begin 'a histogram: the larger count first, and then the smaller bytes as they are found'
both image 'A\tA\tA\t..'
report out '' ''
printf '0\tA\tA\n1\t\\x09\t\\x09\n2\tA\tA\n3\t\\x09\t\\x09\n4\tA\tA\n5\t\\x09\t\\x09\n6\t.\t.\n7\t.\t.\n' >> ../want/out/find.txt
printf '# triage histogram, format 1\n# file: find_histogram.txt\nn=3\t\\x09\nn=3\tA\nn=2\t.\n' > ../want/out/find_histogram.txt
ends 0 'done pages=1 features=8\nfind.txt 8\n' scan --find . --find A --find $'\t' --context 0 image out

begin 'an image of 1 MiB'
head -c 1048576 /dev/zero > image
cp image ../want/image
report out '' ''
ends 0 'done pages=1 features=0\n' scan image out

# 20,000 URLs make a report of some 1.1 MB, which is written in pieces.
begin 'a report of more than one piece'
urls_in_a_row 20000 > image
cp image ../want/image
report out '' ''
lines_of_urls 20000 >> ../want/out/url.txt
ends 0 'done pages=1 features=20000\nurl.txt 20000\n' scan image out
