# Options of a scan.

begin 'words, and a context of no byte'
both image '  strawberry '
report out '' ''
header wordlist.txt > ../want/out/wordlist.txt
header wordlist_stopped.txt > ../want/out/wordlist_stopped.txt
printf '2\tstrawberry\tstrawberry\n' >> ../want/out/wordlist.txt
ends 0 'done pages=1 features=1\nwordlist.txt 1\n' scan --context 0 -e word --word-min 10 --word-max 10 image out

begin 'no scanner'
both image "$SEE"
mkdir ../want/out
header alerts.txt > ../want/out/alerts.txt
ends 0 'done pages=1 features=0\n' scan -x url -x domain -x net -x exec -x unread -x find image out

begin 'a scanner off and on again, pages of 512 bytes'
head -c 1025 /dev/zero > image
cp image ../want/image
report out '' ''
ends 0 'done pages=3 features=0\n' scan -x url --page 512 -e url image out

begin 'options that change nothing here'
both image "$SEE"
report out "$SEE_URL" "$SEE_DOMAIN"
ends 0 "$SEE_TEXT" scan --margin 131072 --workers 8 --spool-limit 1 --depth 0 image out

begin 'a URL and a domain under a mask'
both image '\222\216\216\212\300\325\325\231\324\236\325'
report out '0-XOR250-0\thttp://c.d/\thttp://c.d/\n' '7-XOR250-0\tc.d\thttp://c.d/\n'
ends 0 'done pages=1 features=2\nurl.txt 1\ndomain.txt 1\n' scan --xor 250 image out
