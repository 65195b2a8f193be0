# Stop lists and alert lists.

begin 'a stop list and an alert list'
both image "$SEE"
both known.txt 'example.com\tsee http://example.com/a b\nhttp://example.com/a\tother\n'
both wanted.txt '# a comment\r\n\nhttp://example.com/a\r\n'
report out "$SEE_URL" ''
printf "$SEE_URL" >> ../want/out/alerts.txt
printf "$SEE_DOMAIN" >> ../want/out/domain_stopped.txt
ends 0 'done pages=1 features=2\nurl.txt 1\nalerts.txt 1\ndomain_stopped.txt 1\n' scan --alert wanted.txt --stop known.txt image out

begin 'the same entry in both lists'
both image "$SEE"
both list.txt 'example.com'
report out "$SEE_URL" "$SEE_DOMAIN"
printf "$SEE_DOMAIN" >> ../want/out/alerts.txt
ends 0 'done pages=1 features=2\nurl.txt 1\ndomain.txt 1\nalerts.txt 1\n' scan --stop list.txt --alert list.txt image out

begin 'a feature file of an earlier scan as stop list'
both image "$SEE"
report out '' "$SEE_DOMAIN"
printf "$SEE_URL" >> ../want/out/url_stopped.txt
mkdir ../want/old
{ header url.txt; printf "$SEE_URL"; } > ../want/old/url.txt
cp -r ../want/old .
ends 0 'done pages=1 features=2\ndomain.txt 1\nurl_stopped.txt 1\n' scan --stop old/url.txt image out

begin 'a stop list that is missing'
both image "$SEE"
ends 4 'read fault: stop list\n' scan --stop list.txt --alert list.txt image out
begin 'an alert list that is a folder'
both image "$SEE"
both list.txt 'x'
mkdir folder ../want/folder
ends 4 'read fault: alert list\n' scan --stop list.txt --alert folder image out
begin 'a stop list that is too long, and an alert list that is missing'
both image "$SEE"
head -c 16777217 /dev/zero > list.txt
cp list.txt ../want/list.txt
ends 3 'list too long: stop 16777217\n' scan --alert none.txt --stop list.txt image out
begin 'a list at the limit'
both image "$SEE"
head -c 16777216 /dev/zero > list.txt
cp list.txt ../want/list.txt
report out "$SEE_URL" "$SEE_DOMAIN"
ends 0 "$SEE_TEXT" scan --stop list.txt image out
