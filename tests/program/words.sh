# The words of a call: bad ones, and those that are answered with a text alone.

begin 'no words'
ends_usage 'usage: word 0: no command\n'

begin 'an unknown command'
both image "$SEE"
ends_usage 'usage: word 0: unknown command\n' scam image out

# The program prints this page, status 0, whatever of these words is the only one.
ends_page() {
    local page=$1 word
    shift
    for word in "$@"; do
        begin "the word $word alone"
        ends 0 "$page" "$word"
    done
}
HELP=$("$PROGRAM" --help | sed 's/[\\%]/&&/g' && echo .)
ends_page "${HELP%.}" --help -h help
ends_page 'triage 0.1.0\n' --version -V

begin 'a word for help and another one'
ends_usage 'usage: word 0: unknown command\n' --help scan
begin 'a word for help in place of an option'
ends_usage 'usage: word 1: unknown option\n' scan --help

# The options that a text names, one a line.
options_in() { grep -o -E -e '--[a-z-]+' "$1" | sort -u; }
begin 'the help page and the manual name the same options'
"$PROGRAM" --help > "$scratch/help"
sed 's/\\-/-/g' "$top/docs/triage.1" > "$scratch/manual"
options_in "$scratch/help" > "$scratch/stdout"
: > "$scratch/stderr"
judge 0 0 "$(options_in "$scratch/manual")\n"

begin 'an option that is not known'
both image "$SEE"
ends_usage 'usage: word 1: unknown option\n' scan -q image out

begin 'a place that is missing'
both image "$SEE"
ends_usage 'usage: word 2: place missing\n' scan image

begin 'an option without its value'
both image "$SEE"
ends_usage 'usage: word 2: value missing\n' scan --find

begin 'a keyword of no byte'
both image "$SEE"
ends_usage 'usage: word 2: bad text\n' scan --find '' image out
begin 'a keyword of 257 bytes'
both image "$SEE"
ends_usage 'usage: word 4: bad text\n' scan --pattern a --find "$(printf 'x%.0s' $(seq 257))" image out
begin 'a pattern of 257 bytes'
both image "$SEE"
ends_usage 'usage: word 2: bad text\n' scan --pattern "$(printf 'x%.0s' $(seq 257))" image out

begin 'a keyword too many'
both image "$SEE"
ends_usage 'usage: word 129: too many\n' scan $(printf -- '--find x %.0s' $(seq 65)) image out

begin 'a pattern too many'
both image "$SEE"
ends_usage 'usage: word 9: too many\n' scan --pattern a --pattern b --pattern c --pattern d --pattern e image out

begin 'a pattern that is refused'
both image "$SEE"
ends 5 'pattern refused: 0\n' scan --pattern '(' image out

begin 'the second pattern is refused, and the image is missing'
ends 5 'pattern refused: 1\n' scan --pattern a --pattern '[' image out

begin 'two hundred words'
both image "$SEE"
ends_usage 'usage: word 66: too many\n' scan $(yes image | head -n 199)

begin 'a word that is no UTF-8'
both image "$SEE"
error='usage: a word is not UTF-8\n'
ends 2 '' scan image $'out\xff'

# A command line of a bad word, and what is said of it.
while IFS='|' read -r words text; do
    begin "the words $words"
    ends_usage "usage: $text\n" $words
done << END
scan --page 511 i o|word 2: bad number
scan --page 16777217 i o|word 2: bad number
scan --page 0512 i o|word 2: bad number
scan --margin 4194305 i o|word 2: bad number
scan --workers 9 i o|word 2: bad number
scan --depth 8 i o|word 2: bad number
scan --xor 0 i o|word 2: bad number
scan --word-min 257 i o|word 2: bad number
scan --context 129 i o|word 2: bad number
scan --spool-limit 0 i o|word 2: bad number
scan --depth 1 --depth 1 i o|word 3: option given twice
scan --log --log i o|word 2: option given twice
scan --page=512 i o|word 1: unknown option
scan -- i o|word 1: unknown option
scan -e phone i o|word 2: unknown scanner
scan --stop|word 2: value missing
scan --word-min 9 --word-max 8 i o|word 7: word bounds crossed
scan --word-min 9 --word-max 8 --depth 8 i o|word 6: bad number
generate 7|word 2: place missing
generate 7 0 x|word 3: extra word
generate --stop s 7 0|word 1: unknown option
generate 18446744073709551616 0|word 1: bad number
generate 7 67108865|word 2: bad number
END

# A command line with a log, which isn't built.
while IFS='|' read -r words text; do
    begin "the words $words"
    ends 15 "not yet: $text\n" $words
done << END
generate --log 7 0|log
scan --log a b o|log
scan --log i o|log
scan --log --stop none i o|log
END
