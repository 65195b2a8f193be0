# What the cases of the built program share; `tests/program.sh` reads this file in first.
#
# A case is a folder `have`, in which the program runs, and a folder `want`, which says what must stand there afterwards: whatever
# else was made, changed or removed shows as a difference.

scratch=$(mktemp -d) || exit 1
trap 'rm -rf "$scratch"' EXIT
passed=0
failed=0

# The feature files of a scan without options, and its histograms.
FILES='url.txt domain.txt ip.txt ether.txt exec.txt unread.txt find.txt alerts.txt url_stopped.txt domain_stopped.txt
    ip_stopped.txt ether_stopped.txt exec_stopped.txt unread_stopped.txt find_stopped.txt'
HISTOGRAMS='url_histogram.txt url_services_histogram.txt domain_histogram.txt ip_histogram.txt ether_histogram.txt
    find_histogram.txt'

# The header of a feature file.
header() { printf '# triage feature file, format 1\n# file: %s\n# columns: path, feature, context\n' "$1"; }

# Begins a case of this name, with two empty folders.
begin() {
    name=$1
    error=
    rm -rf "$scratch/have" "$scratch/want"
    mkdir "$scratch/have" "$scratch/want"
    cd "$scratch/have" || exit 1
}

# Puts a file of this text into both folders: it stands at the beginning, and must stand at the end.
both() {
    printf "$2" > "$scratch/have/$1"
    printf "$2" > "$scratch/want/$1"
}

# The histograms of a folder's feature files, by other tools.
. "$top/tests/histograms.sh"

# Says that the report must stand in this folder, with these lines of URLs and of domains, and with the
# headers alone of all other feature files. Each report gets the histograms of its files when the case is judged.
report() {
    local file
    mkdir -p "$scratch/want/$1"
    for file in $FILES; do header "$file" > "$scratch/want/$1/$file"; done
    printf "$2" >> "$scratch/want/$1/url.txt"
    printf "$3" >> "$scratch/want/$1/domain.txt"
}

# Ends a case: runs the program with these words, which must end with this status, print this text, print no
# error but the one that the case says, and leave what the folder `want` has.
ends() {
    local status=$1 text=$2 got=0
    shift 2
    "$PROGRAM" "$@" > "$scratch/stdout" 2> "$scratch/stderr" < /dev/null || got=$?
    judge "$status" "$got" "$text"
}

# Judges a case that ran: its status, what it printed, and what stands in the folder.
judge() {
    local status=$1 got=$2 why= folder
    : > "$scratch/diff"
    find "$scratch/want" -name alerts.txt -printf '%h\n' | while IFS= read -r folder; do histograms "$folder"; done
    [ "$got" = "$status" ] || why="status $got, not $status"
    printf -- "$3" | diff - "$scratch/stdout" >> "$scratch/diff" 2>&1 || why="$why; the text differs"
    printf "$error" | diff - "$scratch/stderr" >> "$scratch/diff" 2>&1 || why="$why; the error differs"
    diff -r "$scratch/have" "$scratch/want" >> "$scratch/diff" 2>&1 || why="$why; the folder differs"
    if [ -z "$why" ]; then
        passed=$((passed + 1))
    else
        failed=$((failed + 1))
        echo "failed: $name: ${why#; }"
        head -n 5 "$scratch/diff" | cut -c 1-200
    fi
}

# Ends a case of a bad word, which must be named so; standard error says where help is had.
ends_usage() {
    error='`triage --help` prints the words that there are\n'
    ends 2 "$@"
}

SEE='see http://example.com/a b'
SEE_TEXT='done pages=1 features=2\nurl.txt 1\ndomain.txt 1\n'
SEE_URL='4\thttp://example.com/a\tsee http://example.com/a b\n'
SEE_DOMAIN='11\texample.com\tsee http://example.com/a b\n'

# So many URLs in a row, and their lines of a report with the default context.
urls_in_a_row() { yes 'ftp://a ' | tr -d '\n' | head -c $((8 * $1)); }
lines_of_urls() {
    awk -v count="$1" 'BEGIN {
        for (i = 0; i < count; i++) {
            before = i == 0 ? "" : i == 1 ? "ftp://a " : "ftp://a ftp://a "
            after = i == count - 1 ? " " : i == count - 2 ? " ftp://a " : " ftp://a ftp://a"
            print 8 * i "\tftp://a\t" before "ftp://a" after
        }
    }'
}

# So many zero bytes of a context, for `report`.
zeros() { printf '\\\\x00%.0s' $(seq "$1"); }
