# Histograms of feature files as `sort` and `uniq` make them, to compare the program's with. Scripts read this file in. An item
# with an escape may stand elsewhere among items of its count, since the program goes by the bytes ahead of the escape.

# The histogram of this name of the features of a feature file, each changed by a filter.
histogram() {
    printf '# triage histogram, format 1\n# file: %s\n' "$1"
    tail -n +4 "$2" | cut -f 2 | "${@:3}" | LC_ALL=C sort | uniq -c | LC_ALL=C sort -s -k 1,1nr | sed -E 's/^ *([0-9]+) /n=\1\t/'
}

# What is counted: a feature, a domain in lower case, the service of a URL.
lower_case() { tr A-Z a-z; }
service() { sed -E 's@^([a-zA-Z]+://[^/?#]*).*@\1@' | lower_case; }

# Puts the histograms of the feature files of a folder beside them, but for those that stand there.
histograms() {
    local name
    for name in url domain ip ether find; do
        [ -f "$1/$name.txt" ] || continue
        [ -f "$1/${name}_histogram.txt" ] && continue
        case $name in
            domain) histogram domain_histogram.txt "$1/domain.txt" lower_case ;;
            *) histogram "${name}_histogram.txt" "$1/$name.txt" cat ;;
        esac > "$1/${name}_histogram.txt"
    done
    if [ -f "$1/url.txt" ] && [ ! -f "$1/url_services_histogram.txt" ]; then
        histogram url_services_histogram.txt "$1/url.txt" service > "$1/url_services_histogram.txt"
    fi
}
