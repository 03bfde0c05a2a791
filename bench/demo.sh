#!/bin/sh
# Times demonstrations: with a tree of 1,000 nodes, which is to ask 10 questions, and with one of 10,000, which is to ask at most
# 14 and to take at most 1 s and 100 MB. It ends with 1 where one isn't met.
top=$(cd "$(dirname "$0")/.." && pwd) || exit 1
work=$(mktemp -d) || exit 1
trap 'rm -rf "$work"' EXIT
# The program is built where it isn't there, unless one is named; it is then timed by itself.
[ -n "$1" ] || "$top/.ci/build" || exit 1
program=${1:-$top/crates/apd/out/apd}
failed=0

# The least milliseconds of five demonstrations with so many nodes; the peak memory in KB goes to `peak`, what is printed to `out`.
milliseconds() {
    least=
    for _ in 1 2 3 4 5; do
        start=$(date +%s%N)
        /usr/bin/time -f '%M' -o "$work/peak" "$program" --demo "$1" </dev/null >"$work/out"
        took=$(($(date +%s%N) - start))
        if [ -z "$least" ] || [ "$took" -lt "$least" ]; then
            least=$took
        fi
    done
    awk -v took="$least" 'BEGIN { printf "%.3f", took / 1e6 }'
}

# A row: what was measured, the figure, its unit and its bound; a figure that isn't there meets none.
row() {
    awk -v what="$1" -v is="$2" -v unit="$3" -v most="$4" 'BEGIN {
        met = is != "" && is + 0 <= most
        printf "%-40s %10s %-9s of at most %g%s\n", what ":", is, unit, most, met ? "" : "  NOT MET"
        exit !met
    }' || failed=1
}

# How many questions the last demonstration asked, where it came to its end.
questions() {
    sed -n 's/^demo: .* nodes, \(.*\) questions, clause .*$/\1/p' "$work/out"
}

took=$(milliseconds 1000)
row "1,000 nodes" "$took" ms 1000
row "1,000 nodes" "$(questions)" questions 10
took=$(milliseconds 10000)
row "10,000 nodes" "$took" ms 1000
row "10,000 nodes" "$(questions)" questions 14
row "10,000 nodes" "$(awk '{ printf "%.1f", $1 / 1024 }' "$work/peak")" MB 100
exit $failed
