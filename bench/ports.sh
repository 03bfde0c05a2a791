#!/bin/sh
# Times what a port costs in a search that goes back over facts, after few ports and after many, and 5,000 nested calls.
top=$(cd "$(dirname "$0")/.." && pwd) || exit 1
work=$(mktemp -d) || exit 1
trap 'rm -rf "$work"' EXIT
awk 'BEGIN {
    for (i = 0; i < 10; i++)
        printf "digit(%d).\n", i
    print "none(10)."
    print "search :- digit(A), digit(B), digit(C), digit(D), digit(E), none(E)."
}' >"$work/search.pl"
# Twenty runs in one session, so that a port's time stands out from that of the start.
for _ in 1 2 3 4 5 6 7 8 9 10 11 12 13 14 15 16 17 18 19 20; do
    echo '?- search.'
done >"$work/search"
: >"$work/start"
cp "$work/search.pl" "$work/start.pl"
echo 'p :- p.' >"$work/nested.pl"
echo '?- p.' >"$work/nested"
"$top/.ci/build" || exit 1

# The nanoseconds that a run with this program and budget takes, the least of five.
nanoseconds() {
    least=
    for _ in 1 2 3 4 5; do
        start=$(date +%s%N)
        "$top/apd" --budget "$2" "$work/$1.pl" <"$work/$1" >"$work/out"
        took=$(($(date +%s%N) - start))
        if [ -z "$least" ] || [ "$took" -lt "$least" ]; then
            least=$took
        fi
    done
    tail -n 1 "$work/out" >&2
    echo "$least"
}

start=$(nanoseconds start 1)
few=$(nanoseconds search 10000)
many=$(nanoseconds search 100000)
nested=$(nanoseconds nested 5000)
awk -v start="$start" -v few="$few" -v many="$many" -v nested="$nested" 'BEGIN {
    first = (few - start) / (20 * 10000)
    all = (many - start) / (20 * 100000)
    printf "a port of 10,000: %.0f ns; of 100,000: %.0f ns; %.2f times as much\n", first, all, all / first
    printf "5,000 nested calls: %.3f s\n", (nested - start) / 1e9
    exit all > 1.5 * first
}'
