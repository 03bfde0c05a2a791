#!/bin/sh
# Times the writing of lists: what an answer with a list of 1,000, 10,000 and 100,000 elements takes beyond the load of its fact.
# It ends with 1 where an element of 100,000 takes more than twice the time of one of 1,000.
top=$(cd "$(dirname "$0")/.." && pwd) || exit 1
work=$(mktemp -d) || exit 1
trap 'rm -rf "$work"' EXIT
# The program is built where it isn't there; it is then timed by itself.
"$top/.ci/build" || exit 1
program=$top/crates/apd/out/apd

# The least nanoseconds of twenty runs with this input.
nanoseconds() {
    least=
    for _ in $(seq 20); do
        start=$(date +%s%N)
        "$program" "$work/list.pl" <"$1" >"$work/out"
        took=$(($(date +%s%N) - start))
        if [ -z "$least" ] || [ "$took" -lt "$least" ]; then
            least=$took
        fi
    done
    echo "$least"
}

echo '?- list(Xs).' >"$work/query"
small=
for elements in 1000 10000 100000; do
    awk -v n="$elements" 'BEGIN { printf "list([a"; for (i = 1; i < n; i++) printf ",a"; print "])." }' >"$work/list.pl"
    load=$(nanoseconds /dev/null)
    took=$(nanoseconds "$work/query")
    each=$(((took - load) / elements))
    echo "$elements elements: $each ns each, $(wc -c <"$work/out") bytes printed"
    small=${small:-$each}
done
[ "$each" -le $((2 * small)) ]
