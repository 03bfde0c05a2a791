#!/bin/sh
# Times the loading of full texts of 10 KB, 100 KB and 1 MB: facts, and rules with operators, lists, quoted names and comments.
# The largest is a file of 20,000 clauses and about 1 MB. It ends with 1 where that takes a second or 300 MB, or where a byte
# of 1 MB takes more than twice the time of a byte of 10 KB.
top=$(cd "$(dirname "$0")/.." && pwd) || exit 1
work=$(mktemp -d) || exit 1
trap 'rm -rf "$work"' EXIT
# The program is built where it isn't there; it is then timed by itself.
"$top/.ci/build" || exit 1
program=$top/crates/apd/out/apd
: >"$work/empty.pl"

# A text of so many clauses.
text() {
    awk -v kind="$1" -v clauses="$2" 'BEGIN {
        for (i = 1; i <= clauses; i++)
            if (kind == "facts") printf "edge(node%05d, label(f(%05d), some_name), %d).\n", i, i, i
            else printf "p%05d(X,[%d|T]) :- X is %d*2, q(T,\047A b\047). %%n\n", i, i, i
    }'
}

# The least nanoseconds of so many loads of a file, one program each; the peak memory in KB goes to `peak`.
nanoseconds() {
    least=
    for _ in $(seq 40); do
        start=$(date +%s%N)
        "$program" "$1" </dev/null >"$work/out"
        took=$(($(date +%s%N) - start))
        if [ -z "$least" ] || [ "$took" -lt "$least" ]; then
            least=$took
        fi
    done
    /usr/bin/time -f '%M' -o "$work/peak" "$program" "$1" </dev/null >"$work/out"
    echo "$least"
}

failed=0
start=$(nanoseconds "$work/empty.pl")
for kind in facts rules; do
    small=
    for clauses in 200 2000 20000; do
        text $kind $clauses >"$work/text.pl"
        took=$(nanoseconds "$work/text.pl")
        bytes=$(wc -c <"$work/text.pl")
        each=$(awk -v took="$took" -v start="$start" -v bytes="$bytes" 'BEGIN { printf "%.0f", (took - start) / bytes }')
        echo "$kind: $clauses clauses, $bytes bytes, $((took / 1000)) microseconds, $each ns a byte, $(cat "$work/peak") KB; $(tail -n 1 "$work/out")"
        small=${small:-$each}
    done
    [ "$took" -lt 1000000000 ] && [ "$(cat "$work/peak")" -lt 300000 ] && [ "$each" -le $((2 * small)) ] || failed=1
done
exit $failed
