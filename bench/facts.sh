#!/bin/sh
# Times the built program on a file of 20,000 facts of about 1 MB and one goal over it.
top=$(cd "$(dirname "$0")/.." && pwd) || exit 1
work=$(mktemp -d) || exit 1
trap 'rm -rf "$work"' EXIT
awk 'BEGIN {
    for (i = 1; i <= 20000; i++)
        printf "edge(node%05d, label(f(%05d), some_name), %d).\n", i, i, i
}' >"$work/facts.pl"
echo '?- edge(N, L, 20000).' >"$work/input"
wc -c "$work/facts.pl"
"$top/.ci/build" || exit 1
if [ -x /usr/bin/time ]; then
    /usr/bin/time -f '%e seconds, %M KB' "$top/apd" "$work/facts.pl" <"$work/input"
else
    time "$top/apd" "$work/facts.pl" <"$work/input"
fi
