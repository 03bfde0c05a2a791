#!/bin/sh
# Times searches: what a port costs after 10,000, 100,000 and 1,000,000 ports where the search goes back (queens by generate
# and test, the colouring of a map over facts); and programs that nest, as far as they are carried (a counting loop, hanoi,
# naive reverse of 30 to 690 elements, a goal that calls itself). Each row has the ports, the time and the peak memory, of
# which the record of the run is a part.
# It ends with 1 where a port of 1,000,000 takes more than 1.5 times the time of a port of 10,000. The other bounds, beside
# SWI-Prolog too, are those of bounds.py.
top=$(cd "$(dirname "$0")/.." && pwd) || exit 1
work=$(mktemp -d) || exit 1
trap 'rm -rf "$work"' EXIT
# The program is built where it isn't there, unless one is named; it is then timed by itself.
[ -n "$1" ] || "$top/.ci/build" || exit 1
program=${1:-$top/crates/apd/out/apd}

cat >"$work/queens.pl" <<'PROGRAM'
queens(Qs) :- permutation([1,2,3,4,5,6,7,8], Qs), safe(Qs).
permutation([], []).
permutation(Xs, [X|Ys]) :- select(X, Xs, Zs), permutation(Zs, Ys).
select(X, [X|Xs], Xs).
select(X, [Y|Ys], [Y|Zs]) :- select(X, Ys, Zs).
safe([]).
safe([Q|Qs]) :- apart(Q, Qs, 1), safe(Qs).
apart(_, [], _).
apart(Q, [R|Rs], D) :- Q =\= R + D, Q =\= R - D, E is D + 1, apart(Q, Rs, E).
PROGRAM
echo '?- queens(Qs).' >"$work/queens"
awk 'BEGIN {
    n = split("red green blue", c, " ")
    for (i = 1; i <= n; i++)
        for (j = 1; j <= n; j++)
            if (i != j) printf "differ(%s, %s).\n", c[i], c[j]
    print "none(yellow)."
    print "map(A, B, C, D, E, F, G, H, I, J) :-"
    print "    differ(A, B), differ(B, C), differ(C, D), differ(D, E), differ(E, F), differ(F, G),"
    print "    differ(G, H), differ(H, I), differ(I, J), differ(A, C), differ(B, D), none(J)."
    print "maps :- trial(_), map(_, _, _, _, _, _, _, _, _, _)."
    for (i = 1; i <= 1000; i++) printf "trial(%d).\n", i
}' >"$work/colours.pl"
echo '?- maps.' >"$work/colours"
cat >"$work/count.pl" <<'PROGRAM'
count(0).
count(N) :- N > 0, M is N - 1, count(M).
PROGRAM
echo '?- count(100000).' >"$work/count"
cat >"$work/hanoi.pl" <<'PROGRAM'
hanoi(0, _, _, _).
hanoi(N, A, B, C) :- N > 0, M is N - 1, hanoi(M, A, C, B), hanoi(M, C, B, A).
PROGRAM
echo '?- hanoi(12, a, b, c).' >"$work/hanoi"
echo 'p(X) :- p(X).' >"$work/loop.pl"
echo '?- p(X).' >"$work/loop"
cat >"$work/reverse.pl" <<'PROGRAM'
append([], Ys, Ys).
append([X|Xs], Ys, [X|Zs]) :- append(Xs, Ys, Zs).
reverse([], []).
reverse([X|Xs], Ys) :- reverse(Xs, Zs), append(Zs, [X], Ys).
PROGRAM
for n in 30 100 200 690; do
    cp "$work/reverse.pl" "$work/reverse$n.pl"
    awk -v n="$n" 'BEGIN { printf "?- reverse([1"; for (i = 2; i <= n; i++) printf ",%d", i; print "], Ys)." }' >"$work/reverse$n"
done

# The least nanoseconds of three sessions with this program and budget, and so many runs of its query; the last line that it
# prints goes to `end`, the peak memory in KB to `peak`.
nanoseconds() {
    least=
    for _ in $(seq "$3"); do cat "$work/$1"; done >"$work/input"
    for _ in 1 2 3; do
        start=$(date +%s%N)
        /usr/bin/time -f '%M' -o "$work/peak" "$program" --budget "$2" "$work/$1.pl" <"$work/input" >"$work/out"
        took=$(($(date +%s%N) - start))
        if [ -z "$least" ] || [ "$took" -lt "$least" ]; then
            least=$took
        fi
    done
    tail -n 1 "$work/out" >"$work/end"
    echo "$least"
}

# The ports that the last run had.
ports() {
    sed -n 's/.*, \([0-9]*\) ports.*/\1/p' "$work/end"
}

failed=0
for kind in queens colours; do
    first=
    for budget in 10000 100000 1000000; do
        runs=$((1000000 / budget))
        base=$(nanoseconds $kind 1 $runs)
        took=$(nanoseconds $kind $budget $runs)
        cost=$(awk -v took="$took" -v base="$base" -v ports="$(($(ports) * runs))" 'BEGIN { printf "%.0f", (took - base) / ports }')
        echo "$kind: $runs times $(ports) ports, $cost ns each, $(cat "$work/peak") KB"
        first=${first:-$cost}
    done
    [ "$cost" -le $((first * 3 / 2)) ] || failed=1
done
# Runs of a program within each of these budgets, up to the first that it doesn't use up.
nest() {
    kind=$1
    shift
    for budget in "$@"; do
        took=$(nanoseconds "$kind" "$budget" 1)
        awk -v kind="$kind" -v took="$took" -v end="$(cat "$work/end")" -v peak="$(cat "$work/peak")" 'BEGIN {
            printf "%s: %s, %.3f s, %s KB\n", kind, end, took / 1e9, peak
        }'
        grep -q budget "$work/end" || break
    done
}

for program_that_nests in count hanoi reverse30 reverse100 loop; do
    nest $program_that_nests 10000 100000 1000000
done
nest reverse200 100000
nest reverse690 1000000
exit $failed
