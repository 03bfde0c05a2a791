#!/bin/sh
# Times diagnoses: of a wrong answer over trees of 1,000 and 10,000 nodes, how long their suspects take to be found and what a
# question costs, with the memory beside that of the run; questions one by one over 10,000 suspects; 20,000 diagnoses after a
# run of 100,000 ports; of a missing answer in a run of 100,000 ports; and of a chain of 50,000 calls.
# Each row has the bound that it is to meet. It ends with 1 where one isn't met.
top=$(cd "$(dirname "$0")/.." && pwd) || exit 1
work=$(mktemp -d) || exit 1
trap 'rm -rf "$work"' EXIT
# The program is built where it isn't there, unless one is named; it is then timed by itself.
[ -n "$1" ] || "$top/.ci/build" || exit 1
program=${1:-$top/crates/apd/out/apd}
failed=0

# The least milliseconds of five sessions over a file of lines, with these words; the peak memory in KB goes to `peak`, and
# what is printed to `out`.
milliseconds() {
    lines=$1
    shift
    least=
    for _ in 1 2 3 4 5; do
        start=$(date +%s%N)
        /usr/bin/time -f '%M' -o "$work/peak" "$program" "$@" <"$lines" >"$work/out"
        took=$(($(date +%s%N) - start))
        if [ -z "$least" ] || [ "$took" -lt "$least" ]; then
            least=$took
        fi
    done
    awk -v took="$least" 'BEGIN { printf "%.3f", took / 1e6 }'
}

# A row: what was measured, the figure, its unit and its bound; a figure that isn't there meets none.
row() {
    awk -v what="$1" -v is="$2" -v unit="$3" -v most="$4" 'BEGIN {
        met = is != "" && is <= most
        printf "%-62s %10s %-4s of at most %g%s\n", what ":", is, unit, most, met ? "" : "  NOT MET"
        exit !met
    }' || failed=1
}

# Whether the last session ended with this line; a row that says so if not.
ends_with() {
    [ "$(tail -n 1 "$work/out")" = "$1" ] && return
    echo "wanted: $1"
    echo "was:    $(tail -n 1 "$work/out")"
    failed=1
    return 1
}

# The program of a tree: below node i stand 2i and 2i + 1. One node is wrong, and those above it aren't true.
tree() {
    awk -v n="$1" 'BEGIN {
        for (i = 1; i <= n; i++) {
            printf "n%d", i
            if (2 * i <= n) printf " :- n%d", 2 * i
            if (2 * i < n) printf ", n%d", 2 * i + 1
            print "."
        }
    }' >"$work/tree$1.pl"
}

# A dialogue about the tree, by whoever knows which node is wrong: its replies, one a line.
cat >"$work/dialogue.py" <<'PROGRAM'
import re
import subprocess
import sys

program, source, nodes = sys.argv[1], sys.argv[2], int(sys.argv[3])
untrue, node = set(), 7 * nodes // 10 + 1
while node:
    untrue.add(node)
    node //= 2
with subprocess.Popen([program, source], stdin=subprocess.PIPE, stdout=subprocess.PIPE, text=True) as talk:
    talk.stdin.write("?- n1.\nwrong(1, 1).\n")
    talk.stdin.flush()
    for line in talk.stdout:
        asked = re.match(r"question \d+: true\? n(\d+) ", line)
        if asked:
            reply = "no." if int(asked[1]) in untrue else "yes."
            print(reply)
            talk.stdin.write(reply + "\n")
            talk.stdin.flush()
        elif line.startswith("bug"):
            talk.stdin.close()
PROGRAM

difference() {
    awk -v more="$1" -v less="$2" -v by="$3" 'BEGIN { printf "%.4f", (more - less) / by }'
}

for nodes in 1000 10000; do
    tree $nodes
    source=$work/tree$nodes.pl
    echo '?- n1.' >"$work/run"
    run=$(milliseconds "$work/run" "$source")
    run_peak=$(cat "$work/peak")

    # The suspects are found anew for each of 50 diagnoses that stop at their first question.
    { cat "$work/run"; for _ in $(seq 50); do printf 'wrong(1, 1).\nstop.\n'; done; } >"$work/stopped"
    stopped=$(milliseconds "$work/stopped" "$source")
    built=$(difference "$stopped" "$run" $((50 * nodes / 1000)))
    echo "$nodes nodes: the run $run ms, $run_peak KB; the suspects $built ms for 1,000 nodes"
    [ $nodes = 1000 ] && first=$built

    python3 "$work/dialogue.py" "$program" "$source" $nodes >"$work/replies"
    { cat "$work/run"; echo 'wrong(1, 1).'; cat "$work/replies"; } >"$work/whole"
    whole=$(milliseconds "$work/whole" "$source")
    wrong=$((7 * nodes / 10 + 1))
    ends_with "bug: wrong instance of clause $wrong, line $wrong: n$wrong"
    questions=$(grep -c . "$work/replies")
    row "$nodes nodes: questions" "$questions" '' $([ $nodes = 1000 ] && echo 10 || echo 14)
    row "$nodes nodes: a question, and its part of finding the suspects" "$(difference "$whole" "$run" "$questions")" ms 1
    row "$nodes nodes: memory beside the run" "$((($(cat "$work/peak") - run_peak) / 1024))" MB 20
done
row "finding 10,000 suspects against 1,000, for each" "$(awk -v a="$built" -v b="$first" 'BEGIN { printf "%.2f", a / b }')" '' 1.5

# 500 questions about nodes without children, one after another, against one.
{ cat "$work/run"; echo 'wrong(1, 1).'; yes yes. | head -n 500; echo stop.; } >"$work/many"
{ cat "$work/run"; printf 'wrong(1, 1).\nyes.\nstop.\n'; } >"$work/few"
source=$work/tree10000.pl
many=$(milliseconds "$work/many" --strategy single "$source")
few=$(milliseconds "$work/few" --strategy single "$source")
row "a question over 10,000 suspects" "$(difference "$many" "$few" 499)" ms 0.1

printf 'q(1).\nn(1).\nn(2).\n' >"$work/calls.pl"
{
    printf '?- q(X), '
    for _ in $(seq 15); do printf 'n(_), '; done
    echo fail.
} >"$work/run"
run=$(milliseconds "$work/run" "$work/calls.pl")
{ cat "$work/run"; yes 'wrong(1, 1).' | head -n 20000; } >"$work/diagnoses"
took=$(milliseconds "$work/diagnoses" "$work/calls.pl")
ends_with 'bug: wrong instance of clause 1, line 1: q(1)'
row "20,000 diagnoses after a run of 100,000 ports (the run $run ms)" "$took" ms 10000

# A goal fails below 400 calls, and each of these has 240 ports beside.
{
    echo 'p(s(N)) :- b, p(N).'
    printf 'b :- w'
    for _ in $(seq 59); do printf ', w'; done
    echo .
    echo w.
} >"$work/missing.pl"
goal=$(awk 'BEGIN { for (i = 0; i < 400; i++) printf "s("; printf "0"; for (i = 0; i < 400; i++) printf ")" }')
echo "?- p($goal)." >"$work/run"
run=$(milliseconds "$work/run" "$work/missing.pl")
{ cat "$work/run"; echo "missing(1, p($goal))."; yes yes. | head -n 401; } >"$work/missing"
took=$(milliseconds "$work/missing" "$work/missing.pl")
if ends_with 'bug: uncovered goal: p(0)'; then
    row "a question about a missing answer, after 98,402 ports ($run ms)" "$(difference "$took" "$run" 401)" ms 1
fi

echo 'p(X) :- p(X).' >"$work/loop.pl"
echo '?- p(_).' >"$work/run"
run=$(milliseconds "$work/run" --budget 50000 "$work/loop.pl")
{ cat "$work/run"; echo 'loop.'; } >"$work/chain"
took=$(milliseconds "$work/chain" --budget 50000 "$work/loop.pl")
if grep -q '^symptom: no end: 50000 calls' "$work/out"; then
    row "a chain of 50,000 calls (the run $run ms)" "$(difference "$took" "$run" 1)" ms 1000
else
    ends_with 'bug: call not below its caller'
fi
exit $failed
