#!/bin/sh
# Times the reading of texts of 10 KB, 100 KB and 1 MB: facts, deep nesting, long lists and chains of operators, and of
# one clause of the whole length, a list and a chain that is too deep. Each text is read again and again, so that every
# row reads about 8 MB. It ends with 1 where a text isn't read as it is to be, or where a byte of 1 MB takes more than
# twice the time of a byte of 10 KB.
top=$(cd "$(dirname "$0")/.." && pwd) || exit 1
folder=$top/crates/apd_tables
program=$folder/out/apd_tables
work=$(mktemp -d) || exit 1
trap 'rm -rf "$work"' EXIT

mkdir -p "$folder/out"
if ! (cd "$folder" && rt run -- read data/counts.table 1 >out/build.log 2>&1); then
    echo "reading: the build failed; crates/apd_tables/out/build.log says why" >&2
    exit 1
fi

# The text of a kind and of about a length.
text() {
    awk -v kind="$1" -v want="$2" '
    function times(s, n,   r, i) { r = ""; for (i = 0; i < n; i++) r = r s; return r }
    function clause(i) {
        if (kind == "facts")
            return sprintf("edge(node%05d, label(f(%05d), \"codes\"), X%d, -%d).\n", i, i, i % 7, i)
        if (kind == "nesting") return nest
        if (kind == "lists") return sprintf("list%05d([%s]).\n", i, list)
        return sprintf("chain%05d :- %s.\n", i, chain)
    }
    BEGIN {
        nest = times("f(", 400) times("[", 300) times("(", 200) "x" times(")", 200) times("]", 300) times(")", 400) ".\n"
        list = times("a, B, 12, ", 200) "end"
        chain = "X is 1" times(" + Y * 2 - (3 - Z) ^ 2 ^ 1", 40) ", \\+ " times("- ", 300) "a"
        if (kind == "one-list") {
            printf "p([b"
            for (n = 8; n < want; n += 6) printf ", V, a"
            print "])."
        } else if (kind == "one-chain") {
            printf "p :- a"
            for (n = 8; n < want; n += 3) printf ", b"
            print "."
        } else
            for (i = 1; done < want; i++) { c = clause(i); printf "%s", c; done += length(c) }
    }'
}

# How many nanoseconds of the processor a byte of the file takes, when it is read so often; the counts go to `counts`.
per_byte() {
    (
        "$program" read "$1" "$2" >"$work/counts" || exit 1
        times
    ) >"$work/times" || return 1
    awk -v bytes=$(($(wc -c <"$1") * $2)) '
    function seconds(s,   part) { split(s, part, "[ms]"); return part[1] * 60 + part[2] }
    NR == 2 { printf "%d\n", (seconds($1) + seconds($2)) * 1000000000 / bytes }' "$work/times"
}

failed=0
for kind in facts nesting lists chains one-list one-chain; do
    case $kind in one-chain) faults=1 ;; *) faults=0 ;; esac
    small=
    for size in 10000 100000 1000000; do
        text $kind $size >"$work/text.pl"
        if ! nanoseconds=$(per_byte "$work/text.pl" $((8000000 / size))); then
            echo "$kind: not read"
            exit 1
        fi
        echo "$kind, $nanoseconds ns a byte: $(cat "$work/counts")"
        grep -q ", $faults faults" "$work/counts" || failed=1
        small=${small:-$nanoseconds}
    done
    if [ "$nanoseconds" -gt $((2 * small)) ]; then
        echo "$kind: a byte of 1 MB takes more than twice the time of a byte of 10 KB"
        failed=1
    fi
done
exit $failed
