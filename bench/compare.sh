#!/bin/sh
# Times the proved search and its unverified twin on the same junctions and prints a table of both.
# Usage: bench/compare.sh [ROUNDS]; of each junction's times in so many rounds the shortest is taken.
# The two run five times in turn and the lowest figures count, since the speed of a processor changes from run to run.
set -eu
cd "$(dirname "$0")/.."
rounds=${1:-20}
out=$(mktemp -d)
trap 'rm -rf "$out"' EXIT

program=$PWD/crates/bench/out/bench
# Run in the crate's folder it finds no junctions and says so: here it is only to be built.
[ -x "$program" ] || (cd crates/bench && rt run) >"$out/check" 2>&1 || [ -x "$program" ] || { cat "$out/check"; exit 1; }
rustc -O bench/twin.rs -o "$out/twin"
cd crates/bench/data
for turn in 1 2 3 4 5; do
    "$program" "$rounds" >"$out/proved.answers" 2>>"$out/proved.times"
    "$out/twin" "$rounds" >"$out/twin.answers" 2>>"$out/twin.times"
    cmp "$out/proved.answers" "$out/twin.answers"
done

# A line of times reads: FAMILY: median N ns, worst N ns, total N ns, plans MARK[, nodes N]
awk -F '[: ,]+' '
    function least(old, new) { return old == "" || new < old ? new : old }
    function us(ns) { return sprintf("%.1f", ns / 1000) }
    {
        who = NR == FNR ? "proved" : "twin"
        if (!($1 in plans)) { family[++families] = $1; plans[$1] = $12 }
        if (plans[$1] "" != $12 "") { print "the plans of " $1 " differ"; failed = 1; exit }
        nodes[$1] = $14
        median[who, $1] = least(median[who, $1], $3 + 0)
        worst[who, $1] = least(worst[who, $1], $6 + 0)
        total[who, $1] = least(total[who, $1], $9 + 0)
    }
    function figures(who, name) { return us(median[who, name]) ", " us(worst[who, name]) }
    function ratio(figure, name) { return sprintf("%.2f", figure["proved", name] / figure["twin", name]) }
    END {
        if (failed) exit 1
        print "| family | nodes | proved: median, worst (µs) | twin: median, worst (µs) | ratio of medians | of totals |"
        print "|---|---|---|---|---|---|"
        for (i = 1; i <= families; i++) {
            name = family[i]
            print "| " name " | " nodes[name] " | " figures("proved", name) " | " figures("twin", name) " | " ratio(median, name) " | " ratio(total, name) " |"
        }
    }' "$out/proved.times" "$out/twin.times"
