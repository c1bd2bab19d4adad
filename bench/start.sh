#!/bin/bash
# How much processor time a run costs before there is anything to do: a program of an import form alone, and one with
# nothing but `1` behind it. Each row has the milliseconds of one run, from the best of twenty batches of ten runs.
top=$(cd "$(dirname "$0")/.." && pwd) || exit 1
folder=$(mktemp -d) || exit 1
trap 'rm -rf "$folder"' EXIT
if [ -z "$program" ]; then
    "$top/scheme-expand" "$top/examples/first/p.sps" >/dev/null || exit 1
    program=$top/crates/scheme_expand/out/scheme_expand
fi

ten() {
    for _ in 1 2 3 4 5 6 7 8 9 10; do "$program" "$1" >/dev/null || exit 1; done
}
# bash's `time`, with the seconds in user and in system mode
TIMEFORMAT='%3U %3S'
start() {
    for _ in {1..20}; do
        { time ten "$2"; } 2>&1 || exit 1
    done | awk -v what="$1" '
        NR == 1 || $1 + $2 < least { least = $1 + $2 }
        END { printf "%-22s %6.2f ms\n", what, least * 100 }'
}

echo '(import (rnrs))' >"$folder/empty.sps"
printf '(import (rnrs))\n1\n' >"$folder/one.sps"
start 'an empty program' "$folder/empty.sps"
start 'a program with a 1' "$folder/one.sps"
