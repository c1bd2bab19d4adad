#!/bin/bash
# How long core texts are checked, for sizes that double, and in how much memory. `procedures` defines a procedure with
# two formals in each line, so that the names grow with the text; `calls` has lines of 100 bytes that bind nothing; and
# `one line` is a single call. Each row is one of `row` in times.sh, with the bytes of the text; the one before it is
# half as long or, in the last, a tenth.
top=$(cd "$(dirname "$0")/.." && pwd) || exit 1
folder=$(mktemp -d) || exit 1
trap 'rm -rf "$folder"' EXIT
if [ -z "$program" ]; then
    "$top/core-check" "$top/crates/core_check/data/core.sps" >/dev/null || exit 1
    program=$top/crates/core_check/out/core_check
fi
. "$(dirname "$0")/times.sh"

procedures() {
    awk -v most="$1" 'BEGIN {
        print "(import (rnrs))"
        for (n = 0; size < most; n += 3) {
            line = sprintf("(define %%m/walk/%d (lambda (%%m/tree/%d %%m/seen/%d) (if (null? %%m/tree/%d) %%m/seen/%d (%%m/walk/%d (cdr %%m/tree/%d) (cons (quote (a . \"b\\n\")) %%m/seen/%d)))))\n", n, n + 1, n + 2, n + 1, n + 2, n, n + 1, n + 2)
            printf "%s", line
            size += length(line)
        }
    }'
}
calls() {
    awk -v most="$1" 'BEGIN {
        print "(import (rnrs))\n(define %/f/0 list)"
        for (; size < most; size += 100)
            print "(%/f/0 1 22 333 -4444 #\\a #t 2.5 (quote (a b . c)) (quote #(1 \"text\")) (if #f #f) (+ 1 (* 2 3 45)))"
    }'
}
one_line() {
    awk -v most="$1" 'BEGIN {
        printf "(import (rnrs))\n(list"
        for (; size < most; size += 20) printf " (cons 1 (quote b4))"
        print ")"
    }'
}

measure() {
    row "$1" "$(wc -c <"$folder/core.sps")" "$folder/core.sps"
}

for text in procedures calls one_line; do
    last=
    for size in 5000000 10000000 20000000; do
        $text "$size" >"$folder/core.sps"
        measure "${text/_/ }"
    done
    [ $text != calls ] || { calls 200000000 >"$folder/core.sps"; measure calls; }
done
