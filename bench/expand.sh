#!/bin/sh
# How long programs take, for sizes that double: n definitions, each of which calls the one before it, and n forms of
# ten nested scopes each. Each row is one of `row` in times.sh; the one before it is half as long.
top=$(cd "$(dirname "$0")/.." && pwd) || exit 1
folder=$(mktemp -d) || exit 1
trap 'rm -rf "$folder"' EXIT
. "$(dirname "$0")/times.sh"

definitions() {
    awk -v n="$1" 'BEGIN {
        print "(import (rnrs))\n(define (f0 x) x)"
        for (i = 1; i < n; i++) printf "(define (f%d x) (if (null? x) (f%d x) (cons (quote f%d) (f%d (cdr x)))))\n", i, i - 1, i, i
    }'
}
scopes() {
    awk -v n="$1" 'BEGIN {
        print "(import (rnrs))"
        for (i = 0; i < n; i++) {
            for (j = 0; j < 10; j++) printf "((lambda (a%d b) ", j
            printf "(list a0 a9 b)"
            for (j = 0; j < 10; j++) printf ") %d %d)", i, j
            print ""
        }
    }'
}

for what in definitions scopes; do
    last=
    for count in 1000 2000 4000 8000; do
        $what "$count" >"$folder/p.sps"
        row "$what" "$count" "$folder/p.sps"
    done
done
