#!/bin/sh
# How long sources take that are as long as a file may be, for sizes that double: typical forms, one list, and one
# string. Each row is one of `row` in times.sh; the one before it is half as long.
top=$(cd "$(dirname "$0")/.." && pwd) || exit 1
folder=$(mktemp -d) || exit 1
trap 'rm -rf "$folder"' EXIT
. "$(dirname "$0")/times.sh"

# a source of about so many bytes: typical forms, with comments, strings and nesting
typical() {
    awk -v most="$1" 'BEGIN {
        printf "(import (rnrs))\n(quote start)\n"
        for (n = 0; size < most - 400; n++) {
            form = sprintf(";; the form %d\n(define (walk-%d tree seen)\n  (let ((x (car tree)) (y \"a \\\"text\\\"\\n\"))\n    (cond ((null? tree) (quote ()))\n          ((memv x (quote (1 22 333 -4444))) (list x #\\a #t 2.5))\n          (else (cons (+ x %d) (walk-%d (cdr tree) `(,x ,@seen)))))))\n", n, n, n, n)
            printf "%s", form
            size += length(form)
        }
    }'
}
# one list of so many elements, or one string of so many characters
elements() { awk -v n="$1" 'BEGIN { printf "(import (rnrs))\n(quote ("; for (i = 0; i < n; i++) printf "1 "; print "))" }'; }
characters() { awk -v n="$1" 'BEGIN { printf "(import (rnrs))\n(quote \""; for (i = 0; i < n; i++) printf "x"; print "\")" }'; }

last=
for size in 1048576 2097152 4194304; do
    typical "$size" >"$folder/p.sps"
    row "typical source" "$(wc -c <"$folder/p.sps")" "$folder/p.sps"
done
last=
for count in 250000 500000 1000000; do
    elements "$count" >"$folder/p.sps"
    row "elements of a list" "$count" "$folder/p.sps"
done
last=
for count in 250000 500000 1000000; do
    characters "$count" >"$folder/p.sps"
    row "characters of a string" "$count" "$folder/p.sps"
done
