#!/bin/sh
# How long programs of n libraries take, for numbers that double: a chain, in which each library imports the one
# before it, and a star, in which the program imports each. Each library has ten definitions. Each row is one
# of `row` in times.sh; the one before it is half as long.
top=$(cd "$(dirname "$0")/.." && pwd) || exit 1
folder=$(mktemp -d) || exit 1
trap 'rm -rf "$folder"' EXIT
. "$(dirname "$0")/times.sh"

# So many libraries below a folder, each of which imports the one before it, or none.
libraries() {
    mkdir -p "$folder/$1/lib"
    awk -v folder="$folder/$1" -v what="$1" -v n="$2" 'BEGIN {
        for (i = 0; i < n; i++) {
            file = folder "/lib/a" i ".sls"
            before = what == "chain" && i > 0 ? " (lib a" i - 1 ")" : ""
            printf "(library (lib a%d) (export f%d)\n  (import (rnrs)%s)\n", i, i, before > file
            called = before == "" ? "car" : "f" i - 1
            printf "  (define (f%d x) (%s (g1 x)))\n", i, called > file
            for (j = 1; j < 9; j++) printf "  (define (g%d x) (if (null? x) x (g%d (cdr x))))\n", j, j + 1 > file
            print "  (define (g9 x) (list x)))" > file
            close(file)
        }
    }'
}
chain() { printf '(import (rnrs) (lib a%d))\n(display (f%d 1))\n' $(($1 - 1)) $(($1 - 1)); }
star() {
    awk -v n="$1" 'BEGIN {
        printf "(import (rnrs)"
        for (i = 0; i < n; i++) printf " (lib a%d)", i
        print ")"
        for (i = 0; i < n; i++) printf "(display (f%d 1))\n", i
    }'
}

for kind in chain star; do
    libraries "$kind" 1000
    last=
    for count in 125 250 500 1000; do
        $kind "$count" >"$folder/p.sps"
        row "$kind of libraries" "$count" --root "$folder/$kind" "$folder/p.sps"
    done
done
