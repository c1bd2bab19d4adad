#!/bin/sh
# How long programs of record types take, for sizes that double: n record types with eight fields each, four of them
# mutable. Each row is one of `row` in times.sh; the one before it is half as long.
top=$(cd "$(dirname "$0")/.." && pwd) || exit 1
folder=$(mktemp -d) || exit 1
trap 'rm -rf "$folder"' EXIT
. "$(dirname "$0")/times.sh"

for count in 200 400 800 1600; do
    awk -v n="$count" 'BEGIN {
        print "(import (rnrs) (rnrs records syntactic))"
        for (i = 0; i < n; i++)
            printf "(define-record-type r%d (fields a b c d (mutable e) (mutable f) (mutable g) (mutable h)) (sealed #t))\n", i
    }' >"$folder/p.sps"
    row "record types" "$count" "$folder/p.sps"
done
