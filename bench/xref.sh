#!/bin/sh
# How long the binding maps of programs take, for sizes that double: n definitions, each of which refers to the one
# before it. Each row has the seconds of processor time of the best of three runs, the ratio to the row before it, which
# is half as long, and the ratio to the core text of the same program.
top=$(cd "$(dirname "$0")/.." && pwd) || exit 1
folder=$(mktemp -d) || exit 1
trap 'rm -rf "$folder"' EXIT
. "$(dirname "$0")/times.sh"

last=
for count in 1000 2000 4000 8000 16000; do
    awk -v n="$count" 'BEGIN {
        print "(import (rnrs))\n(define (f0 x) x)"
        for (i = 1; i < n; i++) printf "(define (f%d x) (if (null? x) (f%d x) (cons (quote f%d) (f%d (cdr x)))))\n", i, i - 1, i, i
    }' >"$folder/p.sps"
    core=$(best "$folder/p.sps") || exit 1
    now=$(best --write xref "$folder/p.sps") || exit 1
    now=${now% *}
    core=${core% *}
    awk -v count="$count" -v now="$now" -v before="$last" -v core="$core" \
        'BEGIN { printf "%7d %8.3f s, core text x%.2f", count, now, now / core; if (before) printf ", half of it x%.2f", now / before; print "" }'
    last=$now
done
