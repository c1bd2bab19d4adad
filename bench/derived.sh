#!/bin/sh
# How long programs of derived forms take, for sizes that double: n procedures, each of nested `let`, `let*`, named
# `let`, `cond`, `case`, `do`, `and` and `or`. Each row is one of `row` in times.sh; the one before it is half as long.
top=$(cd "$(dirname "$0")/.." && pwd) || exit 1
folder=$(mktemp -d) || exit 1
trap 'rm -rf "$folder"' EXIT
. "$(dirname "$0")/times.sh"

# One procedure; N is its number.
procedure=$(cat <<'END'
(define (fN x)
  (let ((a (car x)) (b (cdr x)))
    (let* ((c (list a b)) (d (cons c a)))
      (cond ((and (pair? a) (null? b) (eq? c d)) 'three)
            ((or (null? d) (pair? c) #f)
             (case a
               ((1 2 3) (let loop ((i 0) (all '()))
                          (if (= i 10) all (loop (+ i 1) (cons i all)))))
               ((x y) 'word)
               (else (do ((i 0 (+ i 1)) (sum 0 (+ sum i))) ((= i 5) sum) (display i)))))
            ((assv a '((1 2))) => cdr)
            (else (list a b c d))))))
END
)

for count in 400 800 1600; do
    awk -v n="$count" -v text="$procedure" 'BEGIN {
        print "(import (rnrs))"
        for (i = 0; i < n; i++) { one = text; sub(/N/, i, one); print one }
    }' >"$folder/p.sps"
    row procedures "$count" "$folder/p.sps"
done
