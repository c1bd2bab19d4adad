#!/bin/sh
# What a cache saves: programs of n libraries in a chain, in which each library imports the one before it, and in a star,
# in which the program imports each. A library has some 500 bytes and imports (rnrs), so that to expand it takes hardly
# more than to import; those of `ordinary`, a star too, have ten procedures of nested derived forms, which take some time.
# For each there is the processor time, user and system, without a cache, of a run over an empty cache, of the best of
# three runs over a full one, of a run after the last library was edited, and of one after the first was; the memory of
# three of these; and how many bytes an entry has, by part.
top=$(cd "$(dirname "$0")/.." && pwd) || exit 1
folder=$(mktemp -d) || exit 1
trap 'rm -rf "$folder"' EXIT
. "$(dirname "$0")/times.sh"

# One procedure of nested derived forms; N is its number.
procedure=$(cat <<'END'
  (define (gN x)
    (let ((a (car x)) (b (cdr x)))
      (let* ((c (list a b)) (d (cons c a)))
        (cond ((and (pair? a) (null? b) (eq? c d)) 'three)
              ((or (null? d) (pair? c) #f)
               (case a
                 ((1 2 3) (let loop ((i 0) (all '()))
                            (if (= i 10) all (loop (+ i 1) (cons i all)))))
                 ((x y) 'word)
                 (else (do ((i 0 (+ i 1)) (sum 0 (+ sum i))) ((= i 5) sum) (display i)))))
              ((assv a '((1 2))) => cdr)
              (else (list a b c d))))))
END
)

# So many libraries below a folder, each of which imports the one before it, or none.
libraries() {
    mkdir -p "$folder/$1/lib"
    awk -v folder="$folder/$1" -v what="$1" -v n="$2" -v text="$procedure" 'BEGIN {
        for (i = 0; i < n; i++) {
            file = folder "/lib/a" i ".sls"
            before = what == "chain" && i > 0 ? " (lib a" i - 1 ")" : ""
            printf "(library (lib a%d) (export f%d)\n  (import (rnrs)%s)\n", i, i, before > file
            called = before == "" ? "car" : "f" i - 1
            printf "  (define (f%d x) (%s (g1 x)))\n", i, called > file
            for (j = 1; j < 9; j++) {
                one = text
                sub(/N/, j, one)
                if (what == "ordinary") print one > file
                else printf "  (define (g%d x) (if (null? x) x (g%d (cdr x))))\n", j, j + 1 > file
            }
            print "  (define (g9 x) (list x)))" > file
            close(file)
        }
    }'
}
chain() { printf '(import (rnrs) (lib a%d))\n(display (f%d 1))\n' $(($1 - 1)) $(($1 - 1)); }
star() {
    awk -v n="$1" 'BEGIN {
        printf "(import (rnrs)"
        for (i = 0; i < n; i++) printf " (lib a%d)", i
        print ")"
        for (i = 0; i < n; i++) printf "(display (f%d 1))\n", i
    }'
}
ordinary() { star "$1"; }
edit() { sed -i 's/(list x)/(list x x)/; t; s/(list x x)/(list x)/' "$folder/$1/lib/a$2.sls"; }

# What `best` prints of a run, behind a label; with a third word the memory too.
took() {
    label=$1
    memory=$2
    set -- $(best --root "$folder/$kind" $3 $4 "$folder/p.sps") || exit 1
    printf '  %s %.3f s' "$label" "$1"
    if [ -n "$memory" ]; then printf ' %s MB' "$2"; fi
}
cached() { took "$1" "$2" --cache "$folder/c"; }

# Bytes of the entry of a library that only imports.
bytes() {
    mkdir -p "$folder/lib" && rm -rf "$folder/c" && echo "(library (lib e) (export) (import $1))" >"$folder/lib/e.sls"
    echo '(import (rnrs) (lib e)) 1' >"$folder/p.sps"
    "$program" --root "$folder" --cache "$folder/c" "$folder/p.sps" >/dev/null || exit 1
    cat "$folder/c"/*.sxe | wc -c
}
rows=$(($(bytes '(rnrs)') - $(bytes '') - 6))
echo '(import (rnrs)) 1' >"$folder/p.sps"
kind=.
printf 'start   '
took alone memory
echo
for row in ${kinds:-"chain 200" "star 200" "ordinary 200" "star 1000" "chain 1000"}; do
    kind=${row% *}
    count=${row#* }
    libraries "$kind" "$count"
    $kind "$count" >"$folder/p.sps"
    "$program" --root "$folder/$kind" "$folder/p.sps" >"$folder/without" || exit 1
    printf '%-8s %4d' "$kind" "$count"
    took without memory
    rm -rf "$folder/c"
    runs=1
    cached cold memory
    runs=3
    cached warm memory
    "$program" --root "$folder/$kind" --cache "$folder/c" "$folder/p.sps" | cmp - "$folder/without" || exit 1
    python3 "$(dirname "$0")/cache_parts.py" "$folder/c" "$rows" >"$folder/parts"
    edit "$kind" $((count - 1))
    runs=1
    cached 'last edited'
    edit "$kind" 0
    cached 'first edited'
    runs=3
    echo
    cat "$folder/parts"
done
