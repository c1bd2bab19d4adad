#!/bin/sh
# How long import sets take, for sizes that double: n sets of one library in a program, n names in one set, and a
# library of n exports that 20 others import. Each row is one of `row` in times.sh; the one before it is half as long.
top=$(cd "$(dirname "$0")/.." && pwd) || exit 1
folder=$(mktemp -d) || exit 1
trap 'rm -rf "$folder"' EXIT
. "$(dirname "$0")/times.sh"

# A library of so many exports, and others that import it.
library() {
    awk -v n="$1" 'BEGIN {
        printf "(library (m%d) (export", n
        for (i = 0; i < n; i++) printf " x%d", i
        print ") (import (rnrs base))"
        for (i = 0; i < n; i++) printf "(define x%d 1)\n", i
        print ")"
    }' >"$folder/m$1.sls"
    for i in 0 1 2 3 4 5 6 7 8 9 10 11 12 13 14 15 16 17 18 19; do
        echo "(library (u$i m$1) (export) (import (m$1)))"
    done | awk -v n="$1" -v folder="$folder" '{
        file = folder "/u" NR - 1 "/m" n ".sls"
        system("mkdir -p " folder "/u" NR - 1)
        print > file
        close(file)
    }'
}

# A program of n import sets, in each of which # is its number, and @ one of 16 names of `(rnrs)`.
sets() {
    awk -v n="$1" -v set="$2" 'BEGIN {
        split("car cdr cons list vector length append reverse map apply values abs max min gcd floor", names, " ")
        printf "(import (rnrs)"
        for (i = 0; i < n; i++) { one = set; gsub(/#/, i, one); sub(/@/, names[i % 16 + 1], one); printf " %s", one }
        print ")\n1"
    }' >"$folder/p.sps"
}

# A program of one import set that names n times what a library exports.
names() {
    awk -v n="$1" -v word="$2" -v name="$3" 'BEGIN {
        printf "(import (rnrs) (%s (m%d)", word, n
        for (i = 0; i < n; i++) { one = name; gsub(/#/, i, one); printf " %s", one }
        print "))\n1"
    }' >"$folder/p.sps"
}

others() {
    echo '(import (rnrs)'
    for i in 0 1 2 3 4 5 6 7 8 9 10 11 12 13 14 15 16 17 18 19; do echo "(u$i m$1)"; done
    echo ') 1'
}

rows() {
    kind=$1
    shift
    last=
    for count in "$@"; do
        case $kind in
        whole) sets "$count" '(rnrs)' ;;
        only) sets "$count" '(only (rnrs) @)' ;;
        except) sets "$count" '(except (rnrs) @)' ;;
        rename) sets "$count" '(rename (rnrs) (@ k))' ;;
        prefix) sets "$count" '(only (prefix (rnrs) p#:) p#:@)' ;;
        names) library "$count" && names "$count" only 'x#' ;;
        renames) library "$count" && names "$count" rename '(x# y#)' ;;
        others) library "$count" && others "$count" >"$folder/p.sps" ;;
        esac
        row "$kind" "$count" --root "$folder/" "$folder/p.sps"
    done
}

# so many sets of one library
rows whole 62500 125000 250000 500000
rows only 50000 100000 200000
rows except 50000 100000 200000
rows rename 5000 10000 20000
rows prefix 5000 10000 20000
# so many names in one set
rows names 12500 25000 50000 100000
rows renames 12500 25000 50000 100000
# so many names of a library that 20 others import
rows others 6250 12500 25000
