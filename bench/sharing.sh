#!/bin/sh
# How long names take that are bound far from where they stand, for sizes that double. Each row is one of `row` in
# times.sh; the one before it is half as long. With words, only those kinds of program are run.
#
#   near       n references, below 480 lambdas, to the variable of the innermost
#   import     n references, below 480 lambdas, to an imported name
#   top        n definitions, each of which is named once below 480 lambdas
#   often      n references, below 480 lambdas, to a name that more lambdas bind elsewhere than are told apart
#   flat       n definitions of a procedure, which names three variables
top=$(cd "$(dirname "$0")/.." && pwd) || exit 1
folder=$(mktemp -d) || exit 1
trap 'rm -rf "$folder"' EXIT
. "$(dirname "$0")/times.sh"

# n words, with the number of the word for each N.
words() {
    awk -v n="$1" -v word="$2" 'BEGIN { for (i = 0; i < n; i++) { text = word; gsub(/N/, i, text); printf "%s ", text } }'
}
# What stands below 480 lambdas.
below() {
    words 480 '(lambda (x)'
    cat
    words 480 ')'
}

near() {
    words "$1" x | below
}
import() {
    words "$1" car | below
}
top() {
    words "$1" '(define nN N)'
    words "$1" nN | below
}
often() {
    words 20 '(lambda (car) car)'
    words "$1" car | below
}
flat() {
    words "$1" '(define nN (lambda (x) (list x nN nN)))'
}

run() {
    kind=$1
    shift
    last=
    for count; do
        { echo "(import (rnrs))"; $kind "$count"; } >"$folder/p.sps"
        row "$kind" "$count" --root "$folder" "$folder/p.sps"
    done
}
for what in ${*:-near import top often flat}; do
    case $what in
    near | import) run "$what" 5625 11250 22500 45000 ;;
    top) run top 12500 25000 50000 100000 ;;
    often) run often 625 1250 2500 5000 ;;
    flat) run flat 2000 4000 8000 16000 ;;
    *) echo "$0: no kind of program is called $what" >&2; exit 2 ;;
    esac
done
