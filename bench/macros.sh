#!/bin/sh
# How long programs with macros take, for sizes that double. Each row is one of `row` in times.sh; the one
# before it is half as long. With words, only those kinds of program are run.
#
#   uses       n uses of one macro with three pattern variables
#   list       a macro that takes one element at a time off a list of n, by (_ (a . rest))
#   grow       the same, with a list that it builds from what it takes
#   double     a macro whose use makes two, n deep
#   layers     a form of 2,000 leaves under n macros
#   compute    n uses that count down from 10,000 each
#   structures n structure definitions, with names made by datum->syntax
#   library    one transformer that calls a library of n procedures
top=$(cd "$(dirname "$0")/.." && pwd) || exit 1
folder=$(mktemp -d) || exit 1
trap 'rm -rf "$folder"' EXIT
. "$(dirname "$0")/times.sh"

# n lines, with the number of the line for each N.
lines() {
    awk -v n="$1" -v line="$2" 'BEGIN { for (i = 0; i < n; i++) { text = line; gsub(/N/, i, text); print text } }'
}
# n words, with the number of the word for each N.
words() {
    lines "$1" "$2" | tr '\n' ' '
}

uses() {
    cat <<'END'
(define-syntax turned (lambda (form) (syntax-case form () ((_ a b c) #'(list c b a)))))
END
    lines "$1" "(turned N (car '(x)) 'y)"
}
list() {
    cat <<'END'
(define-syntax off
  (lambda (form)
    (syntax-case form ()
      ((_ ()) #''done)
      ((_ (a . rest)) #'(off rest)))))
END
    echo "(off ($(words "$1" xN)))"
}
grow() {
    cat <<'END'
(define-syntax over
  (lambda (form)
    (syntax-case form ()
      ((_ () taken) #''taken)
      ((_ (a . rest) taken) #'(over rest (a . taken))))))
END
    echo "(over ($(words "$1" xN)) ())"
}
double() {
    cat <<'END'
(define-syntax two
  (lambda (form)
    (syntax-case form ()
      ((_ ()) #'1)
      ((_ (a . rest)) #'(list (two rest) (two rest))))))
END
    echo "(two ($(words "$1" a)))"
}
layers() {
    cat <<'END'
(define-syntax same (lambda (form) (syntax-case form () ((_ e) #'e))))
END
    echo "$(words "$1" "(same")(list $(words 2000 "'xN"))$(words "$1" ")")"
}
compute() {
    cat <<'END'
(define-syntax one
  (lambda (form)
    (letrec ((down (lambda (x) (if (eq? x 0) #'1 (down (- x 1))))))
      (down 10000))))
END
    lines "$1" "(one)"
}
structures() {
    cat <<'END'
(define-syntax structure
  (lambda (form)
    (letrec ((name (lambda (id before after)
                     (datum->syntax id
                       (string->symbol
                         (string-append before (symbol->string (syntax->datum id)) after))))))
      (syntax-case form ()
        ((_ n field ...)
         (syntax-case (list (name #'n "make-" "") (name #'n "" "?")) ()
           ((make is)
            #'(begin
                (define (make field ...) (vector 'n field ...))
                (define (is x) (eq? (vector-ref x 0) 'n))))))))))
END
    lines "$1" "(structure sN a b c)"
}
library() {
    {
        echo "(library (lib made) (export f0)"
        echo "  (import (rnrs))"
        lines "$1" "  (define (fN x) (if (null? x) x (fN (cdr x))))"
        echo ")"
    } >"$folder/lib/made.sls"
    echo "(import (rnrs) (for (lib made) expand))"
    echo "(define-syntax called (lambda (form) (f0 '()) #'1))"
    echo "(called)"
}

mkdir -p "$folder/lib"
run() {
    kind=$1
    shift
    last=
    for count; do
        { [ "$kind" = library ] || echo "(import (rnrs))"; $kind "$count"; } >"$folder/p.sps"
        row "$kind" "$count" --root "$folder" "$folder/p.sps"
    done
}
for what in ${*:-uses list grow double layers compute structures library}; do
    case $what in
    uses) run uses 1250 2500 5000 10000 ;;
    list | grow) run "$what" 2000 4000 8000 16000 ;;
    double) run double 11 12 13 14 ;;
    layers) run layers 50 100 200 400 ;;
    compute) run compute 20 40 80 160 ;;
    structures) run structures 100 200 400 800 ;;
    library) run library 125 250 500 1000 ;;
    *) echo "$0: no kind of program is called $what" >&2; exit 2 ;;
    esac
done
