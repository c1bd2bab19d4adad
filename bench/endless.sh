#!/bin/sh
# Macros whose uses never come to an end: each program is stopped at its use 1,000,001. Each row has the seconds of
# processor time that this took, the most memory, and the line of the fault. The tables of tests/cases leave these
# programs out, since they take seconds.
top=$(cd "$(dirname "$0")/.." && pwd) || exit 1
folder=$(mktemp -d) || exit 1
trap 'rm -rf "$folder"' EXIT
if [ -z "$program" ]; then
    "$top/scheme-expand" "$top/examples/first/p.sps" >/dev/null || exit 1
    program=$top/crates/scheme_expand/out/scheme_expand
fi
status=0

# The program on standard input ends with this line of a fault.
ends_with() {
    cat >"$folder/p.sps"
    taken=$(cd "$folder" && python3 - "$program" 2>told <<'END'
import os, subprocess, sys

child = subprocess.Popen([sys.argv[1], "p.sps"])
used = os.wait4(child.pid, 0)[2]
print(f"{used.ru_utime + used.ru_stime:8.3f} s {used.ru_maxrss / 1024:8.1f} MB")
END
    )
    told=$(cat "$folder/told")
    echo "$taken  $told"
    if [ "$told" != "$1" ]; then
        echo "wanted      $1"
        status=1
    fi
}

# The endless use is an operand.
ends_with 'p.sps:4:11: 31 TooManyExpansions' <<'END'
(import (rnrs))
(define-syntax id (lambda (s) (syntax-case s () ((_ e) #'e))))
(define-syntax l (lambda (s) (syntax-case s () ((_ a) #'(l a)))))
(id (list (l 1)))
END

# The endless use is a template's, so the place is that of the use in the program.
ends_with 'p.sps:4:7: 31 TooManyExpansions' <<'END'
(import (rnrs))
(define-syntax l (lambda (s) (syntax-case s () ((_ a) #'(l a)))))
(define-syntax w (lambda (s) (syntax-case s () ((_ a) #'(list a (l a))))))
(list (w 1))
END

# All uses but the first have no place of their own.
ends_with 'p.sps:3:1: 31 TooManyExpansions' <<'END'
(import (rnrs))
(define-syntax l (lambda (s) #'(l)))
(l)
END

exit $status
