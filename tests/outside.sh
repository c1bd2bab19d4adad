#!/bin/sh
# Runs the built program over the system as no proof can: every exit status, and files and streams of every kind.
#
#     tests/outside.sh PROGRAM
#
# PROGRAM is the built program, as crates/scheme_expand/out/scheme_expand. Each case that fails is printed, and last how
# many there were and how long they took. The exit status is 0 where none failed. Cases that this system can't make are
# printed as left out.
[ $# -eq 1 ] || { echo "usage: tests/outside.sh PROGRAM" >&2; exit 2; }
case $1 in /*) program=$1 ;; *) program=$PWD/$1 ;; esac
[ -x "$program" ] || { echo "$program can't be run" >&2; exit 2; }
top=$(cd "$(dirname "$0")/.." && pwd) || exit 1
folder=$(mktemp -d) || exit 1
trap 'rm -rf "$folder"' EXIT
cd "$folder" || exit 1
begun=$(date +%s%N)
cases=0
failed=0

usage='usage: scheme-expand [--root DIR[:DIR]...] [--cache DIR] [--report] [--write core|xref] PROGRAM | --make N'

# A case fails.
fails() {
    failed=$((failed + 1))
    echo "FAILED $1"
}

left_out() {
    echo "left out: $1"
}

# The status of the case is this, and what it wrote is what these files hold.
answers() {
    cases=$((cases + 1))
    if [ "$got" -ne "$2" ]; then
        fails "$1: status $got, wanted $2"
    elif ! cmp -s out "$3"; then
        fails "$1: standard output is $(head -c 200 out), wanted $(head -c 200 "$3")"
    elif ! cmp -s err "$4"; then
        fails "$1: standard error is $(head -c 200 err), wanted $(head -c 200 "$4")"
    fi
}

# Runs the program with these words.
run() {
    "$program" "$@" >out 2>err </dev/null
    got=$?
}

: >nothing
printf '%s\n' "$usage" >usage
cat >p.sps <<'END'
(import (rnrs base))
(define x 1)
(+ x 2)
END
cat >core <<'END'
(import (rnrs))
(define %/x/0 1)
(+ %/x/0 2)
END

# ---- status 0: the core text, and the report

run p.sps
answers "a program" 0 core nothing

run -- p.sps
answers "a program behind --" 0 core nothing

mkdir -p roots/one roots/two/a
echo '(library (a b) (export f) (import (rnrs)) (define (f) 1))' >roots/two/a/b.sls
echo '(import (rnrs) (a b)) (f)' >uses.sps
printf '(import (rnrs))\n(define %%a.b/f/0 (lambda () 1))\n(%%a.b/f/0)\n' >uses.core
echo 'expanded (a b)' >report
run --root roots/none:roots/one:roots/two --report uses.sps
answers "a library below the last root, with a report" 0 uses.core report

for shown in "$top"/examples/*/p.out; do
    cd "${shown%/p.out}" || exit 1
    words=p.sps
    [ ! -r words ] || words=$(cat words)
    # The words of these calls have no spaces or quotes.
    # shellcheck disable=SC2086
    "$program" $words >"$folder/out" 2>"$folder/err" </dev/null
    got=$?
    cd "$folder" || exit 1
    answers "${shown#"$top"/}" 0 "$shown" nothing
done

echo 'libraries 2 lines 5 bytes 130' >summary
run --make 2
answers "--make 2" 0 summary nothing

# ---- status 1: the line of the first fault

for shown in "$top"/examples/*/p.err; do
    cd "${shown%/p.err}" && "$program" p.sps >"$folder/out" 2>"$folder/err" </dev/null
    got=$?
    cd "$folder" || exit 1
    answers "${shown#"$top"/}" 1 nothing "$shown"
done

printf '(import (rnrs))\n  y' >unbound.sps
echo 'unbound.sps:2:3: 21 Unbound: y' >line
run unbound.sps
answers "a fault" 1 nothing line

echo 'absent.sps:1:1: 12 LibraryNotFound: absent.sps' >line
run absent.sps
answers "a program that isn't there" 1 nothing line

echo 'uses.sps:1:16: 12 LibraryNotFound: (a b)' >line
run uses.sps
answers "a library that isn't there" 1 nothing line

printf '(import (rnrs)) "\377"' >bytes.sps
echo 'bytes.sps:1:18: 1 BadUtf8' >line
run bytes.sps
answers "a byte that is no character" 1 nothing line

# ---- status 2: the words

run
answers "no words" 2 nothing usage
run p.sps p.sps
answers "two programs" 2 nothing usage
run --help
answers "--help" 2 nothing usage
run -x p.sps
answers "a short option" 2 nothing usage
run --root a::b p.sps
answers "an empty root" 2 nothing usage
run --write lisp p.sps
answers "another text" 2 nothing usage
run --make 0
answers "--make 0" 2 nothing usage
run "$(printf 'p\377.sps')"
answers "a word that isn't UTF-8" 2 nothing usage
run --root "$(printf '\300\200')" p.sps
answers "a value that isn't UTF-8" 2 nothing usage

# ---- status 3: files that the system refuses

mkdir folder
run folder
answers "a directory as the program" 3 nothing nothing

run p.sps/q.sps
answers "a path through a file" 3 nothing nothing

mkdir -p dirs/a/b.sls
run --root dirs uses.sps
answers "a directory as a library" 3 nothing nothing

mkdir -p through
echo 1 >through/a
run --root through uses.sps
answers "a library's path through a file" 3 nothing nothing

ln -s loop.sps loop.sps
run loop.sps
answers "a link to itself" 3 nothing nothing

if [ -r /proc/self/mem ]; then
    run /proc/self/mem
    answers "a file that can't be read on" 3 nothing nothing
else
    left_out "a file that can't be read on: no /proc/self/mem"
fi

cp p.sps locked.sps
chmod 000 locked.sps
if [ "$(id -u)" -ne 0 ]; then
    run locked.sps
    answers "a file without rights" 3 nothing nothing
elif command -v setpriv >/dev/null && chmod 755 . && cp "$program" program 2>/dev/null && chmod 755 program \
    && setpriv --reuid 65534 --regid 65534 --clear-groups ./program p.sps >out 2>err && cmp -s out core; then
    setpriv --reuid 65534 --regid 65534 --clear-groups ./program locked.sps >out 2>err </dev/null
    got=$?
    answers "a file without rights" 3 nothing nothing
else
    left_out "a file without rights: root reads all, and there is no other user to run as"
fi

# ---- status 4: streams that the system refuses

if [ -c /dev/full ]; then
    "$program" p.sps >/dev/full 2>err
    got=$?
    : >out
    answers "a full disk" 4 nothing nothing
    "$program" unbound.sps 2>/dev/full >out
    got=$?
    : >err
    answers "a full disk for the line of a fault" 4 nothing nothing
    "$program" 2>/dev/full >out
    got=$?
    answers "a full disk for the usage line" 4 nothing nothing
    "$program" --root roots/two --report uses.sps 2>/dev/full >out
    got=$?
    answers "a full disk for the report" 4 uses.core nothing
    "$program" --make 2 >/dev/full 2>err
    got=$?
    : >out
    answers "a full disk for the line of --make" 4 nothing nothing
else
    left_out "a full disk: no /dev/full"
fi

"$program" p.sps >&- 2>err
got=$?
: >out
answers "a closed standard output" 4 nothing nothing

"$program" unbound.sps 2>&- >out
got=$?
: >err
answers "a closed standard error" 4 nothing nothing

# ---- large files

# A program of so many bytes: a string, and a definition at its very end.
large() {
    {
        printf '(import (rnrs))\n(define s "'
        head -c $(($1 - 49)) /dev/zero | tr '\0' s
        printf '")\n(define last 12345)'
    } >large.sps
    {
        printf '(import (rnrs))\n(define %%/s/0 "'
        head -c $(($1 - 49)) /dev/zero | tr '\0' s
        printf '")\n(define %%/last/1 12345)\n'
    } >large.core
}

large 2097152
run large.sps
answers "a file of 2 MiB" 0 large.core nothing

large 4194305
echo 'large.sps:1:1: 9 TooLong' >line
run large.sps
answers "a file of 4 MiB and a byte" 1 nothing line

large 4194304
run large.sps
answers "a file of 4 MiB" 0 large.core nothing

# A writer that is stopped while the pipe is full has written a part, and writes the rest when it goes on.
rm -f started stopped
{
    "$program" large.sps 2>err &
    writer=$!
    for _ in $(seq 1 300); do
        [ -e started ] && break
        sleep 0.1
    done
    for _ in 1 2 3; do
        sleep 0.1
        kill -STOP $writer 2>/dev/null
        kill -CONT $writer 2>/dev/null
    done
    : >stopped
    wait $writer
    echo $? >got
} | {
    dd bs=1 count=1 of=first 2>/dev/null
    : >started
    until [ -e stopped ]; do sleep 0.1; done
    cat first - >out
}
got=$(cat got)
answers "a pipe that takes a part at a time" 0 large.core nothing

# A limit for files lets the first write take a part, and refuses the rest.
(
    trap '' XFSZ
    ulimit -f 8 || exit 99
    exec "$program" large.sps >out 2>err </dev/null
)
got=$?
if [ $got -eq 99 ]; then
    left_out "a disk that becomes full: no limit for files"
else
    head -c "$(wc -c <out)" large.core >part
    cases=$((cases + 1))
    if [ $got -ne 4 ] || [ ! -s out ] || ! cmp -s out part || [ -s err ]; then
        fails "a disk that becomes full: status $got, $(wc -c <out) bytes of standard output, wanted 4 and a part"
    fi
fi

# ---- how many libraries a program may load, how many bytes they may have, and how often it may refer to one

printf '(import (rnrs))\n' >bare.core

# The library ./lN.sls, which imports these and has so many bytes at least.
library() {
    text="(library (l$1) (export) (import$2))"
    {
        printf '%s' "$text"
        [ "${3:-0}" -le ${#text} ] || head -c $(($3 - ${#text})) /dev/zero | tr '\0' ' '
    } >"l$1.sls"
}

# A program that imports so many libraries, of which all but the last have so many bytes at least, and the last so many.
side_by_side() {
    for number in $(seq 0 $(($1 - 2))); do library "$number" '' "$2"; done
    library $(($1 - 1)) '' "$3"
    { printf '(import'; seq -f ' (l%.0f)' 0 $(($1 - 1)) | tr -d '\n'; printf ')'; } >many.sps
    seq -f 'expanded (l%.0f)' 0 $(($1 - 1)) >report
}

# A program and so many libraries, each of which imports the next.
one_in_another() {
    for number in $(seq 0 $(($1 - 2))); do library "$number" " (l$((number + 1)))"; done
    library $(($1 - 1)) ''
    echo '(import (l0))' >many.sps
    seq -f 'expanded (l%.0f)' $(($1 - 1)) -1 0 >report
}

side_by_side 1024 0 0
run --report many.sps
answers "1,024 libraries" 0 bare.core report

side_by_side 1025 0 0
echo 'many.sps:1:7091: 19 TooManyLibraries' >line
run --report many.sps
answers "1,025 libraries" 1 nothing line

one_in_another 1024
run --report many.sps
answers "1,024 libraries that import each other" 0 bare.core report

one_in_another 1025
echo './l1023.sls:1:35: 19 TooManyLibraries' >line
run --report many.sps
answers "1,025 libraries that import each other" 1 nothing line

rm -f l*.sls
side_by_side 1 0 4194304
run --report many.sps
answers "a library of 4 MiB" 0 bare.core report

side_by_side 1 0 4194305
echo './l0.sls:1:1: 9 TooLong' >line
run --report many.sps
answers "a library of 4 MiB and a byte" 1 nothing line

# The program has 94 bytes.
side_by_side 16 4194304 4194210
run --report many.sps
answers "files of 64 MiB" 0 bare.core report

side_by_side 16 4194304 4194211
echo './l15.sls:1:1: 9 TooLong' >line
run --report many.sps
answers "files of 64 MiB and a byte" 1 nothing line

# What the library needs is joined once, so each further reference takes a look-up of its file.
rm -f l*.sls
side_by_side 1 0 0
{ printf '(import'; yes ' (l0)' | head -n 800000 | tr -d '\n'; printf ')'; } >many.sps
run --report many.sps
answers "800,000 references to one library" 0 bare.core report

# ---- pipes

# The program reads this file out of a pipe.
through() {
    cat "$1" >pipe.sps 2>/dev/null &
    writer=$!
    run pipe.sps
    kill $writer 2>/dev/null
    wait $writer 2>/dev/null
}

if mkfifo pipe.sps 2>/dev/null; then
    through p.sps
    answers "a pipe as the program" 0 core nothing
    through large.sps
    answers "a pipe of 4 MiB as the program" 0 large.core nothing
    echo >>large.sps
    echo 'pipe.sps:1:1: 9 TooLong' >line
    through large.sps
    answers "a pipe of more" 1 nothing line
else
    left_out "a pipe as the program: no mkfifo"
fi

# ---- status 5: want of memory. How much a run may take is the system's own, so several limits are tried.

seen=no
for limit in 8000 12000 16000 20000 24000 32000 48000; do
    # shellcheck disable=SC3045
    (ulimit -v $limit 2>/dev/null || exit 99; exec "$program" large.sps >out 2>err </dev/null) 2>/dev/null
    got=$?
    [ $got -eq 5 ] && seen=yes && cp out out5 && cp err err5
done
if [ $seen = yes ]; then
    cp out5 out
    cp err5 err
    got=5
    answers "want of memory" 5 nothing nothing
elif [ $got -eq 99 ]; then
    left_out "want of memory: no limit for memory"
else
    cases=$((cases + 1))
    fails "want of memory: no limit ends with status 5"
fi

# ---- the pages of the faults, and the launchers

cases=$((cases + 1))
"$top/tests/faults.sh" "$program" >told || fails "tests/faults.sh: $(cat told)"
cases=$((cases + 1))
"$top/tests/launch.sh" >told || fails "tests/launch.sh: $(cat told)"

taken=$((($(date +%s%N) - begun) / 1000000))
echo "$cases cases, $failed failed, $taken ms"
[ $failed -eq 0 ]
