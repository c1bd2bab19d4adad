#!/bin/bash
# A run with a cache that is killed, or whose call of the system fails, at each call in turn that makes, writes or names an
# entry: tests/cache_stops.sh PROGRAM. It needs strace. The run that failed has the text of a run without a cache; behind each,
# the next run has it too, and reuses at least what was put before.
program=$(realpath "$1") || exit 1
folder=$(mktemp -d) || exit 1
trap 'rm -rf "$folder"' EXIT
cd "$folder" || exit 1
failed=0
tried=0
fail() { echo "FAIL $1"; failed=$((failed + 1)); }

libraries=20
for i in $(seq 0 $((libraries - 1))); do
    before=; called=car
    [ "$i" -gt 0 ] && before=" (lib a$((i - 1)))" && called=f$((i - 1))
    mkdir -p lib
    echo "(library (lib a$i) (export f$i m$i) (import (rnrs base)$before)
  (define-syntax m$i (syntax-rules () ((_ x) (list x x))))
  (define (f$i x) ($called (m$i x))))" >lib/a$i.sls
done
echo "(import (rnrs base) (lib a$((libraries - 1)))) (f$((libraries - 1)) 1)" >p.sps
"$program" p.sps >want || exit 1

# The number of calls of a kind that a run makes, of files below the cache.
calls() { rm -rf c; strace -f -e trace="$1" -o log "$program" --cache c p.sps >/dev/null 2>&1; grep -c "$2" log; }
next() {
    put=$(ls c 2>/dev/null | grep -c 'sxe$')
    "$program" --cache c --report p.sps >got 2>err || fail "$1: status $?"
    cmp -s got want || fail "$1: another text"
    [ "$(grep -c '^reused' err)" = "$put" ] || fail "$1: $(grep -c '^reused' err) of $put reused"
    "$program" --cache c --report p.sps >got 2>err
    [ "$(grep -c '^reused' err)" = $libraries ] || fail "$1: not all reused again"
    tried=$((tried + 1))
}
for kind in openat mkdir,mkdirat write rename,renameat,renameat2 close; do
    first=1
    all=$(calls "$kind" '^')
    for place in $(seq $first "$all"); do
        rm -rf c
        (strace -f -o log -e trace="$kind" -e inject="$kind":signal=KILL:when="$place" "$program" --cache c p.sps; :) >/dev/null 2>&1
        next "killed at $kind $place"
    done
done
for error in ENOSPC EIO EACCES EINTR; do
    for kind in write rename,renameat,renameat2 mkdir,mkdirat; do
        all=$(calls "$kind" sxe)
        [ "$kind" = write ] && all=$libraries
        for place in $(seq 1 "$all"); do
            rm -rf c
            strace -f -o log -e trace="$kind" -e inject="$kind":error=$error:when="$place" "$program" --cache c --report p.sps >got 2>err
            cmp -s got want || fail "$error at $kind $place: another text"
            [ "$(grep -c '^expanded' err)" = $libraries ] || fail "$error at $kind $place: not all expanded"
            next "$error at $kind $place"
        done
        rm -rf c
        strace -f -o log -e trace="$kind" -e inject="$kind":error=$error:when=1.."$libraries" "$program" --cache c --report p.sps >got 2>err
        next "$error at each $kind"
    done
done
echo "cache_stops: $failed failed of $tried"
[ $failed = 0 ]
