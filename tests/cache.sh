#!/bin/bash
# What becomes of a cache in a real folder changes no text: stopped runs, two runs at once, a full file system, foreign
# bytes under the right names. The first argument is the program. Each run's text is compared with that of a run without
# a cache, and its report with the libraries that are due as reused. KILLS, PAIRS: how many runs are stopped, and how
# many pairs of runs go at once. tests/cache_entries.py tries single entries, other files and other rights.
program=$(realpath "$1") || exit 1
kills=${KILLS:-50}
pairs=${PAIRS:-100}
folder=$(mktemp -d) || exit 1
trap 'chmod -R u+rwX "$folder"; [ -z "$full" ] || umount "$full"; rm -rf "$folder"' EXIT
cd "$folder" || exit 1
failed=0
fail() { echo "FAIL $1"; failed=$((failed + 1)); }

for i in $(seq 0 39); do
    before=; called=car
    [ "$i" -gt 0 ] && before=" (lib a$((i - 1)))" && called=f$((i - 1))
    mkdir -p lib
    {
        echo "(library (lib a$i) (export f$i m$i) (import (rnrs)$before)"
        echo "  (define-syntax m$i (syntax-rules () ((_ x) (list x x))))"
        echo "  (define (g x) (m$i x))"
        echo "  (define (f$i x) ($called (g x))))"
    } >lib/a$i.sls
done
echo '(import (rnrs) (lib a39)) (display (f39 1)) (m39 2)' >p.sps
"$program" p.sps >want || exit 1

same() { "$program" --cache c --report p.sps >got 2>err; status=$?; [ $status = 0 ] && cmp -s got want || fail "$1: status $status"; }
all() { [ "$(grep -c "^$1 " err)" = 40 ] || fail "$2: $(grep -c "^$1 " err) libraries $1"; }
# Each place of the folder has a whole entry: the next run takes all of them.
whole() { same "$1"; same "again $1"; all reused "again $1"; }

begun=$(date +%s%N)
same cold; all expanded cold
taken=$((($(date +%s%N) - begun) / 1000))
same warm; all reused warm
entries=$(cd c && cksum *.sxe)

# A run that is killed leaves each place as it was or with a whole entry. The moments are spread over a run.
stopped=0
for i in $(seq 1 "$kills"); do
    rm -rf c
    "$program" --cache c p.sps >/dev/null 2>&1 &
    pid=$!
    sleep "$(awk -v us=$((RANDOM * taken / 32768)) 'BEGIN { printf "%.6f", us / 1e6 }')"
    kill -9 $pid 2>/dev/null
    wait $pid 2>/dev/null
    [ $? = 137 ] && [ "$(ls c 2>/dev/null | grep -c 'sxe$')" -gt 0 ] && stopped=$((stopped + 1))
    whole "after kill $i"
done
echo "cache: $kills kills, $stopped of them between two puts"

# Two runs at once over one empty cache.
for i in $(seq 1 "$pairs"); do
    rm -rf c
    "$program" --cache c p.sps >first 2>&1 & pid=$!
    "$program" --cache c p.sps >second 2>&1
    wait $pid
    cmp -s first want && cmp -s second want || fail "two runs at once, $i"
    [ "$(cd c && cksum *.sxe)" = "$entries" ] || fail "entries of two runs at once, $i"
    [ "$(ls c | wc -l)" = 40 ] || fail "other files of two runs at once, $i"
done
whole 'after two runs at once'

# Foreign bytes under the right names; the name of an entry in which a folder stands.
for entry in c/*.sxe; do head -c $((RANDOM % 3000)) /dev/urandom >"$entry"; done
same 'foreign bytes'; all expanded 'foreign bytes'
same 'after foreign bytes'; all reused 'after foreign bytes'
for entry in c/*.sxe; do : >"$entry"; done
same 'empty entries'; all expanded 'empty entries'
for entry in c/*.sxe; do rm "$entry"; mkdir "$entry"; done
same 'folders for entries'; all expanded 'folders for entries'
rm -rf c

# A file system that is full, where one may be mounted.
full=$folder/full; mkdir "$full"
if mount -t tmpfs -o size=200k none "$full" 2>/dev/null; then
    here() { "$program" --cache "$full/c" --report p.sps >got 2>err; cmp -s got want || fail "$1"; }
    here full
    left=$(ls "$full/c" | wc -l)
    head -c 300k /dev/zero >"$full/zero" 2>/dev/null
    here 'full again'
    [ "$(grep -c '^reused' err)" = "$left" ] || fail "full again: $(grep -c '^reused' err) of $left reused"
    [ "$(ls "$full/c" | wc -l)" = "$left" ] || fail 'full: other files are left'
    rm -f "$full/zero"
    here 'no longer full'
else
    full=
    echo "cache: no file system can be mounted here"
fi

# A file where the folder should be.
echo x >c
same 'a file for a folder'; all expanded 'a file for a folder'
rm -rf c
echo "cache: $failed failed"
[ $failed = 0 ]
