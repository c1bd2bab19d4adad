#!/bin/sh
# Tries the launchers, ./scheme-expand and ./core-check, over a small repository with a command `rt` that proves nothing:
# from other folders, through links, without `rt`, twice at once, and after changes of sources.
#
#     tests/launch.sh
#
# Each case that fails is printed, and last how many there were. The exit status is 0 where none failed.
top=$(cd "$(dirname "$0")/.." && pwd) || exit 1
room=$(mktemp -d) || exit 1
trap 'rm -rf "$room"' EXIT
cases=0
failed=0

fails() {
    failed=$((failed + 1))
    echo "FAILED $1"
}

# The call said this on standard output, and a line with this on standard error; '' is nothing at all.
said() {
    cases=$((cases + 1))
    [ "$(cat "$room/out")" = "$2" ] || fails "$1: standard output is $(cat "$room/out"), wanted $2"
    if [ -z "$3" ]; then
        [ ! -s "$room/err" ] || fails "$1: standard error is $(cat "$room/err")"
    else
        grep -q -- "$3" "$room/err" || fails "$1: standard error is $(cat "$room/err"), wanted $3"
    fi
}

# A repository of two programs, a crate that both need, and one that neither needs.
repository=$room/"a folder"/repository
mkdir -p "$repository" && cd "$repository" || exit 1
cp -R "$top/tools" .
for name in scheme-expand core-check; do [ ! -e "$top/$name" ] || cp "$top/$name" .; done
echo 'Handles allowed: none.' >HANDLES
printf '# crates\nlow: itoa\nlaws: low\nscheme_expand: low\ncore_check: low\n' >crates.txt
for crate in low laws scheme_expand core_check; do
    mkdir -p crates/$crate/src crates/$crate/specs
    echo text >crates/$crate/src/lib.rt
done
mkdir "$room/bin"
cat >"$room/bin/rt" <<'END'
#!/bin/sh
# Proves nothing: it takes as long as the file `slow` says, and fails where a file `wrong` stands beside crates.txt.
[ "$1" = ci ] || exit 2
sleep "$(cat "$ROOM/slow" 2>/dev/null || echo 0)"
echo call >>"$ROOM/calls"
sed -n 's/^\([a-z_]*\):.*/rt: \1 proved/p' crates.txt
[ ! -e "$ROOM/wrong" ] || exit 1
for crate in scheme_expand core_check; do
    [ -d crates/$crate ] || continue
    mkdir -p crates/$crate/out
    printf '#!/bin/sh\n[ "$1" != heap ] || echo "$GLIBC_TUNABLES"\necho %s in "$PWD": "$@"\n' $crate >crates/$crate/out/$crate
    chmod +x crates/$crate/out/$crate
done
END
chmod +x "$room/bin/rt"
with_rt=$room/bin:$PATH
without_rt=$(dirname "$(command -v sh)"):$(dirname "$(command -v awk)"):$(dirname "$(command -v mktemp)")
export ROOM="$room"

# Calls a launcher with these words; `path` is the path of commands.
call() {
    PATH=$path "$@" >"$room/out" 2>"$room/err"
    got=$?
}
path=$with_rt

calls() {
    cases=$((cases + 1))
    [ "$(wc -l <"$room/calls")" -eq "$2" ] || fails "$1: $(wc -l <"$room/calls") calls of rt, wanted $2"
}

cd "$room" || exit 1
path=$without_rt
if ! PATH=$without_rt command -v rt >/dev/null; then
    call "$repository/scheme-expand" p.sps
    said "without rt" "" "rt isn't on the path"
    [ $got -eq 1 ] || fails "without rt: status $got"
    [ ! -e "$repository/crates/scheme_expand/out" ] || fails "without rt a folder is made"
fi

path=$with_rt
call "$repository/scheme-expand" p.sps "two words"
said "the first call" "scheme_expand in $room: p.sps two words" "from 2 crates; the first time"
grep -q 'low is proved, 1 of 2 crates' "$room/err" || fails "the first call doesn't tell what is proved"
calls "the first call" 1

path=$without_rt
call "$repository/scheme-expand" p.sps
said "a call of what is built, without rt" "scheme_expand in $room: p.sps" ""

path=$with_rt
ln -s "$repository/scheme-expand" link
ln -s link further
mkdir links && ln -s ../further links/third
for link in ./link ./further links/third "$room/link"; do
    call "$link" p.sps
    said "the link $link" "scheme_expand in $room: p.sps" ""
done
cd / || exit 1
call "$room/links/third" p.sps
said "a link from /" "scheme_expand in /: p.sps" ""
call "$repository/scheme-expand"
said "from / without words" "scheme_expand in /:" ""
unset GLIBC_TUNABLES
call "$repository/scheme-expand" heap
said "how the heap grows" "glibc.malloc.top_pad=16777216:glibc.malloc.mxfast=0
scheme_expand in /: heap" ""
GLIBC_TUNABLES=glibc.malloc.perturb=1
export GLIBC_TUNABLES
call "$repository/scheme-expand" heap
said "how the heap grows, as the caller says" "glibc.malloc.perturb=1
scheme_expand in /: heap" ""
unset GLIBC_TUNABLES
cd "$repository" || exit 1
call sh scheme-expand p.sps
said "by sh" "scheme_expand in $repository: p.sps" ""
ls "$room/out" "$room/links/out" 2>/dev/null | grep -q built && fails "a folder is made beside a link"
calls "links" 1

sleep 1
touch crates/laws/src/lib.rt
call ./scheme-expand p.sps
said "a crate changed that isn't needed" "scheme_expand in $repository: p.sps" ""
calls "a crate changed that isn't needed" 1
touch crates/low/src/lib.rt
call ./scheme-expand p.sps
said "a crate changed that is needed" "scheme_expand in $repository: p.sps" "the last time took"
calls "a crate changed that is needed" 2

sleep 1
touch crates/low/src/lib.rt "$room/wrong"
call ./scheme-expand p.sps
said "a proof that fails" "" "not proved or not built: see $repository/crates/scheme_expand/out/build.log"
[ $got -eq 1 ] || fails "a proof that fails: status $got"
rm "$room/wrong"
call ./scheme-expand p.sps
said "the call behind a proof that failed" "scheme_expand in $repository: p.sps" "low is proved"

sleep 1
touch crates/low/src/lib.rt
echo 3 >"$room/slow"
: >"$room/calls"
PATH=$path ./scheme-expand first >"$room/first" 2>/dev/null &
sleep 1
call ./scheme-expand second
said "a second call" "scheme_expand in $repository: second" "another call is proving"
wait
[ "$(cat "$room/first")" = "scheme_expand in $repository: first" ] || fails "the first of two calls: $(cat "$room/first")"
calls "two calls at once" 1
rm "$room/slow"

sleep 1
touch crates/low/src/lib.rt
mkdir crates/scheme_expand/out/building
sh -c 'echo $$' >crates/scheme_expand/out/building/process
call ./scheme-expand p.sps
said "a lock that was left behind" "scheme_expand in $repository: p.sps" "low is proved"
[ ! -e crates/scheme_expand/out/building ] || fails "the lock stays"

if [ -e core-check ]; then
    : >"$room/calls"
    call ./core-check core.sps
    said "the other launcher" "core_check in $repository: core.sps" "core-check: proving"
    calls "the other launcher" 1
fi

echo "$cases cases, $failed failed"
[ $failed -eq 0 ]
