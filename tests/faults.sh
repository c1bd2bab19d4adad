#!/bin/sh
# Tries each program of docs/FAULTS.md against the built program, and ./explain on each line that comes of it.
#
#     tests/faults.sh PROGRAM
#
# PROGRAM is the built program, as crates/scheme_expand/out/scheme_expand. A block `scheme FILE` of the document is a
# file, a block `sh` makes files, and a block `text` is what scheme-expand then writes on standard error, behind the call
# where it isn't `scheme-expand p.sps`. Each case that fails is printed, and last how many there were. The exit status is
# 0 where none failed.
[ $# -eq 1 ] || { echo "usage: tests/faults.sh PROGRAM" >&2; exit 2; }
case $1 in /*) program=$1 ;; *) program=$PWD/$1 ;; esac
[ -x "$program" ] || { echo "$program can't be run" >&2; exit 2; }
top=$(cd "$(dirname "$0")/.." && pwd) || exit 1
page=$top/docs/FAULTS.md
room=$(mktemp -d) || exit 1
trap 'rm -rf "$room"' EXIT
cases=0
failed=0

fails() {
    failed=$((failed + 1))
    echo "FAILED $1"
}

# ---- The cases: a folder NUMBER.COUNT for each block `text`, with the files before it, `words` and `want`.

awk -v room="$room" '
    /^## [0-9]+ / { number = $2 + 0 }
    /^```scheme / && !inside { inside = 1; file = folder() "/files/" $2; parent(file); printf "" >file; next }
    /^```sh$/ && !inside { inside = 1; file = folder() "/make"; next }
    /^```text$/ && !inside {
        inside = 1; file = folder() "/want"; ends = 1; printf "" >file
        print "p.sps" >(folder() "/words"); close(folder() "/words"); next
    }
    /^```$/ && inside {
        inside = 0; close(file)
        if (ends) { ends = 0; made[number]++ }
        next
    }
    inside && ends && /^\$ scheme-expand / {
        sub(/^\$ scheme-expand /, ""); print >(folder() "/words"); close(folder() "/words"); next
    }
    inside { print >file }
    function folder() {
        name = room "/" number "." (made[number] + 1)
        if (!(name in known)) { known[name] = 1; system("mkdir -p " name "/files") }
        return name
    }
    function parent(path) { sub(/\/[^\/]*$/, "", path); system("mkdir -p " path) }
' "$page"

# ---- Each is run, and its line explained.

for case in "$room"/*.*; do
    name=${case##*/}
    cases=$((cases + 1))
    cd "$case/files" || exit 1
    [ ! -e ../make ] || sh -e ../make || fails "$name: its files can't be made"
    # The words of a call have no spaces or quotes.
    # shellcheck disable=SC2046
    "$program" $(cat ../words) >../out 2>../err </dev/null
    got=$?
    if [ $got -ne 1 ] || [ -s ../out ]; then
        fails "$name: status $got, wanted 1"
    elif ! cmp -s ../err ../want; then
        fails "$name: $(cat ../err), wanted $(cat ../want)"
    elif ! grep -q ": ${name%.*} " ../err; then
        fails "$name: $(cat ../err) is another fault"
    elif ! "$top/explain" <../err >../told || ! head -n 1 ../told | cmp -s - ../err; then
        fails "$name: ./explain says $(head -n 3 ../told)"
    fi
done

# ---- Every fault has a program, and its name.

number=0
for name in BadUtf8 BadToken BadNumber BadEscape Unclosed StrayClose BadDot TooNested TooLong NotLibrary NameDiffers \
    LibraryNotFound VersionRefused ImportCycle ImportNameMissing ImportConflict ExportUnbound ExportTwice \
    TooManyLibraries BadForm Unbound Duplicate DefinitionPlace NoExpression KeywordMisuse OutOfContext AssignedExport \
    AssignedImport AssignedElsewhere SyntaxInRunCode TooManyExpansions TooDeep LateDefinition BadPattern BadTemplate \
    EllipsisLength NoClause FuelSpent Arity PrimFault UnsetVariable NoPrimitive SetAtExpansion Raised RawSymbol \
    BadOutput NotTransformer; do
    number=$((number + 1))
    cases=$((cases + 1))
    if ! grep -q "^## $number $name\$" "$page" || [ ! -d "$room/$number.1" ]; then
        fails "$number $name has no program in docs/FAULTS.md"
    fi
done

# ---- The caret stands under the place, whatever stands before it.

# The file holds these bytes, the fault is told as this line, and the caret line is this.
caret() {
    cases=$((cases + 1))
    printf "$1" >p.sps
    "$program" p.sps >out 2>err </dev/null
    printf '%s\n' "$2" >want
    cmp -s err want || fails "the caret: $(cat err), wanted $2"
    "$top/explain" <err | sed -n 3p >told
    printf "$3\n" >want
    cmp -s told want || fails "the caret behind $2 stands as '$(cat told)', wanted '$(cat want)'"
}

mkdir "$room/caret" && cd "$room/caret" || exit 1
caret '(import (rnrs))\n  x' 'p.sps:2:3: 21 Unbound: x' '      ^'
caret '(import (rnrs))\n\t\tx' 'p.sps:2:3: 21 Unbound: x' '    \t\t^'
caret '(import (rnrs))\r\n  x\r\n' 'p.sps:2:3: 21 Unbound: x' '      ^'
caret '(import (rnrs))\r\r  x\r' 'p.sps:3:3: 21 Unbound: x' '      ^'
caret '(import (rnrs))\302\205 x' 'p.sps:2:2: 21 Unbound: x' '     ^'
caret '(import (rnrs))\342\200\250 x' 'p.sps:2:2: 21 Unbound: x' '     ^'
caret '\357\273\277(import (rnrs)) x' 'p.sps:1:18: 21 Unbound: x' '                    ^'
caret '(import (rnrs))\n"\303\244\360\235\222\263" x' 'p.sps:2:6: 21 Unbound: x' '         ^'
caret '(import (rnrs))\n"\360\237\230\200" x' 'p.sps:2:5: 21 Unbound: x' '         ^'
caret '(import (rnrs))\n"\344\270\255" x' 'p.sps:2:5: 21 Unbound: x' '         ^'
caret '(import (rnrs))\n"e\314\201" x' 'p.sps:2:6: 21 Unbound: x' '        ^'
caret '(import (rnrs))\n"\377' 'p.sps:2:2: 1 BadUtf8' '     ^'
caret '(import (rnrs))\n(a' 'p.sps:2:1: 5 Unclosed' '    ^'

# ---- A page, and what was looked for.

says() {
    cases=$((cases + 1))
    grep -q -- "$2" told || fails "$1 says $(head -n 3 told)"
}
"$top/explain" 23 >told && says "explain 23" 'DefinitionPlace'
"$top/explain" Unbound >told && says "explain Unbound" '21 Unbound'
cases=$((cases + 1))
"$top/explain" 99 >told 2>&1 && fails "explain 99 ends with status 0"
echo 'p.sps:1:16: 12 LibraryNotFound: (a/b c.d)' | "$top/explain" --root lib:vendor >told
says "explain of 12" 'lib/a%2Fb/c%2Ed.sls'
says "explain of 12" 'vendor/a%2Fb/c%2Ed.sls'
cases=$((cases + 1))
echo 'core text, no fault' | "$top/explain" >told
[ "$(cat told)" = 'core text, no fault' ] || fails "a line that is no fault: $(cat told)"

echo "$cases cases, $failed failed"
[ $failed -eq 0 ]
