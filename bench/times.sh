# Sourced by the scripts here, which set `folder`, and `program` where they measure another one than the built one.
#
#   best WORDS..              runs the program three times with these words, its output dropped, and prints the least
#                             processor time, user and system, in seconds, and the most memory, in megabytes; `runs=1`
#                             runs it so many times
#   row WHAT SIZE WORDS..     does so and prints WHAT, SIZE, the time, the memory, and the ratio of the time to that of
#                             the row before, unless `last` was emptied; `any=1` allows statuses other than 0

if [ -z "$program" ]; then
    "$top/scheme-expand" "$top/examples/first/p.sps" >/dev/null || exit 1
    program=$top/crates/scheme_expand/out/scheme_expand
fi
last=
any=

best() {
    python3 - "${runs:-3}" "$any" "$program" "$@" <<'END'
import os, subprocess, sys

least, most = None, 0
for _ in range(int(sys.argv[1])):
    child = subprocess.Popen(sys.argv[3:], stdout=subprocess.DEVNULL, stderr=subprocess.DEVNULL if sys.argv[2] else None)
    _, status, used = os.wait4(child.pid, 0)
    if status and not sys.argv[2]:
        sys.exit(f"status {os.waitstatus_to_exitcode(status)}")
    least = min(least or 1e9, used.ru_utime + used.ru_stime)
    most = max(most, used.ru_maxrss)
print(f"{least:.6f} {most / 1024:.1f}")
END
}

row() {
    what=$1
    size=$2
    shift 2
    now=$(best "$@") || exit 1
    awk -v what="$what" -v size="$size" -v now="${now% *}" -v most="${now#* }" -v before="$last" 'BEGIN {
        printf "%-28s %9d %8.3f s %8.1f MB", what, size, now, most
        if (before > 0) printf "  x%.2f", now / before
        print ""
    }'
    last=${now% *}
}
