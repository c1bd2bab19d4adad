#!/bin/sh
# Programs of the size that a file may have, 4 MiB, each full of one thing. Each row has its size, the seconds of
# processor time that it took, the most memory that it held, and the line of its fault where it has one; a run is stopped
# after 30 seconds of processor time. With words, only those kinds are run.
top=$(cd "$(dirname "$0")/.." && pwd) || exit 1
folder=$(mktemp -d) || exit 1
trap 'rm -rf "$folder"' EXIT
if [ -z "$program" ]; then
    "$top/scheme-expand" "$top/examples/first/p.sps" >/dev/null || exit 1
    program=$top/crates/scheme_expand/out/scheme_expand
fi
python3 - "$program" "$folder" "$@" <<'END'
import os, resource, subprocess, sys

program, folder, *wanted = sys.argv[1:]
# What stands before, what is repeated, with its number for each N, and what stands behind.
KINDS = {
    "forms": ("", "1\n", ""),
    "operands": ("(list ", "1 ", ")"),
    "quoted": ("(list ", "'a ", ")"),
    "vector": ("'#(", "1 ", ")"),
    "lists": ("'(", "(a) ", ")"),
    "strings": ("'(", '"a" ', ")"),
    "symbol": ("'", "a", ""),
    "comments": ("", "; N\n", "1"),
    "parentheses": ("", "(", ""),
    "names": ("(lambda (", "nN ", ") 1)"),
    "definitions": ("", "(define nN N)\n", ""),
    "procedures": ("", "(define nN (lambda (x) (list x nN nN)))\n", ""),
    "body": ("(lambda () ", "(define nN N) ", "1)"),
    "cases": ("(case-lambda ", "(() 1)", ")"),
    "conditions": ("(cond ", "(1 2)", ")"),
    "sequences": ("", "(begin 1)\n", ""),
    "lets": ("", "(let ((x N)) x)\n", ""),
    "quasi": ("`(", ",1 ", ")"),
    "keywords": ("", "(define-syntax mN (lambda (x) #'1))\n", ""),
    "uses": ("(define-syntax m (lambda (x) #'1))", "(m)", ""),
    "records": ("", "(define-record-type rN (fields a))\n", ""),
}
SIZE = 4 * 1024 * 1024
# The most seconds of processor time.
MOST = 30

def write(path, first, word, last):
    """A program with as many of these words as a file has room for."""
    with open(path, "w") as file:
        left = SIZE - file.write("(import (rnrs) (rnrs records syntactic))\n" + first) - len(last)
        number = 0
        while len(now := word.replace("N", str(number))) <= left:
            left -= file.write(now)
            number += 1
        file.write(last)
    return number

def run(kind):
    count = write(f"{folder}/p.sps", *KINDS[kind])
    child = subprocess.Popen([program, "--root", folder, f"{folder}/p.sps"],
                             stdout=subprocess.DEVNULL, stderr=subprocess.PIPE,
                             preexec_fn=lambda: resource.setrlimit(resource.RLIMIT_CPU, (MOST, MOST)))
    told = child.stderr.read().decode(errors="replace").replace(folder + "/", "")
    _, status, used = os.wait4(child.pid, 0)
    if os.WIFSIGNALED(status):
        told = "stopped"
    print(f"{kind:12} {count:8} {used.ru_utime + used.ru_stime:8.3f} s {used.ru_maxrss / 1024:8.1f} MB  {told.splitlines()[0] if told else ''}",
          flush=True)

unknown = [kind for kind in wanted if kind not in KINDS]
if unknown:
    sys.exit(f"hostile.sh: no kind of program is called {unknown[0]}")
for kind in wanted or KINDS:
    run(kind)
END
