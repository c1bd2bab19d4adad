#!/usr/bin/env python3
"""Runs the built checker of core text on tables of texts with their verdicts, and on every core text that is stored.

    tests/verdicts.py CHECKER [EXPANDER]

CHECKER is the built program, as crates/core_check/out/core_check. The tables of tests/verdicts say what is told of each
text; the core texts of tests/cases and of the examples are all accepted. With EXPANDER, as
crates/scheme_expand/out/scheme_expand, so are those of the programs of examples/report that it expands. Runs with
other words, files and streams are tried, too. Each that comes to something else is printed, and the exit status is 0
where there is none.
"""
import argparse
import glob
import json
import os
import re
import subprocess
import sys
import tempfile
import time
from concurrent.futures import ThreadPoolExecutor

FIRST = "(import (rnrs))\n"
top = os.path.dirname(os.path.dirname(os.path.abspath(__file__)))


def bytes_of(text):
    """The bytes of a text: «N PART» is the part so many times, and between ‹ and › stand bytes in hexadecimal."""
    text = re.sub("«([0-9]+) ([^»]*)»", lambda it: int(it[1]) * it[2], text)
    parts = re.split("‹([^›]*)›", text.replace("‹no line feed›\n", ""))
    return b"".join(bytes.fromhex(it) if i % 2 else it.encode() for i, it in enumerate(parts))


def texts_of(block):
    """What a block of a table is told by, its texts, and what is told of each of them."""
    head, _, verdict = ("\n" + block).partition("\n=> ")
    what, *lines = head[1:].split("\n")
    orders = lines.pop(0).split(" ") if lines and lines[0] in ("each", "whole", "whole each") else []
    first = "" if "whole" in orders else FIRST
    texts = [it + "\n" for it in lines] if "each" in orders else ["".join(it + "\n" for it in lines)]
    return [(what, bytes_of(first + it), verdict.rstrip("\n")) for it in texts]


def in_tables():
    """The texts of the tables with what is told of them."""
    for table in sorted(glob.glob(os.path.join(top, "tests/verdicts/*.txt"))):
        with open(table, encoding="utf-8", newline="") as it:
            for block in it.read().split("\n\n"):
                yield from texts_of(block)


def in_cases():
    """The core texts that the tables of programs tell: no binding map, no fault, and none of a run that was cut off."""
    for table in sorted(glob.glob(os.path.join(top, "tests/cases/*.txt"))):
        with open(table, encoding="utf-8", newline="") as it:
            for number, case in enumerate(it.read().removesuffix("\n").split("\n\n"), 1):
                head, _, answer = case.partition("\n=>")
                answer = answer.removeprefix(" ")
                text = FIRST + (answer + "\n" if answer else "")
                if head.startswith("run"):
                    text = json.loads("[" + answer.partition(" ")[2].replace('" "', '", "') + "]")[0]
                elif re.match("map[ \n]", head) or "§" in head or answer.startswith("p.sps:"):
                    continue
                if text.startswith(FIRST) and text.endswith("\n"):
                    yield f"{os.path.basename(table)}: program {number}", text.encode(), "yes"


def in_examples():
    """The core texts beside the examples."""
    for shown in sorted(glob.glob(os.path.join(top, "examples/*/p.out"))):
        with open(shown, "rb") as it:
            if not is_map(os.path.join(os.path.dirname(shown), "words")):
                yield shown.removeprefix(top + "/"), it.read(), "yes"


def is_map(path):
    """Whether the words of an example in this file ask for its binding map."""
    if not os.path.exists(path):
        return False
    with open(path, encoding="utf-8") as it:
        return "xref" in it.read()


def programs_of_reports():
    """The programs of the reports' examples: where each ends, and its files, as examples/report/run tells."""
    for table in sorted(glob.glob(os.path.join(top, "examples/report/*.txt"))):
        files, path = {}, "p.sps"
        with open(table, encoding="utf-8") as it:
            for number, line in enumerate(it, 1):
                if line.startswith("@"):
                    path = line[1:].strip() or "p.sps"
                    continue
                part, sign, _ = line.partition("==> ")
                if path in files or not re.match(" *(;.*)?$", part):
                    files.setdefault(path, "")
                    files[path] += part.rstrip("\n") + "\n"
                if sign:
                    yield f"{os.path.basename(table)}:{number}", files
                    files, path = {}, "p.sps"


def expanded(expander, name, files, folder):
    """The core text of a program of the reports with what is told of it, or nothing where it has a fault."""
    home = os.path.join(folder, re.sub("[^a-z0-9]+", "-", name))
    for path, text in files.items():
        at = os.path.join(home, path)
        os.makedirs(os.path.dirname(at), exist_ok=True)
        with open(at, "w", encoding="utf-8") as it:
            it.write(FIRST + text if path == "p.sps" and not text.startswith("(import") else text)
    ran = subprocess.run([expander, "p.sps"], cwd=home, capture_output=True, check=False)
    return (name, ran.stdout, "yes") if ran.returncode == 0 else None


def told(checker, folder, number, text):
    """The status and what is written of a text."""
    path = os.path.join(folder, str(number))
    with open(path, "wb") as it:
        it.write(text)
    ran = subprocess.run([checker, path], capture_output=True, stdin=subprocess.DEVNULL, timeout=60, check=False)
    os.remove(path)
    return ran.returncode, ran.stdout, ran.stderr


def differs(checker, folder, number, what, text, verdict):
    """What is to be said of a text of which something else is told, or None."""
    wanted = (0 if verdict == "yes" else 1, verdict.encode() + b"\n", b"")
    came = told(checker, folder, number, text)
    shown = text if len(text) < 2000 else text[:2000] + b".."
    return None if came == wanted else f"{what}\n{shown.decode(errors='replace')}\nwanted: {wanted}\ncame: {came}\n"


def outside(checker, folder):
    """Runs of which the words, the file or the streams are of other kinds: what is to be said where one differs."""
    usage = b"usage: core-check FILE\n"
    yes = os.path.join(folder, "yes")
    with open(yes, "wb") as it:
        it.write(FIRST.encode())
    most = os.path.join(folder, "most")
    with open(most, "wb") as it:
        it.truncate(268435456)
    longer = os.path.join(folder, "longer")
    with open(longer, "wb") as it:
        it.truncate(268435457)
    runs = [
        ("no words", [], None, 2, b"", usage),
        ("two words", [yes, yes], None, 2, b"", usage),
        ("an option", ["--help"], None, 2, b"", usage),
        ("a minus", ["-"], None, 2, b"", usage),
        ("a word that isn't UTF-8", [b"\xff"], None, 2, b"", usage),
        ("no such file", [yes + ".sps"], None, 1, b"no: absent\n", b""),
        ("an empty word", [""], None, 1, b"no: absent\n", b""),
        ("a folder", [folder], None, 3, b"", b""),
        ("a path through a file", [yes + "/x"], None, 3, b"", b""),
        ("the greatest length", [most], None, 1, b"no: line 1\n", b""),
        ("a byte more", [longer], None, 1, b"no: longer\n", b""),
    ]
    if os.path.exists("/dev/full"):
        runs.append(("a full disk", [yes], "stdout", 4, b"", b""))
        runs.append(("a full disk for the usage line", [], "stderr", 4, b"", b""))
    for what, words, full, *wanted in runs:
        streams = {"stdout": subprocess.PIPE, "stderr": subprocess.PIPE}
        with open("/dev/full", "wb") if full else open(os.devnull, "wb") as sink:
            if full:
                streams[full] = sink
            ran = subprocess.run([checker, *words], stdin=subprocess.DEVNULL, timeout=60, check=False, **streams)
        came = [ran.returncode, ran.stdout or b"", ran.stderr or b""]
        if came != wanted:
            yield f"{what}\nwanted: {wanted}\ncame: {came}\n"
    os.remove(most)
    os.remove(longer)


def main():
    words = argparse.ArgumentParser()
    words.add_argument("checker")
    words.add_argument("expander", nargs="?")
    words.add_argument("--jobs", type=int, default=len(os.sched_getaffinity(0)))
    given = words.parse_args()
    begun, checker = time.monotonic(), os.path.abspath(given.checker)
    texts = [*in_tables(), *in_cases(), *in_examples()]
    with tempfile.TemporaryDirectory() as folder, ThreadPoolExecutor(given.jobs) as pool:
        if given.expander:
            expander = os.path.abspath(given.expander)
            texts += filter(None, pool.map(lambda it: expanded(expander, *it, folder), programs_of_reports()))
        said = list(filter(None, pool.map(lambda it: differs(checker, folder, it[0], *it[1]), enumerate(texts))))
        said += outside(checker, folder)
    for it in said:
        print(it)
    refused = sum(verdict != "yes" for _, _, verdict in texts)
    taken = time.monotonic() - begun
    print(f"{len(texts)} texts, {refused} of them refused, {len(said)} differ, {taken:.1f} s", flush=True)
    return 1 if said or not texts else 0


sys.exit(main())
