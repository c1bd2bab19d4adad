#!/usr/bin/env python3
"""Runs a built program on the tables of tests/cases, each case among files of its own, and tells which differ.

    tests/cases.py PROGRAM [TABLE..]

PROGRAM is the built program, as crates/scheme_expand/out/scheme_expand; with no TABLE all of them are run. The exit
status is 0 where no case differs. tests/cases/README.md says how a case is written.
"""
import argparse
import dataclasses
import glob
import json
import os
import re
import subprocess
import sys
import tempfile
import time
from concurrent.futures import ThreadPoolExecutor

# Runs a program of whose files and streams none may have more bytes than this.
WITHIN = """import os, resource, signal, sys
signal.signal(signal.SIGXFSZ, signal.SIG_IGN)
resource.setrlimit(resource.RLIMIT_FSIZE, (int(sys.argv[1]),) * 2)
os.execv(sys.argv[2], sys.argv[2:])"""

# The signs that stand before identifiers, in whatever order.
SIGNS = "①②③④⑤⑥⑦⑧⑨⑩⑪⑫⑬⑭⑮⑯⑰⑱⑲⑳"


@dataclasses.dataclass
class Case:
    """A run: its words, files and those that can't be read by their paths, and its status and both streams."""

    words: list
    files: dict
    status: int
    out: str
    err: str
    unread: set = dataclasses.field(default_factory=set)
    # Whether the streams take what is told here and no byte more.
    is_full: bool = False


def bytes_of(text):
    """The bytes of a text, in which those between ‹ and › are spelt in hexadecimal."""
    parts = re.split("‹([^›]*)›", text)
    return b"".join(bytes.fromhex(it) if i % 2 else it.encode() for i, it in enumerate(parts))


def read_run(head, answer):
    """The case of a run that is told by its words and files, its status and both streams."""
    orders, *files = ("\n" + head).split("\nfile ")
    first, *orders = orders[1:].split("\n")
    files = [it.partition("\n")[::2] for it in files]
    status, _, streams = answer.partition(" ")
    case = Case(first.split(" ")[1:], {}, int(status), *json.loads("[" + streams.replace('" "', '", "') + "]"))
    least = 0
    for order in orders:
        word, *numbers = order.removeprefix("fail ").split(" ")
        if word == "pad":
            least = int(numbers[0])
        elif word == "read":
            case.unread.add(files[int(numbers[0])][0])
        elif word in ("out", "err"):
            case.is_full = True
        else:
            raise ValueError(f"no order: {order}")
    case.files = {path: bytes_of(text).ljust(least) for path, text in files}
    return case


def read_map(head, answer):
    """The case of a binding map that is told by signs before identifiers."""
    orders, *files = head.split("\nfile ")
    first, _, program = orders.partition("\n")
    roots = first.split(" ")[1:]
    words = (["--root", ":".join(roots)] if roots else []) + ["--write", "xref", "p.sps"]
    case, places = Case(words, {}, 0, "", ""), {}
    for path, text in [("p.sps", program), *(it.partition("\n")[::2] for it in files)]:
        line, column, held = 1, 1, ""
        for it in text:
            if it in SIGNS:
                places[it] = f"{path}:{line}:{column}"
                continue
            held += it
            line, column = (line + 1, 1) if it == "\n" else (line, column + 1)
        case.files[path] = held.encode()
    for it in answer.split():
        case.out += f"{places[it[0]]} {places.get(it[1:], it[1:])}\n"
    return case


def read(text):
    """The case of this text."""
    head, _, answer = text.partition("\n=>")
    answer = answer.removeprefix(" ")
    kind = head.partition("\n")[0].partition(" ")[0]
    if kind == "run":
        return read_run(head, answer)
    if kind == "map":
        return read_map(head, answer)
    words = ["p.sps"]
    if head.startswith("root "):
        first, _, head = head.partition("\n")
        words = ["--root", first.removeprefix("root ").replace(" ", ":"), "p.sps"]
    files, place = {}, "" if answer.startswith("p.sps:") else None
    for i, part in enumerate(head.split("\nfile ")):
        path, _, text = part.partition("\n") if i else ("p.sps", "", part)
        before, sign, behind = text.partition("§")
        if sign:
            place = f"{path}:{before.count(chr(10)) + 1}:{len(before.rpartition(chr(10))[2]) + 1}: "
        files[path] = bytes_of(before + behind)
    ended = answer + "\n" if answer else ""
    if place is None:
        return Case(words, files, 0, "(import (rnrs))\n" + ended, "")
    return Case(words, files, 1, "", place + ended)


def put_files(case, folder):
    """Makes the files of the case, and a directory for each that can't be read."""
    for path, held in case.files.items():
        at = os.path.join(folder, path)
        os.makedirs(at if path in case.unread else os.path.dirname(at), exist_ok=True)
        if path not in case.unread:
            with open(at, "wb") as it:
                it.write(held)


def stream(room, name, padding):
    """A file for a stream, behind so many bytes."""
    with open(os.path.join(room, name), "wb") as it:
        it.write(b" " * padding)
    return open(it.name, "ab")


def run_full(words, case, room, how):
    """Runs the words with streams that take what the case tells and no byte more."""
    wanted = [len(it.encode()) for it in (case.out, case.err)]
    padding = [max(wanted) - it for it in wanted]
    with stream(room, "out", padding[0]) as out, stream(room, "err", padding[1]) as err:
        words = [sys.executable, "-ISc", WITHIN, str(max(wanted)), *words]
        status = subprocess.run(words, stdout=out, stderr=err, **how).returncode
    came = [status]
    for name, behind in zip(("out", "err"), padding):
        with open(os.path.join(room, name), "rb") as it:
            came.append(it.read()[behind:])
    return came


def run(program, seconds, text):
    """What is to be said of a case that comes to something else than it should, or None."""
    case = read(text)
    with tempfile.TemporaryDirectory() as room:
        folder = os.path.join(room, "files")
        os.mkdir(folder)
        put_files(case, folder)
        words, how = [program, *case.words], {"cwd": folder, "stdin": subprocess.DEVNULL, "timeout": seconds}
        try:
            if case.is_full:
                status, out, err = run_full(words, case, room, how)
            else:
                ran = subprocess.run(words, capture_output=True, **how)
                status, out, err = ran.returncode, ran.stdout, ran.stderr
        except subprocess.TimeoutExpired:
            return f"no answer after {seconds} seconds\n"
    wanted = [case.status, case.out, case.err]
    came = [status, out.decode(errors="replace"), err.decode(errors="replace")]
    return None if came == wanted else "wanted: {} {}{}came: {} {}{}".format(*wanted, *came)


def programs_of(table):
    """The texts of a table's cases."""
    with open(table, encoding="utf-8", newline="") as it:
        return it.read().removesuffix("\n").split("\n\n")


def main():
    words = argparse.ArgumentParser()
    words.add_argument("program")
    words.add_argument("tables", nargs="*")
    words.add_argument("--jobs", type=int, default=len(os.sched_getaffinity(0)))
    words.add_argument("--seconds", type=int, default=60, help="that one case may take")
    given = words.parse_args()
    begun, program = time.monotonic(), os.path.abspath(given.program)
    tables = given.tables or sorted(glob.glob(os.path.join(os.path.dirname(os.path.abspath(__file__)), "cases/*.txt")))
    cases = [(os.path.basename(it).removesuffix(".txt"), number, text) for it in tables
             for number, text in enumerate(programs_of(it), 1)]
    with ThreadPoolExecutor(given.jobs) as pool:
        said = list(pool.map(lambda case: run(program, given.seconds, case[2]), cases))
    differing = 0
    for (name, number, text), it in zip(cases, said):
        if it is not None:
            differing += 1
            print(f"{name}: program {number} differs\n{text}\n{it}")
    taken = time.monotonic() - begun
    print(f"{len(tables)} tables, {len(cases)} programs, {differing} differ, {taken:.1f} s", flush=True)
    return 1 if differing or not cases else 0


sys.exit(main())
