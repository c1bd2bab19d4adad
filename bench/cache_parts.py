#!/usr/bin/env python3
"""bench/cache_parts.py FOLDER ROWS: what the entries in a folder are made of, in bytes an entry.

The sources of all that a library needs, and its roots and paths; ROWS bytes for the names that it imports, a frame row each,
which the caller finds out by an entry without any; and all else of its record.
"""
import os
import sys


def number(data, at):
    return int.from_bytes(data[at:at + 8], 'big'), at + 8


def text(data, at):
    size, at = number(data, at)
    return at + size


folder, rows = sys.argv[1], int(sys.argv[2])
count = whole = front = most = 0
for name in os.listdir(folder):
    with open(os.path.join(folder, name), 'rb') as file:
        data = file.read()
    at = text(data, 40)
    roots, at = number(data, at)
    for _ in range(roots):
        at = text(data, at)
    sources, at = number(data, at)
    for _ in range(sources):
        at = text(data, at)
        at = text(data, at + 1) if data[at] else at + 1
    count += 1
    whole += len(data)
    front += at
    most = max(most, len(data))
print('  %d entries of %d bytes, at most %d: sources %d, imported names %d, all else %d'
      % (count, whole / count, most, front / count, rows, (whole - front) / count - rows))
