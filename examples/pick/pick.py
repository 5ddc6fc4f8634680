#!/usr/bin/env python3
"""Reads left.tab, right.tab and code.lab of a folder and prints the number of readings, 99 standing for 99 or more: what a picking machine
acts on. A refusal goes to standard error, with status 1; so does a file that cannot be read, with status 2."""
import sys

import forthwn

MOST = 65536


def load(folder, name):
    """Up to 65,536 bytes of a file; a missing one counts as empty."""
    try:
        with open(f"{folder}/{name}", "rb") as file:
            return file.read(MOST)
    except FileNotFoundError:
        return b""


def labels(code):
    """A label for each two bytes, the lower one first. An odd last byte is half a label; as label 0 it is refused by 9 in its turn."""
    return [int.from_bytes(code[i : i + 2], "little") if i + 1 < len(code) else 0 for i in range(0, len(code), 2)]


def place(number, left):
    """Which file a refusal is about."""
    if number > 8:
        return ", in code.lab" if number == 9 else ""
    try:
        forthwn.check(left)
    except forthwn.Refusal:
        return ", in left.tab"
    return ", in right.tab"


def main(folder="."):
    try:
        left, right, code = (load(folder, name) for name in ("left.tab", "right.tab", "code.lab"))
    except OSError as error:
        print(f"pick: {error.filename}: {error.strerror}", file=sys.stderr)
        return 2
    try:
        print(forthwn.readings(left, right, labels(code)))
    except forthwn.Refusal as refusal:
        print(f"pick: {refusal}{place(refusal.number, left)}", file=sys.stderr)
        return 1
    return 0


if __name__ == "__main__":
    sys.exit(main(*sys.argv[1:2]))
