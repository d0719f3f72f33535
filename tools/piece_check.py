#!/usr/bin/env python3
"""Holds what docs/LIBRARY.md quotes of the bindings against the files: tools/piece_check.py

A block of code belongs to the file below bindings/ that the text before it names last. Each that doesn't stand in its file, whole, is a line, and
then the status is 1."""
import pathlib
import re
import sys

TOP = pathlib.Path(__file__).resolve().parent.parent
BLOCK = re.compile(r"^```(?:c|cpp|python|rust)\n(.*?)^```$", re.M | re.S)


def pieces(page):
    """Each block with the file that it belongs to, if one is named."""
    behind = 0
    for block in BLOCK.finditer(page):
        named = re.findall(r"`(bindings/[\w./]+\.\w+)`", page[behind : block.start()])
        behind = block.end()
        if named:
            yield named[-1], block[1]


def main():
    found = list(pieces((TOP / "docs/LIBRARY.md").read_text(encoding="utf-8")))
    wrong = [(name, piece) for name, piece in found if piece not in (TOP / name).read_text(encoding="utf-8")]
    for name, piece in wrong:
        print(f"piece_check.py: {name} doesn't have the piece that begins with {piece.splitlines()[0]}")
    if not found:
        print("piece_check.py: docs/LIBRARY.md quotes nothing of the bindings")
    return 1 if wrong or not found else 0


if __name__ == "__main__":
    sys.exit(main())
