#!/usr/bin/env python3
"""Writes formula texts of 512 and of 4,096 bytes: texts.py FOLDER

Each shape of text is written at both lengths to a file KIND-SHAPE-LENGTH. The last bytes, where another piece of the
shape has no room, are blanks.
"""
import sys


def joined(piece, between, length, front="", back=""):
    """As many pieces as there is room for."""
    count = (length - len(front) - len(back) + len(between)) // (len(piece) + len(between))
    return front + between.join([piece] * count) + back


def nested(front, back, length):
    """Operands of a sum, each as deep as may be, and the last as deep as there is room for."""
    text = ""
    while length - len(text) > len(front) + len(back) + 1:
        between = "+" if text else ""
        depth = min(64, (length - len(text) - len(between) - 1) // (len(front) + len(back)))
        text += between + front * depth + "1" + back * depth
    return text


SHAPES = {
    "rules-chain": lambda length: joined("1", "+", length),
    "rules-levels": lambda length: joined("a*2+b&c<d", "-", length),
    "rules-deep": lambda length: nested("(", ")", length),
    "rules-signs": lambda length: nested("-", "", length),
    "rules-calls": lambda length: nested("NOT(", ")", length),
    "rules-words": lambda length: joined("w" * 64, "+", length),
    "rules-names": lambda length: joined("price", "*", length),
    "rules-number": lambda length: "0" * (length - 1) + "7",
    "rules-text": lambda length: '"' + "t" * (length - 2) + '"',
    "rules-quotes": lambda length: '"' * length,
    "rules-blanks": lambda length: " " * (length - 1) + "1",
    "rules-arguments": lambda length: joined("1", ",", length, "SUM(", ")"),
    "sheet-cells": lambda length: joined("ab12", "+", length),
    "sheet-ranges": lambda length: joined("A1:B2", ",", length, "SUM(", ")"),
}


def main():
    for shape, text in SHAPES.items():
        for length in (512, 4096):
            with open(f"{sys.argv[1]}/{shape}-{length}", "w", encoding="ascii") as file:
                file.write(text(length).ljust(length))


main()
