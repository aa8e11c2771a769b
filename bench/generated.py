#!/usr/bin/env python3
"""Writes a generated rule file for a measurement: generated.py SEED COUNT [BYTES] > book.toml

The keys are k0, k1 and so on. The first tenth are inputs from 0 to 999, and each later key i is the rule
MAX(ka,kb)-MIN(ka,kb), where ka is one of the eight keys before it and kb is any earlier key. Draws come from a
linear congruential generator, so a seed and a count always give the same book. With BYTES a comment fills the
book to that length.
"""
import sys


def draws(seed):
    state = seed
    while True:
        state = (state * 6364136223846793005 + 1442695040888963407) % 2**64
        yield state >> 33


def generated(seed, count):
    drawn = draws(seed)
    inputs = max(1, count // 10)
    lines = ["[inputs]"] + [f"k{key} = {next(drawn) % 1000}" for key in range(inputs)] + ["[rules]"]
    for key in range(inputs, count):
        near, far = max(0, key - 1 - next(drawn) % 8), next(drawn) % key
        lines.append(f'k{key} = "MAX(k{near},k{far})-MIN(k{near},k{far})"')
    return "\n".join(lines) + "\n"


def filled(book, size):
    return book + "#" * (size - len(book))


if __name__ == "__main__":
    words = [int(word) for word in sys.argv[1:]]
    sys.stdout.write(filled(generated(*words[:2]), *words[2:] or [0]))
