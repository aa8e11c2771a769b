#!/usr/bin/env python3
"""Measures the rebuilders beside verifying traces: rebuilders.py PROGRAM [KEYS]

Each rebuilder makes the first four builds of builds.py on the generated book of 65,536 keys, or of KEYS: from nothing; the same
again; after an edit of three inputs; after an edit of an input on which about half of the reached keys depend. Told are
instructions, counted by callgrind, as ratios to those under verifying traces. Constructive traces may cost at most 1.3 times.
Deep traces are measured on a wide book, in which each rule is over three inputs and is a target itself, at most 2 times;
and on generated books that grow they build, told is the largest that does in 2 GB of addresses, and what it says of the next.
It ends with 1 where a bound isn't kept.
"""
import os
import pathlib
import subprocess
import sys
import tempfile

from builds import choose, edited, instructions
from generated import draws, generated

SEED, WIDE = 1, 8_192
BOUNDS = {"constructive": 1.3, "deep": 2}
NAMES = ("from nothing", "nothing changed", "3 inputs changed", "half of the keys")


def builds(program, folder, books, targets, rebuilder):
    """The instructions of builds of these books, one after the other on one state."""
    book, state = f"{folder}/book.toml", f"{folder}/state"
    pathlib.Path(state).unlink(missing_ok=True)
    counts = []
    for text in books:
        pathlib.Path(book).write_text(text)
        said, count = instructions([program, "build", book, state, *targets, "--rebuilder", rebuilder], folder)
        assert "given up 0" in said, said
        counts.append((count, said.splitlines()[-1]))
    return counts


def compare(program, folder, label, books, targets, others):
    verifying = builds(program, folder, books, targets, "verifying")
    for name, (count, said) in zip(NAMES, verifying):
        print(f"{label}, verifying, {name}: {count} instructions, {said}", flush=True)
    kept = True
    for rebuilder in others:
        for name, (count, said), (bare, _) in zip(NAMES, builds(program, folder, books, targets, rebuilder), verifying):
            ratio, bound = count / bare, BOUNDS.get(rebuilder)
            print(f"{label}, {rebuilder}, {name}: ratio {ratio:.3f}{f' (at most {bound})' if bound else ''}, {said}", flush=True)
            kept &= not bound or ratio <= bound
    return kept


def four(text, target):
    few, half = choose(text, target)
    edit = edited(text, {name: 1 for name in few})
    return [text, text, edit, edited(edit, {half: 1})]


def wide(count):
    """Rules over three inputs each, four books with the edits, and the rules. Half of the rules are over the first input."""
    drawn, inputs = draws(SEED), count // 10
    lines = ["[inputs]"] + [f"k{key} = {next(drawn) % 1000}" for key in range(inputs)] + ["[rules]"]
    for key in range(inputs, count):
        first = 0 if key % 2 else 1 + next(drawn) % (inputs - 1)
        lines.append(f'k{key} = "k{first}+k{1 + next(drawn) % (inputs - 1)}-k{1 + next(drawn) % (inputs - 1)}"')
    text = "\n".join(lines) + "\n"
    edit = edited(text, {"k1": 1, "k2": 1, "k3": 1})
    return [text, text, edit, edited(edit, {"k0": 1})], [f"k{key}" for key in range(inputs, count)]


def deep(program, folder, keys):
    """Whether deep traces build the generated book in 2 GB, and what is said."""
    book, state = f"{folder}/book.toml", f"{folder}/state"
    pathlib.Path(book).write_text(generated(SEED, keys))
    pathlib.Path(state).unlink(missing_ok=True)
    words = f"ulimit -v 2097152; exec '{program}' build '{book}' '{state}' k{keys - 1} --rebuilder deep"
    done = subprocess.run(["sh", "-c", words], capture_output=True, text=True)
    return done.returncode == 0, f"status {done.returncode}, {(done.stdout + done.stderr).strip()!r}, a state of {os.path.getsize(state)} bytes"


def largest(program, folder):
    low, high = 1_024, 65_536
    while high - low > 128:
        middle = (low + high) // 2
        low, high = (middle, high) if deep(program, folder, middle)[0] else (low, middle)
    for keys in (low, high):
        print(f"deep, a generated book of {keys} keys in 2 GB: {deep(program, folder, keys)[1]}", flush=True)


def main(program, keys="65536"):
    program, keys = os.path.abspath(program), int(keys)
    with tempfile.TemporaryDirectory() as folder:
        text, target = generated(SEED, keys), f"k{keys - 1}"
        kept = compare(program, folder, f"{keys} keys", four(text, target), [target], ["dirty", "constructive"])
        kept &= compare(program, folder, f"{WIDE} keys, wide", *wide(WIDE), ["deep"])
        largest(program, folder)
    return 0 if kept else 1


if __name__ == "__main__":
    sys.exit(main(*sys.argv[1:]))
