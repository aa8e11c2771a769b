#!/usr/bin/env python3
"""Measures builds of books of other shapes against a plain Rust program: shapes.py PROGRAM [SHAPE..] [KEYS]

Both keep the same state file with the same syncs (plain_shapes.rs). Shapes, all of which are measured where none is named, of
16,384 keys or of KEYS:

wide      each rule is over three inputs and a target itself, and half of them are over the first input
chain     each rule is over the one before it and an input, which a few rules in a row are over
sheet     64 columns, of which 48 hold numbers, 15 rules over the row and the row before, and one running totals
texts     a tenth are inputs of 1,000 bytes; of four rules one makes capitals of one, one joins another to these, one takes the
          length and one adds it to those before

Of each four builds in a row: from nothing; the same again; after an edit of three inputs; after an edit of an input on which
about half of the rules depend. Of each build: instructions a key, counted by callgrind, user and system time and the greatest
memory, each beside the plain program's. The script ends with 1 where a ratio of instructions is above 5, where the replies
differ, or where the states are not the same bytes.
"""
import filecmp
import os
import pathlib
import re
import subprocess
import sys
import tempfile

from builds import edited, fresh, instructions, run_bare
from generated import draws
from rebuilders import wide
from sheets import letters

BENCH = pathlib.Path(__file__).resolve().parent
SEED, KEYS, BOUND, LENGTH = 1, 16_384, 5, 1000
BUILDS = ("from nothing", "nothing changed", "3 inputs changed", "half of the keys")
ALPHABET = "abcdefghijklmnopqrstuvwxyz 01234"


class Shape:
    """The four books of the builds, and their targets."""

    def __init__(self, books, targets, kind="toml"):
        self.books, self.targets, self.kind = books, targets, kind


def one_wide(count):
    return Shape(*wide(count))


def chain(count):
    drawn, inputs = draws(SEED), count // 10
    lines = ["[inputs]"] + [f"k{key} = {next(drawn) % 1000}" for key in range(inputs)] + ["[rules]"]
    lines += [f'k{key} = "k{key - 1}+k{(key - inputs) * inputs // (count - inputs)}"' for key in range(inputs, count)]
    text = "\n".join(lines) + "\n"
    edit = edited(text, {f"k{inputs - at}": 1 for at in (2, 3, 4)})
    return Shape([text, text, edit, edited(edit, {f"k{inputs // 2}": 1})], [f"k{count - 1}"])


def sheet(count):
    """Eight rules of a row are over A1 and three numbers, and seven over ranges of 8 and of up to 16 cells."""
    rows = count // 64

    def row(at, drawn):
        number = lambda: f"{letters(1 + next(drawn) % 47)}{at}"
        fields = [str(next(drawn) % 1000) for _ in range(48)]
        fields += [f"=A1*{number()}+{number()}-{number()}" for _ in range(8)]
        for _ in range(7):
            first, other = 1 + next(drawn) % 40, 1 + next(drawn) % 40
            area = lambda column, top: f"{letters(column)}{top}:{letters(column + 7)}{at}"
            fields.append(f"=SUM({area(first, at)})-MAX({area(other, max(1, at - 1))})")
        before = f"BL{at - 1}+" if at > 1 else ""
        return fields + [f"={before}SUM(AW{at}:BK{at})"]

    drawn = draws(SEED)
    cells = [row(at, drawn) for at in range(1, rows + 1)]
    few = re.findall(r"[A-Z]+(?=\d)", cells[-1][48])[1:]
    columns = {letters(column): column for column in range(48)}
    books = [cells, cells]
    for places in ({(rows - 1, columns[name]) for name in few}, [(0, 0)]):
        cells = [list(fields) for fields in cells]
        for at, column in places:
            cells[at][column] = str(int(cells[at][column]) + 1)
        books.append(cells)
    return Shape(["".join(",".join(fields) + "\n" for fields in book) for book in books], [f"BL{rows}"], "csv")


def texts(count):
    drawn, inputs = draws(SEED), count // 10

    def text():
        numbers = [next(drawn) for _ in range(LENGTH // 5)]
        return "".join(ALPHABET[number >> 5 * at & 31] for number in numbers for at in range(5))

    values = [text() for _ in range(inputs)]
    rules, total = [], None
    for key in range(inputs, count - 3, 4):
        other, more = 1 + next(drawn) % (inputs - 1), 1 + next(drawn) % (inputs - 1)
        rules.append(f'k{key} = "UPPER(k{0 if key // 4 % 2 else other})"')
        rules.append(f'k{key + 1} = "k{key}&k{more}"')
        rules.append(f'k{key + 2} = "LEN(k{key + 1})+{key}"')
        rules.append(f'k{key + 3} = "k{key + 2}{f"+k{total}" if total else ""}"')
        total = key + 3
    book = lambda: "\n".join(["[inputs]", *(f'k{at} = "{value}"' for at, value in enumerate(values)), "[rules]", *rules]) + "\n"
    books = [book(), book()]
    for changed in ((1, 2, 3), (0,)):
        for at in changed:
            values[at] = values[at][::-1]
        books.append(book())
    return Shape(books, [f"k{total}"])


SHAPES = {"wide": one_wide, "chain": chain, "sheet": sheet, "texts": texts}


def build(words, state, folder):
    """What was said, instructions, seconds and memory of a build over this state, which is then as the build leaves it."""
    counted, timed = fresh(folder, state)
    for path in (counted, timed):
        open(path, "ab").close()
    said, count = instructions(words(counted), folder)
    seconds, memory = run_bare(words(timed))
    os.replace(counted, state)
    return said, count, seconds, memory


def measure(name, shape, keys, program, plain, folder):
    """Whether the bounds are kept."""
    book, kept = f"{folder}/book.{shape.kind}", True
    states = [f"{folder}/{which}.state" for which in ("carte", "plain")]
    for state in states:
        pathlib.Path(state).unlink(missing_ok=True)
    for what, text in zip(BUILDS, shape.books):
        pathlib.Path(book).write_text(text)
        ours = build(lambda state: [program, "build", book, state, *shape.targets], states[0], folder)
        theirs = build(lambda state: [plain, book, state, *shape.targets], states[1], folder)
        ratio = ours[1] / theirs[1]
        sizes = [os.path.getsize(state) for state in states]
        alike = ours[0] == theirs[0], filecmp.cmp(*states, shallow=False)
        kept &= ratio <= BOUND and all(alike)
        print(f"{name}, {keys} keys, {what}: {ours[0].splitlines()[-1] if ours[0] else 'nothing said'}; {ours[1] / keys:.0f} and "
              f"{theirs[1] / keys:.0f} instructions a key, ratio {ratio:.2f}{'' if ratio <= BOUND else f', ABOVE {BOUND}'}; "
              f"{ours[2]:.2f} and {theirs[2]:.2f} s; {ours[3]} and {theirs[3]} KB; states of {sizes[0]} and {sizes[1]} bytes"
              f"{'' if alike[1] else ', WHICH DIFFER'}{'' if alike[0] else '; THE REPLIES DIFFER'}", flush=True)
    return kept


def main(program, *words):
    program, shapes = os.path.abspath(program), [word for word in words if not word.isdigit()] or list(SHAPES)
    keys = next((int(word) for word in words if word.isdigit()), KEYS)
    with tempfile.TemporaryDirectory() as folder:
        plain = f"{folder}/plain"
        subprocess.run(["rustc", "-O", "--edition", "2021", "-o", plain, BENCH / "plain_shapes.rs"], check=True)
        kept = [measure(name, SHAPES[name](keys), keys, program, plain, folder) for name in shapes]
    return 0 if all(kept) else 1


if __name__ == "__main__":
    sys.exit(main(*sys.argv[1:]))
