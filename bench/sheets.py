#!/usr/bin/env python3
"""Measures the reading of sheets against a plain Rust program: sheets.py PROGRAM [CELLS]

Both read the same sheet of 64 columns and print one of its inputs, so nothing is computed. What is printed is the
instructions a cell, counted by callgrind, without those of a run on a sheet of no bytes, their ratio, and the greatest
memory of each in a run of its own; once beside the plain program that keeps its cells in a map, and once beside the one
with a list. It ends with 1 where the ratio to the first is above 4 or `carte` takes more than 150 MB.

Of eight columns four hold numbers, one a text, one a quoted text with a comma, one a formula of two operators and one a
quoted formula of two calls, one of them over a range. In the second sheet numbers stand in place of the formulas. The
last line is of a run that ends once all is read: the first sheet with a formula behind it that is none.
"""
import os
import pathlib
import subprocess
import sys
import tempfile

from books_speed import instructions, memory, output_of
from generated import draws

BENCH = pathlib.Path(__file__).resolve().parent
COLUMNS, SEED, MOST_RATIO, MOST_MEMORY = 64, 1, 4, 150_000


def letters(column):
    return chr(65 + column) if column < 26 else chr(64 + column // 26) + chr(65 + column % 26)


def cell(drawn, rows):
    return f"{letters(next(drawn) % COLUMNS)}{next(drawn) % rows + 1}"


def formula(kind, drawn, rows):
    a, b = cell(drawn, rows), cell(drawn, rows)
    return f"={a}+{b}*{next(drawn) % 1000}" if kind == 6 else f'"=SUM({a}:{b})-MAX({b},{next(drawn) % 1000})"'


def field(column, drawn, rows, has_formulas):
    kind = column % 8
    if kind >= 6 and has_formulas:
        return formula(kind, drawn, rows)
    number = next(drawn) % 1_000_000
    return {4: f"item {number}", 5: f'"part {number}, spare"'}.get(kind, str(number))


def sheet(cells, has_formulas):
    """A sheet whose ranges have at most 65,536 cells: corners lie in the first 1,024 rows."""
    drawn, rows = draws(SEED), cells // COLUMNS
    return "".join(",".join(field(column, drawn, min(rows, 1024), has_formulas) for column in range(COLUMNS)) + "\n"
                   for _ in range(rows))


def cost(words, start, cells, folder, status=0):
    return (instructions(words, folder, status) - instructions(start, folder, status)) / cells


def measure(what, program, plain, text, cells, folder):
    """Whether the bounds are kept."""
    book, empty, state = f"{folder}/sheet.csv", f"{folder}/empty.csv", f"{folder}/state"
    pathlib.Path(book).write_text(text)
    pathlib.Path(empty).write_text("")
    runs = [([program, "build", book, state, "A1"], [program, "build", empty, state, "A1"])]
    runs += [([plain, book, "A1", keeps], [plain, empty, "A1", keeps]) for keeps in ("map", "list")]
    assert len({output_of(words) for words, _ in runs}) == 1, "the replies differ"
    proved, *bare = [cost(*words, cells, folder) for words in runs]
    most = [memory(words) for words, _ in runs]
    print(f"{cells} cells, {what}, {len(text)} bytes: {proved:.0f} instructions a cell and {most[0]} KB")
    for keeps, count, memory_of in zip(("a map", "a list"), bare, most[1:]):
        print(f"  beside {keeps}: {count:.0f} and {memory_of} KB, ratio {proved / count:.2f}", flush=True)
    return proved <= MOST_RATIO * bare[0] and most[0] <= MOST_MEMORY


def refused(program, text, cells, folder):
    """The same without what is done with a book that was read."""
    book, empty, state = f"{folder}/refused.csv", f"{folder}/no.csv", f"{folder}/state"
    pathlib.Path(book).write_text(text + "=(\n")
    pathlib.Path(empty).write_text("=(\n")
    words = [[program, "build", path, state, "A1"] for path in (book, empty)]
    print(f"read and refused: {cost(*words, cells, folder, 1):.0f} instructions a cell")


def main(program, cells=65_536):
    program, cells = os.path.abspath(program), int(cells)
    with tempfile.TemporaryDirectory() as folder:
        plain = f"{folder}/plain"
        subprocess.run(["rustc", "-O", "--edition", "2021", "-o", plain, BENCH / "plain_sheets.rs"], check=True)
        texts = {"a quarter formulas": sheet(cells, True), "no formulas": sheet(cells, False)}
        kept = [measure(what, program, plain, text, cells, folder) for what, text in texts.items()]
        refused(program, texts["a quarter formulas"], cells, folder)
    return 0 if all(kept) else 1


if __name__ == "__main__":
    sys.exit(main(*sys.argv[1:]))
