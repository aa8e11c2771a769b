#!/usr/bin/env python3
"""The table of speed in README: speed.py PROGRAM [KEYS] [--write]

Four builds in a row over a generated book: from nothing; the same again; after an edit of three inputs; after an edit of an input on
which about half of the reached keys depend. Beside them two programs that make the same builds for such books alone: a plain Rust one,
which keeps the same bytes with the same syncs (plain_builds.rs), and one in C whose state is a table of SQLite with each key's formula
and value (plain_sqlite.c, where SQLite's header is there). All print the same. Of each: the least user and system time together of
ROUNDS runs of each program in turn, and the greatest memory. It prints a table; with --write that takes the place of README's. It ends
with 1 where the replies differ.
"""
import os
import pathlib
import shutil
import subprocess
import sys
import tempfile

from builds import BENCH, books_of, run_bare

ROUNDS = 15
README = BENCH.parent / "README.md"
BEGIN, END = "<!-- written by bench/speed.py -->", "<!-- to here -->"


def run(words):
    """How it ended, what it said, and its user and system time in milliseconds."""
    with tempfile.TemporaryFile() as out:
        child = os.posix_spawn(words[0], words, os.environ, file_actions=[(os.POSIX_SPAWN_DUP2, out.fileno(), 1)])
        _, status, usage = os.wait4(child, 0)
        out.seek(0)
        return status, out.read(), 1000 * (usage.ru_utime + usage.ru_stime)


def made(folder):
    """The programs beside it, by what they are called in the table."""
    plain, beside = f"{folder}/plain", {}
    subprocess.run(["rustc", "-O", "--edition", "2021", "-o", plain, BENCH / "plain_builds.rs"], check=True)
    beside["plain, the same state"] = plain
    tabled = f"{folder}/sqlite"
    if subprocess.run(["gcc", "-O2", "-o", tabled, BENCH / "plain_sqlite.c", "-lsqlite3"], capture_output=True).returncode == 0:
        beside["plain, SQLite"] = tabled
    return beside


def least(words, state, folder):
    """What all runs said, the least time, and the greatest memory of one more. The state is then what a build leaves."""
    said, times, path = set(), [], f"{folder}/run"
    for turn in range(ROUNDS + 1):
        pathlib.Path(path).unlink(missing_ok=True)
        if os.path.exists(state):
            shutil.copyfile(state, path)
        if turn < ROUNDS:
            status, out, milliseconds = run(words(path))
            said.add((status, out))
            times.append(milliseconds)
    _, kilobytes = run_bare(words(path))
    shutil.move(path, state)
    return said, min(times), kilobytes / 1000


def main(program, *words):
    keys = next((int(word) for word in words if word.isdigit()), 65_536)
    program, target = os.path.abspath(program), f"k{keys - 1}"
    with tempfile.TemporaryDirectory() as folder:
        book, beside = f"{folder}/book.toml", made(folder)
        by = {"`carte`": lambda path: [program, "build", book, path, target]}
        by |= {name: lambda path, it=it: [it, book, path, target] for name, it in beside.items()}
        lines, alike = [], True
        for what, text in list(books_of(keys, target))[:4]:
            pathlib.Path(book).write_text(text)
            cells, said = [], set()
            for name, one in by.items():
                state = f"{folder}/{name}"
                if "same state" in name and not os.path.exists(state):
                    open(state, "ab").close()
                outs, milliseconds, megabytes = least(one, state, folder)
                said |= outs
                cells.append(f"{milliseconds:.0f} ms, {megabytes:.0f} MB")
            alike &= len(said) == 1
            lines.append(f"| {what} | {' | '.join(cells)} |")
    head = f"| {keys:,} keys | {' | '.join(by)} |\n|{'---|' * (len(by) + 1)}"
    table = "\n".join([head, *lines])
    print(table if alike else table + "\nTHE REPLIES DIFFER")
    if "--write" in words and alike:
        text = README.read_text()
        README.write_text(text[: text.index(BEGIN) + len(BEGIN)] + f"\n\n{table}\n\n" + text[text.index(END) :])
    return 0 if alike else 1


if __name__ == "__main__":
    sys.exit(main(*sys.argv[1:]))
