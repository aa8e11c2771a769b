#!/usr/bin/env python3
"""Measures builds by several workers: workers.py PROGRAM [RULES]

A sheet of 2,000 rules, each of which sums 20,000 cells (200 cells, a hundred times), is built with every rule as a target, so that
one wave has them all: by the clock four workers may take half as long as one, reading the book and keeping what was made in that.
Sheets of fewer rules, of which each sums fewer cells, show from where on workers pay.
On the generated book of 65,536 keys each wave is one rule, and no thread is worth its while: the instructions of four workers,
counted by callgrind, may be 1.3 times those of one. Of each the time of processors is told too, and of the sheet also two workers
and seven. Replies are the same for every number of workers, and the state's bytes for every number above one. It ends with 1 where
a bound isn't kept.
"""
import os
import pathlib
import resource
import subprocess
import sys
import tempfile
import time

from builds import instructions

TURNS, HALF, EQUAL = 5, 0.5, 1.3


def sheet(rules):
    """Rows of ten numbers, and beside them one rule a row."""
    sums = "+".join(["SUM(A1:J20)"] * 100)
    rows = [",".join([str(10 * at + column) for column in range(10)] if at < 20 else [""] * 10) for at in range(rules)]
    return "".join(f"{row},={sums}+{at}\n" for at, row in enumerate(rows))


def timed(words, state):
    """What a build from nothing says, its time by the clock and of processors, and what it keeps."""
    pathlib.Path(state).unlink(missing_ok=True)
    before, began = resource.getrusage(resource.RUSAGE_CHILDREN), time.monotonic()
    done = subprocess.run(words, capture_output=True, check=True)
    clock, after = time.monotonic() - began, resource.getrusage(resource.RUSAGE_CHILDREN)
    return done.stdout, clock, after.ru_utime + after.ru_stime - before.ru_utime - before.ru_stime, pathlib.Path(state).read_bytes()


def wide(program, folder, rules):
    """The least times of some turns, in each of which every number of workers has one."""
    book, state, found = f"{folder}/book.csv", f"{folder}/state", {}
    pathlib.Path(book).write_text(sheet(rules))
    words = [program, "build", book, state, *(f"K{at + 1}" for at in range(rules)), "--workers"]
    for _ in range(TURNS):
        for workers in (1, 2, 4, 7):
            found.setdefault(workers, []).append(timed([*words, str(workers)], state))
    said, kept = found[1][0][0], found[2][0][3]
    assert f"ran {rules}, given up 0, reused 0" in said.decode(), said[-100:]
    assert all(it[0] == said for turns in found.values() for it in turns)
    assert all(it[3] == kept for workers, turns in found.items() for it in turns if workers > 1)
    clock = {workers: min(it[1] for it in turns) for workers, turns in found.items()}
    for workers, turns in found.items():
        print(f"{rules} rules of 20000 cells, workers {workers}: {clock[workers]:.2f} s by the clock, {min(it[2] for it in turns):.2f} s of "
              f"processors, ratio {clock[workers] / clock[1]:.2f}{f' (at most {HALF})' if workers == 4 else ''}", flush=True)
    return clock[4] <= HALF * clock[1]


def shallow(width, cells):
    """Rules that sum so many cells each, beside rows of ten numbers."""
    rows = [",".join([str(10 * at + column) for column in range(10)] if at < 20 else [""] * 10) for at in range(width)]
    sums = "+".join(["SUM(A1:J20)"] * (cells // 200) or [f"SUM(A1:A{cells})"])
    return "".join(f"{row},={sums}+{at}\n" for at, row in enumerate(rows))


def pays(program, folder):
    """From which cost of a rule, and which number of rules beside one another, two and four workers pay."""
    book, state = f"{folder}/book.csv", f"{folder}/state"
    for width in (100, 500, 2_000):
        for cells in (20, 200, 2_000):
            pathlib.Path(book).write_text(shallow(width, cells))
            words = [program, "build", book, state, *(f"K{at + 1}" for at in range(width)), "--workers"]
            clock = {workers: min(timed([*words, str(workers)], state)[1] for _ in range(2 * TURNS)) for workers in (1, 2, 4)}
            print(f"{width} rules of {cells} cells: {1000 * clock[1]:.1f} ms by one worker, by two {clock[2] / clock[1]:.2f} of that, "
                  f"by four {clock[4] / clock[1]:.2f}", flush=True)
    return True


def narrow(program, folder, keys):
    counts, said = {}, {}
    for workers in (1, 4):
        words = [program, "generate", "none", f"{folder}/made{workers}", "1", str(keys), "--workers", str(workers)]
        said[workers], counts[workers] = instructions(words, folder)
        _, clock, processors, _ = timed(words, f"{folder}/made{workers}")
        print(f"generated book of {keys} keys, workers {workers}: {counts[workers] / keys:.0f} instructions a key, {clock:.2f} s by the "
              f"clock, {processors:.2f} s of processors", flush=True)
    assert said[1] == said[4] and "given up 0," in said[1], said
    print(f"generated book of {keys} keys: ratio {counts[4] / counts[1]:.2f} (at most {EQUAL})", flush=True)
    return counts[4] <= EQUAL * counts[1]


def main(program, rules=2_000):
    program = os.path.abspath(program)
    with tempfile.TemporaryDirectory() as folder:
        kept = [wide(program, folder, int(rules)), pays(program, folder), narrow(program, folder, 65_536)]
    return 0 if all(kept) else 1


if __name__ == "__main__":
    sys.exit(main(*sys.argv[1:]))
