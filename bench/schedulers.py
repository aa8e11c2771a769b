#!/usr/bin/env python3
"""Measures the schedulers: schedulers.py PROGRAM

On the generated books of 8,192 and 65,536 keys the suspending one is compared with the topological one, from nothing and
where nothing changed: instructions, counted by callgrind, of at most 1.15 times. The restarting one is compared with the
suspending one: at most 1.4 times from nothing, where all but one of the runs begin twice, and 1.05 times where nothing changed
and the kept chain is right. A rule that asks for 1,000, 5,000 and 10,950 rules one
after the other, none of them finished (GATHER over a text of their names), may cost a tenth more for each name at most with
10,950 than with 1,000: look-ups in ordered maps are in that. Beside it stands a build of the same book in which sums of 400
ask for them in its place. Of chains of 65,536 keys, the longest that a book holds, with names of the least and of the
greatest length, time and memory are told. It ends with 1 where a bound isn't kept.
"""
import os
import pathlib
import sys
import tempfile

from builds import instructions, run_bare
from generated import generated

SEED, GROWTH = 1, 1.1
SCHEDULERS = ("topological", "restarting", "suspending")
# One scheduler, the one that it is compared with, and the greatest ratios from nothing and where nothing changed.
COMPARED = [("suspending", "topological", (1.15, 1.15)), ("restarting", "suspending", (1.4, 1.05))]


def words_of(program, folder, text, targets, *options):
    """The words of a build of this text over a new state."""
    book, state = f"{folder}/book.toml", f"{folder}/state"
    pathlib.Path(book).write_text(text)
    pathlib.Path(state).unlink(missing_ok=True)
    return [program, "build", book, state, *targets, *options]


def pair(program, folder, keys, scheduler):
    """Instructions of a build from nothing, and of the same build again."""
    words = words_of(program, folder, generated(SEED, keys), [f"k{keys - 1}"], "--scheduler", scheduler)
    counts = [instructions(words, folder) for _ in range(2)]
    assert "given up 0," in counts[1][0] and (scheduler == "restarting" or "given up 0," in counts[0][0]), counts
    return [count for _, count in counts]


def compared(program, folder, keys):
    counts = {scheduler: pair(program, folder, keys, scheduler) for scheduler in SCHEDULERS}
    kept = True
    for scheduler, other, bounds in COMPARED:
        for name, count, beside, bound in zip(("from nothing", "nothing changed"), counts[scheduler], counts[other], bounds):
            print(f"{keys} keys, {name}: {other} {beside / keys:.0f}, {scheduler} {count / keys:.0f} instructions a key, "
                  f"ratio {count / beside:.3f} (at most {bound})", flush=True)
            kept &= count <= bound * beside
    return kept


def gathering(count):
    """A book of so many rules, one that gathers them all, and one that needs each of them by a tree of sums."""
    names = [f"a{at}" for at in range(count - 1)] + ["bb"]
    lines = ["[inputs]", "x = 1", 'list = "' + "\\n".join(names) + '"', "[rules]", *(f'{name} = "x+1"' for name in names)]
    tops = []
    for at in range(0, count, 400):
        tops.append(f"s{at}")
        lines.append(f's{at} = "{"+".join(names[at:at + 400])}"')
    return "\n".join([*lines, 't = "LEN(GATHER(list))"']) + "\n", tops


def gathers(program, folder):
    costs = []
    for count in (1_000, 5_000, 10_950):
        text, tops = gathering(count)
        whole = instructions(words_of(program, folder, text, ["t"]), folder)
        bare = instructions(words_of(program, folder, text, tops), folder)
        assert f"ran {count + 1}," in whole[0] and f"ran {count + len(tops)}," in bare[0], (whole, bare)
        costs.append(whole[1] / count)
        print(f"GATHER of {count} unfinished rules: {costs[-1]:.0f} instructions a name, {bare[1] / count:.0f} where sums ask for them",
              flush=True)
    return costs


def chain(count, width):
    name = lambda at: f"k{at}".ljust(width, "_")
    rules = (f'{name(at)} = "{name(at - 1)}+1"' for at in range(1, count))
    return "\n".join(["[inputs]", f"{name(0)} = 0", "[rules]", *rules]) + "\n", name(count - 1)


def chains(program, folder):
    for width in (1, 64):
        text, target = chain(65_536, width)
        for scheduler in SCHEDULERS:
            words = words_of(program, folder, text, [target], "--scheduler", scheduler)
            for name in ("from nothing", "nothing changed"):
                seconds, memory = run_bare(words)
                print(f"a chain of 65536 keys of {width if width > 1 else 'up to 6'} bytes, {scheduler}, {name}: {seconds:.2f} s of user and "
                      f"system time, {memory} KB", flush=True)


def main(program):
    program = os.path.abspath(program)
    with tempfile.TemporaryDirectory() as folder:
        kept = [compared(program, folder, keys) for keys in (8_192, 65_536)]
        costs = gathers(program, folder)
        chains(program, folder)
    return 0 if all(kept) and max(costs) <= GROWTH * costs[0] else 1


if __name__ == "__main__":
    sys.exit(main(*sys.argv[1:]))
