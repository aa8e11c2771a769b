#!/usr/bin/env python3
"""Where the instructions of a build go: profile.py PROGRAM [KEYS]

Two builds of a generated book, from nothing and where nothing changed, counted by callgrind. Of each part the instructions a key of
the book, and how much of the whole it is; a part holds all that its functions call. Those that are printed as parts of another are in
it, and what no line names is left out. It has no bound.
"""
import os
import pathlib
import re
import subprocess
import sys
import tempfile

from builds import SEED
from generated import generated

PARTS = [
    ("reading the book", [r"carte_rules::read::read_text"]),
    ("- of it formulas", [r"carte_rules::rules::read_formula"]),
    ("loading the state", [r"carte_top::open::open"]),
    ("what the build begins with", [r"carte_engine::basis::begin_on"]),
    ("jobs: beginning, turns and checks", [r"carte_suspend::building::build"]),
    ("- of it turns of the bench", [r"carte_bench::bench::Bench::turn_to"]),
    ("the batches", [r"carte_engine::planned::batches_of"]),
    ("committing them", [r"carte_engine::engine::Engine::commit_one"]),
    ("from the end of the build to the answer", [r"carte_engine::reckon::reckon"]),
    ("putting batches into what is kept, here or as a state is loaded", [r"carte_record::kept::Kept::absorb"]),
    ("digests of tasks, wherever they are taken or looked at", [r"carte_book::book::Rule::digest"]),
    ("SHA-256, wherever it is called", [r"sha2::block256::compress"]),
    ("the allocator, wherever it is called", [r"rattle_alloc", r"rattle_realloc", r"rattle_dealloc"]),
]


def counted(words, folder):
    """All instructions, and those of each function with what it calls."""
    subprocess.run(["valgrind", "--tool=callgrind", f"--callgrind-out-file={folder}/callgrind", *words], capture_output=True, check=True)
    done = subprocess.run(["callgrind_annotate", "--inclusive=yes", "--show-percs=no", "--threshold=100", f"{folder}/callgrind"],
                          capture_output=True, text=True, check=True)
    found = {}
    for count, name in re.findall(r"^\s*([\d,]+)\s+\S*?:([^\s']+)", done.stdout, re.M):
        found.setdefault(name, int(count.replace(",", "")))
    return int(re.search(r"([\d,]+) +PROGRAM TOTALS", done.stdout)[1].replace(",", "")), found


def part(found, names):
    return sum(max((count for name, count in found.items() if re.match(it + r"(::<|$)", name)), default=0) for it in names)


def main(program, *words):
    keys, program = int(words[0]) if words else 65_536, os.path.abspath(program)
    with tempfile.TemporaryDirectory() as folder:
        pathlib.Path(f"{folder}/book.toml").write_text(generated(SEED, keys))
        build = [program, "build", f"{folder}/book.toml", f"{folder}/state", f"k{keys - 1}"]
        builds = [counted(build, folder) for _ in range(2)]
    print(f"| {keys:,} keys | from nothing | | nothing changed | |\n|---|---|---|---|---|")
    for name, names in [("all", None), *PARTS]:
        cells = [(whole if names is None else part(found, names), whole) for whole, found in builds]
        print(f"| {name} | " + " | ".join(f"{count / keys:,.0f} | {100 * count / whole:.0f} %" for count, whole in cells) + " |")
    return 0


if __name__ == "__main__":
    sys.exit(main(*sys.argv[1:]))
