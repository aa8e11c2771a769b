#!/usr/bin/env python3
"""Compares a program with the second reading over random histories: histories.py PROGRAM COUNT SEED [OPTIONS]

A history is one state file and some runs over it, with random edits of the book between them: inputs changed, put
back and deleted, rules changed, put back, added and deleted, inputs that become rules and rules that become inputs, other
targets, now and then a `clean`. OPTIONS is any of the words
`rebuilders` and `schedulers`: each run then chooses one at random and names it by its option, and with a suspending scheduler
a number of workers, with `--list` now and then; without them the runs have no option, and are those of the suspending scheduler and of verifying traces. With the
word `topological` each run names that scheduler. With `sheets` every second history is one of sheets. A run in which nothing changes must
leave the state file as it was. At the end stands how many runs ended with each status.
"""
import collections
import csv
import io
import pathlib
import random
import subprocess
import sys
import tempfile

from engine import Kept, build
from random_books import VALUES, CellMaker, Maker, toml
from reference import Fault, read_book
from sheets import read_sheet

REBUILDERS = ["dirty", "verifying", "constructive", "deep"]
SCHEDULERS = ["topological", "restarting", "suspending"]


class History:
    """A book that is edited, as lists of its keys with what stands there."""

    file, reader, maker = "book.toml", staticmethod(read_book), Maker

    def __init__(self, seed):
        self.random = random.Random(seed)
        self.maker = self.maker(f"{seed}/book")
        self.maker.broken = self.maker.fault = False
        self.inputs = {self.maker.key(key): self.random.choice(VALUES) for key in range(self.maker.inputs)}
        self.rules = dict(self.maker.rules())
        self.first, self.original = dict(self.inputs), dict(self.rules)

    def edit(self):
        for _ in range(self.random.choice([0, 1, 1, 2])):
            kind = self.random.random()
            key = self.random.choice(list(self.first))
            if kind < 0.4:
                self.put(key, self.inputs, self.random.choice(VALUES))
            elif kind < 0.6:
                self.put(key, self.inputs, self.first[key])
            elif kind < 0.7:
                self.inputs.pop(key, None)
            elif kind < 0.95:
                self.edit_rule()
            else:
                self.change_role()

    def put(self, key, table, item):
        """A name is an input or a rule, and not both."""
        self.inputs.pop(key, None)
        self.rules.pop(key, None)
        table[key] = item

    def edit_rule(self):
        number = self.random.randrange(self.maker.inputs, self.maker.count)
        key, kind = self.maker.key(number), self.random.random()
        if kind < 0.2:
            self.rules.pop(key, None)
        elif kind < 0.4 and key in self.original:
            self.put(key, self.rules, self.original[key])
        else:
            self.put(key, self.rules, self.maker.formula(number, 2))

    def change_role(self):
        """An input becomes a rule, or a rule an input."""
        number = self.random.randrange(self.maker.count)
        key = self.maker.key(number)
        if key in self.rules:
            self.put(key, self.inputs, self.random.choice(VALUES))
        else:
            self.put(key, self.rules, self.maker.formula(number, 2))

    def book(self):
        rows = lambda table: "".join(f"{key} = {toml(item)}\n" for key, item in table.items())
        return ("[inputs]\n" + rows(self.inputs) + "[rules]\n" + rows(self.rules)).encode()

    def targets(self):
        return [target.encode() for target in self.maker.targets() if target != "nowhere"]

    def options(self, choices):
        rebuilder, scheduler, listed, words = "verifying", "suspending", False, []
        if "topological" in choices:
            scheduler = "topological"
            words += ["--scheduler", scheduler]
        if "rebuilders" in choices:
            rebuilder = self.random.choice(REBUILDERS)
            words += ["--rebuilder", rebuilder]
        if "schedulers" in choices:
            scheduler = self.random.choice(SCHEDULERS)
            words += ["--scheduler", scheduler]
            workers = self.random.choice(("1", "2", "64"))
            words += ["--workers", workers] if scheduler == "suspending" else []
        if words and self.random.random() < 0.3:
            listed = True
            words.append("--list")
        return scheduler, rebuilder, listed, words


class SheetHistory(History):
    file, reader, maker = "book.csv", staticmethod(read_sheet), CellMaker

    def field(self, key):
        return "=" + self.rules[key] if key in self.rules else str(self.inputs.get(key, ""))

    def book(self):
        text = io.StringIO(newline="")
        rows = csv.writer(text, lineterminator="\n")
        for row in range(self.maker.count // 4 + 1):
            rows.writerow(self.field(self.maker.key(4 * row + column)) for column in range(4))
        return text.getvalue().encode()


def run(program, folder, words):
    done = subprocess.run([program, *words], cwd=folder, stdin=subprocess.DEVNULL, timeout=120, capture_output=True)
    return done.returncode, done.stdout, done.stderr


def expected(history, kept, book, targets, scheduler, rebuilder, listed):
    try:
        inputs, rules = history.reader(book)
    except Fault as fault:
        return (1, b"", b"carte: book refused: " + str(fault).encode() + b"\n"), kept
    is_sheet = history.reader is read_sheet
    answer, _, left = build(kept, inputs, rules, targets, scheduler, rebuilder, listed, is_sheet)
    if isinstance(answer, bytes):
        return (0, answer, b""), left
    reason, path = answer
    return (3, b"", b"carte: " + reason.encode() + b": " + b" -> ".join(path) + b"\n"), left


def follow(program, folder, seed, choices, statuses, runs=6):
    """None where the history went as worked out, and else what differs."""
    kind = SheetHistory if "sheets" in choices and random.Random(f"{seed}/kind").random() < 0.5 else History
    history, kept, state = kind(seed), Kept(), folder / "state"
    state.unlink(missing_ok=True)
    for number in range(runs):
        if number:
            history.edit()
        if number and history.random.random() < 0.05:
            got, kept = run(program, folder, ["clean", history.file, "state"]), Kept()
            if got != (0, b"cleaned\n", b""):
                return f"clean: {got}"
        book, targets = history.book(), history.targets()
        scheduler, rebuilder, listed, words = history.options(choices)
        (folder / history.file).write_bytes(book)
        before = state.read_bytes() if state.exists() else b""
        wanted, left = expected(history, kept, book, targets, scheduler, rebuilder, listed)
        got = run(program, folder, ["build", history.file, "state", *words, *(target.decode() for target in targets)])
        if got != wanted:
            return f"run {number} {words} {targets}:\n{book.decode()}\nwanted {wanted}\ngot    {got}"
        if left == kept and state.read_bytes() != before:
            return f"run {number} {words} {targets} changes nothing, and the state file changed:\n{book.decode()}"
        statuses[wanted[0]] += 1
        kept = left
    return None


def main(program, count, seed, *choices):
    sys.setrecursionlimit(20_000)
    statuses = collections.Counter()
    with tempfile.TemporaryDirectory() as folder:
        for number in range(int(count)):
            wrong = follow(pathlib.Path(program).resolve(), pathlib.Path(folder), f"{seed}/{number}", choices, statuses)
            if wrong:
                print(f"history {number}, {wrong}")
                return 1
    for status, times in sorted(statuses.items()):
        print(f"status {status}: {times}")
    print(f"histories: {count} alike")
    return 0


if __name__ == "__main__":
    sys.exit(main(*sys.argv[1:]))
