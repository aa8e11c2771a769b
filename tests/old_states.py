#!/usr/bin/env python3
"""Drives the built program over states of version 1: old_states.py [PROGRAM [TRIM]] [--old OLD] [--histories N] [--seed S] [--stride N] [--only PART]

PROGRAM is `carte`, TRIM `carte_trim_main`, and OLD a program that writes version 1; without it that of the release of 0.13.0 is taken
out of the repository. By hand: the small state, with just its rules, with other ones, explained, cleared, and in sessions; bodies of both
versions in each order, and kinds that there aren't. Random histories under each rebuilder that OLD made: what a build, an explanation or
a session over them answers is what OLD answers, and its values are those of a build from nothing; what the file is then, byte for byte, is
worked out by the second reading (`states.py`, `tasks.py`); so is what a run finds that was cut off between the migration and its own
parts; and rules are edited behind it. With --stride only each Nth bit of a state of either version is turned. Each part prints how many of
its checks passed; a check that fails is printed, and the end is 1 then.
"""
import argparse
import collections
import pathlib
import random
import shutil
import subprocess
import sys
import tempfile
from dataclasses import dataclass, field

import batches
import states
import tasks
from formulas import Fault
from rewriting import images, kept_of, traced  # before full_states, behind which bench/rewriting.py would be found
from full_states import FIRST, NOW, book, worst
from histories import REBUILDERS, SCHEDULERS, History, SheetHistory
from sessions import Lines, Runs, run
from sheets import read_sheet

TOP = pathlib.Path(__file__).resolve().parent.parent
RELEASE = "56b2c127:release/carte"
SMALL = '[inputs]\na1 = 10\na2 = 20\n[rules]\nb1 = "a1+a2"\nb2 = "{}"\n'
BUILD = ["build", "small.toml", "state", "b2"]
OLD_STATE = (19, b"", b"carte_trim: the state is of version 1: build with it first\n")


# Version 1, a second time

class One(batches.Reader):
    """Reads a body of version 1, whose start is "go on", "cleared" or a digest."""

    def start(self):
        kind = self.byte(2)
        return self.digest() if kind == 1 else ["go on", None, "cleared"][kind]

    def entry(self):
        return (self.name(), self.digest(), self.byte(1), self.list(self.name))

    def trace(self):
        return (self.name(), self.list(self.link), self.digest())

    def batch(self):
        if self.byte() != 1:
            raise batches.NoBatch
        front = (self.start(), *[self.list(item) for item in (self.value, self.link, self.name, self.entry)])
        found = (*front, *[self.list(self.trace) for _ in states.WAYS], self.chain())
        if self.at != len(self.body):
            raise batches.NoBatch
        return found


@dataclass
class KeptOne:
    rules: bytes = None
    values: list = field(default_factory=list)
    seen: dict = field(default_factory=dict)
    entries: dict = field(default_factory=dict)
    stale: set = field(default_factory=set)
    traces: dict = field(default_factory=lambda: {way: [] for way in states.WAYS})
    chain: list = field(default_factory=list)

    def add(self, batch):
        start, values, seen, stale, entries, *traces, chain = batch
        if start != "go on":
            self.__init__(None if start == "cleared" else start)
        self.values += values
        self.seen.update(seen)
        self.stale |= {name for name in stale if name in self.entries}
        self.entries.update((entry[0], entry) for entry in entries)
        self.stale -= {entry[0] for entry in entries}
        for way, more in zip(states.WAYS, traces):
            self.traces[way] += more
        self.chain = self.chain if chain is None else chain


def fold_one(data):
    kept = KeptOne()
    for _, body in states.read(data).bodies:
        kept.add(One(body).batch())
    return kept


def raised(old, rules, is_sheet):
    """What is kept in version 1 under the tasks of these rules, without its deep traces: nothing where its rules are others."""
    every, each = tasks.all_rules(rules, is_sheet), tasks.tasks(rules, is_sheet)
    if old.rules != every:
        return states.Kept()
    entries = {name: (name, each[name], *rest) for name, *rest in old.entries.values()}
    traces = {way: [(name, each[name], tuple(links), result) for name, links, result in old.traces[way] if way != "deep"] for way in states.WAYS}
    return states.Kept(old.values, old.seen, entries, old.stale, traces, old.chain)


def migrated(data, rules, is_sheet):
    """The body that makes version 2 of a state of version 1."""
    live = states.live(raised(fold_one(data), rules, is_sheet))
    batch = batches.read(live[0]) if live else (None, *[[]] * 8, None)
    return batches.spell(("cleared", *batch[1:]))


def is_old(data):
    bodies = states.read(data).bodies
    return bool(bodies) and bodies[-1][1][0] == 1


def small_one():
    """The batch of version 1 of the small state, under its rules."""
    _, values, _, seen, entries, _, verifying, *_ = batches.small()
    every = tasks.all_rules({b"b1": ("ref", b"a1+a2"), b"b2": ("ref", b"b1*2")}, False)
    entry = lambda it: batches.spell_name(it[0]) + it[2] + bytes([it[3]]) + batches.spell_names(it[4])
    trace = lambda it: batches.spell_name(it[0]) + batches.spell_links(it[2]) + it[3]
    lists = [batches.spell_values(values), batches.spell_links(seen), batches.count([])]
    lists += [batches.count(entries) + b"".join(map(entry, entries)), batches.count(verifying) + b"".join(map(trace, verifying))]
    return b"\1\1" + every + b"".join(lists) + 2 * batches.count([]) + b"\0"


# By hand

class Both:
    """The folder in which both programs run, each over a state of its own."""

    def __init__(self, program, trim, old, folder):
        self.runs, self.old, self.trim = Runs(program, folder), Runs(old, folder), Runs(trim, folder) if trim.exists() else None
        self.folder = self.runs.folder

    def read(self, name="state"):
        return (self.folder / name).read_bytes() if (self.folder / name).exists() else b""

    def over(self, state, words, script=b""):
        self.runs.put("state", state)
        return run(self.runs, words, script)


def built(ran, value=60, reused=0):
    return (0, b"b2 = %d\nran %d, given up 0, reused %d\n" % (value, ran, reused), b"")


def by_hand(both):
    """The small state of 437 bytes: what each command answers, and what the file is then."""
    runs, old = both.runs, states.committed(b"", small_one())
    runs.same("a length", len(old), 437)
    runs.put("small.toml", SMALL.format("b1*2"))
    runs.same("its own rules", both.over(old, BUILD), built(0, reused=2))
    runs.same("its file", both.read() == states.committed(old, batches.spell(("cleared", *batches.small()[1:]))) and len(both.read()), 965)
    runs.same("and again", (run(runs, BUILD, b""), len(both.read())), (built(0, reused=2), 965))
    explain = ["explain", "small.toml", "state", "b2", "b1", "a1"]
    runs.same("explained", (both.over(old, explain), both.read()), ((0, b"b2 reusable\nb1 reusable\na1 is an input\n", b""), old))
    runs.same("cleared", (both.over(old, ["clean", "small.toml", "state"]), both.read()),
              ((0, b"cleaned\n", b""), states.committed(old, batches.spell(("cleared", *[[]] * 8, None)))))
    script = b"explain b2\nset a1 11\nbuild b2\nexplain b2\nset a1 10\nbuild b2\nclean\nbuild b1\n"
    said = b"b2 reusable\nset a1\nb2 = 62\nran 2, given up 0, reused 0\nb2 reusable\nset a1\nb2 = 60\nran 2, given up 0, reused 0\ncleaned\nb1 = 30\nran 1, given up 0, reused 0\n"
    runs.same("a session", both.over(old, ["session", "small.toml", "state"], script), (0, said, b""))
    runs.put("small.toml", SMALL.format("b1*3"))
    runs.same("other rules", both.over(old, BUILD), built(2, 90))
    runs.same("their file", len(both.read()), 1_005)
    runs.same("explained under them", (both.over(old, explain), both.read()), ((0, b"b2 runs: no record\nb1 runs: no record\na1 is an input\n", b""), old))
    if both.trim:
        runs.put("state", old)
        runs.same("trimmed", run(both.trim, ["state", "new", "1"], b""), OLD_STATE)
        runs.same("and nothing was written", (both.read(), len(both.read("new")) <= 9), (old, True))


def kind_three(both):
    """A state of kind 3 keeps all but its deep traces, which name no rules."""
    runs, (start, values, gone, seen, entries, stale, *_) = both.runs, batches.small()
    every = tasks.all_rules({b"b1": ("ref", b"a1+a2"), b"b2": ("ref", b"b1*2")}, False)
    deep = [(name, every, seen, result) for name, _, result, *_ in entries]
    runs.put("small.toml", SMALL.format("b1*2"))
    old = states.committed(b"", batches.spell((start, values, gone, seen, entries, stale, [], [], deep, None), 3))
    runs.same("deep traces of kind 3", both.over(old, [*BUILD, "--rebuilder", "deep"]), built(2))
    runs.same("and again", run(runs, [*BUILD, "--rebuilder", "deep"], b""), built(0, reused=1))
    old = states.committed(b"", batches.spell(batches.small(), 3))
    runs.same("verifying ones", (both.over(old, BUILD), both.read()), (built(0, reused=2), old))


def orders(both):
    """Bodies of both versions in each order, and kinds that there aren't."""
    runs, one, three, four = both.runs, small_one(), batches.spell(batches.small(), 3), batches.spell(batches.small())
    cleared = {kind: batches.spell(("cleared", *batches.small()[1:]), kind) for kind in (3, 4)}
    runs.put("small.toml", SMALL.format("b1*2"))
    bad = lambda at: (7, b"", b"carte: bad state at byte %d\n" % at)
    cases = [
        ("1 behind 4", [four, one], 536), ("1 behind 3", [three, one], 536), ("3 behind 4", [four, three], 536), ("4 behind 3", [three, four], None),
        ("3 behind 3", [three, three], None), ("3 behind 3 and 4", [three, four, three], 536 + 5 + len(four)), ("1 behind 1", [one, one], None),
        ("3 behind 1 and 4", [one, cleared[4], three], 436 + 5 + len(four)), ("4 behind 1 and 3", [one, cleared[3], four], None),
    ]
    for kind, plain in ((3, three), (4, four)):
        cases += [(f"1 behind 1 and {kind}", [one, cleared[kind], one], 436 + 5 + len(plain)), (f"{kind} behind 1, not cleared", [one, plain], 436),
                  (f"{kind} behind 1, cleared", [one, cleared[kind]], None), (f"{kind} behind both", [one, cleared[kind], plain], None)]
    cases += [(f"kind {kind} behind {len(front)}", [*front, bytes([kind]) + four[1:]], 8 + sum(5 + len(body) for body in front))
              for kind in (0, 2, 5, 255) for front in ([], [one], [three], [four])]
    for what, bodies, at in cases:
        data = b""
        for body in bodies:
            data = states.committed(data, body)
        for words in (BUILD, ["explain", *BUILD[1:]], ["clean", *BUILD[1:3]]):
            got = both.over(data, words)
            runs.same(f"{what}, {words[0]}", got if at is not None else got[0], bad(at) if at is not None else 0)
            runs.same(f"{what}, {words[0]}: nothing is written", at is None or both.read() == data, True)


# Histories

def choices(chance, rebuilder):
    scheduler = chance.choice(SCHEDULERS)
    workers = ["--workers", chance.choice(("1", "2", "64"))] if scheduler == "suspending" else []
    return ["--rebuilder", rebuilder, "--scheduler", scheduler, *workers]


def values_of(reply):
    """What a build says of its targets, or why it refuses."""
    status, out, err = reply
    return status, out.split(b"\nran ")[0], err


def written(both, what, before, after, history):
    """The file behind a build over a state of version 1: the migration, and then what the build brings."""
    rules = history.reader(history.book())[1]
    start = states.committed(before, migrated(before, rules, history.reader is read_sheet))
    bodies = [body for _, body in states.read(after).bodies]
    count = len(states.read(start).bodies)
    both.runs.same(f"{what}: the migration", bodies[:count] == [body for _, body in states.read(start).bodies], True)
    predicted = start
    for body in bodies[count:]:
        predicted, _ = states.predicted(predicted, body, first=False)
    both.runs.same(f"{what}: each byte", predicted == after, True)
    return start


def answers(both, what, before, history, chance, rebuilder, counts):
    """What commands over a state of version 1 answer is what the earlier program answers over it, but under deep traces, which aren't kept:
    then what it answers over nothing."""
    runs, targets, found = both.runs, [it.decode() for it in history.targets()], b"" if rebuilder == "deep" else before
    words = choices(chance, rebuilder)
    # Over nothing there is no chain either, which tells a build that restarts where to begin.
    as_told = values_of if rebuilder == "deep" and "restarting" in words else lambda reply: reply
    listed = [history.file, "state", *words, *targets]
    runs.put(history.file, history.book())
    runs.put("state", found)
    wanted = run(both.old, ["build", *listed, "--list"], b"")
    got = both.over(before, ["build", *listed, "--list"])
    runs.same(f"{what}, a build {listed}:\n{history.book().decode()}", as_told(got), as_told(wanted))
    counts["refused" if wanted[0] == 3 else "reused" if wanted[0] == 0 and b"reused 0" not in wanted[1] else "ran"] += 1
    if wanted[0] == 1:
        return
    after = both.read()
    start = written(both, what, before, after, history) if is_old(before) else b""
    if start:
        runs.same(f"{what}, cut off behind the migration", as_told(both.over(start, ["build", *listed, "--list"])), as_told(wanted))
    runs.same(f"{what}, from nothing", values_of(both.over(b"", ["build", *listed])), values_of(wanted))
    runs.put("state", found)
    told = run(both.old, ["explain", *listed], b"")
    runs.same(f"{what}, explained", (both.over(before, ["explain", *listed]), both.read()), (told, before))
    script = Lines(history, chance, collections.Counter()).script(8)
    runs.put("state", found)
    said = run(both.old, ["session", history.file, "state", *words], script)
    got = both.over(before, ["session", history.file, "state", *words], script)
    runs.same(f"{what}, a session {words}:\n{history.book().decode()}\n{script}", as_told(got), as_told(said))
    runs.put("state", after)


def edits(both, what, history, chance, rebuilder):
    """Edits of rules behind the migration: the values are those of a build from nothing."""
    for _ in range(2):
        history.edit_rule()
        both.runs.put(history.file, history.book())
        listed = [history.file, "state", *choices(chance, rebuilder), *[it.decode() for it in history.targets()]]
        got, after = run(both.runs, ["build", *listed], b""), both.read()
        both.runs.same(f"{what}, edited {listed}:\n{history.book().decode()}", values_of(got), values_of(both.over(b"", ["build", *listed])))
        both.runs.put("state", after)


def one_history(both, rebuilder, number, seed, counts):
    chance = random.Random(f"{seed}/old/{rebuilder}/{number}")
    history = (SheetHistory if number % 3 == 0 else History)(f"{seed}/old/{rebuilder}/{number}")
    both.runs.put("state", b"")
    for _ in range(chance.randint(1, 5)):
        other = rebuilder if chance.random() < 0.7 else chance.choice(REBUILDERS)
        both.runs.put(history.file, history.book())
        run(both.old, ["build", history.file, "state", *choices(chance, other), *[it.decode() for it in history.targets()]], b"")
        if chance.random() < 0.05:
            run(both.old, ["clean", history.file, "state"], b"")
        if chance.random() < 0.5:
            history.edit()
    before, what = both.read(), f"history {number} under {rebuilder}"
    answers(both, what, before, history, chance, rebuilder, counts)
    edits(both, what, history, chance, rebuilder)


def histories(both, count, seed):
    for rebuilder in REBUILDERS:
        counts = collections.Counter()
        for number in range(count):
            try:
                one_history(both, rebuilder, number, seed, counts)
            except Fault:
                counts["no book"] += 1
        print(f"{rebuilder}: {count} states, " + ", ".join(f"{times} {what}" for what, times in sorted(counts.items())), flush=True)


# Crashes

def kept_in(data):
    """What a file keeps, of either version."""
    return fold_one(data) if is_old(data) else kept_of(data)


def crashes(both):
    """Each image that a crash in a build over version 1 may leave keeps what was kept before, behind the migration, or behind the build's own part; a run over it answers rightly."""
    if not shutil.which("strace"):
        print("crashes: left out, since strace isn't here")
        return
    runs, seen = both.runs, collections.Counter()
    for rebuilder in REBUILDERS:
        words = [*BUILD[:2], "calls", "b2", "--rebuilder", rebuilder]
        runs.put("small.toml", SMALL.format("b1*2"))
        runs.put("calls", b"")
        run(both.old, words, b"")
        before = both.read("calls")
        for what, text, value in (("as it was", SMALL.format("b1*2"), 60), ("another input", SMALL.format("b1*2").replace("10", "11"), 62), ("another rule", SMALL.format("b1*3"), 90), ("refused", SMALL.format("b1*nowhere"), None)):
            runs.put("small.toml", text)
            runs.put("calls", before)
            status, calls = traced(runs, words)
            now, stations = before, [kept_in(before)]
            for call in calls:
                now = now if call is None else states.put(now, *call)
                stations += [kept_in(now)] * (call is None)
            runs.same(f"{rebuilder}, {what}: its end", (status, now), (3 if value is None else 0, both.read("calls")))
            for image in dict.fromkeys(images(before, calls)):
                seen[rebuilder] += 1
                runs.same(f"{rebuilder}, {what}: an image keeps a station", kept_in(image) in stations, True)
                runs.put("calls", image)
                wanted = (3, b"", b"carte: missing: b2 -> nowhere\n") if value is None else (0, b"b2 = %d" % value, b"")
                runs.same(f"{rebuilder}, {what}: the next run", values_of(run(runs, words, b"")), wanted)
    print("images: " + ", ".join(f"{times} under {rebuilder}" for rebuilder, times in seen.items()), flush=True)


# Turned bits

def as_three(data):
    """A state of kind 4 as one of kind 3, whose deep traces name the task of their key."""
    old = b""
    for _, body in states.read(data).bodies:
        *front, deep, chain = batches.read(body)
        old = states.committed(old, batches.spell((*front, [(name, tasks[0][1], links, result) for name, tasks, links, result in deep], chain), 3))
    return old


def turned_bits(both, stride):
    """Each bit of a small state of each kind, of two builds: no wrong value but under dirty bits."""
    for rebuilder in REBUILDERS:
        for kind, runs in ((1, both.old), (3, both.runs), (4, both.runs)):
            both.runs.put("state", b"")
            for inputs in (FIRST, NOW):
                both.runs.put("book.toml", book(inputs))
                run(runs, ["build", "book.toml", "state", "middles", "--rebuilder", rebuilder], b"")
            data, counts = as_three(both.read()) if kind == 3 else both.read(), collections.Counter()
            for bit in range(0, 8 * len(data), stride):
                counts[worst(both.runs, rebuilder, batches.turned(data, bit))] += 1
            # A state of version 1 with an entry of a name that is no rule ends a build with status 9 (docs/STATE.md).
            ends = {"bad state", "wrong", "refused", "right"} | ({"status 9"} if kind == 1 else set())
            both.runs.same(f"{rebuilder}, kind {kind}: other ends", set(counts) <= ends, True)
            both.runs.same(f"{rebuilder}, kind {kind}: wrong values", counts["wrong"] if rebuilder != "dirty" else 0, 0)
            print(f"{rebuilder}, kind {kind}: {sum(counts.values())} bits, " + ", ".join(f"{times} {it}" for it, times in sorted(counts.items())), flush=True)


def released(folder):
    """The program of the release of 0.13.0."""
    path = pathlib.Path(folder) / "carte.old"
    path.write_bytes(subprocess.run(["git", "show", RELEASE], cwd=TOP, check=True, capture_output=True).stdout)
    path.chmod(0o755)
    return path


def main():
    said = argparse.ArgumentParser(usage=__doc__)
    said.add_argument("program", nargs="?", default=TOP / "crates" / "carte" / "out" / "carte", type=pathlib.Path)
    said.add_argument("trim", nargs="?", default=TOP / "crates" / "carte_trim_main" / "out" / "carte_trim_main", type=pathlib.Path)
    said.add_argument("--old", type=pathlib.Path)
    said.add_argument("--histories", default=200, type=int)
    said.add_argument("--seed", default=1, type=int)
    said.add_argument("--stride", default=1, type=int)
    said.add_argument("--only")
    said = said.parse_args()
    sys.setrecursionlimit(20_000)
    parts = [("by hand", by_hand), ("kind 3", kind_three), ("orders", orders), ("histories", lambda both: histories(both, said.histories, said.seed)),
             ("crashes", crashes), ("turned bits", lambda both: turned_bits(both, said.stride))]
    failed = 0
    with tempfile.TemporaryDirectory() as kept:
        old = said.old or released(kept)
        for name, part in parts:
            if said.only in (None, name):
                with tempfile.TemporaryDirectory() as folder:
                    both = Both(said.program.resolve(), said.trim.resolve(), old.resolve(), folder)
                    part(both)
                    print(f"{name}: {both.runs.passed} passed, {both.runs.failed} failed", flush=True)
                    failed += both.runs.failed
    return 1 if failed else 0


if __name__ == "__main__":
    sys.exit(main())
