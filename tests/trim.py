#!/usr/bin/env python3
"""Drives the built program that trims: trim.py [PROGRAM [TRIM]] [--seed S] [--histories N] [--edits N] [--rebuilders NAME..] [--only PART]

PROGRAM is `carte`, TRIM `carte_trim_main`. What a trim has to leave, byte for byte, is worked out by a second reading of state files
(`states.py`) that shares no code with either. By hand: the small state, marks, a chain, values that nobody names. Faults of words and of
files. Random histories of sessions, with a trim between them, beside the second reading of builds (`engine.py`). A new file that can't
grow, and each writing call of a trim with what a crash may leave. A full state. And a thousand edits of one input each over 8,192 keys,
under deep traces 1,024, with a trim to 4 every hundred. Each part prints how many of its checks passed; a check that fails is printed, and
the end is 1 then.
"""
import argparse
import collections
import copy
import fcntl
import os
import pathlib
import random
import re
import shutil
import sys
import tempfile

import batches
import engine
import states
from histories import REBUILDERS, History, SheetHistory
from rewriting import images, traced
from sessions import Runs, at_most, one_session, run

TOP = pathlib.Path(__file__).resolve().parent.parent
sys.path.insert(0, str(TOP / "bench"))

from builds import instructions  # noqa: E402
from generated import generated  # noqa: E402

SMALL = '[inputs]\na1 = {}\na2 = 20\n[rules]\nb1 = "a1+a2"\nb2 = "b1*2"\n'
USAGE = (2, b"", b"carte_trim: usage: carte_trim STATE NEW COUNT, with a count from 1 to 1000000\n")
STATE_FAULT = (6, b"", b"carte_trim: the state's device failed\n")
NOT_NEW = (17, b"", b"carte_trim: NEW isn't new\n")
NEW_FAULT = (18, b"", b"carte_trim: NEW's device failed\n")
EMPTY = batches.spell(("go on", *[[]] * 8, None))
# Deep traces of 8,192 keys take 331 MB a build, so under that rebuilder the book is smaller.
KEYS, COUNT = {"deep": 1_024}, 4


# The second reading

def newest(traces, count):
    """Of each key the last so many different ones, in their order."""
    found, seen = [], collections.Counter()
    for trace in reversed(states.last_ones(traces)):
        seen[trace[0]] += 1
        if seen[trace[0]] <= count:
            found.append(trace)
    return found[::-1]


def trimmed(kept, count):
    """What is left of what is kept."""
    traces = {way: newest(kept.traces[way], count) for way in states.WAYS}
    named = {entry[2] for entry in kept.entries.values()} | {trace[3] for way in states.WAYS for trace in traces[way]}
    store = {}
    for value in kept.values:
        store.setdefault(batches.digest(value), value)
    return states.Kept([value for digest, value in store.items() if digest in named], kept.seen, kept.entries, kept.stale, traces, kept.chain)


def made(kept):
    """The new file: a frame that brings nothing, and a region in its place; nothing where nothing is kept."""
    bodies, data = states.live(kept), states.committed(b"", EMPTY)
    if not bodies:
        return b""
    for group in states.rewriting(states.read(data), states.region(bodies)):
        for at, piece in group:
            data = states.put(data, at, piece)
    return data


def number_of(kept):
    """How many different traces are kept."""
    return sum(len(states.last_ones(kept.traces[way])) for way in states.WAYS)


def wanted(data, count):
    """The new file, and the reply."""
    before = states.fold(states.read(data))
    after = trimmed(before, count)
    new = made(after)
    numbers = number_of(after), number_of(before), len(new), len(data)
    return new, (0, b"kept %d of %d traces, %d of %d bytes\n" % numbers, b"")


# Trims

class Trims:
    """The folder in which both programs are run."""

    def __init__(self, program, trim, folder):
        self.runs, self.trimming = Runs(program, folder), Runs(trim, folder)
        self.folder = self.runs.folder

    def read(self, name):
        return (self.folder / name).read_bytes()

    def trim(self, *words, **how):
        return run(self.trimming, [str(word) for word in words], b"", **how)

    def checked(self, what, count, state="state", new="new"):
        """A trim of a state, all of it beside the second reading; the state isn't touched."""
        before = self.read(state)
        (self.folder / new).unlink(missing_ok=True)
        data, reply = wanted(before, count)
        self.runs.same(f"{what}: reply", self.trim(state, new, count), reply)
        self.runs.same(f"{what}: each byte", self.read(new) == data, True)
        self.runs.same(f"{what}: the state", self.read(state) == before, True)
        return data

    def renewed(self, what, count, state="state"):
        """The same, and the new one goes in the state's place. One that is still new is as good as none."""
        data = self.checked(what, count, state)
        os.replace(self.folder / "new", self.folder / state)
        return data


def built(trims, first, state="state", *words):
    """A build of the small book with another first input."""
    trims.runs.put("small.toml", SMALL.format(first))
    return run(trims.runs, ["build", "small.toml", state, "b2", *words], b"")


# By hand

def by_hand(trims):
    """Traces of three builds, cut to each count; a dirty mark; a chain; values that nobody names; nothing at all."""
    for first in (10, 11, 12, 11):
        built(trims, first)
    trims.runs.same("traces of three inputs", number_of(states.fold(states.read(trims.read("state")))), 6)
    trims.runs.same("to 1", trims.trim("state", "one", 1)[1].startswith(b"kept 2 of 6 traces, "), True)
    for count in (1, 2, 3, 1_000_000):
        trims.checked(f"to {count}", count)
    trims.renewed("to 2", 2)
    trims.runs.same("the last one is reused", built(trims, 11)[1], b"b2 = 62\nran 0, given up 0, reused 2\n")
    trims.runs.same("and the one before by constructive traces no more", built(trims, 10)[1], b"b2 = 60\nran 2, given up 0, reused 0\n")
    built(trims, 13, "state", "--rebuilder", "dirty")
    run(trims.runs, ["build", "small.toml", "state", "b1", "--rebuilder", "dirty"], b"")
    trims.renewed("dirty entries", 1)
    for state in ("stale", "chained", "unnamed", "bare"):
        trims.runs.put(state, odd_state(state))
        trims.checked(state, 2, state)
    trims.runs.same("nothing is kept", (trims.read("new"), trims.trim("bare", "new", 1)), (b"", (0, b"kept 0 of 0 traces, 0 of 49 bytes\n", b"")))


def odd_state(kind):
    """The small state with a batch behind it: a stale entry, a chain, values without a name, or nothing any more."""
    batch = {
        "stale": ("go on", [], [], [], [], [b"b2"], [], [], [], None),
        "chained": ("go on", *[[]] * 8, [b"b2", b"b1"]),
        "unnamed": ("go on", [7, b"text", 7], *[[]] * 7, None),
        "bare": ("cleared", *[[]] * 8, None),
    }[kind]
    front = b"" if kind == "bare" else states.committed(b"", batches.spell(batches.small()))
    return states.committed(front, batches.spell(batch))


# Faults

def words(trims):
    """Words that ask for nothing: nothing is opened or made."""
    trims.runs.put("state", odd_state("chained"))
    for said in ([], ["state"], ["state", "new"], ["state", "new", "1", "1"], ["state", "new", "0"], ["state", "new", "1000001"], ["state", "new", "+1"],
                 ["state", "new", "-1"], ["state", "new", "x"], ["state", "new", ""], ["state", "new", "1 "], ["--help", "new", "x"], ["state", "new", b"\xff"]):
        trims.runs.same(f"words {said}", run(trims.trimming, said, b""), USAGE)
    trims.runs.same("nothing was made", (trims.folder / "new").exists(), False)
    trims.runs.same("leading zeros are digits", trims.trim("state", "new", "007")[0], 0)


def files(trims):
    """What is wrong with the state's file, and with the new one."""
    data = odd_state("stale")
    trims.runs.put("state", data)
    (trims.folder / "folder").mkdir()
    trims.runs.same("no state", trims.trim("nowhere", "new", 1), STATE_FAULT)
    trims.runs.same("a folder", trims.trim("folder", "new", 1), STATE_FAULT)
    trims.runs.same("no state was made", (trims.folder / "nowhere").exists(), False)
    for what, bad, at in (("no header", b"no state file", 0), ("a cut one", data[:-20], 537 - 1), ("no batch", states.committed(b"", b"\1\0"), 8)):
        trims.runs.put("bad", bad)
        trims.runs.same(what, trims.trim("bad", "new", 1), (7, b"", b"carte_trim: bad state at byte %d\n" % at))
        trims.runs.same(f"{what} stays", trims.read("bad"), bad)
    for what, old in (("ten bytes", bytes(10)), ("a state", data)):
        trims.runs.put("old", old)
        trims.runs.same(f"NEW is {what}", trims.trim("state", "old", 1), NOT_NEW)
        trims.runs.same(f"{what} stay", trims.read("old"), old)
    for what, old in (("empty", b""), ("nine bytes", b"\xff" * 9)):
        trims.runs.put("old", old)
        trims.runs.same(f"NEW is {what}", trims.trim("state", "old", 1)[0], 0)
        trims.runs.same(f"{what}: all of it", trims.read("old"), wanted(data, 1)[0])
    trims.runs.same("NEW is a folder", trims.trim("state", "folder", 1), NEW_FAULT)
    trims.runs.same("NEW has no folder", trims.trim("state", "none/new", 1), NEW_FAULT)
    one_file(trims, data)
    locked(trims)
    with open("/dev/full", "wb") as full:
        (trims.folder / "new").unlink(missing_ok=True)
        trims.runs.same("no room for the reply", trims.trim("state", "new", 1, stdout=full)[::2], (5, b"carte_trim: a write of the reply failed\n"))
        trims.runs.same("and the new one is whole", trims.read("new"), wanted(data, 1)[0])
    trims.runs.same("the state stays", trims.read("state"), data)


def one_file(trims, data):
    """Both being one file, by whatever name, also where it is short enough to be a new one."""
    os.link(trims.folder / "state", trims.folder / "linked")
    os.symlink("state", trims.folder / "symbolic")
    trims.runs.put("empty", b"")
    for state, new in (("state", "state"), ("state", "./state"), ("state", "linked"), ("symbolic", "state"), ("state", "symbolic"), ("empty", "empty")):
        trims.runs.same(f"{state} and {new}", trims.trim(state, new, 1), NEW_FAULT)
    trims.runs.same("and it stays", (trims.read("state"), trims.read("empty")), (data, b""))


def locked(trims):
    """A file that another run has for more than two seconds."""
    for name, fault in (("state", STATE_FAULT), ("busy", NEW_FAULT)):
        with open(trims.folder / name, "ab") as held:
            fcntl.flock(held, fcntl.LOCK_EX)
            trims.runs.same(f"{name} is locked", trims.trim("state", "busy", 1), fault)


# Histories

def left_of(kept, count):
    """The same trim of what the second reading of builds keeps."""
    kept = copy.deepcopy(kept)
    for way in engine.WAYS:
        kept.traces[way] = {name: ends[:count] for name, ends in kept.traces[way].items()}
    named = {entry.result for entry in kept.entries.values()} | {result for way in engine.WAYS for ends in kept.traces[way].values() for *_, result in ends}
    kept.store = {digest: value for digest, value in kept.store.items() if digest in named}
    return kept


def histories(trims, count, seed):
    """Random sessions over one state each, with a trim behind each: all replies are those of the second reading over what is left."""
    counts, history, kept = collections.Counter(), None, None
    for number in range(count):
        chance = random.Random(f"{seed}/trim/{number}")
        if number % 4 == 0:
            history, kept = (SheetHistory if number % 8 else History)(f"{seed}/trim/{number}"), engine.Kept()
            (trims.folder / "state").unlink(missing_ok=True)
        else:
            history.edit()
        kept = one_session(trims.runs, history, kept, chance, counts)
        most = chance.choice((1, 1, 2, 3, 1_000))
        trims.renewed(f"history {number}, to {most}", most)
        kept = left_of(kept, most)
    print(f"histories: {count} sessions and trims")


# Cut off

def cut_off(trims):
    """A new file that can't grow, from no byte to enough: its device failed, and it keeps nothing or all that is left."""
    data = odd_state("stale")
    trims.runs.put("state", data)
    new, reply = wanted(data, 1)
    ended = collections.Counter()
    for size in sorted({0, 8, 9, 10, 48, 49, len(new) - 1, len(new), *range(0, len(new), 37)}):
        (trims.folder / "new").unlink(missing_ok=True)
        got = trims.trim("state", "new", 1, preexec_fn=at_most(size))
        ended[got[0]] += 1
        trims.runs.same(f"at most {size} bytes", got, reply if size >= len(new) else NEW_FAULT)
        is_station(trims, f"at most {size} bytes", trims.read("new"), states.read(new) if size >= len(new) else None, new)
    trims.runs.same("both ends were met", sorted(ended), [0, 18])


def is_station(trims, what, image, only, new):
    """A file keeps nothing, or what the new one does; and where only that is left, that."""
    kept, stations = states.live(states.fold(states.read(image))), [[], states.live(states.fold(states.read(new)))]
    trims.runs.same(f"{what}: what it keeps", kept in (stations[1:] if only else stations), True)


def each_call(trims):
    """Each image that a crash at each writing call of a trim may leave keeps nothing, or all that is left."""
    if not shutil.which("strace"):
        print("each writing call: left out, since strace isn't here")
        return
    seen = 0
    for kind in ("stale", "chained"):
        trims.runs.put("state", odd_state(kind))
        for old in (b"", b"\1" * 9):
            trims.runs.put("new", old)
            status, calls = traced(trims.trimming, ["state", "new", "1"])
            new = trims.read("new")
            trims.runs.same(f"{kind}: whole", (status, new), (0, wanted(odd_state(kind), 1)[0]))
            trims.runs.same(f"{kind}: writing calls", len(calls), 10)
            for image in dict.fromkeys(images(old, calls)):
                seen += 1
                is_station(trims, f"{kind}: an image", image, None, new)
    print(f"each writing call: {seen} images")


# Full states

def with_traces(traces, values=()):
    return batches.spell(("go on", list(values), [], [], [], [], traces, [], [], None))


def filled(data):
    """The state with short traces behind it, so that no further batch has room."""
    short = (b"z000000", bytes(32), [], batches.digest(60))
    count = (states.LIMIT - len(data) - 5 - len(EMPTY)) // len(batches.spell_trace(short))
    return states.committed(data, with_traces([(b"z%06d" % at, bytes(32), [], batches.digest(60)) for at in range(count)]))


def long_traces(name_of, size):
    """Traces of a hundred links, which take so many bytes; a key is worked out of the number of a trace."""
    links = [(b"x%d" % at, bytes([at]) * 32) for at in range(100)]
    one = len(batches.spell_trace((name_of(0), bytes(32), [(b"n%06d" % 0, bytes(32)), *links], batches.digest(60))))
    return [(name_of(at), bytes(32), [(b"n%06d" % at, bytes(32)), *links], batches.digest(60)) for at in range(size // one)]


def full(trims):
    """A state that is full of traces, twenty of each of many keys: a build is refused; trimmed, it is built on."""
    data = states.committed(b"", batches.spell(batches.small()))
    data = filled(states.committed(data, with_traces(long_traces(lambda at: b"k%06d" % (at // 20), states.LIMIT - 100_000))))
    trims.runs.put("state", data)
    status, out, err = built(trims, 11)
    trims.runs.same("a build over a full state", (status, out, err.startswith(b"carte: state full: ")), (8, b"", True))
    new = trims.renewed("a full state", COUNT)
    trims.runs.same("a build over the trimmed one", built(trims, 11), (0, b"b2 = 62\nran 2, given up 0, reused 0\n", b""))
    print(f"a full state: {len(data)} bytes, {len(new)} trimmed")


def too_large(trims):
    """What is left has no room in a file: both numbers are told, and nothing is written."""
    data = filled(states.committed(b"", with_traces(long_traces(lambda at: b"k%06d" % at, states.LIMIT - 100_000), [60])))
    trims.runs.same("a length", states.LIMIT - 44 < len(data) <= states.LIMIT, True)
    trims.runs.put("state", data)
    needed = len(made(trimmed(states.fold(states.read(data)), 1)))
    trims.runs.same("more than the limit", needed > states.LIMIT, True)
    answer = (8, b"", b"carte_trim: state full: %d bytes needed, limit %d\n" % (needed, states.LIMIT))
    trims.runs.same("too large", trims.trim("state", "new", 1), answer)
    trims.runs.same("NEW stays new", trims.read("new"), b"")


# Edits

class Keys:
    """The generated book, and the value of its last key behind edits."""

    def __init__(self, count):
        self.text, self.now, self.last = generated(1, count), {}, f"k{count - 1}"
        self.rules = [(name, re.findall(r"k\d+", item)[:2], item) for name, item in re.findall(r"^(\w+) = (.*)$", self.text, re.M)]
        self.inputs = [name for name, needs, _ in self.rules if not needs]

    def book(self):
        return re.sub(r"^(\w+) = \d+$", lambda it: f"{it[1]} = {self.now.get(it[1], it[0].split()[2])}", self.text, flags=re.M)

    def value(self):
        values = {}
        for name, needs, item in self.rules:
            values[name] = abs(values[needs[0]] - values[needs[1]]) if needs else self.now.get(name, int(item))
        return values[self.last]


def load(trims, state):
    """What loading a state takes, in instructions: of an explanation of an input, less those over no state."""
    trims.runs.put("none", b"")
    counted = [instructions([trims.runs.program, "explain", trims.folder / "keys.toml", trims.folder / name, "k0"], trims.folder)[1] for name in (state, "none")]
    return counted[0] - counted[1]


def session(trims, keys, rebuilder, edits):
    """A session of these edits, each with a build, whose values are right; how many were built, which is fewer where the state is full."""
    trims.runs.put("keys.toml", keys.book())
    script, told = b"", []
    for name, value in edits:
        keys.now[name] = value
        script += b"set %s %d\nbuild %s\n" % (name.encode(), value, keys.last.encode())
        told += [f"set {name}", f"{keys.last} = {keys.value()}"]
    status, out, err = run(trims.runs, ["session", "keys.toml", "state", "--rebuilder", rebuilder], script)
    got = [line for line in out.decode().splitlines() if not line.startswith("ran ")]
    is_full = err.startswith(b"carte: state full: ")
    trims.runs.same(f"{rebuilder}: values", (status, got == told[: len(got)], len(got) == len(told)), (8 if is_full else 0, True, not is_full))
    return len(got) // 2


def hundred(trims, keys, rebuilder, chance, times):
    """So many edits, each with a build. Where the state is full, it is trimmed, and the rest goes on; how often that was."""
    edits, full_ones = [(chance.choice(keys.inputs), chance.randint(0, 999)) for _ in range(times)], 0
    while edits:
        before = dict(keys.now)
        done = session(trims, keys, rebuilder, edits)
        if done < len(edits):
            keys.now = before | dict(edits[:done])
            trims.runs.same(f"{rebuilder}: a full state", trims.trim("state", "new", COUNT)[0], 0)
            os.replace(trims.folder / "new", trims.folder / "state")
            full_ones += 1
        edits = edits[done:]
    return full_ones


def edits(trims, times, rebuilders):
    """Edits of one input each, with a trim every hundred: how large the state is at the end, beside that of one build, and what loading it takes."""
    print("| Rebuilder | before the last trim | behind it | State of one build | Load |", "|---|---|---|---|---|", sep="\n")
    for rebuilder in rebuilders:
        (trims.folder / "state").unlink(missing_ok=True)
        keys, chance, full_ones = Keys(KEYS.get(rebuilder, 8_192)), random.Random(f"edits/{rebuilder}"), 0
        for part in range(times // 100):
            full_ones += hundred(trims, keys, rebuilder, chance, 100)
            before = trims.read("state")
            if part in (0, times // 100 - 1):
                trims.renewed(f"{rebuilder}, part {part}", COUNT)
            else:
                trims.runs.same(f"{rebuilder}, part {part}", trims.trim("state", "new", COUNT)[0], 0)
                os.replace(trims.folder / "new", trims.folder / "state")
        trims.runs.put("keys.toml", keys.book())
        trims.runs.put("fresh", b"")
        run(trims.runs, ["build", "keys.toml", "fresh", keys.last, "--rebuilder", rebuilder], b"")
        after, fresh = trims.read("state"), trims.read("fresh")
        trims.runs.same(f"{rebuilder}: at most 8 times a fresh one", len(after) <= 8 * len(fresh), True)
        ratio = load(trims, "state") / load(trims, "fresh") if shutil.which("valgrind") else 0
        trims.runs.same(f"{rebuilder}: a load of at most 4 times", ratio <= 4, True)
        print(f"| `{rebuilder}` | {len(before):,} | {len(after):,} | {len(fresh):,} | {ratio:.2f} |" + f" full {full_ones} times" * bool(full_ones), flush=True)


def main():
    sys.setrecursionlimit(20_000)
    said = argparse.ArgumentParser(usage=__doc__)
    said.add_argument("program", nargs="?", default=TOP / "crates" / "carte" / "out" / "carte", type=pathlib.Path)
    said.add_argument("trim", nargs="?", default=TOP / "crates" / "carte_trim_main" / "out" / "carte_trim_main", type=pathlib.Path)
    said.add_argument("--seed", default="1")
    said.add_argument("--histories", default=400, type=int)
    said.add_argument("--edits", default=1_000, type=int)
    said.add_argument("--rebuilders", default=REBUILDERS, nargs="+")
    said.add_argument("--only")
    said = said.parse_args()
    parts = [
        ("by hand", by_hand), ("words", words), ("files", files), ("histories", lambda trims: histories(trims, said.histories, said.seed)),
        ("cut off", cut_off), ("each writing call", each_call), ("full", full), ("too large", too_large), ("edits", lambda trims: edits(trims, said.edits, said.rebuilders)),
    ]
    failed = 0
    for name, part in parts:
        if said.only in (None, name):
            with tempfile.TemporaryDirectory() as folder:
                trims = Trims(said.program.resolve(), said.trim.resolve(), folder)
                part(trims)
                print(f"{name}: {trims.runs.passed} passed, {trims.runs.failed} failed", flush=True)
                failed += trims.runs.failed
    return 1 if failed else 0


if __name__ == "__main__":
    sys.exit(main())
