#!/usr/bin/env python3
"""Drives the built program over builds that are committed part by part: checkpoints.py [PROGRAM] [--kills N] [--seed S]

The finished keys of a build are committed in their order, 256 at a time. How many commits there are, how many keys each brings, and what
a later build still runs where only the first of them passed, is worked out by hand or by the second reading of state files
(`states.py`, `batches.py`), never taken from the program. A column whose rules need one another; each scheduler with each rebuilder, cut
off behind each commit; edits, whose marks stand in the first; files that can't grow; and builds that are killed. Each part prints how
many of its checks passed; a check that fails is printed, and the end is 1 then.
"""
import argparse
import collections
import pathlib
import random
import re
import subprocess
import sys
import tempfile
import time

import batches
import states
from histories import REBUILDERS, SCHEDULERS
from rewriting import DEVICE, TOP, kept_of, value_of
from sessions import Runs, at_most, run

sys.path.insert(0, str(TOP / "bench"))

from generated import generated as rule_file  # noqa: E402

PART = 256
ROWS = 9_999
COLUMN = "=B1+1,0\n" + "".join(f"=A{row}+1\n" for row in range(1, ROWS))


def frames(data):
    return states.read(data).bodies


def cut(data, count):
    """The file of which just the first so many commits passed."""
    gate = [at for at, _ in frames(data)][count]
    return data[:gate] + b"\0"


def entries(body):
    return len(batches.read(body)[4])


def chained(body):
    return batches.read(body)[9] is not None


def keeps_alike(one, other):
    return kept_of(one) == kept_of(other)


def reply(target, value, ran, given_up, reused):
    return f"{target} = {value}\nran {ran}, given up {given_up}, reused {reused}\n".encode()


def column(runs):
    """A column of 9,999 rules makes 39 commits of 256 keys and one of 15; where two passed, 9,487 rules are left."""
    runs.put("column.csv", COLUMN)
    words = ["build", "column.csv", "column", "A9999"]
    runs.same("from nothing", run(runs, words, b""), (0, reply("A9999", ROWS, ROWS, 0, 0), b""))
    data = (runs.folder / "column").read_bytes()
    runs.same("keys of each commit", [entries(body) for _, body in frames(data)], [PART] * 39 + [15])
    for count in (0, 1, 2, 20, 39):
        runs.put("column", cut(data, count))
        runs.same(f"behind {count} commits", run(runs, words, b""), (0, reply("A9999", ROWS, ROWS - PART * count, 0, PART * count), b""))
        runs.same("what is kept then", keeps_alike((runs.folder / "column").read_bytes(), data), True)
    runs.same("and again", run(runs, words, b""), (0, reply("A9999", ROWS, 0, 0, ROWS), b""))
    runs.same("nothing is written then", keeps_alike((runs.folder / "column").read_bytes(), data), True)


def pairing(runs, scheduler, rebuilder, keys=2_000, seed=1):
    """A build from nothing, cut off behind each of its commits: the next one runs what is left, and gives the same value."""
    text, state = rule_file(seed, keys), f"{scheduler}.{rebuilder}"
    target, value = f"k{keys - 1}", value_of(text, {})
    runs.put("keys.toml", text)
    words = ["build", "keys.toml", state, target, "--scheduler", scheduler, "--rebuilder", rebuilder]
    status, out, err = run(runs, words, b"")
    ran, given_up = (int(it) for it in re.search(rb"ran (\d+), given up (\d+), reused 0\n", out).groups())
    runs.same(f"{state} from nothing", (status, out, err), (0, reply(target, value, ran, given_up, 0), b""))
    data = (runs.folder / state).read_bytes()
    sizes = [entries(body) for _, body in frames(data)]
    runs.same(f"{state}: keys of each commit", sizes, [PART] * (ran // PART) + [ran % PART] * (ran % PART > 0))
    chains = [chained(body) for _, body in frames(data)]
    runs.same(f"{state}: the chain", chains, [False] * (len(sizes) - 1) + [scheduler == "restarting"])
    for count in range(len(sizes)):
        runs.put(state, cut(data, count))
        status, out, err = run(runs, words, b"")
        left = b"ran %d, " % (ran - PART * count)
        runs.same(f"{state} behind {count}", (status, out.splitlines()[0], left in out, err), (0, b"%s = %d" % (target.encode(), value), True, b""))


def pairings(runs):
    for scheduler in SCHEDULERS:
        for rebuilder in REBUILDERS:
            pairing(runs, scheduler, rebuilder)


def edited(runs, rebuilder, keys=2_000, seed=1):
    """An edit marks what leads to it: the names that the first commit's keys don't finish stand in it, and in no later one."""
    text, state, target = rule_file(seed, keys), f"edited.{rebuilder}", f"k{keys - 1}"
    words = ["build", "keys.toml", state, target, "--rebuilder", rebuilder]
    runs.put("keys.toml", text)
    run(runs, words, b"")
    before, changed = (runs.folder / state).read_bytes(), {f"k{key}": 5_000 + key for key in range(0, 200, 3)}
    runs.put("keys.toml", re.sub(r"^(\w+) = \d+$", lambda it: f"{it[1]} = {changed.get(it[1], it[0].split()[2])}", text, flags=re.M))
    value = value_of(text, changed)
    status, out, err = run(runs, words, b"")
    after = (runs.folder / state).read_bytes()
    runs.same(f"{rebuilder}, edited", (status, out.splitlines()[0], err), (0, b"%s = %d" % (target.encode(), value), b""))
    new = [body for _, body in frames(after)[len(frames(before)) :]]
    stale = [len(batches.read(body)[5]) for body in new]
    runs.same(f"{rebuilder}: marks in the first alone", (len(new) > 1, stale[0] > 0, sum(stale[1:])), (True, True, 0))
    runs.same(f"{rebuilder}: none of a key that it finishes", set(batches.read(new[0])[5]) & {it[0] for it in batches.read(new[0])[4]}, set())
    for count in range(len(new)):
        runs.put(state, cut(after, len(frames(before)) + count))
        status, out, err = run(runs, words, b"")
        runs.same(f"{rebuilder}, edited, behind {count}", (status, out.splitlines()[0], err), (0, b"%s = %d" % (target.encode(), value), b""))


def edits(runs):
    for rebuilder in REBUILDERS:
        edited(runs, rebuilder)


def without_room(runs):
    """A file that can't grow: status 6, and the commits that passed stand."""
    runs.put("column.csv", COLUMN)
    words = ["build", "column.csv", "tight", "A9999"]
    run(runs, words, b"")
    whole, ended = (runs.folder / "tight").read_bytes(), collections.Counter()
    gates = [at for at, _ in frames(whole)] + [states.read(whole).gate]
    for size in [9, gates[1] - 1, gates[1], gates[1] + 7, gates[7], gates[39] + 9, gates[40] + 1]:
        (runs.folder / "tight").unlink()
        status, out, err = run(runs, words, b"", preexec_fn=at_most(size))
        ended[status] += 1
        passed = sum(at < size for at in gates[1:])
        wanted = (0, reply("A9999", ROWS, ROWS, 0, 0), b"") if size == len(whole) else (6, b"", DEVICE)
        runs.same(f"at most {size} bytes", (status, out, err), wanted)
        runs.same("commits that passed", len(frames((runs.folder / "tight").read_bytes())), passed)
        runs.same("the next run", run(runs, words, b"")[1], reply("A9999", ROWS, max(0, ROWS - PART * passed), 0, min(ROWS, PART * passed)))
    runs.same("both ends were met", sorted(ended), [0, 6])


def killed(runs, count, seed):
    """A build that is killed has kept some of its commits, from the first one on, each whole; the next one goes on behind them."""
    keys = 20_000
    runs.put("keys.toml", rule_file(seed, keys))
    value, chance = value_of(rule_file(seed, keys), {}), random.Random(f"{seed}/checkpoints")
    words = [runs.program, "build", "keys.toml", "killed", f"k{keys - 1}"]
    began = time.monotonic()
    whole = subprocess.run(words, cwd=runs.folder, capture_output=True, check=True).stdout
    took, ran = time.monotonic() - began, int(re.search(rb"ran (\d+)", whole)[1])
    kept = collections.Counter()
    for number in range(count):
        (runs.folder / "killed").unlink(missing_ok=True)
        build = subprocess.Popen(words, cwd=runs.folder, stdout=subprocess.DEVNULL)
        time.sleep(chance.uniform(took / 3, took))
        build.kill()
        build.wait()
        data = (runs.folder / "killed").read_bytes() if (runs.folder / "killed").exists() else b""
        sizes = [entries(body) for _, body in frames(data)]
        kept["none" if not sizes else "all" if sum(sizes) == ran else "some"] += 1
        runs.same(f"kill {number}: whole commits", set(sizes[:-1]) <= {PART}, True)
        done = subprocess.run(words, cwd=runs.folder, capture_output=True, check=True).stdout
        runs.same(f"kill {number}: the next run", done, reply(f"k{keys - 1}", value, ran - sum(sizes), 0, sum(sizes)))
    print("killed: " + ", ".join(f"{times} with {what}" for what, times in sorted(kept.items())))


def main():
    words = argparse.ArgumentParser()
    words.add_argument("program", nargs="?", default=TOP / "crates" / "carte" / "out" / "carte", type=pathlib.Path)
    words.add_argument("--kills", type=int, default=30)
    words.add_argument("--seed", type=int, default=1)
    given = words.parse_args()
    failed = 0
    parts = [column, pairings, edits, without_room, lambda runs: killed(runs, given.kills, given.seed)]
    for part in parts:
        with tempfile.TemporaryDirectory() as folder:
            runs = Runs(given.program.resolve(), folder)
            part(runs)
            name = getattr(part, "__name__", "").replace("<lambda>", "killed")
            print(f"{name}: {runs.passed} passed, {runs.failed} failed", flush=True)
            failed += runs.failed
    return 1 if failed else 0


if __name__ == "__main__":
    sys.exit(main())
