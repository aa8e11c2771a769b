#!/usr/bin/env python3
"""Drives the built program as its users do: program.py [PROGRAM] [--histories N] [--kills N] [--seed S]

Builds, edits and builds again; words, files and devices that are wrong; runs that are killed; and random histories
beside the second reading (`engine.py`, `reference.py`, `sheets.py`). What is wanted is written out by hand or worked
out by the second reading, never taken from the program. Each part prints how many of its checks passed; a check that
fails is printed whole, and the end is 1 then. What a machine doesn't allow, as a mount, is named as left out.
"""
import argparse
import collections
import fcntl
import os
import pathlib
import random
import resource
import shutil
import signal
import subprocess
import sys
import tempfile
import threading
import time

import histories
from engine import Kept, build
from reference import read_book

TOP = pathlib.Path(__file__).resolve().parent.parent
sys.path.insert(0, str(TOP / "bench"))

from generated import generated as rule_file  # noqa: E402

SUMS = '[inputs]\na = 10\nb = 20\n[rules]\nsum = "a + b"\ntotal = "sum + sum"\n'
TOTAL = (0, "total = 60\nran 2, given up 0, reused 0\n", "")
AGAIN = (0, "total = 60\nran 0, given up 0, reused 2\n", "")
DEVICE = (6, "", "carte: the state's device failed\n")
NO_COMMAND = (2, "", "carte: usage: the words are no command\n")
NO_READ = (4, "", "carte: a read failed\n")
NOBODY = 65_534


class Runs:
    """A folder in which the program is run, and the count of checks."""

    def __init__(self, program, folder):
        self.program, self.folder = str(program), pathlib.Path(folder)
        self.passed, self.failed = 0, 0

    def put(self, name, content):
        (self.folder / name).write_bytes(content if isinstance(content, bytes) else content.encode())

    def run(self, *words, **how):
        how = {"stdin": subprocess.DEVNULL, "stdout": subprocess.PIPE, "stderr": subprocess.PIPE, **how}
        done = subprocess.run([self.program, *words], cwd=self.folder, timeout=300, **how)
        return done.returncode, (done.stdout or b"").decode(), (done.stderr or b"").decode()

    def same(self, what, got, wanted):
        if got == wanted:
            self.passed += 1
        else:
            self.failed += 1
            print(f"{what}:\n wanted {str(wanted)[:600]}\n got    {str(got)[:600]}")

    def wants(self, wanted, *words, **how):
        self.same(" ".join(map(str, words)), self.run(*words, **how), wanted)

    def total(self, state, wanted, **how):
        self.wants(wanted, "build", "sums.toml", state, "total", **how)


def builds(runs):
    """Builds, edits and second builds of a rule file and of a sheet."""
    runs.total("state", TOTAL)
    runs.total("state", AGAIN)
    runs.put("sums.toml", SUMS.replace("a = 10", "a = 11"))
    runs.wants((0, "total = 62\nran sum\nran total\nran 2, given up 0, reused 0\n", ""), "build", "sums.toml", "state", "--list", "total")
    runs.put("sums.toml", SUMS.replace("a = 10", "a = 20").replace("b = 20", "b = 11"))
    runs.wants((0, "total = 62\nran 2, given up 0, reused 0\n", ""), "build", "sums.toml", "state", "total", "--rebuilder=dirty")
    runs.put("sums.toml", SUMS)
    runs.wants((0, "cleaned\n", ""), "clean", "nowhere", "state")
    runs.total("state", TOTAL)
    runs.put("p.csv", "10,=A1+A2\n20,=B1*2\n")
    for scheduler in histories.SCHEDULERS:
        for rebuilder in histories.REBUILDERS:
            state, words = f"{scheduler}.{rebuilder}", ("--scheduler", scheduler, "--rebuilder", rebuilder)
            # Deep traces lead to inputs alone, so a build that restarts finishes B2 first where it is held, and once writes that order.
            is_reordered = (scheduler, rebuilder) == ("restarting", "deep")
            reused = 1 if is_reordered or scheduler == "suspending" and rebuilder in ("dirty", "deep") else 2
            given_up = 1 if scheduler == "restarting" else 0
            runs.wants((0, f"B2 = 60\nran 2, given up {given_up}, reused 0\n", ""), "build", "p.csv", state, "B2", *words)
            if is_reordered:
                runs.wants((0, "B2 = 60\nran 0, given up 0, reused 1\n", ""), "build", "p.csv", state, "B2", *words)
            before = (runs.folder / state).read_bytes()
            runs.wants((0, f"B2 = 60\nran 0, given up 0, reused {reused}\n", ""), "build", "p.csv", state, "b2", *words)
            runs.same("a state that nothing changes", (runs.folder / state).read_bytes(), before)
    column = "=B1+1,0\n" + "".join(f"=A{row}+1\n" for row in range(1, 9_999))
    runs.put("column.csv", column)
    runs.wants((0, "A9999 = 9999\nran 9999, given up 0, reused 0\n", ""), "build", "column.csv", "column.state", "A9999")
    runs.wants((0, "A9999 = 9999\nran 0, given up 0, reused 9999\n", ""), "build", "column.csv", "column.state", "A9999")
    anew = ("build", "column.csv", "column.anew", "A9999", "--scheduler", "restarting")
    runs.wants((0, "A9999 = 9999\nran 9999, given up 9998, reused 0\n", ""), *anew)
    runs.wants((0, "A9999 = 9999\nran 0, given up 0, reused 9999\n", ""), *anew)


def generated(runs):
    """Generated books, with values and counts that weren't taken from the program; and the same books as rule files. BOOK isn't read."""
    cases = [(1, 2, 1, 0, 1), (1, 1_000, 100, 242, 483), (1, 20_000, 2_000, 6, 10_386), (7, 20_000, 2_000, 153, 10_598), (7, 65_536, 6_553, 65, 34_449),
             (7, 262_144, 26_214, 203, 137_098)]
    for seed, count, inputs, value, ran in cases:
        state = f"made.{seed}.{count}"
        words = ("generate", "folder", state, str(seed), str(count))
        last = f"k{count - 1} = {value}\n"
        front = f"keys {count}, inputs {inputs}\n{last}"
        runs.wants((0, f"{front}ran {ran}, given up 0, reused 0\n", ""), *words)
        runs.wants((0, f"{front}ran 0, given up 0, reused {ran}\n", ""), *words)
        anew = ("generate", "none", f"{state}.anew", str(seed), str(count), "--scheduler", "restarting")
        runs.wants((0, f"{front}ran {ran}, given up {ran - 1}, reused 0\n", ""), *anew)
        runs.wants((0, f"{front}ran 0, given up 0, reused {ran}\n", ""), *anew)
        runs.put("made.toml", rule_file(seed, count))
        runs.wants((0, f"{last}ran 0, given up 0, reused {ran}\n", ""), "build", "made.toml", state, f"k{count - 1}")
    front = "keys 1000, inputs 100\nk999 = 242\n"
    for scheduler in histories.SCHEDULERS:
        for rebuilder in histories.REBUILDERS:
            words = ("generate", "none", f"made.{scheduler}.{rebuilder}", "1", "1000", "--scheduler", scheduler, "--rebuilder", rebuilder)
            given_up = 482 if scheduler == "restarting" else 0
            runs.wants((0, f"{front}ran 483, given up {given_up}, reused 0\n", ""), *words)
    runs.wants(DEVICE, "generate", "none", "folder", "1", "2")
    with open("/dev/full", "w") as full:
        runs.wants((5, "", ""), "generate", "none", "unheard", "1", "2", stdout=full)
    runs.wants((0, "keys 2, inputs 1\nk1 = 0\nran 0, given up 0, reused 1\n", ""), "generate", "none", "unheard", "1", "2")


def by_workers(runs):
    """By 2, 7 and 64 workers runs say what they say by one, and keep the same bytes; one worker keeps as many, in another order maybe."""
    rules = [f"r{at}" for at in range(1_000)]
    runs.put("wide.toml", "[inputs]\na = 10\n[rules]\n" + "".join(f'{name} = "a + {at}"\n' for at, name in enumerate(rules)))
    runs.put("stuck.toml", '[inputs]\nx = 1\n[rules]\na = "b + c"\nb = "x + 1"\nc = "c"\nd = "a + e"\ne = "b + 5"\n')
    runs.put("script", "build total sum\nset a 11\nbuild sum total\nexplain total\nclean\nbuild total nowhere\n")
    wide = "".join(f"{name} = {at + 10}\n" for at, name in enumerate(rules))
    made = "keys 20000, inputs 2000\nk19999 = 6\n"
    session = "total = 60\nsum = 30\nran 2, given up 0, reused 0\nset a\nsum = 31\ntotal = 62\nran 2, given up 0, reused 0\ntotal reusable\ncleaned\n"
    cases = [
        ("build", "wide.toml", rules, (0, f"{wide}ran 1000, given up 0, reused 0\n", "")),
        ("build", "stuck.toml", ["e", "d", "a"], (3, "", "carte: cycle: d -> a -> c -> c\n")),
        ("session", "sums.toml", [], (0, f"{session}refused: missing: nowhere\n", "")),
        ("generate", "none", ["1", "20000"], (0, f"{made}ran 10386, given up 0, reused 0\n", "")),
    ]
    for command, book, targets, wanted in cases:
        kept = {}
        for workers in (1, 2, 7, 64):
            with open(runs.folder / "script", "rb") as script:
                runs.wants(wanted, command, book, f"{book}.{workers}", *targets, "--workers", str(workers), stdin=script)
            kept[workers] = (runs.folder / f"{book}.{workers}").read_bytes()
        runs.same(f"states of {book}", [kept[7], kept[64], len(kept[2])], [kept[2], kept[2], len(kept[1])])
    reused = (0, f"{wide}ran 0, given up 0, reused 1000\n", "")
    for state in ("wide.toml.7", "wide.toml.1"):
        before = (runs.folder / state).read_bytes()
        for workers in ("1", "64"):
            runs.wants(reused, "build", "wide.toml", state, *rules, "--workers", workers)
        runs.same(f"what {state} keeps", (runs.folder / state).read_bytes(), before)


def words(runs):
    """Words that are no command: no file is made."""
    runs.wants(NO_COMMAND)
    runs.wants(NO_COMMAND, "build", "sums.toml")
    runs.wants(NO_COMMAND, "build", b"sums\xff.toml", "unmade", "total")
    runs.wants(NO_COMMAND, "build", "sums.toml", "unmade", b"\xc3")
    runs.wants(NO_COMMAND, "build", "sums.toml", "unmade", "total", "--workers=65")
    refused = (2, "", "carte: usage: workers need the suspending scheduler\n")
    runs.wants(refused, "build", "sums.toml", "unmade", "total", "--workers=2", "--scheduler=topological")
    runs.wants((2, "", "carte: usage: no target\n"), "build", "sums.toml", "unmade")
    runs.wants((2, "", "carte: usage: no target\n"), "explain", "sums.toml", "unmade")
    for command in ("clean", "session"):
        runs.wants((2, "", "carte: usage: targets not taken\n"), command, "sums.toml", "unmade", "total")
    for numbers in (("1",), ("1", "1"), ("1", "262145"), ("-1", "2"), ("1", "+2"), ("1", "2", "3")):
        runs.wants((2, "", "carte: usage: generate takes a seed and a count\n"), "generate", "sums.toml", "unmade", "--", *numbers)
    runs.wants((2, "", 'carte: usage: bad target "A1"\n'), "build", "sums.toml", "unmade", "A1")
    runs.same("a state of no command", (runs.folder / "unmade").exists(), False)


def as_another(runs, folder, wanted, *words):
    """A run as a user who may not write everything; as root another one is taken."""
    how = {"user": NOBODY, "group": NOBODY} if os.geteuid() == 0 else {}
    runs.wants(wanted, *words, **how)


def files(runs):
    """Books and states that aren't there, aren't files, are locked, or are one file."""
    (runs.folder / "folder").mkdir()
    os.mkfifo(runs.folder / "pipe")
    runs.wants(NO_READ, "build", "nowhere.toml", "state", "total")
    runs.wants(NO_READ, "build", "folder", "state", "total")
    for state in ("folder", "pipe", "no/such/folder", "/dev/null", ""):
        runs.total(state, DEVICE)
    runs.wants(DEVICE, "clean", "sums.toml", "folder")
    runs.put("text", "no state file")
    runs.total("text", (7, "", "carte: bad state at byte 0\n"))
    runs.put("cut", b"CARTE01\n\1\0\0\0\x10\1\0")
    runs.total("cut", (7, "", "carte: bad state at byte 8\n"))
    runs.put("nine", b"\xff" * 9)
    runs.total("nine", TOTAL)
    with open(runs.folder / "held", "w") as held:
        fcntl.flock(held, fcntl.LOCK_EX)
        runs.total("held", DEVICE)
        threading.Timer(0.5, fcntl.flock, (held, fcntl.LOCK_UN)).start()
        runs.total("held", TOTAL)
    runs.total("held", AGAIN)
    os.symlink("held", runs.folder / "link")
    runs.total("link", AGAIN)
    os.symlink("new", runs.folder / "dangling")
    runs.total("dangling", TOTAL)
    runs.total("new", AGAIN)
    os.chmod(runs.folder, 0o777)
    (runs.folder / "readonly").touch(mode=0o444)
    as_another(runs, runs.folder, DEVICE, "build", "sums.toml", "readonly", "total")


def one_file(runs):
    """BOOK and STATE are one file: a short one is left as it is, and so is a long one."""
    runs.put("short", "a = 1\n")
    os.link(runs.folder / "short", runs.folder / "hard")
    os.symlink("short", runs.folder / "soft")
    for state in ("short", "./short", "hard", "soft", str(runs.folder / "short")):
        runs.wants(DEVICE, "clean", "short", state)
        runs.wants((1, "", 'carte: book refused: bad table "a"\n'), "build", "short", state, "a")
    runs.put("empty", "")
    runs.wants(DEVICE, "build", "empty", "empty", "a")
    runs.total("sums.toml", (7, "", "carte: bad state at byte 0\n"))
    runs.same("a book named as the state", [(runs.folder / name).read_text() for name in ("short", "empty", "sums.toml")], ["a = 1\n", "", SUMS])


def closed(*descriptors):
    return lambda: [os.close(descriptor) for descriptor in descriptors]


def streams(runs):
    """Streams that are full or closed: what was built is kept, and no reply goes into a file."""
    with open("/dev/full", "w") as full:
        runs.total("full.state", (5, "", ""), stdout=full)
        runs.total("full.state", AGAIN)
        runs.total("folder", (6, "", ""), stderr=full)
    for descriptors in ((0,), (1,), (2,), (0, 1), (1, 2), (0, 1, 2)):
        state = "closed" + "".join(map(str, descriptors))
        got = runs.run("build", "sums.toml", state, "total", preexec_fn=closed(*descriptors))
        runs.same(f"closed {descriptors}", got, (5, "", "") if 1 in descriptors else TOTAL)
        runs.same("no reply in the state", b"total = " in (runs.folder / state).read_bytes(), False)
        runs.total(state, AGAIN)


def at_most(size):
    def limit():
        signal.signal(signal.SIGXFSZ, signal.SIG_IGN)
        resource.setrlimit(resource.RLIMIT_FSIZE, (size, size))
    return limit


def full_disks(runs):
    """A state that can't grow: the status is 6, and the next run finds what was there before or all of it."""
    ends = collections.Counter()
    for size in [*range(0, 30), *range(30, 1_500, 30)]:
        runs.put("tight", "")
        got = runs.run("build", "sums.toml", "tight", "total", preexec_fn=at_most(size))
        runs.same(f"at most {size} bytes", got in (DEVICE, TOTAL), True)
        ends[got[0]] += 1
        after = runs.run("build", "sums.toml", "tight", "total")
        runs.same(f"after at most {size} bytes", after in ((AGAIN,) if got == TOTAL else (TOTAL, AGAIN)), True)
    runs.same("some full, some not", ends[0] > 0 and ends[6] > 0, True)
    small = runs.folder / "small"
    small.mkdir()
    if os.geteuid() or subprocess.run(["mount", "-t", "tmpfs", "-o", "size=4k", "tmpfs", small], capture_output=True).returncode:
        print("left out: a small file system, which can't be mounted here")
        return
    try:
        runs.put("long.toml", '[inputs]\na = "' + "x" * 9_000 + '"\n[rules]\nb = "a & a"\n')
        runs.wants(DEVICE, "build", "long.toml", "small/state", "b")
        runs.total("small/state", TOTAL)
        runs.wants(DEVICE, "build", "long.toml", "small/state", "b")
        runs.total("small/state", AGAIN)
    finally:
        subprocess.run(["umount", small])


def chain(length, start):
    rules = "".join(f'k{number} = "k{number - 1} + 1"\n' for number in range(1, length + 1))
    return f"[inputs]\nk0 = {start}\n[rules]\n{rules}"


def killed(runs, kills, seed):
    """Runs of one part that are killed at any moment: the next one finds what was kept before, or what that run computed."""
    chance, length, kept = random.Random(f"{seed}/kills"), 250, Kept()
    cut = collections.Counter()
    runs.put("chain.toml", chain(length, -1))
    began = time.monotonic()
    runs.run("build", "chain.toml", "timed", f"k{length}")
    usual = time.monotonic() - began
    for number in range(kills):
        inputs, rules = read_book(chain(length, number % 7).encode())
        runs.put("chain.toml", chain(length, number % 7))
        target = [b"k%d" % length]
        command = [runs.program, "build", "chain.toml", "chain.state", target[0]]
        process = subprocess.Popen(command, cwd=runs.folder, stdin=subprocess.DEVNULL, stdout=subprocess.DEVNULL)
        time.sleep(chance.uniform(0, 1.5 * usual))
        process.kill()
        cut[process.wait() != 0] += 1
        found = runs.run("build", "chain.toml", "chain.state", target[0])
        after, _, once = build(kept, inputs, rules, target)
        again, _, twice = build(once, inputs, rules, target)
        wanted = [(0, reply.decode(), "") for reply in (after, again)]
        runs.same(f"after kill {number}", found in wanted, True)
        kept = once if found == wanted[0] else twice
    print(f"killed before their end: {cut[True]} of {kills}")
    runs.same("some were killed before their end", cut[True] > 0, True)


def random_histories(runs, count, seed):
    statuses = collections.Counter()
    for number in range(count):
        choices = ("rebuilders", "schedulers", "sheets") if number % 10 else ("sheets",)
        wrong = histories.follow(runs.program, runs.folder, f"{seed}/{number}", choices, statuses)
        runs.same(f"history {number}, {wrong}", wrong, None)
    print("runs of the histories: " + ", ".join(f"{times} of status {status}" for status, times in sorted(statuses.items())))


def main():
    sys.setrecursionlimit(20_000)
    said = argparse.ArgumentParser()
    said.add_argument("program", nargs="?", default=TOP / "crates" / "carte" / "out" / "carte", type=pathlib.Path)
    said.add_argument("--histories", default=300, type=int)
    said.add_argument("--kills", default=200, type=int)
    said.add_argument("--seed", default="1")
    said = said.parse_args()
    parts = [
        ("builds", builds), ("generated", generated), ("workers", by_workers), ("words", words), ("files", files), ("one file", one_file),
        ("streams", streams), ("full disks", full_disks), ("kills", lambda runs: killed(runs, said.kills, said.seed)),
        ("histories", lambda runs: random_histories(runs, said.histories, said.seed)),
    ]
    failed = 0
    for name, part in parts:
        with tempfile.TemporaryDirectory() as folder:
            # A copy, so that another user may run it too.
            os.chmod(folder, 0o755)
            program = shutil.copy(said.program.resolve(), pathlib.Path(folder) / "carte")
            (pathlib.Path(folder) / "run").mkdir()
            runs = Runs(program, pathlib.Path(folder) / "run")
            runs.put("sums.toml", SUMS)
            (runs.folder / "folder").mkdir() if name in ("streams", "generated") else None
            part(runs)
            print(f"{name}: {runs.passed} passed, {runs.failed} failed", flush=True)
            failed += runs.failed
    return 1 if failed else 0


if __name__ == "__main__":
    sys.exit(main())
