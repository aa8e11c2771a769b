#!/usr/bin/env python3
"""Drives sessions and explanations of the built program: sessions.py [PROGRAM] [--sessions N] [--kills N] [--seed S]

Random sessions beside the second reading (`shell.py`, `engine.py`), several over each state, with edits of the book
between them; sessions over pipes, in which each line is written after the reply to the one before was read; sessions
that are killed between lines and in them; scripts that are too long or can't be read; replies that can't be written;
states that can't grow. What is wanted is written out by hand or worked out by the second reading, never taken from the
program. Each part prints how many of its checks passed; a check that fails is printed whole, and the end is 1 then.
"""
import argparse
import collections
import os
import pathlib
import random
import resource
import select
import signal
import subprocess
import sys
import tempfile
import time

from engine import Kept
from formulas import EMPTY, Fault, printed
from histories import REBUILDERS, SCHEDULERS, History, SheetHistory
from program import SUMS, Runs
from random_books import VALUES
from shell import Shell, reason_line
from sheets import read_sheet

TOP = pathlib.Path(__file__).resolve().parent.parent
MOST_SCRIPT = 67_108_864
TOO_LONG = b"carte: script longer than 67108864 bytes\n"
DEVICE = b"carte: the state's device failed\n"
FAILED_READ = b"carte: a read failed\n"
BUILT = b"total = 60\nran 2, given up 0, reused 0\n"
AGAIN = b"total = 60\nran 0, given up 0, reused 2\n"
NO_LINES = [b"frobnicate", b"build", b"explain", b"set", b"set k0", b"clean k0", b"build k0,k1", b"build 1", b"Build k0", b"set k0 1.5",
            b"set k0 9223372036854775808", b'set k0 "a', b"set k0 =1", b"\xff", b"build k0 \xc3", b'set k0 "\t"', b"explain --list k0", b"build A0"]
IDLE = [b"", b" \t ", b"# nothing", b"#build k1", b"\r", b"  # \xe2\x82\xac"]


def run(runs, words, script, **how):
    """The status and both streams, as bytes."""
    how = {"stdout": subprocess.PIPE, "stderr": subprocess.PIPE, **how}
    source = {} if "stdin" in how else {"input": script}
    done = subprocess.run([runs.program, *words], cwd=runs.folder, timeout=300, **source, **how)
    return done.returncode, done.stdout or b"", done.stderr or b""


def replies(shell, script):
    """The replies of the second reading to all lines of a script."""
    lines = script.removesuffix(b"\n").split(b"\n") if script else []
    return b"".join(shell.reply(number, line) for number, line in enumerate(lines, 1))


# Random sessions

class Lines:
    """Makes the lines of a script over a book that histories.py edits."""

    def __init__(self, history, chance, counts):
        self.history, self.random, self.counts = history, chance, counts

    def name(self):
        if self.random.random() < 0.08:
            return self.random.choice(self.history.maker.strange)
        name = self.history.maker.key(self.random.randrange(self.history.maker.count))
        is_sheet = isinstance(self.history, SheetHistory)
        return name.lower() if is_sheet and self.random.random() < 0.2 else name

    def value(self):
        if self.random.random() < 0.1:
            return b"empty"
        value = self.random.choice(VALUES if self.random.random() < 0.5 else [1, 7])
        plus = b"+" if isinstance(value, int) and value >= 0 and self.random.random() < 0.2 else b""
        return plus + printed(value if isinstance(value, int) else value.encode())

    def names(self):
        chosen = self.history.targets() if self.random.random() < 0.5 else [self.name().encode() for _ in range(self.random.randint(1, 3))]
        return self.random.choice([b" ", b"\t", b"  "]).join(chosen)

    def line(self):
        kind = self.random.random()
        bounds = [(0.3, "set"), (0.6, "build"), (0.83, "explain"), (0.88, "clean"), (0.94, "idle")]
        what = next((what for bound, what in bounds if kind < bound), "none")
        self.counts[what] += 1
        if what in ("idle", "none"):
            return self.random.choice(IDLE if what == "idle" else NO_LINES)
        if what == "set":
            name = self.random.choice(list(self.history.first)) if self.random.random() < 0.8 else self.name()
            return b"set " + name.encode() + b" " + self.value()
        return b"clean" if what == "clean" else what.encode() + b" " + self.names()

    def again(self, made):
        """One of the last lines once more: where nothing has changed since, its reply is known."""
        self.counts["again"] += 1
        return self.random.choice(made[-3:])

    def script(self, count):
        ends = [b"\n", b"\n", b"\n", b" \n", b"\r\n"]
        made = []
        for _ in range(count):
            made.append(self.again(made) if made and self.random.random() < 0.3 else self.line() + self.random.choice(ends))
        text = b"".join(made)
        return text.removesuffix(b"\n") if self.random.random() < 0.2 else text


def options(chance):
    scheduler, rebuilder, listed = chance.choice(SCHEDULERS), chance.choice(REBUILDERS), chance.random() < 0.3
    workers = ["--workers", chance.choice(("1", "2", "64"))] if scheduler == "suspending" else []
    return (scheduler, rebuilder, listed), ["--scheduler", scheduler, "--rebuilder", rebuilder, *workers] + ["--list"] * listed


def explained(runs, history, kept, chosen, words, targets):
    """What an explanation beside a state must say; and that it writes nothing."""
    try:
        shell = Shell(history.book(), history.reader is read_sheet, kept, *chosen)
    except Fault as fault:
        wanted = 1, b"", b"carte: book refused: " + str(fault).encode() + b"\n"
    else:
        reason = shell.refusal(targets)
        wanted = (3, b"", b"carte: " + reason_line(reason)) if reason else (0, shell.explain(targets), b"")
    before = (runs.folder / "state").read_bytes()
    got = run(runs, ["explain", history.file, "state", *words, *targets], b"")
    runs.same(f"explain {words} {targets}:\n{history.book().decode()}", got, wanted)
    runs.same("a state that was explained", (runs.folder / "state").read_bytes(), before)


def one_session(runs, history, kept, chance, counts):
    """A script of 20 lines over the state; gives what is kept behind it."""
    script = Lines(history, chance, counts).script(20)
    chosen, words = options(chance)
    book = history.book()
    runs.put(history.file, book)
    try:
        shell = Shell(book, history.reader is read_sheet, kept, *chosen)
    except Fault as fault:
        wanted = 1, b"", b"carte: book refused: " + str(fault).encode() + b"\n"
    else:
        wanted = 0, replies(shell, script), b""
        kept = shell.kept
    got = run(runs, ["session", history.file, "state", *words], script)
    for reply in wanted[1].splitlines():
        counts[reply_kind(reply)] += 1
    runs.same(f"session {words}:\n{book.decode()}\n{script.decode(errors='replace')}", got, wanted)
    explained(runs, history, kept, chosen, words, history.targets())
    return kept


def reply_kind(reply):
    kinds = [b"not set", b"refused", b"not understood", b"is an input", b"reusable", b"no record", b", is ", b"stored value", b"no entry",
             b"marked stale", b"is shallow", b"input changed"]
    return next((f"'{kind.decode()}'" for kind in kinds if kind in reply and b" = " not in reply), "other replies")


def random_sessions(runs, count, seed):
    counts, history, kept = collections.Counter(), None, None
    for number in range(count):
        chance = random.Random(f"{seed}/{number}")
        if number % 4 == 0:
            history, kept = (SheetHistory if number % 8 else History)(f"{seed}/{number}"), Kept()
            (runs.folder / "state").unlink(missing_ok=True)
        else:
            history.edit()
        kept = one_session(runs, history, kept, chance, counts)
    print(f"sessions: {count}; lines and replies: " + ", ".join(f"{times} {what}" for what, times in sorted(counts.items())))


# Over pipes

class Piped:
    """A session whose lines are written one by one."""

    def __init__(self, runs, words):
        self.process = subprocess.Popen([runs.program, *words], cwd=runs.folder, stdin=subprocess.PIPE, stdout=subprocess.PIPE, bufsize=0)

    def write(self, line):
        self.process.stdin.write(line + b"\n")

    def read(self, count):
        """So many bytes of the reply, or those that came within a minute."""
        found, until = b"", time.monotonic() + 60
        while len(found) < count and select.select([self.process.stdout], [], [], max(0, until - time.monotonic()))[0]:
            piece = os.read(self.process.stdout.fileno(), count - len(found))
            if not piece:
                break
            found += piece
        return found

    def is_answered(self, runs, what, line, wanted):
        """Writes a line; whether just the wanted reply came. Else the session is killed, since it may never come."""
        self.write(line)
        got = self.read(len(wanted))
        runs.same(f"{what}, {line}", got, wanted)
        if got != wanted:
            self.kill()
        return got == wanted

    def is_silent(self):
        return not select.select([self.process.stdout], [], [], 0.01)[0]

    def end(self):
        """The rest of the replies, and the status."""
        self.process.stdin.close()
        rest = self.process.stdout.read()
        self.process.stdout.close()
        return rest, self.process.wait(60)

    def kill(self):
        self.process.kill()
        self.process.stdin.close()
        self.process.stdout.close()
        self.process.wait()


def piped(runs, seed):
    """Each line is written when the reply to the one before was read, and nothing more had come."""
    for number in range(10):
        history = (SheetHistory if number % 2 else History)(f"{seed}/pipe/{number}")
        chance = random.Random(f"{seed}/pipe/{number}/lines")
        runs.put(history.file, history.book())
        shell = Shell(history.book(), history.reader is read_sheet, Kept())
        lines = Lines(history, chance, collections.Counter())
        session = Piped(runs, ["session", history.file, f"pipe{number}"])
        for at in range(1, 21):
            line = lines.line()
            if not session.is_answered(runs, f"line {at} over a pipe", line, shell.reply(at, line)):
                return
        runs.same("nothing behind the last reply", session.is_silent(), True)
        runs.same("the end of a pipe", session.end(), (b"", 0))


def halves(runs):
    """A line that comes in two pieces is carried out when its line feed has come; the last one at the end."""
    session = Piped(runs, ["session", "sums.toml", "halves"])
    session.process.stdin.write(b"build to")
    runs.same("half a line", session.is_silent(), True)
    session.process.stdin.write(b"tal\nbuild total")
    runs.same("a whole line", session.read(len(BUILT)), BUILT)
    runs.same("the next half", session.is_silent(), True)
    runs.same("the last line", session.end(), (AGAIN, 0))


# Killed

def killed(runs, count, seed):
    """A session that is killed behind a reply has kept all lines up to it; one that is killed in a line may have kept that too."""
    cut = collections.Counter()
    for number in range(count):
        chance = random.Random(f"{seed}/kill/{number}")
        history = (SheetHistory if number % 2 else History)(f"{seed}/kill/{number}")
        runs.put(history.file, history.book())
        is_sheet, state = history.reader is read_sheet, f"killed{number}"
        shell, lines = Shell(history.book(), is_sheet, Kept()), Lines(history, chance, collections.Counter())
        session = Piped(runs, ["session", history.file, state])
        for at in range(1, chance.randint(2, 12)):
            line = lines.line()
            if not session.is_answered(runs, f"line {at} before a kill", line, shell.reply(at, line)):
                return
        stations = [shell.kept]
        if number % 2:
            line = b"build " + b" ".join(history.targets())
            shell.reply(0, line)
            stations.append(shell.kept)
            session.write(line)
            time.sleep(chance.uniform(0, 0.01))
        session.kill()
        asked = b"build " + b" ".join(history.targets())
        wanted = [replies(Shell(history.book(), is_sheet, kept), asked) for kept in stations]
        got = run(runs, ["session", history.file, state], asked)
        runs.same(f"after kill {number}, one of {wanted}", got[0] == 0 and got[1] in wanted, True)
        cut["in a line" if number % 2 else "behind a reply"] += 1
    print("killed: " + ", ".join(f"{times} {where}" for where, times in sorted(cut.items())))


# By hand

def inputs(runs):
    """What can be set: an input of the book, and in a sheet any cell that is no rule."""
    script = b"set a 11\nset sum 3\nset c 3\nbuild total\nset a \"x\"\nbuild total\nset b empty\nset a 1\nbuild total a b\n"
    wanted = (b"set a\nnot set: sum is a rule\nnot set: c is unknown\ntotal = 62\nran 2, given up 0, reused 0\nset a\ntotal = #VALUE!\n"
              b"ran 2, given up 0, reused 0\nset b\nset a\ntotal = 2\na = 1\nb = empty\nran 2, given up 0, reused 0\n")
    runs.same("set, of a rule file", run(runs, ["session", "sums.toml", "set.state"], script), (0, wanted, b""))
    runs.same("a book that lines have edited", (runs.folder / "sums.toml").read_text(), SUMS)
    runs.put("p.csv", "10,=A1+A2\n20,=B1*2\n")
    script = b"set a1 11\nset B1 3\nset z9 5\nbuild B2 Z9\nset Price 3\nset zz9999 \"a\\nb\"\nbuild zz9999\n"
    wanted = (b"set A1\nnot set: B1 is a rule\nset Z9\nB2 = 62\nZ9 = 5\nran 2, given up 0, reused 0\nline 5: not understood\nset ZZ9999\n"
              b"ZZ9999 = \"a\\nb\"\nran 0, given up 0, reused 0\n")
    runs.same("set, of a sheet", run(runs, ["session", "p.csv", "cells.state"], script), (0, wanted, b""))
    runs.put("full.csv", "\n".join(",".join("1" for _ in range(512)) for _ in range(512)) + "\n")
    script = b"set A1 2\nset A513 3\nset A513 empty\nbuild A1 A513\n"
    wanted = b"set A1\nnot set: more than 262144 keys\nnot set: more than 262144 keys\nA1 = 2\nA513 = empty\nran 0, given up 0, reused 0\n"
    runs.same("set, of a full sheet", run(runs, ["session", "full.csv", "full.state"], script), (0, wanted, b""))


def causes(runs):
    """Each cause of an explanation, worked out by hand."""
    runs.put("p.csv", "10,=A1+A2\n20,=B1*2\n")
    ten = "4adca0103f7bb3dcd163484b7a7e3e4cb4cbda0706c6b0af01afd04f9bde2ffa"
    eleven = "62e7e02ebe7b1ee4cd2120090bc09b8baf24b40c2bb5ef15aa3ad054b1b57412"
    steps = [
        ("verifying", "explain B2 A1\nbuild B2\nexplain B2 A1 b2",
         "B2 runs: no record\nA1 is an input\n{built}B2 reusable\nA1 is an input\nB2 reusable\n"),
        ("dirty", "explain B1 B2", "B1 reusable\nB2 reusable\n"),
        ("verifying", "set A1 11\nexplain B1", f"set A1\nB1 runs: A1 was {ten}, is {eleven}\n"),
        ("dirty", "set A1 11\nexplain B2\nset A2 21\nexplain B2",
         "set A1\nB2 runs: input changed: B2 -> B1 -> A1\nset A2\nB2 runs: input changed: B2 -> B1 -> A1\n"),
        ("dirty", "set A2 21\nexplain B2", "set A2\nB2 runs: input changed: B2 -> B1 -> A2\n"),
        ("constructive", "explain B1", "B1 runs: no record\n"),
        ("deep", "explain B1", "B1 runs: no record\n"),
        ("dirty", "set A1 11\nbuild B1\nexplain B1 B2",
         "set A1\nB1 = 31\nran 1, given up 0, reused 0\nB1 reusable\nB2 runs: entry marked stale\n"),
        ("verifying", "explain B1 B2", "B1 runs: stored value differs\nB2 reusable\n"),
        ("deep", "clean\nbuild B2\nset A1 11\nexplain B2", f"cleaned\n{{built}}set A1\nB2 runs: A1 was {ten}, is {eleven}\n"),
        ("dirty", "explain B2\nclean\nexplain B2", "B2 runs: entry is shallow\ncleaned\nB2 runs: no entry\n"),
        ("topological", "explain B2 C9", "B2 runs: no record\nC9 is an input\n"),
    ]
    for how, script, wanted in steps:
        option = "--scheduler" if how in SCHEDULERS else "--rebuilder"
        wanted = wanted.replace("{built}", "B2 = 60\nran 2, given up 0, reused 0\n").encode()
        got = run(runs, ["session", "p.csv", "causes.state", option, how], script.encode())
        runs.same(f"causes, {how}: {script}", got, (0, wanted, b""))


def explanations(runs):
    """The command: its statuses, and that it leaves the state as it was."""
    explain = ["explain", "sums.toml", "told"]
    wanted = b"total runs: no record\na is an input\ntotal runs: no record\n"
    runs.same("explain, of nothing kept", run(runs, [*explain, "total", "a", "total"], b""), (0, wanted, b""))
    runs.same("a state that was made", (runs.folder / "told").read_bytes(), b"")
    runs.same("build", run(runs, ["build", "sums.toml", "told", "total"], b""), (0, BUILT, b""))
    before = (runs.folder / "told").read_bytes()
    runs.same("explain, of what is kept", run(runs, [*explain, "total", "--rebuilder=dirty"], b""), (0, b"total reusable\n", b""))
    runs.same("explain, of a missing name", run(runs, [*explain, "total", "x"], b""), (3, b"", b"carte: missing: x\n"))
    runs.same("explain, without a target", run(runs, explain, b""), (2, b"", b"carte: usage: no target\n"))
    runs.same("explain, with a bad one", run(runs, [*explain, "A1"], b""), (2, b"", b'carte: usage: bad target "A1"\n'))
    runs.same("explain, without a book", run(runs, ["explain", "nowhere", "told", "a"], b""), (4, b"", FAILED_READ))
    runs.put("loop.toml", '[rules]\na = "INDIRECT(\\"b\\")"\nb = "a"\n')
    topological = ["explain", "loop.toml", "told", "a", "--scheduler=topological"]
    runs.same("explain, of a circle of a dynamic rule", run(runs, topological, b""), (3, b"", b"carte: cycle: a -> b -> a\n"))
    runs.put("bad", "no state file")
    runs.same("explain, over no state", run(runs, ["explain", "sums.toml", "bad", "a"], b""), (7, b"", b"carte: bad state at byte 0\n"))
    with open("/dev/full", "w") as full:
        runs.same("explain, onto a full device", run(runs, [*explain, "total"], b"", stdout=full), (5, b"", b""))
    runs.same("a state that was explained", (runs.folder / "told").read_bytes(), before)


def at_most(size):
    def limit():
        signal.signal(signal.SIGXFSZ, signal.SIG_IGN)
        resource.setrlimit(resource.RLIMIT_FSIZE, (size, size))
    return limit


def ends(runs):
    """What ends a session early, and what stands then."""
    session = ["session", "sums.toml", "ends"]
    runs.same("no script", run(runs, session, b""), (0, b"", b""))
    runs.same("closed standard input", run(runs, session, b"", stdin=subprocess.DEVNULL, preexec_fn=lambda: os.close(0)), (0, b"", b""))
    runs.same("targets", run(runs, [*session, "a"], b"build a\n"), (2, b"", b"carte: usage: targets not taken\n"))
    runs.same("no book", run(runs, ["session", "nowhere", "ends"], b"build a\n"), (4, b"", FAILED_READ))
    runs.same("no state", run(runs, ["session", "sums.toml", "folder"], b"build a\n"), (6, b"", DEVICE))
    folder = os.open(runs.folder, os.O_RDONLY)
    runs.same("a script that can't be read", run(runs, session, b"", stdin=folder), (4, b"", FAILED_READ))
    os.close(folder)
    with open("/dev/full", "w") as full:
        runs.same("a reply that can't be written", run(runs, session, b"# first\nbuild sum\nbuild total\n", stdout=full), (5, b"", b""))
    runs.same("only its line was carried out", run(runs, session, b"build total\n"), (0, b"total = 60\nran 1, given up 0, reused 1\n", b""))
    several = b"set a 1\nbuild total\nset a 2\nbuild total\nset a 3\nbuild total\n"
    shell = Shell(SUMS.encode(), False, Kept())
    wanted, front = replies(shell, several), collections.Counter()
    for size in [*range(0, 30, 10), *range(30, 2_500, 70)]:
        (runs.folder / "tight").unlink(missing_ok=True)
        status, out, err = run(runs, ["session", "sums.toml", "tight"], several, preexec_fn=at_most(size))
        is_known = (status, err) in ((0, b""), (6, DEVICE)) and (out == wanted) == (status == 0)
        runs.same(f"at most {size} bytes: {status} {out} {err}", is_known and wanted.startswith(out), True)
        runs.same("whole replies", out == b"" or out.endswith(b"reused 0\n") or out.endswith(b"set a\n"), True)
        front[out.count(b"total")] += 1
    runs.same("sessions that ended at each build, and at none", sorted(front), [0, 1, 2, 3])


def long_scripts(runs):
    """67,108,864 bytes are taken, and not one more; a line may be as long."""
    session = ["session", "sums.toml", "long"]
    runs.same("a script of 67,108,864 bytes", run(runs, session, b"build total\n".ljust(MOST_SCRIPT, b"#")), (0, BUILT, b""))
    (runs.folder / "long").unlink()
    runs.same("one of a byte more", run(runs, session, b"build total\n".ljust(MOST_SCRIPT + 1, b"#")), (10, BUILT, TOO_LONG))
    runs.same("what it kept", run(runs, session, b"build total"), (0, AGAIN, b""))
    runs.put("p.csv", "10,=A1+A2\n20,=B1*2\n")
    script = b"build B2\n" + 67_108_856 * b"#"
    wanted = b"B2 = 60\nran 2, given up 0, reused 0\n"
    runs.same("of 67,108,865 bytes", run(runs, ["session", "p.csv", "rows"], script), (10, wanted, TOO_LONG))
    comment = b"#" * (MOST_SCRIPT - 6) + b"\n"
    runs.same("a last line that is cut at the limit isn't carried out", run(runs, session, comment + b"clean#"), (10, b"", TOO_LONG))
    runs.same("and one that ends there is", run(runs, session, comment + b"clean"), (0, b"cleaned\n", b""))
    text = b"x" * 65_536
    lines = b'set a "%s"\nbuild a\nset a "%sx"\n' % (text, text)
    wanted = b'set a\na = "%s"\nran 0, given up 0, reused 0\nline 3: not understood\n' % text
    runs.same("the longest text", run(runs, session, lines), (0, wanted, b""))
    many = b"frobnicate\n" * 20_000
    runs.same("20,000 lines", run(runs, session, many), (0, b"".join(b"line %d: not understood\n" % at for at in range(1, 20_001)), b""))


def main():
    sys.setrecursionlimit(20_000)
    said = argparse.ArgumentParser()
    said.add_argument("program", nargs="?", default=TOP / "crates" / "carte" / "out" / "carte", type=pathlib.Path)
    said.add_argument("--sessions", default=200, type=int)
    said.add_argument("--kills", default=60, type=int)
    said.add_argument("--seed", default="1")
    said = said.parse_args()
    parts = [
        ("random sessions", lambda runs: random_sessions(runs, said.sessions, said.seed)), ("pipes", lambda runs: piped(runs, said.seed)),
        ("halves of lines", halves), ("kills", lambda runs: killed(runs, said.kills, said.seed)), ("inputs", inputs), ("causes", causes),
        ("explanations", explanations), ("early ends", ends), ("long scripts", long_scripts),
    ]
    failed = 0
    for name, part in parts:
        with tempfile.TemporaryDirectory() as folder:
            runs = Runs(said.program.resolve(), folder)
            runs.put("sums.toml", SUMS)
            (runs.folder / "folder").mkdir()
            part(runs)
            print(f"{name}: {runs.passed} passed, {runs.failed} failed", flush=True)
            failed += runs.failed
    return 1 if failed else 0


if __name__ == "__main__":
    sys.exit(main())
