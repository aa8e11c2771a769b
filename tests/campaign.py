#!/usr/bin/env python3
"""Stops and faults of real runs over real files: campaign.py [PROGRAM] [--kills N] [--seed S] [--only PART]

Under each of the twelve pairings of schedulers and rebuilders: builds, edited builds, sessions and builds that rewrite their state are
killed at any moment; cut off at each of their writing calls, with what a crash may leave of the file; and met with each call of the
system that fails, once or from then on, as a device that is full, broken or interrupted makes it fail. And eight runs at once over one
state. No run gives a wrong value, each that fails says why, the run behind it gives the right values, and what was acknowledged is
kept: a reply that was read is that of a build of which the next one runs nothing. The values are worked out here. Each part prints how
many of its checks passed; a check that fails is printed, and the end is 1 then. What a machine lacks is named, and left out.
"""
import argparse
import collections
import errno
import os
import pathlib
import random
import shutil
import subprocess
import sys
import tempfile
import time

import states
from rewriting import images, kept_of, traced  # Before `program`, which puts `bench` in front of the path.
from program import Runs  # noqa: E402

TOP = pathlib.Path(__file__).resolve().parents[1]
PAIRINGS = [(scheduler, rebuilder) for scheduler in ("topological", "restarting", "suspending") for rebuilder in ("dirty", "verifying", "constructive", "deep")]
INPUTS, KEYS = 12, 330
LAST = f"k{KEYS - 1}"
# What a run may end with where a call of the system fails, and how its line begins.
FAULTS = {4: "carte: a read failed", 5: "", 6: "carte: the state's device failed", 9: "carte: "}


def values(inputs):
    """Of each key, as the rules say."""
    found = list(inputs)
    for at in range(INPUTS, KEYS):
        one, other = found[at - 5], found[at * 7 % at // 3]
        found.append(abs(one - other) + at if at % 3 else one if one > other else other)
    return found


def book(inputs, pairing):
    """The rules, every third by a choice, which a topological build refuses and says in another way."""
    choice, rules = "MAX({0},{1})" if pairing[0] == "topological" else "IF({0}>{1},{0},{1})", []
    for at in range(INPUTS, KEYS):
        one, other = f"k{at - 5}", f"k{at * 7 % at // 3}"
        rules.append(f'k{at} = "MAX({one},{other})-MIN({one},{other})+{at}"' if at % 3 else f'k{at} = "{choice.format(one, other)}"')
    return "[inputs]\n" + "".join(f"k{at} = {it}\n" for at, it in enumerate(inputs)) + "[rules]\n" + "\n".join(rules) + "\n"


def wanted(inputs):
    return f"{LAST} = {values(inputs)[-1]}"


def words(command, state, pairing):
    target = [LAST] if command == "build" else []
    return [command, "book.toml", state, *target, "--scheduler", pairing[0], "--rebuilder", pairing[1]]


def first_line(said):
    return (said[0], said[1].split("\n")[0], said[2])


def is_right(runs, what, state, pairing, inputs):
    """Whether a run as it is, over a state that a stop or a fault has left, gives the right value."""
    runs.same(what, first_line(runs.run(*words("build", state, pairing))), (0, wanted(inputs), ""))


def edited(inputs, chance):
    at = chance.randrange(INPUTS)
    return [*inputs[:at], chance.randint(1, 9), *inputs[at + 1 :]]


def script_of(settings):
    """Lines that set the first input and build, a pair for each."""
    return "".join(f"set k0 {it}\nbuild {LAST}\n" for it in settings)


# Killed at any moment

def take(process, after):
    """What was read of its reply when it was killed, so many seconds after it was begun."""
    time.sleep(after)
    process.kill()
    out = process.communicate()[0].decode()
    return process.returncode, out


def killed_build(runs, number, pairing, inputs, chance, usual):
    state = "kill-" + "-".join(pairing)
    process = subprocess.Popen([runs.program, *words("build", state, pairing)], cwd=runs.folder, stdin=subprocess.DEVNULL, stdout=subprocess.PIPE)
    status, out = take(process, chance.uniform(0, 1.3 * usual))
    next_one = runs.run(*words("build", state, pairing))
    runs.same(f"kill {number}, {pairing}: the next run", first_line(next_one), (0, wanted(inputs), ""))
    if out.count("\n") == 2:
        runs.same(f"kill {number}, {pairing}: its reply", out.split("\n")[0], wanted(inputs))
        runs.same(f"kill {number}, {pairing}: what was acknowledged", next_one[1].split("\n")[1].startswith("ran 0,"), True)
    return "behind its reply" if out.count("\n") == 2 else "before its reply"


def killed_session(runs, number, pairing, inputs, chance, usual):
    state, settings = "kill-" + "-".join(pairing), [chance.randint(1, 9) for _ in range(4)]
    process = subprocess.Popen([runs.program, *words("session", state, pairing)], cwd=runs.folder, stdin=subprocess.PIPE, stdout=subprocess.PIPE)
    process.stdin.write(script_of(settings).encode())
    process.stdin.flush()
    status, out = take(process, chance.uniform(0, 2 * usual))
    replies = [it for it in out.split("\n")[:-1] if it.startswith("ran ")]
    values_read = [it for it in out.split("\n")[:-1] if it.startswith(LAST)]
    runs.same(f"kill {number}, {pairing}: replies", values_read, [wanted([it, *inputs[1:]]) for it in settings][: len(values_read)])
    # The state is that behind the last line that was answered, or behind one that came after it.
    data, found = (runs.folder / state).read_bytes(), []
    for count in range(len(replies), len(settings) + 1) if replies else ():
        runs.put("tried", data)
        said = runs.run(*words("session", "tried", pairing), stdin=None, input=f"set k0 {settings[count - 1]}\nbuild {LAST}\n".encode())
        found.append(said[0] == 0 and f"\n{wanted([settings[count - 1], *inputs[1:]])}\nran 0," in "\n" + said[1])
    runs.same(f"kill {number}, {pairing}: what was acknowledged", not replies or any(found), True)
    is_right(runs, f"kill {number}, {pairing}: the next run", state, pairing, inputs)
    return f"in a session, behind {len(replies)} replies"


def kills(runs, count, seed):
    chance, inputs, ended = random.Random(f"{seed}/kills"), [1] * INPUTS, collections.Counter()
    runs.put("book.toml", book(inputs, PAIRINGS[1]))
    began = time.monotonic()
    runs.run(*words("build", "timed", PAIRINGS[1]))
    usual, generations = time.monotonic() - began, collections.Counter()
    for number in range(count):
        pairing = PAIRINGS[number % len(PAIRINGS)]
        inputs = edited(inputs, chance)
        runs.put("book.toml", book(inputs, pairing))
        one = killed_session if chance.random() < 0.4 else killed_build
        ended[one(runs, number, pairing, inputs, chance, usual)] += 1
        state = runs.folder / ("kill-" + "-".join(pairing))
        generations[pairing] = states.read(state.read_bytes()).generation
    print("killed: " + ", ".join(f"{times} {what}" for what, times in sorted(ended.items())) + f"; rewritten {sum(generations.values())} times")


# Each writing call

def cases(runs, pairing):
    """The states over which a run is looked at, and the inputs of its book: none yet, one that an edit follows, and one that is to be rewritten."""
    inputs = [3] * INPUTS
    yield "a first build", b"", inputs
    runs.put("book.toml", book(inputs, pairing))
    runs.put("case", b"")
    runs.run(*words("build", "case", pairing))
    yield "an edited one", (runs.folder / "case").read_bytes(), [8, *inputs[1:]]
    for at in range(400):
        before = (runs.folder / "case").read_bytes()
        runs.put("book.toml", book([at % 2 + 4, *inputs[1:]], pairing))
        runs.run(*words("build", "case", pairing))
        if states.read((runs.folder / "case").read_bytes()).generation:
            yield "one that rewrites", before, [at % 2 + 4, *inputs[1:]]
            return


def writes(runs, seed):
    """Each image that a crash may leave keeps what was kept before, behind one of the commits, or at the end; a run over it is right."""
    if not shutil.which("strace"):
        print("each writing call: left out, since strace isn't here")
        return
    seen = collections.Counter()
    for pairing in PAIRINGS:
        for case, before, inputs in list(cases(runs, pairing)):
            runs.put("book.toml", book(inputs, pairing))
            runs.put("calls", before)
            status, calls = traced(runs, words("build", "calls", pairing))
            now, stations = before, [kept_of(before)]
            for call in calls:
                now = now if call is None else states.put(now, *call)
                if call is None:
                    stations.append(kept_of(now))
            runs.same(f"{pairing}, {case}: its end", (status, now), (0, (runs.folder / "calls").read_bytes()))
            for image in dict.fromkeys(images(before, calls)):
                seen[case] += 1
                runs.same(f"{pairing}, {case}: an image keeps a station", kept_of(image) in stations, True)
                runs.put("image", image)
                is_right(runs, f"{pairing}, {case}: the next run", "image", pairing, inputs)
    print("images: " + ", ".join(f"{times} of {case}" for case, times in seen.items()))


# Each failing call

def failing(runs, shim, name, at, error, stays, command, pairing, lines=None):
    """What a run says of which that call fails; whether it had so many calls."""
    (runs.folder / "failed").unlink(missing_ok=True)
    env = {**os.environ, "LD_PRELOAD": str(shim), "FAILED": str(runs.folder / "failed"), "FAIL_AT": str(at), "FAIL_WITH": str(error), "FAIL_ON": str(int(stays))}
    how = {"stdin": None, "input": lines.encode()} if lines else {}
    return runs.run(*words(command, name, pairing), env=env, **how), (runs.folder / "failed").exists()


def is_fault(said, right):
    """It ended well with the right reply, or with a fault that says why, and gave no more than the front of the right reply."""
    status, out, err = said
    if status == 0:
        return out == right and err == ""
    return status in FAULTS and right.startswith(out) and err.startswith(FAULTS[status]) and err.count("\n") == bool(err)


def calls_of(runs, shim, command, pairing, case, before, inputs, ended):
    lines = script_of([2, 6]) if command == "session" else None
    how = {"stdin": None, "input": lines.encode()} if lines else {}
    runs.put("book.toml", book(inputs, pairing))
    runs.put("fails", before)
    right = runs.run(*words(command, "fails", pairing), **how)
    runs.same(f"{pairing}, {case}: {command}", right[0], 0)
    for error, stays in ((errno.EIO, True), (errno.ENOSPC, False), (errno.EINTR, False)):
        at, is_there = 1, True
        while is_there:
            runs.put("fails", before)
            said, is_there = failing(runs, shim, "fails", at, error, stays, command, pairing, lines)
            runs.same(f"{pairing}, {case}: {command}, call {at} with {errno.errorcode[error]}: {said}", is_fault(said, right[1]), True)
            is_right(runs, f"{pairing}, {case}: the run behind {command}, call {at} with {errno.errorcode[error]}", "fails", pairing, inputs)
            ended[said[0]] += is_there
            at += 1


def calls(runs, seed):
    if not shutil.which("gcc"):
        print("each failing call: left out, since gcc isn't here")
        return
    shim, ended = runs.folder / "shim.so", collections.Counter()
    subprocess.run(["gcc", "-shared", "-fPIC", "-O1", "-o", shim, TOP / "tests/failing_calls.c", "-ldl"], check=True)
    for pairing in PAIRINGS:
        for case, before, inputs in list(cases(runs, pairing)):
            calls_of(runs, shim, "build", pairing, case, before, inputs, ended)
        calls_of(runs, shim, "session", pairing, case, before, inputs, ended)
    print("a failing call: " + ", ".join(f"{times} ended with {status}" for status, times in sorted(ended.items())))


# At once

def at_once(runs, seed, rounds=60, count=8):
    """Runs that begin together over one state all end well, since each waits for the one before it."""
    chance, inputs = random.Random(f"{seed}/once"), [1] * INPUTS
    for number in range(rounds):
        pairing, inputs = PAIRINGS[number % len(PAIRINGS)], edited(inputs, chance)
        runs.put("book.toml", book(inputs, pairing))
        begun = [subprocess.Popen([runs.program, *words("build", "once", pairing)], cwd=runs.folder, stdout=subprocess.PIPE, stderr=subprocess.PIPE) for _ in range(count)]
        ended = [(it.communicate(timeout=60), it.returncode) for it in begun]
        runs.same(f"round {number}", {(status, out.decode().split("\n")[0], err) for (out, err), status in ended}, {(0, wanted(inputs), b"")})


def main():
    said = argparse.ArgumentParser()
    said.add_argument("program", nargs="?", default=TOP / "crates" / "carte" / "out" / "carte", type=pathlib.Path)
    said.add_argument("--kills", default=1_000, type=int)
    said.add_argument("--seed", default="1")
    said.add_argument("--only")
    said = said.parse_args()
    parts = [("kills", lambda runs: kills(runs, said.kills, said.seed))] + [(name, lambda runs, part=part: part(runs, said.seed)) for name, part in (("writes", writes), ("calls", calls), ("at once", at_once))]
    failed = 0
    for name, part in parts:
        if said.only in (None, name):
            with tempfile.TemporaryDirectory() as folder:
                runs = Runs(said.program.resolve(), folder)
                part(runs)
                print(f"{name}: {runs.passed} passed, {runs.failed} failed", flush=True)
                failed += runs.failed
    return 1 if failed else 0


if __name__ == "__main__":
    sys.exit(main())
