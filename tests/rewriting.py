#!/usr/bin/env python3
"""Drives the built program over states that are rewritten: rewriting.py [PROGRAM] [--kills N] [--seed S] [--before PROGRAM] [--only PART]

What a file has to hold behind each build, byte for byte, is worked out by a second reading (`states.py`) that shares no code with the
program. Histories in which a state would grow without end; states near their limit, which are rewritten, or can't be; sessions that are
killed and files that can't grow while they are rewritten; each writing call of a rewriting, cut off, with what a crash may leave; moves
with each fault; each bit of a rewritten state turned; and states that a program without rewriting has written. Each part prints how many
of its checks passed; a check that fails is printed, and the end is 1 then.
"""
import argparse
import collections
import pathlib
import random
import re
import shutil
import subprocess
import sys
import tempfile
import time

import batches
import states
from engine import Kept as Told
from sessions import Piped, Runs, at_most, run
from shell import Shell

TOP = pathlib.Path(__file__).resolve().parent.parent
sys.path.insert(0, str(TOP / "bench"))

from generated import generated as rule_file  # noqa: E402

DEVICE = b"carte: the state's device failed\n"
SMALL = '[inputs]\na1 = 10\na2 = 20\n[rules]\nb1 = "a1+a2"\nb2 = "b1*2"\n'
AGAIN = b"b2 = 60\nran 0, given up 0, reused 2\n"
# A running total, of which each build brings 47,000 bytes: every third or fourth rewrites the file.
ROWS = 1_000
REPLY = "C1 = {}\nran 1, given up 0, reused 0\n"


def totals(first, rows=ROWS):
    return f"{first},,=SUM(A1:A{rows})\n" + "".join(f"{row}\n" for row in range(2, rows + 1))


def total(first, rows=ROWS):
    return first + rows * (rows + 1) // 2 - 1


def small_state(times=0):
    """The state of the small example, rewritten so often."""
    data = states.committed(b"", batches.spell(batches.small()))
    for _ in range(times):
        data = states.rewritten(data)
    return data


def kept_of(data):
    """What a file keeps, alike for files that differ in what no longer counts."""
    return states.live(states.fold(states.read(data)))


def follows(runs, what, before, after):
    """A build or a clearing has left just the bytes that it had to; whether it rewrote the file."""
    if after == before:
        runs.same(what, True, True)
        return False
    bodies = [body for _, body in states.read(after).bodies]
    found = (states.predicted_all(before, bodies[-count:]) for count in range(1, len(bodies) + 1))
    is_turned = next((turned for data, turned in found if data == after), None)
    runs.same(what, is_turned is None, False)
    return bool(is_turned)


# By hand

def by_hand(runs):
    """The small state, rewritten three times by the second reading: its lengths, and that the program reads each as it was."""
    runs.put("small.toml", SMALL)
    runs.same("lengths", [len(small_state(times)) for times in range(4)], [537, 1_114, 1_643, 1_643])
    for times in range(5):
        runs.put("small", small_state(times))
        runs.same(f"rewritten {times} times", run(runs, ["build", "small.toml", "small", "b2"], b""), (0, AGAIN, b""))
        runs.same("and nothing was written", (runs.folder / "small").read_bytes(), small_state(times))
        runs.put("edited.toml", SMALL.replace("a1 = 10", "a1 = 11"))
        wanted = (0, b"b2 = 62\nran 2, given up 0, reused 0\n", b"")
        runs.same(f"edited, {times}", run(runs, ["build", "edited.toml", "small", "b2"], b""), wanted)
        after = (runs.folder / "small").read_bytes()
        runs.same("a build that rewrites nothing", follows(runs, f"the file, {times}", small_state(times), after), False)


def faulty_moves(data):
    """Files with each fault of a move, by what it is."""
    layout = states.read(data)
    move, place = layout.place - 15, layout.place
    zeros, generation = bytes(8), (2).to_bytes(8, "big")
    inside = layout.start.to_bytes(8, "big")
    return move, {
        "another place": states.put(data, move + 6, (place + 1).to_bytes(8, "big")),
        "roots beyond the file": data[: place + 33],
        "an open gate byte behind it": states.put(data, place - 1, b"\1"),
        "no open root": states.put(data, place, bytes(34)),
        "one generation": states.put(data, place, (b"\1" + generation + inside) * 2),
        "a bank in its roots": states.put(data, place, (b"\1" + generation + (place + 33).to_bytes(8, "big")) + zeros + zeros),
        "a bank beyond the file": states.put(data, place, (b"\1" + generation + len(data).to_bytes(8, "big")) + zeros + zeros),
    }


def moves(runs):
    """Each fault of a move is told with its offset, and nothing is written."""
    runs.put("small.toml", SMALL)
    move, faulty = faulty_moves(small_state(1))
    for what, data in faulty.items():
        runs.put("bad", data)
        for words in (["build", "small.toml", "bad", "b2"], ["clean", "small.toml", "bad"]):
            runs.same(f"{what}: {words}", run(runs, words, b""), (7, b"", b"carte: bad state at byte %d\n" % move))
        runs.same("and nothing was written", (runs.folder / "bad").read_bytes() == data, True)
        try:
            runs.same(f"{what}, read a second time", states.read(data), None)
        except states.BadState as bad:
            runs.same(f"{what}, read a second time", bad.args, (move,))


# Histories

def clearings(runs, times=2_000):
    """A session of clearings and builds, over a state that would have more than 900,000 bytes without rewriting."""
    runs.put("two.csv", "10,=A1+A2\n20,=B1*2\n")
    got = run(runs, ["session", "two.csv", "cleared"], b"clean\nbuild B2\n" * times)
    runs.same("clearings", got == (0, b"cleaned\nB2 = 60\nran 2, given up 0, reused 0\n" * times, b""), True)
    data = (runs.folder / "cleared").read_bytes()
    runs.same(f"{len(data)} bytes", len(data) <= 200_000, True)
    print(f"{times} clearings: {len(data)} bytes, generation {states.read(data).generation}")


def value_of(text, edits):
    """The value of the last key of a generated book, with inputs that were edited."""
    values = {}
    for name, item in re.findall(r"^(\w+) = (.*)$", text, re.M):
        near_far = re.findall(r"k\d+", item)[:2]
        values[name] = abs(values[near_far[0]] - values[near_far[1]]) if near_far else edits.get(name, int(item))
    return values[name]


def edited(runs, what, rebuilder, edits, count=2_000, seed=1):
    """Sessions of 25 edits, each with a build; each value is right, and the file has no more than its list at 8 and two banks, each of at
    most twice what is live, or 65,536 bytes, and one body."""
    text, state, now = rule_file(seed, count), f"edited.{what}", {}
    for at in range(0, len(edits), 25):
        runs.put("keys.toml", re.sub(r"^(\w+) = \d+$", lambda it: f"{it[1]} = {now.get(it[1], it[0].split()[2])}", text, flags=re.M))
        script, wanted = b"", []
        for name, value in edits[at : at + 25]:
            now[name] = value
            script += b"set %s %d\nbuild k%d\n" % (name.encode(), value, count - 1)
            wanted += [f"set {name}", f"k{count - 1} = {value_of(text, now)}"]
        status, out, err = run(runs, ["session", "keys.toml", state, "--rebuilder", rebuilder], script)
        got = [line for line in out.decode().splitlines() if not line.startswith("ran ")]
        runs.same(f"values of {what}", (status, got == wanted, err), (0, True, b""))
    data = (runs.folder / state).read_bytes()
    long, most = len(states.region(kept_of(data))), max(len(body) for _, body in states.read(data).bodies)
    runs.same(f"{what}: {len(data)} bytes, {long} live", len(data) <= 3 * (max(states.WIDE, 2 * long) + most + 5) + 100, True)
    print(f"{what}: {len(edits)} edits, {len(data)} bytes, {long} live, generation {states.read(data).generation}")


def histories(runs, times=500):
    """An input that goes between two values, under traces; and edits of all inputs in turn under dirty bits."""
    toggled = [("k7", 100 + at % 2) for at in range(times)]
    for rebuilder in ("verifying", "constructive"):
        edited(runs, rebuilder, rebuilder, toggled)
    edited(runs, "dirty", "dirty", [(f"k{at % 200}", 1_000 + at) for at in range(times)])


def each_build(runs, seed):
    """Random lines over a pipe: behind each the file has just the bytes that the second reading works out."""
    chance, counts = random.Random(f"{seed}/each"), collections.Counter()
    for number, rebuilder in enumerate(["verifying", "constructive", "deep", "dirty"]):
        runs.put("totals.csv", totals(1))
        state = runs.folder / f"each{number}"
        session = Piped(runs, ["session", "totals.csv", state.name, "--rebuilder", rebuilder])
        before = b""
        for _ in range(60):
            line = chance.choice([b"set A1 %d" % chance.randint(1, 3)] * 3 + [b"build C1"] * 5 + [b"clean", b"set C2 5"])
            session.write(line)
            reply = b""
            while not reply.endswith(b"\n") or line.startswith(b"build") and b"ran " not in reply:
                reply += session.read(1)
            after = state.read_bytes()
            counts[follows(runs, f"{rebuilder}, {line}", before, after)] += after != before
            before = after
        session.end()
    runs.same("files that were rewritten", counts[True] > 8, True)
    print(f"commits over a pipe: {sum(counts.values())}, of them behind a rewriting {counts[True]}")


# Killed, and without room

def alike(kept, told):
    """Whether a file keeps what the second reading of builds does."""
    traces = {way: {} for way in states.WAYS}
    for way in states.WAYS:
        for name, _, links, result in reversed(states.last_ones(kept.traces[way])):
            traces[way].setdefault(name, []).append((links, result))
    told_traces = {way: {name: [(links, result) for _, links, result in them] for name, them in told.traces[way].items()} for way in states.WAYS}
    entries = {name: (it.result, list(it.needs), it.stale, it.shallow) for name, it in told.entries.items()}
    return (kept.seen == told.seen and traces == told_traces and tuple(kept.chain) == told.chain
            and {name: (it[2], it[4], name in kept.stale, bool(it[3])) for name, it in kept.entries.items()} == entries
            and {batches.digest(value): value for value in kept.values} == told.store)


def lines_of(chance, count):
    """Pairs of lines that set a first number and build."""
    return [line for _ in range(count) for line in (b"set A1 %d" % chance.randint(1, 3), b"build C1")]


def killed(runs, count, seed):
    """A session that is killed has kept all lines whose replies were read, and perhaps some of the next ones; no more and no less."""
    state, cut, kept = runs.folder / "killed", collections.Counter(), Told()
    runs.put("totals.csv", totals(1))
    runs.put("killed", "")
    for number in range(count):
        chance, shell = random.Random(f"{seed}/kill/{number}"), Shell(totals(1).encode(), True, kept)
        session = Piped(runs, ["session", "totals.csv", "killed"])
        for line in lines_of(chance, chance.randint(0, 2)):
            if not session.is_answered(runs, f"kill {number}, {line}", line, shell.reply(0, line)):
                return
        before, stations = state.read_bytes(), [shell.kept]
        for line in lines_of(chance, 4):
            session.write(line)
            shell.reply(0, line)
            stations.append(shell.kept)
        time.sleep(chance.uniform(0, 0.03))
        session.kill()
        after = state.read_bytes()
        found = [it for it in stations if alike(states.fold(states.read(after)), it)]
        runs.same(f"kill {number}: a station", found != [], True)
        kept = found[0] if found else shell.kept
        is_turned = states.read(after).generation != states.read(before).generation
        cut["rewritten behind the last reply" if is_turned else "changed" if after != before else "as before"] += 1
    print("killed: " + ", ".join(f"{times} {what}" for what, times in sorted(cut.items())))


def due_state(runs, name):
    """A file over which the next build of other inputs is to rewrite it first; and that file."""
    state = runs.folder / name
    for first in range(1, 40):
        runs.put("totals.csv", totals(first % 2 + 1))
        run(runs, ["build", "totals.csv", name, "C1"], b"")
        data = state.read_bytes()
        layout = states.read(data)
        if layout.size > states.WIDE and layout.size > 2 * len(states.region(kept_of(data))) and layout.generation >= 2:
            return data
    raise AssertionError("no build would rewrite the file")


def without_room(runs):
    """A file that can't grow while it is rewritten, from no byte more to enough: status 6, and it keeps what it did."""
    before = due_state(runs, "tight")
    runs.put("totals.csv", totals(5))
    words = ["build", "totals.csv", "tight", "C1"]
    run(runs, words, b"")
    whole, ended = (runs.folder / "tight").read_bytes(), collections.Counter()
    stations = [kept_of(before), kept_of(whole)]
    for size in sorted({len(before) + at * max(1, len(whole) - len(before)) // 12 for at in range(-2, 14)} | {10, 500}):
        runs.put("tight", before)
        status, out, err = run(runs, words, b"", preexec_fn=at_most(size))
        ended[status] += 1
        runs.same(f"at most {size} bytes", (status, out, err) in [(0, REPLY.format(total(5)).encode(), b""), (6, b"", DEVICE)], True)
        runs.same("what it keeps", kept_of((runs.folder / "tight").read_bytes()) in stations[status == 0 :][: 2 - (status == 0)], True)
        status, out, err = run(runs, words, b"")
        runs.same(f"the next run, {size}", (status, out.splitlines()[0], err), (0, b"C1 = %d" % total(5), b""))
    runs.same("both ends were met", sorted(ended), [0, 6])


# Each writing call

def unescaped(text):
    return bytes.fromhex(text.replace("\\x", ""))


def traced(runs, words):
    """The writing calls of a run on its state, as strace saw them: each write's offset and bytes, and None for a sync."""
    log = runs.folder / "trace"
    command = ["strace", "-f", "-xx", "-s", "9999999", "-e", "trace=pwrite64,fsync,fdatasync", "-o", log, runs.program, *words]
    done = subprocess.run(command, cwd=runs.folder, capture_output=True, timeout=300)
    calls = []
    for line in log.read_text().splitlines():
        if "pwrite64(" in line:
            text, at = re.search(r'pwrite64\(\d+, "([^"]*)", \d+, (\d+)\)', line).groups()
            calls.append((int(at), unescaped(text)))
        elif "sync(" in line:
            calls.append(None)
    while calls and calls[0] is None:
        calls.pop(0)
    return done.returncode, calls


def torn(old, piece, pick, chance):
    """What may stand in a range that was written and not synced."""
    if pick in ("front", "back"):
        middle = len(piece) // 2
        return piece[:middle] + old[middle:] if pick == "front" else old[:middle] + piece[middle:]
    return {"before": old, "any": chance.randbytes(len(piece))}.get(pick) or bytes([pick]) * len(piece)


def images(before, calls):
    """What a crash at each call may leave: written ranges as before, as written, half of each, with one byte everywhere or any, and cut."""
    now, synced, ranges, chance = before, before, [], random.Random(1)
    for call in [*calls, None]:
        for pick in ("before", "front", "back", 0, 1, 255, "any", "any", "any") if ranges else ():
            image = now
            for at, piece in ranges:
                old = synced[at : at + len(piece)].ljust(len(piece), b"\0")
                image = states.put(image, at, torn(old, piece, pick, chance))
            yield image
        yield now
        if ranges:
            yield now[: max(len(synced), (len(now) + len(synced)) // 2)]
        if call is None:
            synced, ranges = now, []
        else:
            now = states.put(now, *call)
            ranges.append((call[0], call[1]))


def each_call(runs):
    """Each image that a crash at each writing call of a build with a rewriting may leave keeps what was before, or what is behind it."""
    if not shutil.which("strace"):
        print("each writing call: left out, since strace isn't here")
        return
    seen, bodies = 0, bodies_of(runs)
    for name, times in (("first", 0), ("behind", 1), ("in front", 2)):
        before = crafted(bodies, times)
        runs.put("totals.csv", totals(5))
        runs.put("calls", before)
        status, calls = traced(runs, ["build", "totals.csv", "calls", "C1"])
        after = (runs.folder / "calls").read_bytes()
        runs.same(f"{name}: rewritten, and then committed", (status, follows(runs, name, before, after)), (0, True))
        runs.same(f"{name}: writing calls", len(calls), (4 if times == 0 else 5 if times == 1 else 7) + 4)
        stations = [kept_of(before), kept_of(after)]
        for image in dict.fromkeys(images(before, calls)):
            seen += 1
            runs.same(f"{name}: an image keeps a station", kept_of(image) in stations, True)
            runs.put("image", image)
            got = run(runs, ["build", "totals.csv", "image", "C1"], b"")
            runs.same(f"{name}: the next run", (got[0], got[1].splitlines()[0]), (0, b"C1 = %d" % total(5)))
    print(f"each writing call: {seen} images")


def bodies_of(runs):
    """What four builds of the running total leave, with another first number and the first one again, twice: the last two bring no value."""
    (runs.folder / "bodies").unlink(missing_ok=True)
    runs.put("totals.csv", totals(1))
    run(runs, ["session", "totals.csv", "bodies"], b"build C1\nset A1 2\nbuild C1\nset A1 1\nbuild C1\nset A1 2\nbuild C1\n")
    bodies = [body for _, body in states.read((runs.folder / "bodies").read_bytes()).bodies]
    runs.same("bodies of four builds", len(bodies), 4)
    return bodies


def crafted(bodies, times):
    """A state of these, rewritten so often, of which the next build rewrites the file."""
    data = b""
    for body in bodies:
        data = states.committed(data, body)
    for _ in range(times):
        data = states.rewritten(data)
        for _ in range(3):
            data = states.committed(states.committed(data, bodies[2]), bodies[3])
    return states.committed(states.committed(data, bodies[2]), bodies[3])


# States of before

def before(runs, program):
    """States that a program without rewriting has written load as they were, and are gone on in."""
    if program is None:
        print("states of before: left out, since no program of before was named")
        return
    old = Runs(program, runs.folder)
    for rebuilder in ("verifying", "constructive", "deep", "dirty"):
        name, words = f"old.{rebuilder}", ["totals.csv", f"old.{rebuilder}", "C1", "--rebuilder", rebuilder]
        for at in range(12):
            runs.put("totals.csv", totals(at % 2 + 1))
            run(old, ["build", *words], b"")
        data = (runs.folder / name).read_bytes()
        runs.same(f"{name}: no move", states.read(data).place, None)
        reused = (0, b"C1 = %d\nran 0, given up 0, reused 1\n" % total(2), b"")
        runs.same(f"{name}: as it was", run(runs, ["build", *words], b""), reused)
        runs.same(f"{name}: and nothing was written", (runs.folder / name).read_bytes() == data, True)
        runs.put("totals.csv", totals(9))
        runs.same(f"{name}: gone on in", run(runs, ["build", *words], b""), (0, REPLY.format(total(9)).encode(), b""))
        is_turned = follows(runs, f"{name}, the file", data, (runs.folder / name).read_bytes())
        runs.same(f"{name}: rewritten", is_turned, rebuilder in ("verifying", "dirty"))


def main():
    sys.setrecursionlimit(20_000)
    said = argparse.ArgumentParser(usage=__doc__)
    said.add_argument("program", nargs="?", default=TOP / "crates" / "carte" / "out" / "carte", type=pathlib.Path)
    said.add_argument("--kills", default=50, type=int)
    said.add_argument("--seed", default="1")
    said.add_argument("--before", type=pathlib.Path)
    said.add_argument("--only")
    said = said.parse_args()
    parts = [
        ("by hand", by_hand), ("faults of moves", moves), ("clearings", clearings), ("histories", histories),
        ("each build", lambda runs: each_build(runs, said.seed)), ("kills", lambda runs: killed(runs, said.kills, said.seed)),
        ("without room", without_room), ("each writing call", each_call),
        ("states of before", lambda runs: before(runs, said.before and said.before.resolve())),
    ]
    failed = 0
    for name, part in parts:
        if said.only in (None, name):
            with tempfile.TemporaryDirectory() as folder:
                runs = Runs(said.program.resolve(), folder)
                part(runs)
                print(f"{name}: {runs.passed} passed, {runs.failed} failed", flush=True)
                failed += runs.failed
    return 1 if failed else 0


if __name__ == "__main__":
    sys.exit(main())
