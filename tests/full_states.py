#!/usr/bin/env python3
"""Drives the built program over states near their limit, and over a rewritten one with a bit turned: full_states.py [PROGRAM] [--only PART] [--stride N]

The states have up to 536,870,912 bytes, most of them in a few thousand texts, and are written by the second reading (`states.py`); what the
program has to leave is worked out by it too. A state that is full of what no longer counts is rewritten where there is room for what is
live, and the build or the clearing goes on; one that is full of what is live is refused with both numbers, and stays as it is; and one
that has too little room behind a rewriting is refused with the number of the rewritten file. With --stride only each Nth bit is turned.
"""
import argparse
import pathlib
import subprocess
import sys
import tempfile

import batches
import states
from sessions import Runs, run

TOP = pathlib.Path(__file__).resolve().parent.parent
SMALL = '[inputs]\na1 = {}\na2 = 20\n[rules]\nb1 = "a1+a2"\nb2 = "b1*2"\n'
LONGEST = 65_536
EDITED = (0, b"b2 = 62\nran 2, given up 0, reused 0\n", b"")
BUILD = ["build", "small.toml", "state", "b2"]
CLEAN = ["clean", "small.toml", "state"]
# What `clean` commits.
CLEARING = batches.spell(("cleared", *[[]] * 8, None))
# Names that no turned bit makes of one another, and values that all differ.
RULES = '[rules]\nup = "left + mid"\ndown = "mid + rights"\nmiddles = "up * down"\n'
FIRST, NOW, LATER = dict(left=2, mid=30, rights=500), dict(left=4, mid=30, rights=500), dict(left=4, mid=31, rights=500)
REBUILDERS = ("dirty", "verifying", "constructive", "deep")


# Full states

def texts(size, front):
    """Texts whose spellings have so many bytes in all."""
    found = []
    while size > 2 * (LONGEST + 5):
        found.append(b"%s%d" % (front, len(found)) + b"x" * (LONGEST - len(front) - len(str(len(found)))))
        size -= LONGEST + 5
    halves = [size // 2, size - size // 2]
    return found + [b"%s end %d" % (front, at) + b"y" * (half - 5 - len(front) - 6) for at, half in enumerate(halves)]


def with_values(batch, values):
    return batches.spell((batch[0], [*batch[1], *values], *batch[2:]))


def bank(start, bodies):
    """A file with roots behind the header, and a bank of these bodies that starts at an offset."""
    front = states.HEADER + b"\1" + (9).to_bytes(4, "big") + b"\2" + (23).to_bytes(8, "big") + b"\0"
    roots = b"\1" + states.root(1, start) + bytes(17)
    return b"".join([front, roots, bytes(start - len(front) - len(roots)), states.region(bodies)])


def edited_body(runs):
    """What the build of another input brings to the small state."""
    runs.put("small.toml", SMALL.format(11))
    runs.put("state", states.committed(b"", batches.spell(batches.small())))
    runs.same("an edit of the small state", run(runs, BUILD, b""), EDITED)
    return states.read((runs.folder / "state").read_bytes()).bodies[-1][1]


def outcome(runs, what, before, words, body, reply):
    """A build or a clearing over a state: its answer, and just the bytes that are left, by the second reading."""
    runs.put("state", before)
    due = states.is_due(states.read(before), body)
    ready = states.rewritten(before) if due else before
    needed = states.read(ready).gate + 6 + len(body)
    is_over = needed > states.LIMIT
    full = (8, b"", b"carte: state full: %d bytes needed, limit %d\n" % (needed, states.LIMIT))
    runs.same(what, run(runs, words, b""), full if is_over else reply)
    after = (runs.folder / "state").read_bytes()
    runs.same(f"{what}: each byte", after == (ready if is_over else states.committed(ready, body)), True)
    print(f"{what}: {len(before)} bytes, {'rewritten, ' if due else ''}{'full' if is_over else 'committed'}, {len(after)} bytes", flush=True)
    return due, is_over, after


def dead_and_live(size, live, start):
    """A bank of so many bytes from an offset on, of which what was there before it was cleared no longer counts."""
    small = batches.small()
    length = len(batches.spell(small))
    bodies = [with_values(small, texts(size - live - 5 - length, b"dead")), with_values(("cleared", *small[1:]), texts(live - 6 - length, b"live"))]
    data = bank(start, bodies)
    assert len(data) == start + size
    return data


def room_in_front(runs):
    """No room behind the bank, and enough in front of it: a build and a clearing rewrite the file there, and go on."""
    body, size, live = edited_body(runs), 100_000_000, 60_000_000
    before = dead_and_live(size, live, states.LIMIT - 20 - size)
    runs.same("a build", outcome(runs, "a build", before, BUILD, body, EDITED)[:2], (True, False))
    runs.same("the same again", run(runs, BUILD, b"")[1], b"b2 = 62\nran 0, given up 0, reused 2\n")
    runs.same("a clearing", outcome(runs, "a clearing", before, CLEAN, CLEARING, (0, b"cleaned\n", b""))[:2], (True, False))
    runs.same("a build behind it", run(runs, BUILD, b""), EDITED)


def live_alone(runs):
    """Full of what is live: refused with both numbers, as often as it is tried, and nothing is written."""
    body = edited_body(runs)
    small = batches.small()
    live = states.LIMIT - 57 - 20
    before = bank(57, [with_values(small, texts(live - 6 - len(batches.spell(small)), b"live"))])
    runs.same("a length", len(before), states.LIMIT - 20)
    for what, words, brought in (("a build", BUILD, body), ("a clearing", CLEAN, CLEARING)):
        runs.same(what, outcome(runs, f"{what}, live alone", before, words, brought, None)[:2], (False, True))


def too_little_room(runs):
    """A rewriting behind the bank that leaves too little room is made all the same: refused with the number of the rewritten file. The next run puts the region in front."""
    body, size = edited_body(runs), 360_000_000
    live = states.LIMIT - 57 - size - 50
    before = dead_and_live(size, live, 57)
    due, is_over, after = outcome(runs, "too little room", before, BUILD, body, None)
    runs.same("rewritten, and full", (due, is_over, len(after)), (True, True, states.LIMIT - 50))
    runs.same("and again", outcome(runs, "too little room, again", after, BUILD, body, EDITED)[:2], (True, False))


def full_list(runs):
    """A list at 8 without room behind it, as a version without rewriting leaves it: refused, and no clearing helps."""
    body, small = edited_body(runs), batches.small()
    rest = states.LIMIT - 8 - 6 - len(batches.spell(small)) - 100
    data = states.HEADER + states.region([with_values(small, texts(rest, b"old"))])
    runs.same("a length", len(data), states.LIMIT - 100)
    runs.same("a build", outcome(runs, "a full list", data, BUILD, body, None)[:2], (False, True))
    due, is_over, data = outcome(runs, "a full list, cleared", data, CLEAN, CLEARING, (0, b"cleaned\n", b""))
    runs.same("a clearing", (due, is_over), (False, False))
    runs.put("state", data)
    status, out, err = run(runs, BUILD, b"")
    runs.same("a build behind it", (status, out, err.startswith(b"carte: state full: ")), (8, b"", True))
    runs.same("the build's batch is longer than the room", len(batches.spell(batches.small())) > 100, True)


# Turned bits

def book(inputs):
    return "[inputs]\n" + "".join(f"{name} = {value}\n" for name, value in inputs.items()) + RULES


def value_of(inputs):
    return (inputs["left"] + inputs["mid"]) * (inputs["mid"] + inputs["rights"])


def rewritten_state(runs, rebuilder, times):
    """A state of two builds, rewritten so often."""
    runs.put("state", b"")
    for inputs in (FIRST, NOW):
        runs.put("book.toml", book(inputs))
        run(runs, ["build", "book.toml", "state", "middles", "--rebuilder", rebuilder], b"")
    data = (runs.folder / "state").read_bytes()
    for _ in range(times):
        data = states.rewritten(data)
    return data


def worst(runs, rebuilder, data):
    """What comes of a build as the state has it, of one of an older book and of one of a new input."""
    script = b"build middles\nset left 2\nbuild middles\nset left 4\nset mid 31\nbuild middles\n"
    runs.put("state", data)
    status, out, err = run(runs, ["session", "book.toml", "state", "--rebuilder", rebuilder], script)
    if status == 7 and not out:
        return "bad state"
    if status:
        return f"status {status}"
    replies = [line for line in out.decode().splitlines() if line.startswith(("middles", "refused"))]
    wanted = [f"middles = {value_of(inputs)}" for inputs in (NOW, FIRST, LATER)]
    kinds = ["right" if it == right else "refused" if it.startswith("refused") else "wrong" for it, right in zip(replies, wanted)]
    return next((kind for kind in ("wrong", "refused") if kind in kinds), "right")


def turned_bits(runs, stride):
    """Each bit of a rewritten state: whole where it was rewritten once, and the roots where both are open."""
    for rebuilder in REBUILDERS:
        counts, once = dict.fromkeys(("bad state", "wrong", "refused", "right"), 0), rewritten_state(runs, rebuilder, 1)
        twice = rewritten_state(runs, rebuilder, 2)
        place = states.read(twice).place
        tried = [(once, bit) for bit in range(0, 8 * len(once), stride)] + [(twice, bit) for bit in range(8 * place, 8 * (place + 34), stride)]
        for data, bit in tried:
            came = worst(runs, rebuilder, batches.turned(data, bit))
            counts[came] = counts.get(came, 0) + 1
        runs.same(f"{rebuilder}: other ends", set(counts), {"bad state", "wrong", "refused", "right"})
        if rebuilder != "dirty":
            runs.same(f"{rebuilder}: wrong values", counts["wrong"], 0)
        print(f"{rebuilder}: {len(tried)} bits, " + ", ".join(f"{times} {what}" for what, times in counts.items()), flush=True)


def main():
    said = argparse.ArgumentParser(usage=__doc__)
    said.add_argument("program", nargs="?", default=TOP / "crates" / "carte" / "out" / "carte", type=pathlib.Path)
    said.add_argument("--stride", default=1, type=int)
    said.add_argument("--only")
    said = said.parse_args()
    parts = [
        ("room in front", room_in_front), ("live alone", live_alone), ("too little room", too_little_room), ("a full list", full_list),
        ("turned bits", lambda runs: turned_bits(runs, said.stride)),
    ]
    failed = 0
    for name, part in parts:
        if said.only in (None, name):
            with tempfile.TemporaryDirectory() as folder:
                runs = Runs(said.program.resolve(), folder)
                part(runs)
                print(f"{name}: {runs.passed} passed, {runs.failed} failed", flush=True)
                failed += runs.failed
    return 1 if failed else 0


if __name__ == "__main__":
    sys.exit(main())
