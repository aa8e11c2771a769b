#!/usr/bin/env python3
"""Flips each bit of small states and builds over what is there then: bit_flips.py PROGRAM [SCHEDULER]

Each rebuilder writes a state of its own, by a build of a small book and one after an edit. Over its state with one bit
flipped it builds four books: the same again, one with the edit undone, and two with another input changed. What comes of
a bit is the worst of these builds, in this order:

    bad       the state is bad (status 7), and nothing is built
    wrong     status 0, and the target has another value than a build from nothing gives it
    refused   status 3, though the target has a value: a cycle or a missing name is told that isn't there
    counts    each value is right, and other rules ran or were reused than over the state without damage
    same      nothing is seen of it

The tables of docs/STATE.md go to standard output: what came of the bits by rebuilder, with the offset that was told for
a bad state, and where the bits stood that led to a wrong value or a wrong refusal, by the names there and in
docs/STATE-BATCHES.md. Another status is printed, and the end is 1 then. The files lie in the
folder that TMPDIR names; one in memory spares the syncs.
"""
import collections
import pathlib
import subprocess
import sys
import tempfile

TOP = pathlib.Path(__file__).resolve().parent.parent
sys.path.insert(0, str(TOP / "tests"))
import batches  # noqa: E402

REBUILDERS = ["dirty", "verifying", "constructive", "deep"]
# One flipped bit turns many of these names into one another, and two inputs have one value.
RULES = '[rules]\np = "a + b"\nq = "b + c"\nr = "p * q"\n'
TARGET = "r"
FIRST, NOW = dict(a=2, b=3, c=3), dict(a=4, b=3, c=3)
LATER = [NOW, FIRST, dict(a=4, b=5, c=3), dict(a=4, b=3, c=5)]
OUTCOMES = ["bad", "wrong", "refused", "counts", "same"]


def book(inputs):
    return "[inputs]\n" + "".join(f"{name} = {value}\n" for name, value in inputs.items()) + RULES


class Runs:
    """A folder with a book and a state file, both written before each run."""

    def __init__(self, program, scheduler, folder):
        self.program, self.scheduler, self.folder = str(pathlib.Path(program).resolve()), scheduler, pathlib.Path(folder)
        self.state = self.folder / "state"

    def build(self, inputs, rebuilder, state):
        """The status, and the lines of the reply or of the refusal."""
        path = self.folder / "book.toml"
        path.write_text(book(inputs))
        self.state.write_bytes(state)
        words = [self.program, "build", path, self.state, TARGET, "--rebuilder", rebuilder, "--scheduler", self.scheduler]
        done = subprocess.run(words, stdin=subprocess.DEVNULL, capture_output=True, close_fds=False, timeout=20)
        return done.returncode, (done.stdout + done.stderr).decode().splitlines()

    def state_of(self, rebuilder):
        state = b""
        for inputs in (FIRST, NOW):
            self.build(inputs, rebuilder, state)
            state = self.state.read_bytes()
        return state


def parts(state):
    """Of each byte the part of the file that it stands in."""
    names, at = ["header"] * 8, 8
    while state[at] == 1:
        length = int.from_bytes(state[at + 1 : at + 5], "big")
        names += ["gate byte"] + ["length"] * 4
        for name, piece in batches.spell_parts(batches.read(state[at + 5 : at + 5 + length])):
            names += [name] * len(piece)
        at += 5 + length
    assert at + 1 == len(state)
    return [*names, "gate byte"]


class Count:
    """What came of each bit of a rebuilder's own state."""

    def __init__(self, runs, rebuilder):
        self.runs, self.rebuilder, self.state = runs, rebuilder, runs.state_of(rebuilder)
        whole = [self.build(inputs, self.state)[1] for inputs in LATER]
        right = [self.build(inputs, b"")[1][:-1] for inputs in LATER]
        self.later = list(zip(LATER, right, whole))
        self.bits, self.came, self.offsets, self.odd = collections.Counter(), collections.Counter(), collections.Counter(), []
        for at, part in enumerate(parts(self.state)):
            for bit in range(8 * at, 8 * at + 8):
                self.bits[part] += 1
                self.came[part, self.worst(bit)] += 1

    def build(self, inputs, state):
        return self.runs.build(inputs, self.rebuilder, state)

    def worst(self, bit):
        damaged, found = batches.turned(self.state, bit), set()
        for inputs, right, whole in self.later:
            status, lines = self.build(inputs, damaged)
            if status == 7:
                self.offsets[lines[0]] += 1
                return "bad"
            if status not in (0, 3):
                self.odd.append(f"{self.rebuilder}, bit {bit}, {inputs}: status {status}, {lines}")
            found.add("refused" if status else "wrong" if lines[:-1] != right else "same" if lines == whole else "counts")
        return min(found, key=OUTCOMES.index)

    def times(self, outcome, part=None):
        return sum(times for (name, what), times in self.came.items() if what == outcome and part in (None, name))


def row(*cells):
    print("| " + " | ".join(map(str, cells)) + " |")


def tables(counts):
    row("Rebuilder", "Bits", "Bad state", "Wrong value", "Refused without a reason", "Right value, other counts", "As without damage")
    row(*["---"] * 7)
    for count in counts:
        row(f"`{count.rebuilder}`", 8 * len(count.state), *map(count.times, OUTCOMES))
    print()
    row("Rebuilder", "Part", "Bits", "Wrong value", "Refused without a reason")
    row(*["---"] * 5)
    for count in counts:
        for part, bits in count.bits.items():
            wrong, refused = (count.times(outcome, part) for outcome in ("wrong", "refused"))
            if wrong or refused:
                row(f"`{count.rebuilder}`", part, bits, wrong, refused)
    print()
    row("Rebuilder", "Bad state at byte: bits")
    row(*["---"] * 2)
    for count in counts:
        offsets = sorted((int(line.split()[-1]), times) for line, times in count.offsets.items())
        row(f"`{count.rebuilder}`", ", ".join(f"{offset}: {times}" for offset, times in offsets))


def main(program, scheduler="suspending"):
    with tempfile.TemporaryDirectory() as folder:
        counts = [Count(Runs(program, scheduler, folder), rebuilder) for rebuilder in REBUILDERS]
    tables(counts)
    odd = [line for count in counts for line in count.odd]
    print(*odd, sep="\n", end="")
    return 1 if odd else 0


if __name__ == "__main__":
    sys.exit(main(*sys.argv[1:]))
