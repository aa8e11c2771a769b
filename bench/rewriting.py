#!/usr/bin/env python3
"""Measures states that are rewritten: rewriting.py PROGRAM [BUILDS]

Over a generated book of 2,000 keys, whose last key reaches 1,027 rules, one input is edited before each of BUILDS builds (500) of that
key, in sessions of 25 builds. In one history an input goes between two values, under each kind of traces; in one all inputs are edited in turn under dirty bits, and
in one under verifying traces, so that no value comes back; and in one a sheet of two rules is emptied and built 2,000 times. Of each stand
the bytes of the file, those that are live, those of a fresh state, and what a load takes beside one of a fresh state, in instructions: of
an explanation of an input, less those over no state. Where values come back and under dirty bits a file may have six times its live bytes
and 500,000 more, since the list in front and two banks each grow to twice what is live and by what a build adds then (docs/DECISIONS.md),
and a load may take twice that of the fresh state; the sheet's may have 200,000 bytes.

Then a build of one edit over a state of which it rewrites the file, beside the same build over the rewritten file: what the rewriting
takes beside loading what is live, which may be 1.5 times, with encoding it. It ends with 1 where a bound isn't kept.
"""
import pathlib
import re
import subprocess
import sys
import tempfile

from builds import instructions
from generated import generated

TOP = pathlib.Path(__file__).resolve().parent.parent
sys.path.append(str(TOP / "tests"))
import states  # noqa: E402

KEYS = 2_000
LAST = f"k{KEYS - 1}"


class Folder:
    """A folder with the program's files, and the bounds that weren't kept."""

    def __init__(self, program, folder):
        self.program, self.folder, self.broken = str(program), pathlib.Path(folder), 0

    def session(self, book, state, rebuilder, script):
        words = [self.program, "session", book, state, "--rebuilder", rebuilder]
        done = subprocess.run(words, input=script.encode(), cwd=self.folder, capture_output=True)
        assert done.returncode == 0, done.stderr
        return (self.folder / state).read_bytes()

    def edits(self, state, rebuilder, edits):
        """A build behind each edit of the generated book."""
        now, data = {}, b""
        for at in range(0, len(edits), 25):
            self.book(now)
            part = edits[at : at + 25]
            now.update(part)
            data = self.session("keys.toml", state, rebuilder, "".join(f"set {name} {value}\nbuild {LAST}\n" for name, value in part))
        return data

    def book(self, edits):
        text = re.sub(r"^(\w+) = \d+$", lambda it: f"{it[1]} = {edits.get(it[1], it[0].split()[2])}", generated(1, KEYS), flags=re.M)
        (self.folder / "keys.toml").write_text(text)

    def counted(self, command, book, state, *words):
        return instructions([self.program, command, self.folder / book, self.folder / state, *words], self.folder)[1]

    def load(self, book, state, name):
        """What loading a state takes."""
        (self.folder / "none").write_bytes(b"")
        return self.counted("explain", book, state, name) - self.counted("explain", book, "none", name)

    def bound(self, is_kept):
        self.broken += not is_kept
        return "" if is_kept else " **beyond its bound**"


def live(data):
    return len(states.region(states.live(states.fold(states.read(data)))))


def toggled(builds):
    return [("k7", 100 + at % 2) for at in range(builds)]


def in_turn(builds):
    return [(f"k{at % (KEYS // 10)}", 1_000 + at) for at in range(builds)]


def history(it, what, rebuilder, edits, is_bound):
    """A line of the table."""
    data, fresh = it.edits("state", rebuilder, edits), it.session("keys.toml", "fresh", rebuilder, f"build {LAST}\n")
    line(it, what, "keys.toml", "k0", data, fresh, is_bound)


def line(it, what, book, name, data, fresh, is_bound):
    loads, long = [it.load(book, state, name) for state in ("state", "fresh")], live(data)
    is_kept = len(data) <= 6 * long + 500_000 and loads[0] <= 2 * loads[1] if is_bound else True
    print(f"| {what} | {len(data):,} | {long:,} | {len(fresh):,} | {loads[0] / loads[1]:.2f} | {states.read(data).generation} |" + it.bound(is_kept), flush=True)
    for state in ("state", "fresh"):
        (it.folder / state).unlink()


def histories(it, builds):
    print("| History | File | Live | Fresh state | Load, beside fresh | Rewritten |", "|---|---|---|---|---|---|", sep="\n")
    for rebuilder in ("verifying", "constructive"):
        history(it, f"`{rebuilder}`, one input between two values", rebuilder, toggled(builds), True)
    history(it, "`dirty`, all inputs in turn", "dirty", in_turn(builds), True)
    history(it, f"`verifying`, all inputs in turn, {builds // 5} builds", "verifying", in_turn(builds // 5), False)
    (it.folder / "two.csv").write_text("10,=A1+A2\n20,=B1*2\n")
    data = it.session("two.csv", "state", "verifying", "clean\nbuild B2\n" * 2_000)
    line(it, "2,000 times `clean` and `build`", "two.csv", "A1", data, it.session("two.csv", "fresh", "verifying", "build B2\n"), False)
    print(it.bound(len(data) <= 200_000), end="")


def cost(it):
    """What a rewriting takes, beside loading what is live."""
    rows = []
    for what, rebuilder in (("`verifying`", "verifying"), ("`dirty`", "dirty")):
        due, builds = None, 2
        while due is None and builds < 40:
            (it.folder / "cost").unlink(missing_ok=True)
            data = it.edits("cost", rebuilder, toggled(builds))
            layout, long = states.read(data), live(data)
            due = data if layout.size > states.WIDE and layout.size > 2 * long else None
            builds += 1
        it.book({"k7": 500})
        taken = []
        for file in (due, states.rewritten(due)):
            (it.folder / "cost").write_bytes(file)
            load = it.load("keys.toml", "cost", "k0")
            taken.append((it.counted("build", "keys.toml", "cost", LAST, "--rebuilder", rebuilder) - load, load))
        turn = taken[0][0] - taken[1][0]
        rows.append(f"| {what} | {live(due):,} | {turn:,} | {taken[1][1]:,} | {turn / taken[1][1]:.2f} |" + it.bound(turn <= 1.5 * taken[1][1]))
    print("", "| Rebuilder | Live bytes | A rewriting, instructions | Loading what is live | Ratio |", "|---|---|---|---|---|", *rows, sep="\n")


def main(program, builds="500"):
    with tempfile.TemporaryDirectory() as folder:
        it = Folder(pathlib.Path(program).resolve(), folder)
        histories(it, int(builds))
        cost(it)
    return 1 if it.broken else 0


if __name__ == "__main__":
    sys.exit(main(*sys.argv[1:]) if sys.argv[1:] else __doc__)
