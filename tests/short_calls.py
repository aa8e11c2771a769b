#!/usr/bin/env python3
"""Runs a program whose reads and writes are short and interrupted, and whose syncs fail: short_calls.py PROGRAM [SEEDS]

A history of builds, edits and a session runs twice over a state of its own: as it is, and with `short_calls.c` in between, which
lets each read and write move 97 bytes at most and interrupts a third of the reads, writes and syncs of the state file. Both must say
the same, end with the same status and leave the same bytes. Then each sync of a first and of a later build fails in turn: the run must end with status 6
and its line, or as it does without, where it has no such sync (of a new state there are 5: of it and its folder, of its header, of a
frame, of a gate byte; of an old one 3); the next run must give what it gives where none failed. It prints how many checks passed, and
ends with 1 where one fails. It wants gcc, and is no part of the gate.
"""
import os
import pathlib
import subprocess
import sys
import tempfile

TOP = pathlib.Path(__file__).resolve().parents[1]
FAILED = (6, b"", b"carte: the state's device failed\n")
KEYS = 400
SCRIPT = b"".join(b"set k%d %d\nbuild k%d\n" % (at, 7 * at, KEYS - 1) for at in range(3)) + b"explain k399\n# a comment\nnonsense"


def generated(edit):
    """A book whose first keys are inputs and whose others are sums of two before, and a text."""
    inputs = "".join(f"k{at} = {at + (edit if at % 3 == 0 else 0)}\n" for at in range(40))
    rules = "".join(f'k{at} = "k{at - 7} + k{at * 7 % at // 2} - {at}"\n' for at in range(40, KEYS))
    return f'[inputs]\nlong = "{"text " * 900}"\n{inputs}[rules]\nupper = "UPPER(long)"\n{rules}'


def run(program, words, script=b"", **settings):
    env = {**os.environ, **{name: str(value) for name, value in settings.items()}}
    done = subprocess.run([program, *map(str, words)], input=script, capture_output=True, env=env)
    return done.returncode, done.stdout, done.stderr


def history(program, folder, **settings):
    """What each run of it says, and the state that it leaves."""
    state = folder / "state"
    state.unlink(missing_ok=True)
    said = []
    for edit in (0, 0, 5, 5, 9):
        book = folder / f"book{edit}.toml"
        said.append(run(program, ["build", book, state, f"k{KEYS - 1}", "upper", "--list"], **settings))
    said.append(run(program, ["session", book, state], SCRIPT, **settings))
    said.append(run(program, ["explain", book, state, "upper", f"k{KEYS - 1}"], **settings))
    return said, state.read_bytes()


def fails_and_goes_on(program, folder, shim, at, before):
    """A build whose sync of that number fails, over a state, and the next one: whether both are well, and whether it failed."""
    state, words = folder / "state", ["build", folder / "book5.toml", folder / "state", f"k{KEYS - 1}"]
    values = lambda said: (said[0], said[1].splitlines()[:1])
    outcomes = []
    for failing in (0, at):
        state.unlink(missing_ok=True)
        if before:
            state.write_bytes(before)
        outcomes.append(run(program, words, LD_PRELOAD=shim, FAIL_SYNC=failing, SEED=at))
    well = outcomes[1] in (FAILED, outcomes[0])
    return well and values(run(program, words)) == values(outcomes[0]), outcomes[1] == FAILED


def main(program, seeds=20):
    passed = failed = broken = 0
    with tempfile.TemporaryDirectory() as name:
        folder = pathlib.Path(name)
        shim = folder / "shim.so"
        subprocess.run(["gcc", "-shared", "-fPIC", "-O1", "-o", shim, pathlib.Path(__file__).with_suffix(".c"), "-ldl"], check=True)
        for edit in (0, 5, 9):
            (folder / f"book{edit}.toml").write_text(generated(edit))
        whole = history(program, folder)
        for seed in range(1, int(seeds) + 1):
            is_same = history(program, folder, LD_PRELOAD=shim, SEED=seed) == whole
            passed, failed = passed + is_same, failed + (not is_same)
            if not is_same:
                print(f"seed {seed}: not as without")
        for before, syncs in ((b"", 5), (whole[1], 3)):
            for at in range(1, 9):
                is_well, did_fail = fails_and_goes_on(program, folder, shim, at, before)
                is_well = is_well and did_fail == (at <= syncs)
                passed, failed, broken = passed + is_well, failed + (not is_well), broken + did_fail
                if not is_well:
                    print(f"sync {at}, over {len(before)} bytes: not as it must be")
    print(f"short calls: {passed} passed, {failed} failed, {broken} of them runs with a failing sync; the history: {[said[0] for said in whole[0]]}")
    return failed != 0


if __name__ == "__main__":
    sys.exit(main(*sys.argv[1:]))
