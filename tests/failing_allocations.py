#!/usr/bin/env python3
"""Runs a program with each of its allocations failing in turn: failing_allocations.py PROGRAM

Each run begins with a new state. It must end as it does with ample memory, or with status 9, nothing on standard output,
and the line of want of memory on standard error; and a run with ample memory over the state that it left must give the
same values or the same error. It prints a line for each book, and ends with 1 where a run ends otherwise. It wants gcc,
and is no part of the gate.
"""
import os, pathlib, subprocess, sys, tempfile

TOP = pathlib.Path(__file__).resolve().parents[1]
REFUSED = (9, b"", b"carte: out of memory\n")
BOOKS = {
    "dynamic": '[inputs]\nkey="p"\n[rules]\nc="INDIRECT(key)"\nt="c*3+e"\ne="c"\nl="l+t"\n',
    "round": '[inputs]\nx=5\n[rules]\na="b+1"\nb="c"\nc="d"\nd="e"\ne="c"\n',
    "texts": '[inputs]\nx="a\\nb"\n[rules]\na="UPPER(x)&LINE(x,2)&CONCAT(x,7)"\nb="SUM(1,2)*LEN(a)"\n',
    "broken": '[rules]\na="(1+"\n',
}


def run(program, shim, words, failing):
    """The status, both streams, and how many allocations there were."""
    told, tell = os.pipe()
    done = subprocess.run([program, *words], capture_output=True, close_fds=False, preexec_fn=lambda: os.dup2(tell, 9),
                          cwd=shim.parent, env={**os.environ, "LD_PRELOAD": str(shim), "FAIL_AT": str(failing)})
    os.close(tell)
    count = int(os.read(told, 32) or 0)
    os.close(told)
    return (done.returncode, done.stdout, done.stderr), count


def values(outcome):
    """All but the counts of what ran."""
    status, out, err = outcome
    return status, out.splitlines()[:-1], err


def is_well(program, shim, words, at, ample):
    (shim.parent / "state").unlink(missing_ok=True)
    if run(program, shim, words, at)[0] not in (ample, REFUSED):
        return False
    return values(run(program, shim, words, 0)[0]) == values(ample)


def sweep(program, shim, words):
    """How many runs with a failing allocation ended otherwise; or 1 where none was counted."""
    (shim.parent / "state").unlink(missing_ok=True)
    ample, count = run(program, shim, words, 0)
    others = [at for at in range(1, count + 1) if not is_well(program, shim, words, at, ample)]
    print(f"{pathlib.Path(words[1]).stem} {words[3:]}: status {ample[0]}, {count} allocations, otherwise at {others}", flush=True)
    return len(others) + (count == 0)


def main(program):
    with tempfile.TemporaryDirectory() as name:
        folder = pathlib.Path(name)
        shim = folder / "shim.so"
        source = pathlib.Path(__file__).with_suffix(".c")
        subprocess.run(["gcc", "-shared", "-fPIC", "-O1", "-o", shim, source, "-ldl"], check=True)
        for book, text in BOOKS.items():
            (folder / f"{book}.toml").write_text(text)
        cases = [(TOP / "examples/first.toml", "total"), (TOP / "examples/budget.toml", "spent", "left"),
                 (folder / "dynamic.toml", "l"), (folder / "round.toml", "a"), (folder / "texts.toml", "a", "b"),
                 (folder / "broken.toml", "a"), (folder / "broken.toml",), (folder / "broken.toml", "A")]
        program = pathlib.Path(program).resolve()
        return any([sweep(program, shim, ["build", str(book), "state", *targets]) for book, *targets in cases])


sys.exit(main(sys.argv[1]))
