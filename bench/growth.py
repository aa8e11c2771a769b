#!/usr/bin/env python3
"""What each build adds to a state, by rebuilder: growth.py PROGRAM [ROWS..]

A chain of 1,000 rules with one input, and sheets with a running total (=SUM(A1:An)) in each of their rows (500 and 1,000, or
those named). Each is built three times, with another first input each time, so that all rules run, and once more as it is, which
must add nothing. The tables of docs/STATE.md are printed; the end is 1 where a build doesn't end well, or such a one adds.
"""
import pathlib
import subprocess
import sys
import tempfile

REBUILDERS = ("verifying", "constructive", "deep", "dirty")


def chain(start):
    return "".join(["[inputs]\n", f"k0 = {start}\n", "[rules]\n", *(f'k{at} = "k{at - 1} + 1"\n' for at in range(1, 1_001))])


def totals(rows, start):
    lines = [f"{start if at == 1 else at},=SUM(A1:A{at})" for at in range(1, rows + 1)]
    return "\n".join([f"{lines[0]},=SUM(B1:B{rows})", *lines[1:], ""])


def added(program, folder, name, books, target, rebuilder):
    """What each build adds, the last of which changes nothing."""
    state, sizes = folder / "state", [0]
    state.unlink(missing_ok=True)
    for book in [*books, books[-1]]:
        (folder / name).write_text(book)
        done = subprocess.run([program, "build", name, "state", target, "--rebuilder", rebuilder], cwd=folder, capture_output=True)
        if done.returncode:
            return [done.stderr.decode().strip()]
        sizes.append(state.stat().st_size)
    return [now - before for before, now in zip(sizes, sizes[1:])]


def main(program, *rows):
    program, wrong = pathlib.Path(program).resolve(), 0
    books = [("chain.toml", [chain(it) for it in (1, 2, 3)], "k1000")]
    books += [(f"totals{it}.csv", [totals(int(it), start) for start in (1, 2, 3)], "C1") for it in rows or ("500", "1000")]
    print("| Book | Rebuilder | The first build | The next | The one after | Nothing changed |", "|---|---|---|---|---|---|", sep="\n")
    for name, texts, target in books:
        for rebuilder in REBUILDERS:
            with tempfile.TemporaryDirectory() as folder:
                found = added(program, pathlib.Path(folder), name, texts, target, rebuilder)
            wrong += len(found) != 4 or found[-1] != 0
            print(f"| {name} | {rebuilder} | " + " | ".join(f"{it:,}" if isinstance(it, int) else it for it in found) + " |", flush=True)
    return 1 if wrong else 0


if __name__ == "__main__":
    sys.exit(main(*sys.argv[1:]) if sys.argv[1:] else __doc__)
