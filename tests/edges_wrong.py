#!/usr/bin/env python3
"""Sees that the gate's check of the edges (.ci/checks/edges) fails on programs that are wrong there: edges_wrong.py PROGRAM

Each wrong program is PROGRAM with one of its calls changed (edges_wrong.c). The check must fail, and print a line that tells what it
fails at; on PROGRAM, called in the same way, it must pass. It prints how many did as they must, and ends with 1 where one doesn't.
It wants gcc.
"""
import os
import pathlib
import subprocess
import sys
import tempfile

TOP = pathlib.Path(__file__).resolve().parents[1]
WRONG = {
    "folder is not synced": "its syncs:",
    "file is not synced at opening": "those of an old one:",
    "gate byte is not synced": "its syncs:",
    "seed is the same always": "random bytes, at least 8:",
    "null device is written to": "closed (1,):",
    "closed descriptors stay free": "it is as it was:",
    "state is asked for once": "it was asked for again, for two seconds:",
    "book of a clean is opened": "clean, a pipe for BOOK:",
}


def main(program):
    source, passed, failed = TOP / "tests" / "edges_wrong.c", 0, 0
    with tempfile.TemporaryDirectory() as folder:
        library, wrapper = f"{folder}/wrong.so", f"{folder}/wrapper"
        subprocess.run(["gcc", "-shared", "-fPIC", "-O1", "-DLIBRARY", "-o", library, source, "-ldl"], check=True)
        subprocess.run(["gcc", "-O1", "-o", wrapper, source], check=True)
        for wrong, line in [("", ""), *WRONG.items()]:
            env = {**os.environ, "WRONG": wrong, "PRELOADED": library, "PROGRAM": str(pathlib.Path(program).resolve())}
            done = subprocess.run([TOP / ".ci/checks/edges", wrapper], env=env, capture_output=True, text=True)
            is_right = (done.returncode, line in done.stdout.splitlines()) == (1, True) if wrong else done.returncode == 0
            passed, failed = passed + is_right, failed + (not is_right)
            if not is_right:
                print(f"{wrong or 'nothing is wrong'}: status {done.returncode}\n{done.stdout}{done.stderr}")
    print(f"wrong edges: {passed} did as they must, {failed} didn't")
    return 1 if failed else 0


if __name__ == "__main__":
    sys.exit(main(sys.argv[1]))
