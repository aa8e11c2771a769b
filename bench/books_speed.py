#!/usr/bin/env python3
"""Measures a build of generated books against a plain Rust program: books_speed.py PROGRAM

Both read the same book and build its last key. What is printed is the instructions a key of the book, counted by
callgrind, their ratio, and the greatest memory of each in a run of its own. The books have 8,192 keys, 65,536
keys, and 65,536 keys in 16,777,216 bytes, the rest of which is a comment.
"""
import os
import pathlib
import re
import subprocess
import sys
import tempfile

BENCH = pathlib.Path(__file__).resolve().parent
SEED = 1
BOOKS = [(8_192, None), (65_536, None), (65_536, 16_777_216)]


def output_of(words):
    return subprocess.run(words, capture_output=True, check=True).stdout


def instructions(words, folder, status=0):
    done = subprocess.run(["valgrind", "--tool=callgrind", f"--callgrind-out-file={folder}/callgrind", *words],
                          capture_output=True, text=True)
    assert done.returncode == status, done.stderr
    return int(re.search(r"Collected : (\d+)", done.stderr)[1])


def memory(words):
    """The greatest memory of a run, in KB."""
    done = subprocess.run(["/usr/bin/time", "-f", "%M", *words], capture_output=True, check=True, text=True)
    return int(done.stderr)


def write_book(path, keys, size):
    with open(path, "wb") as file:
        words = [SEED, keys] + ([size] if size else [])
        subprocess.run([sys.executable, BENCH / "generated.py", *map(str, words)], stdout=file, check=True)


def measure(program, plain, keys, size, folder):
    book, target = f"{folder}/book.toml", f"k{keys - 1}"
    write_book(book, keys, size)
    # what another book left there would be reused
    pathlib.Path(folder, "state").unlink(missing_ok=True)
    proved, bare = [program, "build", book, f"{folder}/state", target], [plain, book, target]
    assert output_of(proved) == output_of(bare), "the replies differ"
    counts = [instructions(words, folder) / keys for words in (proved, bare)]
    most = [memory(words) for words in (proved, bare)]
    print(f"{keys} keys, {os.path.getsize(book)} bytes: {counts[0]:.0f} and {counts[1]:.0f} instructions a key, "
          f"ratio {counts[0] / counts[1]:.2f}; {most[0]} and {most[1]} KB", flush=True)


def main(program):
    with tempfile.TemporaryDirectory() as folder:
        plain = f"{folder}/plain"
        subprocess.run(["rustc", "-O", "--edition", "2021", "-o", plain, BENCH / "plain_books.rs"], check=True)
        for keys, size in BOOKS:
            measure(os.path.abspath(program), plain, keys, size, folder)


if __name__ == "__main__":
    main(*sys.argv[1:])
