#!/usr/bin/env python3
"""Measures the lines of a session: sessions.py PROGRAM [KEYS] [OPTIONS of the program]

Over a generated book with an input more on which three rules depend, whose last key and these were built, a session sets that
input and builds the last of the three rules, PAIRS times. Of one such pair: its instructions (a session of many
pairs beside one of few, by callgrind), its user time and its system calls (strace), each beside a process that builds the last
key again, where nothing changed. It ends with 1 where a pair takes more than 0.2 ms of user time, more than 1.5 times the
instructions of one in a book with an eighth of the keys, or more syncs than a commit has. The same is then told of a pair that
builds the last key, beneath which all kept rules lie, and of the line that builds it again where nothing was set in between, which
may take at most 0.2 ms too. Two pairs are made first, at which the session makes its watch.
"""
import os
import pathlib
import re
import shutil
import statistics
import subprocess
import sys
import tempfile

from generated import generated

SEED, PAIRS, SYNCS = 1, 200, 2
# The most milliseconds of user time of a pair that builds three rules and of a line again, and the most times a pair's instructions with an eighth of the keys.
MOST, GROWTH = 0.2, 1.5


def with_three(book):
    """The book with an input more, and three rules above it, one over the other."""
    front, behind = book.split("[rules]\n")
    rules = ['first = "edited + k0"', 'second = "first + k1"', 'third = "second + k2"']
    return front + "edited = 1\n[rules]\n" + behind + "\n".join(rules) + "\n"


def script(name, target, pairs):
    """Lines that set and build in turn; or, where no name is set, lines that build."""
    return "".join((f"set {name} {1000 + at}\n" if name else "") + f"build {target}\n" for at in range(pairs)).encode()


def run(words, text):
    """What was written, and the user time."""
    done = subprocess.run(["/usr/bin/time", "-f", "%U", *words], input=text, capture_output=True)
    return done.stdout.decode(), float(done.stderr.split()[-1])


def counted(words, text, folder):
    done = subprocess.run(["valgrind", "--tool=callgrind", f"--callgrind-out-file={folder}/callgrind", *words],
                          input=text, capture_output=True)
    return int(re.search(rb"Collected : (\d+)", done.stderr)[1])


def calls(words, text, folder):
    """How many system calls were made, and how many of these were syncs."""
    subprocess.run(["strace", "-f", "-o", f"{folder}/strace", *words], input=text, stdout=subprocess.DEVNULL, check=False)
    lines = pathlib.Path(f"{folder}/strace").read_text().splitlines()
    return len(lines), sum("sync(" in line for line in lines)


def measure(program, extra, folder, name, target, pairs):
    """Of one pair the instructions, the user time, the calls and the syncs."""
    words = [program, "session", f"{folder}/book.toml", f"{folder}/state", *extra]

    def of(count, how, *more):
        shutil.copyfile(f"{folder}/built", f"{folder}/state")
        return how(words, script(name, target, count), *more)

    few, many = (of(count, counted, folder) for count in (3, 13))
    times = [(of(pairs + 3, run)[1] - of(3, run)[1]) / pairs for _ in range(3)]
    seen, more = (of(count, calls, folder) for count in (3, 13))
    return (many - few) / 10, statistics.median(times), (more[0] - seen[0]) / 10, (more[1] - seen[1]) / 10


def measured(program, extra, keys):
    """Of a pair that builds three rules the instructions; and whether a bound was left."""
    book, last = with_three(generated(SEED, keys - 4)), f"k{keys - 5}"
    with tempfile.TemporaryDirectory() as folder:
        pathlib.Path(f"{folder}/book.toml").write_text(book)
        null = [program, "build", f"{folder}/book.toml", f"{folder}/built", last, "third", *extra]
        subprocess.run(null, check=True, stdout=subprocess.DEVNULL)
        null_count, null_time = counted(null, b"", folder), statistics.median(run(null, b"")[1] for _ in range(5))
        print(f"{keys} keys, a build in a process where nothing changed: {null_count} instructions, {null_time:.3f} s of user time")
        three, failed = 0, False
        for name, what, pairs in (("edited", "third", PAIRS), ("edited", last, PAIRS // 10), (None, last, PAIRS)):
            count, seconds, made, syncs = measure(program, extra, folder, name, what, pairs)
            print(f"{'set edited, ' if name else ''}build {what}{'' if name else ' again'}: {count:.0f} instructions (1/{null_count / count:.1f}), "
                  f"{1000 * seconds:.2f} ms of user time (1/{null_time / max(seconds, 1e-9):.1f}), {made:.1f} system calls, {syncs:.1f} syncs", flush=True)
            if what == "third":
                three, failed = count, 1000 * seconds > MOST or syncs > SYNCS
            if not name:
                failed = failed or 1000 * seconds > MOST
    return three, failed


def main(program, *words):
    extra = [word for at, word in enumerate(words) if word.startswith("--") or (at and words[at - 1].startswith("--"))]
    keys = next((int(word) for word in words if word.isdigit()), 65_536)
    program = os.path.abspath(program)
    small, small_failed = measured(program, extra, keys // 8)
    large, large_failed = measured(program, extra, keys)
    print(f"a pair that builds three rules, {keys} keys to {keys // 8}: {large / small:.2f} times the instructions")
    return 1 if small_failed or large_failed or large > GROWTH * small else 0


if __name__ == "__main__":
    sys.exit(main(*sys.argv[1:]))
