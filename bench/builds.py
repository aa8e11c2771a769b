#!/usr/bin/env python3
"""Holds incremental builds to bounds beside a plain Rust program: builds.py PROGRAM [KEYS..] [--rounds N] [--quick]

Both read the same generated book, of 8,192 and then of 65,536 keys or of KEYS, and keep the same state file with the same syncs
(plain_builds.rs). Six builds in a row: from nothing; the same again; after an edit of three inputs; after an edit of an input on which
about half of the reached keys depend; this again; after an edit of one rule whose value stays. Of each, for both programs:
instructions, allocations and misses of a cache of 2 MB (last-level misses of data, read and written), counted and simulated by
callgrind; the greatest memory of a run of its own; and the least user and system time together of N runs (15) of each program, taken
in turn. Both must print the same values and counts in each run, and leave the same bytes.

Each build prints a line, and behind all stands a table of the bounds: what was measured, what it may be at most, and bold where that
isn't kept. With 65,536 keys all are held. With other numbers those are that have a meaning there: of allocations, of the instructions
a key beside those of the first book, and of the instructions of the last build beside the one before, where nothing changed. With one
book nothing is held beside the first. The script ends with how many bounds are kept, and with 1 where one isn't. With --quick no cache
is simulated, and N is 3 unless --rounds says it. Other words: --rebuilder NAME and --scheduler NAME are handed to the program, whose
replies and states may then be others than the plain program's.
"""
import argparse
import filecmp
import math
import os
import pathlib
import re
import shutil
import subprocess
import sys
import tempfile

BENCH = pathlib.Path(__file__).resolve().parent
sys.path.insert(0, str(BENCH))
from generated import generated  # noqa: E402

SEED, WHOLE = 1, 65_536
BUILDS = ("from nothing", "nothing changed", "3 inputs changed", "half of the keys", "half again", "one rule edited")
# What each measure may be at most in each of these builds. The last three are held with any number of keys, the others with WHOLE.
BOUNDS = {
    "instructions, times plain": (1.75, 2.1, 2.1, 2.1, None, None),
    "user and system time, times plain": (2.5, 3.0, 3.0, 2.5, None, None),
    "greatest memory, MB": (40, 36, 36, 56, 96, 96),
    "misses of the cache, times plain": (2.5, 2.5, 2.5, 2.5, 2.5, 2.5),
    "time a key, times the first book": (1.6, 1.6, 1.6, 1.6, 1.6, 1.6),
    "instructions a key, times the first book": (1.1, 1.1, 1.1, 1.1, 1.1, 1.1),
    "allocations a key": (4, 4, 4, 4, 4, 4),
    "instructions, times the build before": (None, None, None, None, None, 1.1),
}
ANYWHERE = list(BOUNDS)[-3:]
CACHE = ("--cache-sim=yes", "--D1=49152,12,64", "--LL=2097152,16,64")
ALLOCATING = re.compile(r"cfn=\((\d+)\)(?: (.*))?$|calls=(\d+) ")


def edited(book, edits):
    """The book's text with other values for some inputs."""
    lines = book.split("\n")
    for at, line in enumerate(lines):
        name, _, value = line.partition(" = ")
        if name in edits and not value.startswith('"'):
            lines[at] = f"{name} = {int(value) + edits[name]}"
    return "\n".join(lines)


def needs_of(book):
    """The needs of each rule, and the inputs."""
    needs, inputs = {}, []
    for line in book.split("\n"):
        name, _, value = line.partition(" = ")
        if value.startswith('"'):
            needs[name] = re.findall(r"k\d+", value)[:2]
        elif value:
            inputs.append(name)
    return needs, inputs


def reached(needs, target):
    seen, open_names = {target}, [target]
    while open_names:
        for name in needs.get(open_names.pop(), []):
            if name not in seen:
                seen.add(name)
                open_names.append(name)
    return seen


def above(needs, names, within):
    """How many reached rules lead to one of these names."""
    users = {}
    for key, ks in needs.items():
        if key in within:
            for name in ks:
                users.setdefault(name, []).append(key)
    seen, open_names = set(names), list(names)
    while open_names:
        for key in users.get(open_names.pop(), []):
            if key not in seen:
                seen.add(key)
                open_names.append(key)
    return len(seen) - len(names)


def choose(book, target):
    """Three reached inputs that few rules lead to, and one that about half of them do."""
    needs, inputs = needs_of(book)
    within = reached(needs, target)
    there = [name for name in inputs if name in within]
    sample = there if len(there) <= 400 else there[:: len(there) // 400]
    counts = sorted((above(needs, [name], within), name) for name in sample)
    rules = len([name for name in within if name in needs])
    half = min(counts, key=lambda it: abs(it[0] - rules / 2))
    return [name for _, name in counts[:3]], half[1]


def collected(words, folder, *options):
    """What a program says, and what callgrind counts, by the names of its events. Its profile is left in the folder."""
    done = subprocess.run(["valgrind", "--tool=callgrind", *options, f"--callgrind-out-file={folder}/callgrind", *words],
                          capture_output=True, text=True)
    names, counts = (re.search(rf"^==\d+== {what} *: (.*)$", done.stderr, re.M)[1].split() for what in ("Events", "Collected"))
    return done.stdout, {name: int(count) for name, count in zip(names, counts)}


def instructions(words, folder):
    """What a program says, and its instructions. Its profile is left in the folder."""
    said, counts = collected(words, folder)
    return said, counts["Ir"]


def allocations(profile):
    """How often malloc, calloc and realloc were called from elsewhere, by a profile of callgrind."""
    names, called, count = {}, None, 0
    with open(profile) as lines:
        for line in lines:
            for number, name, calls in ALLOCATING.findall(line):
                if number:
                    names.setdefault(number, name)
                    called = names[number]
                elif called in ("malloc", "calloc", "realloc"):
                    count += int(calls)
            if line.startswith("fn=("):
                number, _, name = line[4:].rstrip().partition(")")
                names.setdefault(number, name.strip())
    return count


def run_bare(words):
    done = subprocess.run(["/usr/bin/time", "-f", "%U %S %M", *words], capture_output=True, text=True)
    user, system, memory = done.stderr.split()[-3:]
    return float(user) + float(system), int(memory)


def run_timed(words):
    """How it ended, what it said, and its user and system time in milliseconds."""
    with tempfile.TemporaryFile("w+") as out:
        child = os.posix_spawn(words[0], words, os.environ, file_actions=[(os.POSIX_SPAWN_DUP2, out.fileno(), 1)])
        _, status, usage = os.wait4(child, 0)
        out.seek(0)
        return status, out.read(), 1000 * (usage.ru_utime + usage.ru_stime)


def copied(state, path):
    """The path, where then stands a copy of the state, or nothing as there."""
    pathlib.Path(path).unlink(missing_ok=True)
    if os.path.exists(state):
        shutil.copyfile(state, path)
    return path


def fresh(folder, state):
    """Two copies of a state, one for counting and one for timing."""
    return [copied(state, f"{folder}/{name}") for name in ("counted", "timed")]


class Build:
    """One build by one program: what it said, and what it cost."""

    def __init__(self, words, state, folder, options):
        self.words, self.state, self.counted, self.timed = words, state, f"{state}.counted", f"{state}.timed"
        self.said, counts = collected(words(copied(state, self.counted)), folder, *options)
        self.instructions, self.misses = counts["Ir"], counts.get("DLmr", 0) + counts.get("DLmw", 0)
        self.allocations = allocations(f"{folder}/callgrind")
        self.megabytes = run_bare(words(copied(state, self.timed)))[1] / 1000
        self.milliseconds, self.is_steady = math.inf, bool(self.said)

    def take_turn(self):
        """One run more, of which the time counts where it is the least."""
        status, said, milliseconds = run_timed(self.words(copied(self.state, self.timed)))
        self.is_steady &= status == 0 and said == self.said
        self.milliseconds = min(self.milliseconds, milliseconds)

    def leave(self):
        """The state is then as the build leaves it."""
        os.replace(self.counted, self.state)
        self.bytes = os.path.getsize(self.state)


def turned(book, target):
    """The book with the names turned in one rule in the middle of those that are reached, so that its value stays."""
    needs, _ = needs_of(book)
    rules = sorted(name for name in reached(needs, target) if len(set(needs.get(name, []))) == 2)
    name = rules[len(rules) // 2]
    near, far = needs[name]
    return book.replace(f'{name} = "MAX({near},{far})-MIN({near},{far})"', f'{name} = "MAX({far},{near})-MIN({far},{near})"')


def books_of(keys, target):
    """The books of the six builds."""
    text = generated(SEED, keys)
    few, half = choose(text, target)
    edited_few = edited(text, {name: 1 for name in few})
    edited_half = edited(edited_few, {half: 1})
    return zip(BUILDS, (text, text, edited_few, edited_half, edited_half, turned(edited_half, target)))


def told(keys, name, carte, plain):
    """One build as text."""
    missed = f"{carte.misses / keys:.1f} and {plain.misses / keys:.1f} misses a key; " if plain.misses else ""
    return (f"{keys} keys, {name}: {carte.said.splitlines()[-1] if carte.said else 'nothing said'}; "
            f"{carte.instructions / keys:.0f} and {plain.instructions / keys:.0f} instructions a key, "
            f"ratio {carte.instructions / plain.instructions:.2f}; "
            f"{carte.allocations / keys:.1f} and {plain.allocations / keys:.1f} allocations a key; {missed}"
            f"{carte.milliseconds:.1f} and {plain.milliseconds:.1f} ms; {carte.megabytes:.1f} and {plain.megabytes:.1f} MB; "
            f"states of {carte.bytes} and {plain.bytes} bytes")


def measure(wanted, plain, keys, folder):
    """The six builds by either program, and in how many of them what they said or left isn't as it should be."""
    target, book = f"k{keys - 1}", f"{folder}/book.toml"
    states = [f"{folder}/{name}.{keys}.state" for name in ("carte", "plain")]
    pairs, differing = [], 0
    open(states[1], "ab").close()
    for name, text in books_of(keys, target):
        pathlib.Path(book).write_text(text)
        carte = Build(lambda path: [wanted.program, "build", book, path, target, *wanted.extra], states[0], folder, wanted.options)
        other = Build(lambda path: [plain, book, path, target], states[1], folder, wanted.options)
        for _ in range(wanted.rounds):
            carte.take_turn()
            other.take_turn()
        carte.leave()
        other.leave()
        same = bool(wanted.extra) or carte.said == other.said and filecmp.cmp(*states, shallow=False)
        same &= carte.is_steady and other.is_steady
        print(told(keys, name, carte, other) + ("" if same else "; THE REPLIES OR THE STATES DIFFER"), flush=True)
        pairs.append((carte, other))
        differing += not same
    return pairs, differing


def ratios(pairs, what):
    return [getattr(one, what) / getattr(other, what) for one, other in pairs]


def growth(keys, pairs, first_keys, first_pairs, what):
    """What a key costs the program in each build, beside what one of the first book does."""
    beside = [(one, first) for (one, _), (first, _) in zip(pairs, first_pairs)]
    return [ratio * first_keys / keys for ratio in ratios(beside, what)]


def measures(keys, pairs, first):
    """What each measure is in each build. What wasn't measured isn't there."""
    ours = [carte for carte, _ in pairs]
    found = {
        "instructions, times plain": ratios(pairs, "instructions"),
        "user and system time, times plain": ratios(pairs, "milliseconds"),
        "greatest memory, MB": [it.megabytes for it in ours],
        "allocations a key": [it.allocations / keys for it in ours],
        "instructions, times the build before": [None] * (len(ours) - 1) + [ours[-1].instructions / ours[-2].instructions],
    }
    if ours[0].misses:
        found["misses of the cache, times plain"] = ratios(pairs, "misses")
    if first[0] != keys:
        found["time a key, times the first book"] = growth(keys, pairs, *first, "milliseconds")
        found["instructions a key, times the first book"] = growth(keys, pairs, *first, "instructions")
    return found


def is_past(value, bound):
    return bound is not None and value > bound


def cell(value, bound):
    """A cell of the table. What isn't held stands there without a bound."""
    text = ("" if value is None else f"{value:.2f}") + ("" if bound is None else f" (at most {bound:g})")
    return f"**{text}**" if is_past(value, bound) else text


def rows_of(keys, found):
    """The rows of the bounds that are held with so many keys: a label, and values with their bounds."""
    held = [it for it in BOUNDS if it in found and (keys == WHOLE or it in ANYWHERE)]
    return [(f"{keys:,} keys: {it}", list(zip(found[it], BOUNDS[it]))) for it in held]


def asked(words):
    said = argparse.ArgumentParser(usage=__doc__)
    said.add_argument("program", type=os.path.abspath)
    said.add_argument("keys", nargs="*", type=int)
    said.add_argument("--rounds", type=int)
    said.add_argument("--quick", action="store_true")
    said.add_argument("--rebuilder")
    said.add_argument("--scheduler")
    said = said.parse_intermixed_args(words)
    said.rounds = said.rounds or (3 if said.quick else 15)
    said.options = () if said.quick else CACHE
    chosen = {"--rebuilder": said.rebuilder, "--scheduler": said.scheduler}
    said.extra = [word for name, value in chosen.items() if value for word in (name, value)]
    return said


def main(words):
    wanted, books, rows, differing = asked(words), [], [], 0
    with tempfile.TemporaryDirectory() as folder:
        plain = f"{folder}/plain"
        subprocess.run(["rustc", "-O", "--edition", "2021", "-o", plain, BENCH / "plain_builds.rs"], check=True)
        for keys in wanted.keys or [8_192, WHOLE]:
            pairs, differs = measure(wanted, plain, keys, folder)
            books.append((keys, pairs))
            rows += rows_of(keys, measures(keys, pairs, books[0]))
            differing += differs
    print(f"\n| | {' | '.join(BUILDS)} |\n|{'---|' * (len(BUILDS) + 1)}")
    for label, cells in rows:
        print(f"| {label} | {' | '.join(cell(*it) for it in cells)} |")
    held = [it for _, cells in rows for it in cells if it[1] is not None]
    past = sum(is_past(*it) for it in held)
    print(f"\n{len(held) - past} of {len(held)} bounds are kept" + (f"; THE REPLIES OR THE STATES OF {differing} BUILDS DIFFER" if differing else ""))
    return 1 if past or differing else 0


if __name__ == "__main__":
    sys.exit(main(sys.argv[1:]))
