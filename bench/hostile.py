#!/usr/bin/env python3
"""Measures books that were made to be slow: hostile.py PROGRAM [CASE..] [NAMES]

Beside each hostile book stands a friendly one of the same size and shape: as many keys, rules and references, and formulas of
as many bytes. Of both a build from nothing and the same build again are counted by callgrind, and the hostile one may take 3
times the instructions of the friendly one at most. Cases, all of which are measured where none is named:

names     names of 8 letters that collide in the fixed hash of the kit's tables (colliding.rs), half of them inputs and half
          rules over two of them; and the same where each rule refers to 8. NAMES says how many there are (16,384)
numbers   inputs whose numbers collide in the same way, and rules that give them
ranges    rules over the widest ranges that may be written, beside more rules over smaller ranges of the same cells
deep      formulas with 64 levels of brackets, calls and signs, as many as fit, beside chains of the same bytes
path      a chain of 65,535 rules, each over the one before, beside as many rules over one input
joined    a text of 65,408 bytes that a chain of `&` joins, beside one call that does
looked    a text of 65,536 bytes that 20,000 rules look up: at most 0.5 s and 200 MB
smallest  the smallest book: at most 1 ms of user and system time

It ends with 1 where a bound isn't kept.
"""
import os
import pathlib
import statistics
import subprocess
import sys
import tempfile
import time

from builds import instructions, run_bare
from generated import draws

BENCH = pathlib.Path(__file__).resolve().parent
SEED, NAMES, BOUND, LOW_BITS = 1, 16_384, 3, 12
MOST_SECONDS, MOST_MEMORY, SMALLEST, RUNS, HOPELESS = 0.5, 200_000, 0.001, 500, 20


class Book:
    """A book with the targets of its builds, and how many keys it has."""

    def __init__(self, text, targets, keys, kind="toml"):
        self.text, self.targets, self.keys, self.kind = text, targets, keys, kind

    def words(self, program, folder):
        """The words of a build over a new state."""
        book, state = f"{folder}/book.{self.kind}", f"{folder}/state"
        pathlib.Path(book).write_text(self.text)
        pathlib.Path(state).unlink(missing_ok=True)
        return [program, "build", book, state, *self.targets]


def rule_file(inputs, rules, targets):
    """A book of two lists of keys with what stands behind each."""
    lines = ["[inputs]", *(f"{name} = {value}" for name, value in inputs), "[rules]", *(f'{name} = "{text}"' for name, text in rules)]
    return Book("\n".join(lines) + "\n", targets, len(inputs) + len(rules))


def summed(inputs, rules):
    """The same with sums that lead to all these rules, of so many names as a formula holds."""
    names, sums = [name for name, _ in rules], []
    while len(names) > 1:
        at = [f"sum{len(sums) + at}" for at in range(-(-len(names) // 400))]
        sums += [(name, "SUM(" + ",".join(names[400 * i:400 * i + 400]) + ")") for i, name in enumerate(at)]
        names = at
    return rule_file(inputs, rules + sums, names)


# Hostile and friendly books, with what is told of them


def colliding(what, count, bits, folder):
    program = f"{folder}/colliding"
    if not os.path.exists(program):
        subprocess.run(["rustc", "-O", "--edition", "2021", "-o", program, BENCH / "colliding.rs"], check=True)
    begun = time.time()
    found = subprocess.run([program, what, str(count), str(bits)], capture_output=True, text=True, check=True).stdout.split()
    print(f"found {len(found)} {what} that collide in the tag and {bits} low bits, in {time.time() - begun:.1f} s", flush=True)
    return found


def any_names(count):
    """Names of 8 letters that nobody chose."""
    drawn, found = draws(SEED), {}
    while len(found) < count:
        number, name = next(drawn) << 31 | next(drawn), ""
        for _ in range(8):
            name, number = name + chr(97 + number % 26), number // 26
        found[name] = None
    return list(found)


def pairs(names, formula, values):
    """Half of the names are inputs; each rule is over two keys that no rule before it is over, and the last leads to all."""
    half = len(names) // 2
    rules = [(names[half + at], formula(names[2 * at], names[2 * at + 1])) for at in range(half - 1)]
    rules.append((names[-1], formula(names[-2], names[0])))
    return rule_file(list(zip(names[:half], values)), rules, names[-1:])


def eights(names, values):
    """Half of the names are inputs; each rule is over the key before it and seven more of those before."""
    drawn, half = draws(SEED), len(names) // 2
    needs = lambda at: [names[at - 1], *(names[next(drawn) % at] for _ in range(7))]
    rules = [(names[at], f"MAX({','.join(needs(at))})") for at in range(half, len(names))]
    return rule_file(list(zip(names[:half], values)), rules, names[-1:])


def with_names(count, folder):
    small = [number % 1000 for number, _ in zip(draws(SEED), range(count // 2))]
    chosen, other = colliding("names", count, LOW_BITS, folder), any_names(count)
    plus = lambda a, b: f"{a}+{b}"
    yield f"{count} names that collide, rules over 2", pairs(chosen, plus, small), pairs(other, plus, small)
    yield f"{count} names that collide, rules over 8", eights(chosen, small), eights(other, small)


def with_numbers(count, folder):
    chosen = colliding("numbers", count // 2, LOW_BITS, folder)
    other = [10**17 + (number << 20) for number, _ in zip(draws(SEED), range(count // 2))]
    names, most = [f"k{at:07}" for at in range(count)], lambda a, b: f"MAX({a},{b})"
    yield f"{count // 2} numbers that collide", pairs(names, most, chosen), pairs(names, most, other)


def with_ranges(*_):
    """16 rules over 65,536 cells each, beside 4,096 rules over a row of these; 239 of the 256 rows hold numbers."""
    drawn = draws(SEED)
    cells = "".join(",".join(str(next(drawn) % 1000) for _ in range(256)) + "\n" for _ in range(239)) + ",\n" * 17
    wide = ",".join(["=SUM(A1:IV256)"] * 16) + "\n=SUM(A257:P257)\n"
    rows = "".join(",".join(f"=SUM(A{row}:IV{row})" for row in range(16 * at + 1, 16 * at + 17) for _ in range(16)) + "\n" for at in range(16))
    yield ("16 rules over 65,536 cells each", Book(cells + wide, ["A258"], 61_201, "csv"),
           Book(cells + rows + "=SUM(A257:IV272)\n", ["A273"], 65_281, "csv"))


def filled(unit, joined_by, size):
    """As many of these units as a formula of this size holds, joined."""
    return joined_by.join([unit] * ((size + len(joined_by)) // (len(unit) + len(joined_by))))


def with_depth(*_):
    inputs = [("a", 1), ("b", 2)]
    kinds = [("brackets that are dropped", "(" * 64 + "a" + ")" * 64, "a+b"),
             ("brackets that stay", "(a+" * 64 + "b" + ")" * 64, "a+b"),
             ("calls of one", "NOT(" * 64 + "a" + ")" * 64, "NOT(a)"),
             ("calls of two", "MAX(a," * 64 + "b" + ")" * 64, "MAX(a,b)"),
             ("signs", "-" * 64 + "a", "a-b")]
    for name, unit, flat in kinds:
        deep = filled(unit, "+", 4096)
        flat = filled(flat, "+", len(deep)).ljust(len(deep))
        books = [summed(inputs, [(f"r{at:03}", text) for at in range(256)]) for text in (deep, flat)]
        yield f"256 formulas of {len(deep)} bytes, 64 levels of {name}", *books


def with_path(*_):
    name = lambda at: f"k{at:05}"
    keys = range(1, 65_536)
    chain = [(name(at), f"{name(at - 1)}+00001") for at in keys]
    star = [(name(at), f"{name(0)}+{at:05}") for at in keys]
    targets = [name(at) for at in reversed(keys)]
    yield "a chain of 65,535 rules", *(rule_file([(name(0), 0)], rules, targets) for rules in (chain, star))


def with_joins(*_):
    inputs = [("a", '"' + "0123456789abcdef" * 2 + '"')]
    chain, call = "&".join("a" * 2044), "CONCAT(" + ",".join("a" * 2044) + ")"
    books = [[(f"r{at}", text.ljust(4096)) for at in range(64)] for text in (chain, call)]
    yield "64 chains of & that join 65,408 bytes", *(summed(inputs, rules) for rules in books)


def looked_up():
    inputs = [("t", '"' + "0123456789abcdef" * 4096 + '"')]
    return summed(inputs, [(f"r{at}", f"LEN(t)+{at}") for at in range(20_000)])


# Measuring


def times(program, book, folder):
    """Seconds and memory of a build from nothing and of the same again."""
    return [run_bare(words) for words in [book.words(program, folder)] * 2]


def counts(program, book, folder):
    """Of both the last line of the reply, and instructions."""
    counted = [instructions(words, folder) for words in [book.words(program, folder)] * 2]
    assert all(said for said, _ in counted), "a build was refused"
    return [(said.splitlines()[-1], count) for said, count in counted]


def beside(program, folder, name, *books):
    """Whether the bound is kept. What takes far too long is told by its time, and not counted."""
    timed = [times(program, book, folder) for book in books]
    is_long = any(ours > HOPELESS * max(theirs, 0.05) for (ours, _), (theirs, _) in zip(*timed))
    counted = [[("not counted", 1000 * seconds) for seconds, _ in pair] for pair in timed] if is_long else [
        counts(program, book, folder) for book in books]
    kept = True
    for what, ours, theirs, (seconds, memory), (others, other) in zip(("from nothing", "nothing changed"), *counted, *timed):
        ratio = ours[1] / max(theirs[1], 1)
        kept &= ratio <= BOUND
        print(f"{name}, {what}: {ours[0]} and {theirs[0]}; {ours[1]:.0f} and {theirs[1]:.0f} {'ms' if is_long else 'instructions'}, ratio {ratio:.2f}"
              f"{'' if ratio <= BOUND else f', ABOVE {BOUND}'}; {seconds:.2f} and {others:.2f} s; {memory} and {other} KB", flush=True)
    return kept


def looked(program, folder):
    """The least of three runs where one isn't enough, and of one where it takes far too long."""
    words, kept = looked_up().words(program, folder), True
    for what in ("from nothing", "nothing changed"):
        runs = []
        while len(runs) < 3 and (not runs or MOST_SECONDS < runs[0][0] <= 3 * MOST_SECONDS):
            if what == "from nothing":
                pathlib.Path(words[3]).unlink(missing_ok=True)
            runs.append(run_bare(words))
        seconds, memory = min(it[0] for it in runs), max(it[1] for it in runs)
        is_kept = seconds <= MOST_SECONDS and memory <= MOST_MEMORY
        kept &= is_kept
        print(f"a text of 65,536 bytes that 20,000 rules look up, {what}: {seconds:.2f} s and {memory} KB"
              f"{'' if is_kept else f', ABOVE {MOST_SECONDS} s or {MOST_MEMORY} KB'}", flush=True)
    return kept


def used(words):
    """The user and system time of one run, in seconds, from its beginning as a process."""
    silent = [(os.POSIX_SPAWN_OPEN, 1, "/dev/null", os.O_WRONLY, 0)]
    _, status, used = os.wait4(os.posix_spawn(words[0], words, os.environ, file_actions=silent), 0)
    assert status == 0
    return used.ru_utime + used.ru_stime


def smallest(program, folder):
    """The medians of many runs, beside those of a program that does nothing, which is what a process costs here."""
    words, kept = rule_file([("a", 1)], [], ["a"]).words(program, folder), True
    nothing = statistics.median(used(["/bin/true"]) for _ in range(RUNS))
    _, least = instructions(["/bin/true"], folder)
    for what in ("from nothing", "nothing changed"):
        _, count = instructions(words, folder)
        runs = []
        for _ in range(RUNS):
            if what == "from nothing":
                os.unlink(words[3])
            runs.append(used(words))
        median = statistics.median(runs)
        kept &= median < SMALLEST
        print(f"the smallest book, {what}: {count} instructions, {least} of /bin/true; {1000 * median:.2f} ms of user and system time, "
              f"{1000 * nothing:.2f} of /bin/true{'' if median < SMALLEST else f', ABOVE {1000 * SMALLEST} ms'}", flush=True)
    return kept


PAIRS = {"names": with_names, "numbers": with_numbers, "ranges": with_ranges, "deep": with_depth, "path": with_path, "joined": with_joins}
ALONE = {"looked": looked, "smallest": smallest}


def main(program, *words):
    program, cases = os.path.abspath(program), [word for word in words if not word.isdigit()] or [*PAIRS, *ALONE]
    count = next((int(word) for word in words if word.isdigit()), NAMES)
    kept = []
    with tempfile.TemporaryDirectory() as folder:
        for case in cases:
            if case in ALONE:
                kept.append(ALONE[case](program, folder))
                continue
            for name, hostile, friendly in PAIRS[case](count, folder):
                kept.append(beside(program, folder, name, hostile, friendly))
    return 0 if all(kept) else 1


if __name__ == "__main__":
    sys.exit(main(*sys.argv[1:]))
