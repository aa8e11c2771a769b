#!/usr/bin/env python3
"""Compares a program with the second reading on random small books: random_books.py PROGRAM COUNT SEED

Most books are whole; some have a broken formula, another fault, a cycle, a missing name or a dynamic rule.
Each is built over a new state, by the one scheduler or the other. The first difference is printed with its book. At the end stands how many books ended with each status.
"""
import collections
import pathlib
import random
import subprocess
import sys
import tempfile

from reference import build

NUMBERS = ["0", "1", "2", "3", "7", "10", "33", "007", "65536", "4294967296", "3037000500", "9223372036854775807"]
TEXTS = ['""', '"a"', '"A"', '"ab"', '"10"', '"b""c"', '"\u00e4\u20ac"', '"one\ntwo\n"', '"\n"', '"\\\t"', '"k1"', '"k1\nk2"']
VALUES = [0, 1, -1, 2, 7, 10, -7, 2**63 - 1, -(2**63), 2**62, "", "a", "10", "k1", "k0\nk1\n", "\u00e4\r\n\u20ac", "\\ \"q\"\t"]
SIGNS = ["+", "-", "*", " /", "&", "=", "<>", "<", "<=", ">", ">="]
MANY = ["SUM", "MIN", "MAX", "COUNT", "CONCAT", "AND", "OR"]
ONE = ["LEN", "UPPER", "LINES", "NOT"]
BLANKS = ["", "", "", "", " ", "  ", "\n", "\t "]
BROKEN = ["", "(", ")", ",", ":", "?", "^", "'", '"', "SUM", "TRUE", "Sum(1)", "9223372036854775808", "1 2", "IF(1)", "LEN()", "a1:b2",
          "LINE(1)", "LEN(1,2)", "\u00e4", "\u007f", "n" * 65, "(" * 65 + "1" + ")" * 65, "-" * 65 + "1", "1" + "+1" * 2048, "<=", "/"]
FAULTS = ['[more]\n', '[inputs]\nA = 1\n', '[inputs]\nzz = true\n', '[inputs]\nzz = 1.5\n', '[rules]\nzz = 1\n', '[inputs]\nk9 = 1\n[rules]\nk9 = "1"\n',
          '[inputs]\nzz = 9223372036854775808\n', '[inputs]\nzz = \n', '[rules]\n"z z" = "1"\n', 'zz = 1\n', '[inputs]\nzz.y = 1\n', '["a\\tb"]\n']


class Maker:
    """Makes one book. What its coins allow holds for the whole book, so that most books are whole."""

    def __init__(self, seed):
        self.random = random.Random(seed)
        self.dynamic, self.round, self.missing, self.broken, self.fault = (
            self.random.random() < chance for chance in (0.2, 0.15, 0.1, 0.15, 0.08))
        self.count = self.random.randint(2, 10)
        self.inputs = self.random.randint(1, self.count - 1)

    strange = ["lost", "a/b", "k", "k1.", "k99"]

    def key(self, number):
        return f"k{number}"

    def name(self, before):
        if self.missing and self.random.random() < 0.15:
            return self.random.choice(self.strange)
        return self.key(self.random.randrange(self.count if self.round else before))

    def leaf(self, before):
        kind = self.random.random()
        if before and kind < 0.5:
            return self.name(before)
        return self.random.choice(NUMBERS if kind < 0.8 else TEXTS)

    def call(self, before, depth):
        function = self.random.choice(MANY * 3 + ONE * 3 + ["LINE", "PICK"] * 3 + ["IF"] * 4 + ["INDIRECT", "GATHER"] * self.dynamic)
        inner = lambda: self.formula(before, depth - 1)
        if function == "IF":
            branch = inner if self.dynamic else lambda: self.formula(0, depth - 1)
            args = [inner()] + [branch() for _ in range(self.random.randint(1, 2))]
        else:
            count = {"LINE": 2, "PICK": 3}.get(function, self.random.randint(1, 4) if function in MANY else 1)
            args = [inner() for _ in range(count)]
        return f"{function}{self.blank()}({','.join(self.blank() + arg for arg in args)})"

    def blank(self):
        return self.random.choice(BLANKS)

    def operand(self, before, depth):
        kind = self.random.random()
        if depth == 0 or kind < 0.4:
            return self.leaf(before)
        if kind < 0.55:
            return self.random.choice("-+") + self.blank() + self.operand(before, depth - 1)
        if kind < 0.7:
            return f"({self.formula(before, depth - 1)}{self.blank()})"
        return self.call(before, depth)

    def formula(self, before, depth):
        text = self.operand(before, depth)
        while self.random.random() < 0.4:
            sign = self.random.choice(SIGNS)
            text += self.blank() + sign + self.blank() + self.operand(before, depth)
        return self.blank() + text

    def spoilt(self, text):
        """A formula with something put in, or a piece left out."""
        at, end = sorted(self.random.randint(0, len(text)) for _ in range(2))
        if self.random.random() < 0.3:
            return text[:at] + text[end:]
        return text[:at] + self.random.choice(BROKEN) + text[at:]

    def rules(self):
        for key in range(self.inputs, self.count):
            text = self.formula(key, self.random.randint(0, 4))
            yield self.key(key), self.spoilt(text) if self.broken and self.random.random() < 0.4 else text

    def book(self):
        inputs = "".join(f"k{key} = {toml(self.random.choice(VALUES))}\n" for key in range(self.inputs))
        rules = [f"{key} = {toml(text)}\n" for key, text in self.rules()]
        self.random.shuffle(rules)
        tables = ["[inputs]\n" + inputs, "[rules]\n" + "".join(rules)]
        if self.fault:
            tables[self.random.randrange(2)] = self.random.choice(FAULTS)
        return "\n".join(tables)

    def targets(self):
        chosen = [self.key(self.random.randrange(self.count)) for _ in range(self.random.randint(1, 4))]
        return chosen + ["nowhere"] * (self.missing and self.random.random() < 0.2)


class CellMaker(Maker):
    """Makes one sheet, row by row over four columns."""
    strange = ["Z9", "zz9999", "D9", "AA1"]

    def key(self, number):
        return f"{'ABCD'[number % 4]}{number // 4 + 1}"

    def name(self, before):
        name = super().name(before)
        return name.lower() if self.random.random() < 0.1 else name

    def leaf(self, before):
        return super().leaf(before).replace("k1", "b1").replace("k2", "C1")

    def call(self, before, depth):
        if before and self.random.random() < 0.3:
            corners = [self.key(self.random.randrange(self.count if self.round else before)) for _ in "ab"]
            # A range of corners that come earlier may reach cells that come later, and so itself.
            if self.round or corners[0][0] == corners[1][0] or corners[0][1:] == corners[1][1:]:
                return f"{self.random.choice(MANY)}({':'.join(corners)},{self.leaf(before)})"
        return super().call(before, depth)


def toml(value):
    """A TOML value; the texts have a few signs alone that want an escape."""
    if isinstance(value, int):
        return str(value)
    for sign, escape in [("\\", "\\\\"), ('"', '\\"'), ("\n", "\\n"), ("\r", "\\r"), ("\t", "\\t"), ("\u007f", "\\u007f")]:
        value = value.replace(sign, escape)
    return f'"{value}"'


def run(program, folder, book, targets):
    (folder / "book.toml").write_bytes(book)
    (folder / "state").unlink(missing_ok=True)
    done = subprocess.run([program, "build", "book.toml", "state", *targets], cwd=folder, stdin=subprocess.DEVNULL,
                          timeout=120, capture_output=True)
    return done.returncode, done.stdout, done.stderr


def main(program, count, seed):
    sys.setrecursionlimit(20_000)
    statuses = collections.Counter()
    with tempfile.TemporaryDirectory() as folder:
        for number in range(int(count)):
            maker = Maker(f"{seed}/{number}")
            book, targets = maker.book().encode(), maker.targets()
            if number % 2:
                targets += ["--scheduler", "topological"]
            wanted = build(book, [target.encode() for target in targets])
            got = run(pathlib.Path(program).resolve(), pathlib.Path(folder), book, targets)
            if got != wanted:
                print(f"book {number}, targets {' '.join(targets)}:\n{book.decode()}\nwanted {wanted}\ngot    {got}")
                return 1
            statuses[wanted[0], wanted[2].split(b":")[1].decode() if wanted[2] else ""] += 1
    for (status, kind), times in sorted(statuses.items()):
        print(f"status {status}{kind}: {times}")
    print(f"random books: {count} alike")
    return 0


if __name__ == "__main__":
    sys.exit(main(*sys.argv[1:]))
