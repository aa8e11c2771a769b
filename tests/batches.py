#!/usr/bin/env python3
"""A reader and a writer of the batches of a state file, written from docs/STATE-BATCHES.md alone, and what tests take from them.

    batches.py small      the body of the small example, part by part
    batches.py flips      which bits of that body may be turned so that the bytes stay a batch, as runs of equal bytes
    batches.py table N    N random bodies in hexadecimal, each with `good` or `bad` behind it
    batches.py both N     N random batches both ways, of kind 4 and of kind 3, and each with some changes; prints how many
"""

import hashlib
import random
import re
import struct
import sys

RULE = re.compile(rb"[a-z][a-z0-9_./]{0,63}\Z")
CELL = re.compile(rb"[A-Z]{1,2}[1-9][0-9]{0,3}\Z")
LONGEST_TEXT = 65536


class NoBatch(Exception):
    pass


# A value is None, a number, bytes that are UTF-8, or ("bad", 1 to 5). A batch is a tuple of the ten parts: start is
# "go on" or "cleared", and chain is None or a list of names. A deep trace has the tasks beneath its key in the place of
# its own task; in a body of kind 3, which isn't written any more, it has that one too.

PARTS = ("start", "values", "gone", "seen", "entries", "stale", "verifying", "constructive", "deep", "chain")


def count(items):
    return struct.pack(">I", len(items))


def spell_name(name):
    return bytes([len(name)]) + name


def spell_names(names):
    return count(names) + b"".join(map(spell_name, names))


def spell_links(links):
    return count(links) + b"".join(spell_name(name) + digest for name, digest in links)


def spell_value(value):
    if value is None:
        return b"\x00"
    if isinstance(value, int):
        return b"\x01" + struct.pack(">q", value)
    if isinstance(value, bytes):
        return b"\x02" + count(value) + value
    return bytes([3, value[1]])


def spell_start(start):
    return {"go on": b"\x00", "cleared": b"\x02"}[start]


def spell_entry(entry):
    name, task, result, shallow, needs = entry
    return spell_name(name) + task + result + bytes([shallow]) + spell_names(needs)


def spell_trace(trace):
    name, task, links, result = trace
    return spell_name(name) + task + spell_links(links) + result


def spell_deep(trace):
    name, tasks, links, result = trace
    return spell_name(name) + spell_links(tasks) + spell_links(links) + result


def spell_chain(chain):
    return b"\x00" if chain is None else b"\x01" + spell_names(chain)


def spell_values(values):
    return count(values) + b"".join(map(spell_value, values))


def spell_entries(entries):
    return count(entries) + b"".join(map(spell_entry, entries))


def spell_traces(traces):
    return count(traces) + b"".join(map(spell_trace, traces))


def spell_deeps(traces):
    return count(traces) + b"".join(map(spell_deep, traces))


FRONT = (spell_start, spell_values, spell_names, spell_links, spell_entries, spell_names, spell_traces, spell_traces)
SPELLINGS = {3: (*FRONT, spell_traces, spell_chain), 4: (*FRONT, spell_deeps, spell_chain)}


def spell_parts(batch, kind=4):
    return [("kind", bytes([kind]))] + [(part, spelled(piece)) for part, spelled, piece in zip(PARTS, SPELLINGS[kind], batch)]


def spell(batch, kind=4):
    return b"".join(part for _, part in spell_parts(batch, kind))


class Reader:
    """Reads from the front; raises NoBatch where what is asked for isn't there."""

    def __init__(self, body):
        self.body = body
        self.at = 0

    def take(self, length):
        if self.at + length > len(self.body):
            raise NoBatch
        piece = self.body[self.at : self.at + length]
        self.at += length
        return piece

    def byte(self, most=255):
        byte = self.take(1)[0]
        if byte > most:
            raise NoBatch
        return byte

    def list(self, item):
        return [item() for _ in range(struct.unpack(">I", self.take(4))[0])]

    def name(self):
        name = self.take(self.byte())
        if not (RULE.match(name) or CELL.match(name)):
            raise NoBatch
        return name

    def digest(self):
        return self.take(32)

    def value(self):
        kind = self.byte(3)
        if kind == 0:
            return None
        if kind == 1:
            return struct.unpack(">q", self.take(8))[0]
        if kind == 2:
            length = struct.unpack(">I", self.take(4))[0]
            if length > LONGEST_TEXT:
                raise NoBatch
            text = self.take(length)
            try:
                text.decode("utf-8")
            except UnicodeDecodeError:
                raise NoBatch from None
            return text
        bad = self.byte(5)
        if bad == 0:
            raise NoBatch
        return ("bad", bad)

    def start(self):
        kind = self.byte(2)
        if kind == 1:
            raise NoBatch
        return ["go on", None, "cleared"][kind]

    def link(self):
        return (self.name(), self.digest())

    def entry(self):
        return (self.name(), self.digest(), self.digest(), self.byte(1), self.list(self.name))

    def trace(self):
        return (self.name(), self.digest(), self.list(self.link), self.digest())

    def deep(self):
        return (self.name(), self.list(self.link), self.list(self.link), self.digest())

    def chain(self):
        return self.list(self.name) if self.byte(1) else None

    def batch(self, kind):
        if self.byte() != kind:
            raise NoBatch
        front = (self.start(), *[self.list(item) for item in (self.value, self.name, self.link, self.entry, self.name)])
        found = (*front, *[self.list(item) for item in (self.trace, self.trace, self.trace if kind == 3 else self.deep)], self.chain())
        if self.at != len(self.body):
            raise NoBatch
        return found


def read(body, kind=4):
    try:
        return Reader(body).batch(kind)
    except NoBatch:
        return None


def read_any(body):
    """The batch of a body of version 2; that of kind 3 is read without its deep traces."""
    batch = read(body, 3)
    return read(body) if batch is None else (*batch[:8], [], batch[9])


def digest(value):
    return hashlib.sha256(spell_value(value)).digest()


def task(formula):
    """Of a rule of a rule file: 2, and its formula."""
    return hashlib.sha256(b"\x02" + formula).digest()


def small():
    """What a build of b2 leaves, with a1 = 10, a2 = 20, b1 = "a1+a2" and b2 = "b1*2"."""
    a1, a2 = (b"a1", digest(10)), (b"a2", digest(20))
    b1, b2 = digest(30), digest(60)
    of_b1, of_b2 = task(b"a1+a2"), task(b"b1*2")
    return (
        "go on",
        [30, 60],
        [],
        [a1, a2],
        [(b"b1", of_b1, b1, 0, [b"a1", b"a2"]), (b"b2", of_b2, b2, 0, [b"b1"])],
        [],
        [(b"b1", of_b1, [a1, a2], b1), (b"b2", of_b2, [(b"b1", b1)], b2)],
        [],
        [],
        None,
    )


def turned(body, bit):
    other = bytearray(body)
    other[bit // 8] ^= 1 << bit % 8
    return bytes(other)


def flips():
    """For each byte the bits, the lowest as 1, that may be turned."""
    body = spell(small())
    masks = [sum(1 << bit for bit in range(8) if read(turned(body, 8 * at + bit)) is not None) for at in range(len(body))]
    runs = []
    for mask in masks:
        if runs and runs[-1][1] == mask:
            runs[-1][0] += 1
        else:
            runs.append([1, mask])
    return runs, sum(bin(mask).count("1") for mask in masks)


def some_name(dice):
    if dice.random() < 0.3:
        letters = dice.choice(["A", "Z", "AB", "ZZ"])
        return (letters + str(dice.choice([1, 9, 10, 405, 9999]))).encode()
    first = dice.choice("abz")
    return (first + "".join(dice.choice("az09_./") for _ in range(dice.choice([0, 1, 2, 7, 63])))).encode()


def some_value(dice):
    kind = dice.randrange(4)
    if kind == 0:
        return None
    if kind == 1:
        return dice.choice([0, -1, 60, 2**63 - 1, -(2**63), dice.randrange(-1000, 1000)])
    if kind == 2:
        return dice.choice(["", "ab", 'a"\n', "ß→", "\U0001f600", "x" * 300]).encode()
    return ("bad", dice.randrange(1, 6))


def some_digest(dice):
    return dice.choice([bytes(32), b"\xff" * 32, bytes(dice.randrange(256) for _ in range(32))])


def some_batch(dice, most=3, kind=4):
    def some(item):
        return [item() for _ in range(dice.randrange(most + 1))]

    def name():
        return some_name(dice)

    def link():
        return (name(), some_digest(dice))

    def entry():
        return (name(), some_digest(dice), some_digest(dice), dice.randrange(2), some(name))

    def trace():
        return (name(), some_digest(dice), some(link), some_digest(dice))

    def deep():
        return (name(), some(link), some(link), some_digest(dice))

    start = dice.choice(["go on", "cleared"])
    front = (start, some(lambda: some_value(dice)), some(name), some(link), some(entry), some(name))
    return (*front, some(trace), some(trace), some(trace if kind == 3 else deep), None if dice.random() < 0.5 else some(name))


def changed(dice, body):
    """The body with one change: a byte more, fewer, other, twice, or a front of it."""
    at = dice.randrange(len(body))
    return dice.choice([
        body[:at] + bytes([dice.randrange(256)]) + body[at:],
        body[:at] + body[at + 1 :],
        turned(body, 8 * at + dice.randrange(8)),
        body[:at] + body[at : at + 1] + body[at:],
        body[:at],
        body + b"\x00",
    ])


def check(body, kind=4):
    """A body is read as one batch, whose spelling it is, and as none of the other kind."""
    batch = read(body, kind)
    assert batch is None or spell(batch, kind) == body and read(body, 7 - kind) is None
    return batch


def both(number):
    dice = random.Random(1)
    good = 0
    for at in range(number):
        kind = 3 + at % 2
        batch = some_batch(dice, kind=kind)
        body = spell(batch, kind)
        assert check(body, kind) == batch
        for _ in range(40):
            good += check(changed(dice, body), kind) is not None
    return f"{number} batches both ways, and {good} of {40 * number} changed bodies are batches"


def main(words):
    if words[:1] == ["small"]:
        for part, piece in spell_parts(small()):
            print(f"{part:12} {len(piece):4} {piece.hex()}")
        print(len(spell(small())))
    elif words[:1] == ["flips"]:
        runs, number = flips()
        print(", ".join(f"({length}, {mask})" for length, mask in runs))
        print(number, "of", 8 * len(spell(small())))
        print([length for length in range(len(spell(small())) + 1) if read(spell(small())[:length]) is not None])
    elif words[:1] == ["table"]:
        dice = random.Random(2)
        for _ in range(int(words[1])):
            body = spell(some_batch(dice, 1))
            print(body.hex(), "good" if check(body) else "bad")
            other = changed(dice, body)
            print(other.hex(), "good" if check(other) else "bad")
    elif words[:1] == ["both"]:
        print(both(int(words[1])))
    else:
        sys.exit(__doc__)


if __name__ == "__main__":
    main(sys.argv[1:])
