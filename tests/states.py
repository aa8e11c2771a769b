"""State files, read and rewritten a second time: frames, moves, roots and banks, what is kept, and what of it is live.

Written from docs/STATE.md and docs/STATE-BATCHES.md alone; it shares no code with the program. `read` gives where the bodies of a
file stand, or raises BadState with an offset; `fold` what they keep; `live` the batch that says the same. `committed` and `rewritten`
give the bytes of the file behind a commit of a body and behind a rewriting, `predicted` those behind both, where a rewriting is due, and
`predicted_all` those behind all commits of a build.
"""
import itertools
from dataclasses import dataclass, field

import batches

HEADER = b"CARTE01\n"
LIMIT = 536_870_912
WIDE = 65_536
WAYS = ("verifying", "constructive", "deep")


class BadState(Exception):
    pass


# Where bodies stand

@dataclass
class Layout:
    """The closed gate byte behind the frames of a bank, these, where the bank starts, and its roots, where there are some."""

    gate: int
    bodies: list
    start: int = 8
    place: int = None
    second: bool = False
    both: bool = False
    generation: int = 0

    @property
    def size(self):
        return self.gate + 1 - self.start

    @property
    def other(self):
        """Where the root stands that isn't the active one."""
        return self.place + 17 * (not self.second)


def number(data, at, length):
    return int.from_bytes(data[at : at + length], "big")


def is_move(body):
    return len(body) == 9 and body[0] == 2


def frames(data, at, limit, ends_at_a_move=False):
    """The closed gate byte behind the frames from an offset on, and each with the offset of its gate byte."""
    found, most = [], min(len(data), limit)
    while data[at] == 1:
        end = at + 5 + number(data, at + 1, 4)
        if at + 5 > most or end + 1 > most:
            raise BadState(at)
        found.append((at, bytes(data[at + 5 : end])))
        if ends_at_a_move and is_move(found[-1][1]):
            return end, found
        at = end
    return at, found


def active(data, place, move):
    """Whether the active root is the second one, and whether both are open."""
    is_open = [data[place] == 1, data[place + 17] == 1]
    generations = [number(data, place + 1, 8), number(data, place + 18, 8)]
    if not any(is_open) or all(is_open) and generations[0] == generations[1]:
        raise BadState(move)
    return is_open[1] and (not is_open[0] or generations[1] > generations[0]), all(is_open)


def bank(data, move, body, gate, limit):
    """The layout of a file whose list at 8 ends with a move."""
    place, most = number(body, 1, 8), min(len(data), limit)
    if place != move + 15 or place + 34 > most or data[gate] == 1:
        raise BadState(move)
    second, both = active(data, place, move)
    generation, start = (number(data, place + 17 * second + 1 + at, 8) for at in (0, 8))
    if start < place + 34 or start >= most:
        raise BadState(move)
    gate, bodies = frames(data, start, limit)
    return Layout(gate, bodies, start, place, second, both, generation)


def read(data, limit=LIMIT):
    if len(data) <= 9:
        return Layout(8, [])
    if bytes(data[:8]) != HEADER:
        raise BadState(0)
    gate, bodies = frames(data, 8, limit, True)
    if bodies and is_move(bodies[-1][1]):
        return bank(data, *bodies[-1], gate, limit)
    return Layout(gate, bodies)


# What is kept

@dataclass
class Kept:
    values: list = field(default_factory=list)
    seen: dict = field(default_factory=dict)
    entries: dict = field(default_factory=dict)
    stale: set = field(default_factory=set)
    traces: dict = field(default_factory=lambda: {way: [] for way in WAYS})
    chain: list = field(default_factory=list)

    def drop(self, gone):
        self.seen = {name: digest for name, digest in self.seen.items() if name not in gone}
        self.entries = {name: entry for name, entry in self.entries.items() if name not in gone}
        self.stale -= gone
        self.traces = {way: [trace for trace in traces if trace[0] not in gone] for way, traces in self.traces.items()}

    def add(self, batch):
        start, values, gone, seen, entries, stale, *traces, chain = batch
        if start == "cleared":
            self.__init__()
        self.drop(set(gone))
        self.values += values
        self.seen.update(seen)
        self.entries.update((entry[0], entry) for entry in entries)
        self.stale -= {entry[0] for entry in entries}
        self.stale |= {name for name in stale if name in self.entries}
        for way, more in zip(WAYS, traces):
            self.traces[way] += [(name, tuple(task) if way == "deep" else task, tuple(links), result) for name, task, links, result in more]
        self.chain = self.chain if chain is None else chain


def counting(bodies):
    """Without those of version 1 in front, of which nothing counts any more behind one of version 2 that begins cleared."""
    behind = list(itertools.dropwhile(lambda it: it[1][:1] == b"\1", bodies))
    return behind if behind and behind[0][1][:2] in (b"\3\2", b"\4\2") else bodies


def fold(layout):
    """What bodies of version 2 keep: those of kind 3 come before those of kind 4."""
    kept, least = Kept(), 3
    for at, body in counting(layout.bodies):
        batch = batches.read_any(body)
        if batch is None or body[0] < least:
            raise BadState(at)
        least = body[0]
        kept.add(batch)
    return kept


def last_ones(traces):
    """Of equal ones the last, in their order."""
    return list(reversed(dict.fromkeys(reversed(traces))))


def live(kept):
    """The body that says all that is kept, and nothing else, or none where that is nothing."""
    if kept == Kept():
        return []
    traces = [last_ones(kept.traces[way]) for way in WAYS]
    values, seen = sorted(kept.values, key=batches.digest), sorted(kept.seen.items())
    entries = [kept.entries[name] for name in sorted(kept.entries)]
    return [batches.spell(("go on", values, [], seen, entries, sorted(kept.stale), *traces, kept.chain or None))]


def region(bodies):
    return b"".join(b"\1" + len(body).to_bytes(4, "big") + body for body in bodies) + b"\0"


# What is written

def put(data, at, piece):
    """The bytes with a piece written at an offset."""
    data = bytearray(data) + bytes(max(0, at - len(data)))
    data[at : at + len(piece)] = piece
    return bytes(data)


def root(generation, start):
    return generation.to_bytes(8, "big") + start.to_bytes(8, "big")


def place_of(layout, length):
    """Where a region of so many bytes goes."""
    if layout.place is None:
        return layout.gate + 49
    roots_end = layout.place + 34
    return roots_end if length <= layout.start - roots_end else layout.gate + 1


def rewriting(layout, piece):
    """The writes of a rewriting with a region, in the groups that end with a sync."""
    at, gate = place_of(layout, len(piece)), layout.gate
    if layout.place is None:
        front = (9).to_bytes(4, "big") + b"\2" + (gate + 15).to_bytes(8, "big") + b"\0"
        return [[(gate + 1, front + b"\1" + root(1, at) + bytes(17) + piece)], [(gate, b"\1")]]
    staged = [(layout.other + 1, root(layout.generation + 1, at)), (at, piece)]
    return [[(layout.other, b"\0")]] * layout.both + [staged, [(layout.other, b"\1")]]


def rewritten(data):
    layout = read(data)
    for group in rewriting(layout, region(live(fold(layout)))):
        for at, piece in group:
            data = put(data, at, piece)
    return data


def committed(data, body):
    gate, data = read(data).gate, data if len(data) > 9 else HEADER + b"\0"
    return put(put(data, gate + 1, len(body).to_bytes(4, "big") + body + b"\0"), gate, b"\1")


def is_due(layout, body, limit=LIMIT, first=True):
    """Whether the file is rewritten before a commit of the body; for its size alone it is so before the first one of a build."""
    long = len(region(live(fold(layout))))
    is_possible = layout.bodies and place_of(layout, long) + long <= limit
    is_over, is_large = layout.gate + 6 + len(body) > limit, layout.size > WIDE and layout.size > 2 * long
    return bool(is_possible and (is_over or first and is_large))


def predicted(before, body, limit=LIMIT, first=True):
    """The file behind a commit of the body, and whether it is rewritten first."""
    due = is_due(read(before), body, limit, first)
    return committed(rewritten(before) if due else before, body), due


def predicted_all(before, bodies, limit=LIMIT):
    """The file behind commits of these one after another, and whether it was rewritten before one of them."""
    turned = False
    for at, body in enumerate(bodies):
        before, due = predicted(before, body, limit, at == 0)
        turned |= due
    return before, turned
