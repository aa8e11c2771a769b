"""What a build over kept information does, read a second time: marking, held keys, runs, and what is left.

It shares no code with the program. `build` gives the reply or the refusal, the rules that ran, and what is kept
afterwards, for the schedulers `topological`, `restarting` and `suspending` and the rebuilders `dirty`, `verifying`,
`constructive` and `deep`; `why` gives the cause why a build would run a name, or would not. A book is its inputs and
its rules, as `reference.read_book` or `sheets.read_sheet` gives them; in a sheet every other cell is an input that is
empty.
"""
import copy
import hashlib
from dataclasses import dataclass, field

from formulas import EMPTY, Bad, cell_name, evaluate, printed, rule_name
from reference import Refused, Stuck, refs, refuse_dynamic

CODES = {Bad.DIV0: 1, Bad.VALUE: 2, Bad.REF: 3, Bad.NUM: 4, Bad.LEN: 5}
WAYS = ("verifying", "constructive", "deep")


def spelling(value):
    if value is EMPTY:
        return b"\0"
    if isinstance(value, Bad):
        return bytes([3, CODES[value]])
    if isinstance(value, bytes):
        return b"\2" + len(value).to_bytes(4, "big") + value
    return b"\1" + value.to_bytes(8, "big", signed=True)


def digest(value):
    return hashlib.sha256(spelling(value)).digest()


@dataclass
class Entry:
    task: object
    result: bytes
    needs: tuple
    stale: bool = False
    shallow: bool = False

    @property
    def fresh(self):
        return not self.stale and not self.shallow


@dataclass
class Kept:
    seen: dict = field(default_factory=dict)
    entries: dict = field(default_factory=dict)
    traces: dict = field(default_factory=lambda: {way: {} for way in WAYS})
    store: dict = field(default_factory=dict)
    chain: tuple = ()


class Book:
    """Clean values and needs, each worked out once and afresh from the inputs."""

    def __init__(self, inputs, rules, is_sheet):
        self.inputs, self.rules, self.is_sheet = inputs, rules, is_sheet
        self.values, self.needs, self.under_way = dict(inputs), {}, set()

    def input(self, name):
        """The value of a name that is no rule, or None."""
        return None if name in self.rules else self.inputs.get(name, EMPTY if self.is_sheet else None)

    def clean(self, name):
        """The clean value of a name, or None."""
        if name not in self.rules:
            return self.input(name)
        if name in self.values:
            return self.values[name]
        if name in self.under_way:
            return None
        self.under_way.add(name)
        needs = []

        def look(need):
            if need not in needs:
                needs.append(need)
            found = self.clean(need)
            if found is None:
                raise Stuck(need)
            return found

        try:
            self.values[name] = evaluate(self.rules[name], look, cell_name if self.is_sheet else rule_name)
        except Stuck:
            self.values[name] = None
        self.under_way.discard(name)
        self.needs[name] = tuple(needs)
        return self.values[name]

    def task(self, name):
        """What a rule's task is, in the place of its digest: the kind of the book with its formula."""
        return (self.is_sheet, self.rules[name]) if name in self.rules else None

    def named(self, name, way):
        """What a trace of a rule names as its task: a deep one each rule beneath it with its own."""
        return tuple((rule, self.task(rule)) for rule in self.rules_beneath(name)) if way == "deep" else self.task(name)

    def has_task(self, name, way, task):
        """Whether what a trace names is so now."""
        return all(self.task(rule) == seen for rule, seen in task) if way == "deep" else self.task(name) == task

    def needs_of(self, name):
        self.clean(name)
        return self.needs.get(name, ())

    def beneath(self, name):
        """The inputs met when needs are walked depth first, each at its first place."""
        if self.input(name) is not None:
            return (name,)
        found = {}
        for need in self.needs_of(name):
            found.update(dict.fromkeys(self.beneath(need)))
        return tuple(found)

    def rules_beneath(self, name):
        """The rule itself and the rules met when its needs are walked depth first, each at its first place."""
        found, ahead = {}, [name]
        while ahead:
            rule = ahead.pop()
            if rule not in found and rule in self.rules:
                found[rule] = None
                ahead += reversed(self.needs_of(rule))
        return tuple(found)

    def links(self, names):
        return tuple((name, digest(self.clean(name))) for name in names)

    def stuck_path(self, targets):
        for target in targets:
            if self.clean(target) is not None:
                continue
            path = [target]
            while path[-1] not in path[:-1]:
                if path[-1] not in self.rules:
                    return "missing", path
                path.append(self.needs_of(path[-1])[-1])
            return "cycle", path
        return None


def changed_inputs(kept, book):
    """The names that were seen with a value that they haven't now."""
    return {name for name, seen in kept.seen.items() if book.input(name) is None or digest(book.input(name)) != seen}


def changed_names(kept, book):
    """These, and the keys whose entries have another task than their rule has now."""
    return changed_inputs(kept, book) | {key for key, entry in kept.entries.items() if book.task(key) != entry.task}


def gone_names(kept, book):
    """The names that are kept as inputs and are none, or as rules and are none."""
    return {name for name in kept.seen if book.input(name) is None} | {key for key in kept.entries if key not in book.rules}


def begin(kept, book):
    """What a build begins with: the stale entries marked, and nothing of names that became something else."""
    begun = copy.deepcopy(kept)
    changed = changed_names(kept, book)
    while True:
        more = {key for key, entry in kept.entries.items() if key not in changed and changed.intersection(entry.needs)}
        if not more:
            break
        changed |= more
    for key in changed & kept.entries.keys():
        begun.entries[key].stale = True
    for name in gone_names(kept, book):
        for kind in (begun.seen, begun.entries, *begun.traces.values()):
            kind.pop(name, None)
    return begun


def now(book, way, name):
    """The digest that a link's name has now."""
    value = book.input(name) if way == "deep" else book.clean(name)
    return None if value is None else digest(value)


def is_held(rebuilder, begun, book, key):
    entry = begun.entries.get(key)
    if rebuilder == "dirty":
        return entry is not None and entry.fresh
    return any(book.has_task(key, rebuilder, task) and all(now(book, rebuilder, name) == seen for name, seen in links)
               and (rebuilder != "verifying" or entry.result == result)
               for task, links, result in begun.traces[rebuilder].get(key, ()))


def led_to(begun, book, targets):
    """The rules that targets lead to by the needs of entries, whatever these are: those of the chain in its order, then the others."""
    found, ahead = set(), list(targets)
    while ahead:
        entry = begun.entries.get(ahead.pop())
        more = set(entry.needs if entry else ()) - found
        found |= more
        ahead += more
    chained = [name for name in begun.chain if name in found and name in book.rules]
    return chained + sorted(name for name in found if name in book.rules and name not in chained)


class Restarting:
    """A build that gives up what asks for an unfinished rule, and begins it anew when that is finished."""

    def __init__(self, rebuilder, begun, book):
        self.rebuilder, self.begun, self.book = rebuilder, begun, book
        self.asked, self.order, self.given_up = set(), [], 0

    def is_there(self, name):
        return self.book.input(name) is not None or name in self.order

    def traces(self, key):
        entry, found = self.begun.entries.get(key), self.begun.traces.get(self.rebuilder, {}).get(key, [])
        found = [trace for trace in found if self.book.has_task(key, self.rebuilder, trace[0])]
        return [trace for trace in found if self.rebuilder != "verifying" or entry and entry.result == trace[2]]

    def checked(self, key):
        """Whether it is held, and the name that a check asked for in vain."""
        if self.rebuilder == "dirty":
            return is_held("dirty", self.begun, self.book, key), None
        for _, links, _ in self.traces(key):
            for name, seen in links:
                if not self.is_there(name):
                    return False, name
                if now(self.book, self.rebuilder, name) != seen:
                    break
            else:
                return True, None
        return False, None

    def drive(self, key):
        """None where it comes to its end, or the name that it stops at."""
        holds, stop = self.checked(key)
        if not holds and stop is None:
            stop = next((name for name in self.book.needs_of(key) if not self.is_there(name)), None)
            self.given_up += stop is not None
        return stop

    def treat(self, name):
        path = [name] if name in self.book.rules and name not in self.asked else []
        while path:
            self.asked.add(path[-1])
            stop = self.drive(path[-1])
            if stop is None:
                self.order.append(path.pop())
            elif stop in self.book.rules and stop not in self.asked:
                path.append(stop)
            else:
                path = []

    def build(self, targets):
        for name in led_to(self.begun, self.book, targets) + list(targets):
            self.treat(name)
        return self


def treated(scheduler, rebuilder, begun, book, targets):
    found, ahead = [], list(targets) + (led_to(begun, book, targets) if scheduler == "restarting" else [])
    while ahead:
        name = ahead.pop(0)
        if name in found or name not in book.rules:
            continue
        found.append(name)
        followed = scheduler == "topological" or rebuilder in ("verifying", "constructive") or not is_held(rebuilder, begun, book, name)
        ahead += book.needs_of(name) if followed else ()
    return found


def finish(rebuilder, left, begun, book, key, ran):
    result = digest(book.clean(key))
    entry = left.entries.get(key)
    if rebuilder != "deep":
        new = Entry(book.task(key), result, book.needs_of(key))
    elif entry is not None and entry.fresh:
        new = entry
    else:
        new = Entry(book.task(key), result, book.beneath(key), shallow=True)
    if new != entry:
        left.entries[key] = new
        left.seen.update((name, digest(book.input(name))) for name in new.needs if book.input(name) is not None)
    if ran:
        left.store.setdefault(result, book.clean(key))
    if ran and rebuilder in WAYS:
        links = book.links(book.beneath(key) if rebuilder == "deep" else book.needs_of(key))
        trace = book.named(key, rebuilder), links, result
        left.traces[rebuilder][key] = [trace] + [it for it in left.traces[rebuilder].get(key, []) if it != trace]


def build(kept, inputs, rules, targets, scheduler="suspending", rebuilder="verifying", listed=False, is_sheet=False):
    """The reply or the reason with its path, the rules that ran, and what is kept afterwards."""
    book = Book(inputs, rules, is_sheet)
    begun = begin(kept, book)
    left = copy.deepcopy(begun)
    reason = None
    if scheduler == "topological":
        try:
            refuse_dynamic(rules, targets)
        except Refused as refused:
            reason = refused.args
    reason = reason or book.stuck_path(targets)
    done = []
    if not (reason and scheduler == "topological"):
        done = [key for key in treated(scheduler, rebuilder, begun, book, targets) if book.clean(key) is not None]
    ran = [key for key in done if not is_held(rebuilder, begun, book, key)]
    given_up = 0
    if scheduler == "restarting":
        work = Restarting(rebuilder, begun, book).build(targets)
        assert sorted(work.order) == sorted(done), (work.order, done)
        given_up = work.given_up
        left.chain = (*work.order, *(name for name in begun.chain if name not in work.order))
    for key in done:
        finish(rebuilder, left, begun, book, key, key in ran)
    if reason:
        return reason, sorted(ran), left
    lines = [target + b" = " + printed(book.clean(target)) + b"\n" for target in targets]
    lines += [b"ran " + key + b"\n" for key in sorted(ran)] if listed else []
    return b"".join(lines) + b"ran %d, given up %d, reused %d\n" % (len(ran), given_up, len(done) - len(ran)), sorted(ran), left


# Explanations

def refusal(inputs, rules, targets, is_sheet=False):
    """Why one of the targets has no value, with the path, or None."""
    return Book(inputs, rules, is_sheet).stuck_path(targets)


def first_path(kept, key, goals):
    """From the key by the needs of entries to one of the goals: round by round, each in the byte order of its paths."""
    paths, met = [(key,)], {key}
    while paths:
        found = [path for path in paths if path[-1] in goals]
        if found:
            return found[0]
        longer = []
        for path in paths:
            entry = kept.entries.get(path[-1])
            nexts = sorted(set(entry.needs) - met) if entry else []
            met.update(nexts)
            longer += [(*path, name) for name in nexts]
        paths = longer
    raise AssertionError("an entry was marked, and nothing has changed")


def entry_cause(kept, begun, book, name):
    if name not in begun.entries:
        return b"no entry"
    entry = kept.entries[name]
    if entry.stale or entry.shallow:
        return b"entry marked stale" if entry.stale else b"entry is shallow"
    path = first_path(kept, name, changed_names(kept, book))
    return (b"input changed: " if path[-1] in kept.seen else b"rule changed: ") + b" -> ".join(path)


def trace_cause(rebuilder, begun, book, name):
    traces = begun.traces[rebuilder].get(name)
    if not traces:
        return b"no record"
    traces = [trace for trace in traces if book.has_task(name, rebuilder, trace[0])]
    if not traces:
        return b"rule changed"
    if rebuilder == "verifying" and any(all(now(book, rebuilder, need) == seen for need, seen in links) for _, links, _ in traces):
        return b"stored value differs"
    need, seen = next((need, seen) for need, seen in traces[0][1] if now(book, rebuilder, need) != seen)
    present = now(book, rebuilder, need) or digest(EMPTY)
    return b"%s was %s, is %s" % (need, seen.hex().encode(), present.hex().encode())


def why(kept, inputs, rules, names, rebuilder, is_sheet=False):
    """Why a build that lets rules wait would run each of these names, or would not. All of them have clean values."""
    book = Book(inputs, rules, is_sheet)
    begun, found = begin(kept, book), []
    for name in names:
        if name not in rules:
            found.append(b"is an input")
        elif is_held(rebuilder, begun, book, name):
            found.append(b"reusable")
        else:
            cause = entry_cause(kept, begun, book, name) if rebuilder == "dirty" else trace_cause(rebuilder, begun, book, name)
            found.append(b"runs: " + cause)
    return found
