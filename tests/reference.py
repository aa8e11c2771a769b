#!/usr/bin/env python3
"""What `carte build` answers, worked out by other means, to be compared with the proved program.

reference.py BOOK TARGET..   writes the reply or the error line of a build over nothing kept, and ends with the status;
                             among the targets may stand `--scheduler topological`
reference.py --check         compares each expected output under tests/books/ with what this file says
reference.py --write         writes each expected output anew

It shares no code with the program. Documents are read by Python's own TOML reader, which takes version 1.0
of TOML where the program takes 1.1: books of the comparison keep to what both read alike.
"""
import pathlib
import shlex
import subprocess
import sys
import tomllib

from formulas import Bad, Fault, MOST_TEXT, NAME, evaluate, in_range, printed, quoted, read_formula

MOST_BYTES, MOST_KEYS = 16_777_216, 262_144
BOOKS = pathlib.Path(__file__).resolve().parent / "books"


class Refused(Exception):
    """A build is refused: the reason and its path."""


class Stuck(Exception):
    """A formula looked up a name that has no value yet."""


# Books

def is_table(item):
    return isinstance(item, dict)


def integers(item):
    if is_table(item):
        item = list(item.values())
    if isinstance(item, list):
        return [number for part in item for number in integers(part)]
    return [item] if isinstance(item, int) else []


def document(data):
    try:
        found = tomllib.loads(data.decode())
    except (ValueError, RecursionError):
        raise Fault("not TOML") from None
    if any(in_range(number) is Bad.NUM for number in integers(found)):
        raise Fault("not TOML")
    return {key.encode(): item for key, item in found.items()}


def items_of(tables, table):
    """The keys of a table in byte order, each with its value."""
    return sorted((key.encode(), item) for key, item in tables.get(table, {}).items())


def input_value(item):
    if isinstance(item, str) and len(item.encode()) <= MOST_TEXT:
        return item.encode()
    return item if isinstance(item, int) and not isinstance(item, bool) else None


def check_name(name):
    if not NAME.fullmatch(name):
        raise Fault(f"bad name {quoted(name).decode()}")


def add_input(inputs, name, item):
    check_name(name)
    inputs[name] = input_value(item)
    if inputs[name] is None:
        raise Fault(f"bad value of {name.decode()}")


def add_rule(inputs, rules, name, item):
    check_name(name)
    if name in inputs:
        raise Fault(f"{name.decode()} is an input and a rule")
    if not isinstance(item, str):
        raise Fault(f"bad value of {name.decode()}")
    try:
        rules[name] = read_formula(item.encode())
    except Fault as fault:
        raise Fault(f"formula of {name.decode()}: {fault}") from None


def read_book(data):
    """The inputs and the rules of a book, or its first fault."""
    if len(data) > MOST_BYTES:
        raise Fault(f"more than {MOST_BYTES} bytes")
    tables = document(data)
    for key in sorted(tables):
        if key not in (b"inputs", b"rules") or not is_table(tables[key]):
            raise Fault(f"bad table {quoted(key).decode()}")
    inputs, rules = {}, {}
    for name, item in items_of(tables, b"inputs"):
        add_input(inputs, name, item)
    for name, item in items_of(tables, b"rules"):
        add_rule(inputs, rules, name, item)
    if len(inputs) + len(rules) > MOST_KEYS:
        raise Fault(f"more than {MOST_KEYS} keys")
    return inputs, rules


# Builds

def parts(expr):
    match expr:
        case ("neg", operand):
            return [operand]
        case ("chain", first, rest):
            return [first] + [operand for _, operand in rest]
        case ("call", _, args):
            return args
    return []


def refs(expr):
    """The names written in a formula."""
    if expr[0] in ("ref", "range"):
        return {expr[1]} if expr[0] == "ref" else set(expr[1])
    return set().union(*map(refs, parts(expr)))


def is_dynamic(expr):
    if expr[:2] in (("call", b"INDIRECT"), ("call", b"GATHER")):
        return True
    branches = expr[2][1:] if expr[:2] == ("call", b"IF") else []
    return any(map(refs, branches)) or any(map(is_dynamic, parts(expr)))


def path_to(name, before):
    path = [name]
    while before[path[-1]] is not None:
        path.append(before[path[-1]])
    return path[::-1]


def refuse_dynamic(rules, targets):
    """Looks breadth first: each round stands in the byte order of its paths, and a name keeps its first path."""
    round_of = sorted(set(targets))
    before = dict.fromkeys(round_of)
    while round_of:
        ruled = [name for name in round_of if name in rules]
        for name in ruled:
            if is_dynamic(rules[name]):
                raise Refused("dynamic", path_to(name, before))
        round_of = []
        for name in ruled:
            needs = [need for need in sorted(refs(rules[name])) if need not in before]
            before.update(dict.fromkeys(needs, name))
            round_of += needs


def compute(inputs, rules, values, target):
    """Gives the target and all that it looks up values. What stands open at a refusal is the path to its cause."""
    def look(name):
        if name not in values:
            raise Stuck(name)
        return values[name]

    waiting = dict.fromkeys([target] if target not in values else [])
    while waiting:
        name = next(reversed(waiting))
        if name not in rules:
            raise Refused("missing", list(waiting))
        try:
            values[name] = evaluate(rules[name], look)
            waiting.popitem()
        except Stuck as stuck:
            if stuck.args[0] in waiting:
                raise Refused("cycle", [*waiting, stuck.args[0]]) from None
            waiting[stuck.args[0]] = None


def read_words(words):
    """The targets, and whether rules are ordered before any is worked out."""
    options = [at for at, word in enumerate(words) if word == b"--scheduler"]
    named = words[options[0] + 1:][:1] if options else []
    targets = words[:options[0]] + words[options[0] + 2:] if options else words
    if len(options) > 1 or (options and named not in ([b"topological"], [b"suspending"])):
        raise Fault("the words are no command")
    if any(word.startswith(b"-") for word in targets):
        raise Fault("the words are no command")
    if not targets:
        raise Fault("no target")
    for word in targets:
        if not NAME.fullmatch(word):
            raise Fault(f"bad target {quoted(word).decode()}")
    return targets, named == [b"topological"]


def reply(inputs, rules, targets, ordered):
    if ordered:
        refuse_dynamic(rules, targets)
    values = dict(inputs)
    for target in targets:
        compute(inputs, rules, values, target)
    found = [target + b" = " + printed(values[target]) + b"\n" for target in targets]
    return b"".join(found) + b"ran %d, given up 0, reused 0\n" % (len(values) - len(inputs))


def build(data, words):
    """The exit status, and what stands on standard output and on standard error."""
    try:
        targets, ordered = read_words(words)
    except Fault as fault:
        return 2, b"", b"carte: usage: " + str(fault).encode() + b"\n"
    try:
        return 0, reply(*read_book(data), targets, ordered), b""
    except Fault as fault:
        return 1, b"", b"carte: book refused: " + str(fault).encode() + b"\n"
    except Refused as refused:
        reason, path = refused.args
        return 3, b"", b"carte: " + reason.encode() + b": " + b" -> ".join(path) + b"\n"


# The stored books

def book_of(case):
    """The bytes of a case's book: a file, or what its program writes."""
    made = case.with_suffix(".py")
    return subprocess.check_output([sys.executable, made]) if made.exists() else case.with_suffix(".toml").read_bytes()


def stored(case):
    """What a case's output file has to hold: the status, then standard output, then standard error."""
    words = [word.encode() for word in shlex.split(case.read_text())]
    status, out, err = build(book_of(case), words)
    return b"%d\n" % status + out + err


def check(write):
    wrong, cases = 0, sorted(BOOKS.glob("*.args"))
    for case in cases:
        wanted, path = stored(case), case.with_suffix(".out")
        if write:
            path.write_bytes(wanted)
        elif path.read_bytes() != wanted:
            wrong += 1
            print(f"{case.stem}: stored {path.read_bytes()[:200]!r}, worked out {wanted[:200]!r}")
    print(f"reference: {len(cases) - wrong} agree, {wrong} differ")
    return 1 if wrong else 0


def main(words):
    sys.setrecursionlimit(20_000)
    if words in (["--check"], ["--write"]):
        return check(words == ["--write"])
    status, out, err = build(pathlib.Path(words[0]).read_bytes(), [word.encode() for word in words[1:]])
    sys.stdout.buffer.write(out)
    sys.stderr.buffer.write(err)
    return status


if __name__ == "__main__":
    sys.exit(main(sys.argv[1:]))
