"""The printed form of formulas and the digests that are taken of it, a second time, from docs/FORMULAS-GRAMMAR.md and docs/STATE-BATCHES.md."""
import hashlib

from formulas import LEVELS

TASK, RULES = {False: b"\2", True: b"\3"}, {False: b"\0", True: b"\1"}


def level(expr):
    """How loosely a formula's outmost operator binds, the loosest as 0."""
    if expr[0] != "chain":
        return len(LEVELS)
    return next(at for at, signs in enumerate(LEVELS) if expr[2][0][0] in signs)


def operand(expr, holder):
    text = printed(expr)
    return b"(" + text + b")" if level(expr) <= holder and expr[0] == "chain" else text


def printed(expr):
    match expr:
        case ("value", bytes(text)):
            return b'"' + text.replace(b'"', b'""') + b'"'
        case ("value", number):
            return b"%d" % number
        case ("ref", name):
            return name
        case ("neg", inner):
            return b"-" + operand(inner, len(LEVELS))
        case ("chain", first, rest):
            holder = level(expr)
            pieces = [(b" /" if sign == b"/" else sign) + operand(inner, holder) for sign, inner in rest]
            return operand(first, holder) + b"".join(pieces)
        case ("range", names):
            return names[0] + b":" + names[-1]
        case ("call", function, args):
            args = [printed(arg) for arg in args] + [b"0"] * (function == b"IF" and len(args) == 2)
            return function + b"(" + b",".join(args) + b")"


def tasks(rules, is_sheet):
    """The digest of each rule's task."""
    return {name: hashlib.sha256(TASK[is_sheet] + printed(expr)).digest() for name, expr in rules.items()}


def all_rules(rules, is_sheet):
    """The digest of all rules."""
    pieces = [RULES[is_sheet]]
    for name, expr in sorted(rules.items()):
        text = printed(expr)
        pieces += [bytes([len(name)]), name, len(text).to_bytes(4, "big"), text]
    return hashlib.sha256(b"".join(pieces)).digest()
