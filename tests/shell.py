"""Sessions, read a second time: what each line of a script does to a book in memory and to what is kept, and its reply.

It shares no code with the program.
"""
from engine import Kept, build, refusal, why
from formulas import cell_name, rule_name
from reference import MOST_KEYS, read_book
from sheets import read_sheet
from words import read_line


def reason_line(reason):
    kind, path = reason
    return kind.encode() + b": " + b" -> ".join(path) + b"\n"


class Shell:
    """A book that lines change, and what its builds keep."""

    def __init__(self, data, is_sheet, kept, scheduler="suspending", rebuilder="verifying", listed=False):
        self.is_sheet, self.kept = is_sheet, kept
        self.scheduler, self.rebuilder, self.listed = scheduler, rebuilder, listed
        self.name_of = cell_name if is_sheet else rule_name
        self.inputs, self.rules = (read_sheet if is_sheet else read_book)(data)

    def reply(self, number, line):
        asked = read_line(line, self.name_of)
        if asked is None:
            return b"line %d: not understood\n" % number
        command, given = asked
        answers = {b"set": self.set, b"build": self.build, b"explain": self.explain, b"clean": self.clean}
        return answers[command](given) if command else b""

    def set(self, pair):
        name, value = pair
        if name in self.rules:
            return b"not set: " + name + b" is a rule\n"
        if name not in self.inputs and not self.is_sheet:
            return b"not set: " + name + b" is unknown\n"
        if name not in self.inputs and len(self.inputs) + len(self.rules) >= MOST_KEYS:
            return b"not set: more than 262144 keys\n"
        self.inputs[name] = value
        return b"set " + name + b"\n"

    def build(self, targets):
        reply, _, self.kept = build(self.kept, self.inputs, self.rules, targets, self.scheduler, self.rebuilder, self.listed, self.is_sheet)
        return reply if isinstance(reply, bytes) else b"refused: " + reason_line(reply)

    def refusal(self, targets):
        """Why one of the targets has no value, or None."""
        return refusal(self.inputs, self.rules, targets, self.is_sheet)

    def explain(self, targets):
        reason = self.refusal(targets)
        if reason:
            return b"refused: " + reason_line(reason)
        told = why(self.kept, self.inputs, self.rules, targets, self.rebuilder, self.is_sheet)
        return b"".join(name + b" " + text + b"\n" for name, text in zip(targets, told))

    def clean(self, _):
        self.kept = Kept()
        return b"cleaned\n"
