"""What the rows of the tables give by the second reading in the folder above, whose records are those of Python's csv.

The functions answer as a run of the program does: the status, both streams, and no note.
"""
import pathlib
import sys

sys.path.insert(0, str(pathlib.Path(__file__).resolve().parents[1]))
sys.set_int_max_str_digits(0)

from engine import Kept
from formulas import EMPTY, Fault, cell_name, evaluate, printed
from sheets import read_sheet
from shell import Shell
from words import read_words


def build_sheet(sheet, targets):
    try:
        inputs, rules = read_sheet(sheet)
    except Fault as fault:
        return 1, b"", f"carte: book refused: {fault}\n".encode(), ""
    done = {}

    def look(name):
        if name in rules and name not in done:
            done[name] = evaluate(rules[name], look, cell_name)
        return done[name] if name in rules else inputs.get(name, EMPTY)

    lines = [name + b" = " + printed(look(name)) + b"\n" for name in targets]
    return 0, b"".join(lines) + b"ran %d, given up 0, reused 0\n" % len(done), b"", ""


def fault_of_words(words):
    """The error line of words that are refused, or nothing."""
    try:
        read_words(words)
    except Fault as fault:
        return f"carte: usage: {fault}".encode()
    return b""


def session(name, data, script):
    state = Shell(data, name.endswith(".csv"), Kept())
    lines = script.removesuffix(b"\n").split(b"\n") if script else []
    return 0, b"".join(state.reply(number, line) for number, line in enumerate(lines, 1)), b"", ""
