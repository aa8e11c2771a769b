"""The language of formulas, read a second time: tokens, grammar, places of faults, and meaning.

It shares no code with the program, and serves `reference.py` and `sheets.py`. A value is an int, a text as bytes,
a Bad or EMPTY. A kind of book, RULES or SHEET, has its own words and its own names.
"""
import enum
import re

LEAST, GREATEST = -(2**63), 2**63 - 1
MOST_TEXT, MOST_FORMULA, MOST_LEVELS = 65_536, 4_096, 64
NAME = re.compile(rb"[a-z][a-z0-9_./]{0,63}")
CELL = re.compile(rb"[A-Z]{1,2}[1-9][0-9]{0,3}")
MOST_CELLS = 65_536


class Fault(Exception):
    """Bytes are no book, a text is no formula, or words are no command: the cause, as the error line words it."""


class Bad(enum.Enum):
    DIV0, VALUE, REF, NUM, LEN = "#DIV/0!", "#VALUE!", "#REF!", "#NUM!", "#LEN!"


class Empty(enum.Enum):
    EMPTY = "empty"


EMPTY = Empty.EMPTY


# Names

def rule_name(text):
    """The name that a text is in a rule file, or None."""
    return text if NAME.fullmatch(text) else None


def cell_name(text):
    """The name that a text is in a sheet, or None."""
    return text.upper() if CELL.fullmatch(text.upper()) else None


def column_name(column):
    return column_name(column // 26 - 1) + column_name(column % 26) if column >= 26 else b"%c" % (65 + column)


def place_of(name):
    letters = name.rstrip(b"0123456789")
    column = letters[-1] - 65 + (26 * (letters[0] - 64) if len(letters) == 2 else 0)
    return column, int(name[len(letters):])


def cells_between(a, b):
    """The cells of a range, row by row, each row from left to right."""
    (column_a, row_a), (column_b, row_b) = place_of(a), place_of(b)
    columns = range(min(column_a, column_b), max(column_a, column_b) + 1)
    rows = range(min(row_a, row_b), max(row_a, row_b) + 1)
    return columns, rows


# Printing

ESCAPES = {b"\\": rb"\\", b'"': rb"\"", b"\n": rb"\n", b"\r": rb"\r", b"\t": rb"\t"}


def quoted(text):
    return b'"' + re.sub(rb'[\\"\n\r\t]', lambda match: ESCAPES[match[0]], text) + b'"'


def printed(value):
    if isinstance(value, (Bad, Empty)):
        return value.value.encode()
    return quoted(value) if isinstance(value, bytes) else b"%d" % value


# Tokens

BLANKS = re.compile(rb"[ \t\n\r]*")
TOKEN = re.compile(
    rb'(?P<number>[0-9]+)|(?P<text>"(?:[^"]|"")*+")|(?P<name>[a-z][a-z0-9_./]*)|(?P<function>[A-Z]+)'
    rb"|(?P<sign><>|<=|>=|[-+*/&=<>(),:])"
)
# How many arguments each function takes, at least and at most.
COUNTS = {
    b"SUM": (1, None), b"MIN": (1, None), b"MAX": (1, None), b"COUNT": (1, None), b"CONCAT": (1, None),
    b"AND": (1, None), b"OR": (1, None), b"LEN": (1, 1), b"UPPER": (1, 1), b"LINES": (1, 1), b"LINE": (2, 2),
    b"NOT": (1, 1), b"IF": (2, 3), b"PICK": (3, 3), b"INDIRECT": (1, 1), b"GATHER": (1, 1),
}
CONTENT = {
    "number": lambda run: int(run) if int(run) <= GREATEST else None,
    "text": lambda run: run[1:-1].replace(b'""', b'"'),
    "name": lambda run: run if NAME.fullmatch(run) else None,
    "function": lambda run: run if run in COUNTS else None,
    "sign": lambda run: run,
}
SHEET_TOKEN = re.compile(TOKEN.pattern.replace(rb"(?P<name>[a-z][a-z0-9_./]*)|(?P<function>[A-Z]+)", rb"(?P<word>[A-Za-z][A-Za-z0-9]*)"))
TOKENS = {rule_name: TOKEN, cell_name: SHEET_TOKEN}


def token_of(match):
    """The kind and the content of a token, or None where it breaks its rule."""
    kind, run = match.lastgroup, match[0]
    if kind == "word":
        kind, run = "name" if cell_name(run) else "function", run.upper()
    content = run if kind == "name" and match.lastgroup == "word" else CONTENT[kind](run)
    return None if content is None else (kind, content)


def tokens(text, name_of):
    """The kind, content and place of each token, and an end at the text's length."""
    found, at = [], BLANKS.match(text).end()
    while at < len(text):
        match = TOKENS[name_of].match(text, at)
        token = match and token_of(match)
        if token is None:
            raise Fault(f"bad token at {at}")
        found.append((*token, at))
        at = BLANKS.match(text, match.end()).end()
    return found + [("end", None, len(text))]


# Grammar. A formula is ("value", v), ("ref", name), ("neg", e), ("chain", first, rest) or ("call", function, args),
# and an argument may be ("range", names).

LEVELS = [{b"=", b"<>", b"<=", b">=", b"<", b">"}, {b"&"}, {b"+", b"-"}, {b"*", b"/"}]


class Reader:
    """Reads tokens from left to right; depth counts the groups, calls and signs round the next token."""

    def __init__(self, text, name_of):
        self.tokens, self.at, self.cells = tokens(text, name_of), 0, 0
        self.name_of, self.wide = name_of, None

    def next_is(self, *signs):
        kind, content, _ = self.tokens[self.at]
        return kind == "sign" and content in signs

    def take(self):
        self.at += 1
        return self.tokens[self.at - 1][1]

    def refuse(self, cause="bad syntax"):
        raise Fault(f"{cause} at {self.tokens[self.at][2]}")

    def enter(self, depth):
        if depth == MOST_LEVELS:
            self.refuse("too deep")
        return self.take()

    def formula(self):
        expr = self.chain(0, 0)
        if self.tokens[self.at][0] != "end":
            self.refuse()
        if self.wide is not None:
            raise Fault(f"too many cells at {self.wide}")
        return expr

    def chain(self, level, depth):
        if level == len(LEVELS):
            return self.unary(depth)
        first, rest = self.chain(level + 1, depth), []
        while self.next_is(*LEVELS[level]):
            rest.append((self.take(), self.chain(level + 1, depth)))
        return ("chain", first, rest) if rest else first

    def unary(self, depth):
        if not self.next_is(b"-", b"+"):
            return self.primary(depth)
        sign, operand = self.enter(depth), self.unary(depth + 1)
        return ("neg", operand) if sign == b"-" else operand

    def primary(self, depth):
        kind = self.tokens[self.at][0]
        if kind in ("number", "text"):
            return ("value", self.take())
        if kind == "name":
            return ("ref", self.take())
        if kind == "function":
            return self.call(self.take(), depth)
        return self.group(depth) if self.next_is(b"(") else self.refuse()

    def group(self, depth):
        self.enter(depth)
        inner = self.chain(0, depth + 1)
        return inner if self.next_is(b")") and self.take() else self.refuse()

    def call(self, function, depth):
        least, most = COUNTS[function]
        if not self.next_is(b"("):
            self.refuse()
        self.enter(depth)
        args = [self.argument(most, depth + 1)]
        while self.next_is(b",") and (most is None or len(args) < most):
            self.take()
            args.append(self.argument(most, depth + 1))
        if not self.next_is(b")") or len(args) < least:
            self.refuse()
        self.take()
        return ("call", function, args)


    def argument(self, most, depth):
        """A formula, or a range where any number of arguments may stand."""
        is_range = (self.name_of is cell_name and most is None and self.tokens[self.at][0] == "name"
                    and self.tokens[self.at + 1][:2] == ("sign", b":"))
        if not is_range:
            return self.chain(0, depth)
        place, first = self.tokens[self.at][2], self.take()
        self.take()
        if self.tokens[self.at][0] != "name":
            self.refuse()
        columns, rows = cells_between(first, self.take())
        self.cells += len(columns) * len(rows)
        if self.cells > MOST_CELLS:
            self.wide = place if self.wide is None else self.wide
            return ("range", [])
        return ("range", [column_name(column) + b"%d" % row for row in rows for column in columns])


def read_formula(text, name_of=rule_name):
    if len(text) > MOST_FORMULA:
        raise Fault(f"longer than {MOST_FORMULA} bytes")
    return Reader(text, name_of).formula()


# Meaning

def in_range(number):
    return number if LEAST <= number <= GREATEST else Bad.NUM


def in_length(text):
    return text if len(text) <= MOST_TEXT else Bad.LEN


def as_number(value):
    return 0 if value is EMPTY else value if isinstance(value, int) else None


def as_text(value):
    return b"" if value is EMPTY else value if isinstance(value, bytes) else b"%d" % value


def as_truth(value):
    return False if value is EMPTY else value != 0 if isinstance(value, int) else None


def as_it_is(value):
    return (value,)


def in_order(value, other):
    """What a value is in a comparison with another: Empty is the least of the other's kind that it may be."""
    if value is EMPTY:
        value = b"" if isinstance(other, bytes) else 0
    return (0, value) if isinstance(value, int) else (1, value)


def compared(meaning):
    return strict(as_it_is, lambda a, b: int(meaning(in_order(a[0], b[0]), in_order(b[0], a[0]))))


def strict(kinds, meaning):
    """The first bad argument, else #VALUE! where one has the wrong kind, else the meaning of all as their kinds."""
    def apply(*values):
        bad = [value for value in values if isinstance(value, Bad)]
        if bad:
            return bad[0]
        each = kinds if isinstance(kinds, tuple) else (kinds,) * len(values)
        kept = [kind(value) for kind, value in zip(each, values)]
        return Bad.VALUE if None in kept else meaning(*kept)
    return apply


def of_numbers(meaning):
    """A function of those arguments that are numbers."""
    return strict(lambda value: (value,), lambda *kept: meaning([value for (value,) in kept if isinstance(value, int)]))


def quotient(a, b):
    if b == 0:
        return Bad.DIV0
    return in_range(abs(a) // abs(b) * (1 if (a < 0) == (b < 0) else -1))


def lines(text):
    pieces = text.split(b"\n")
    return pieces if pieces[-1] else pieces[:-1]


def line(text, number):
    return lines(text)[number - 1] if 1 <= number <= len(lines(text)) else Bad.VALUE


def pick(condition, a, b):
    if isinstance(condition, Bad):
        return condition
    truth = as_truth(condition)
    return Bad.VALUE if truth is None else a if truth else b


concat = strict(as_text, lambda *texts: in_length(b"".join(texts)))
OPERATORS = {
    b"+": strict(as_number, lambda a, b: in_range(a + b)),
    b"-": strict(as_number, lambda a, b: in_range(a - b)),
    b"*": strict(as_number, lambda a, b: in_range(a * b)),
    b"/": strict(as_number, quotient),
    b"&": concat,
    b"=": compared(lambda a, b: a == b),
    b"<>": compared(lambda a, b: a != b),
    b"<": compared(lambda a, b: a < b),
    b"<=": compared(lambda a, b: a <= b),
    b">": compared(lambda a, b: a > b),
    b">=": compared(lambda a, b: a >= b),
}
FUNCTIONS = {
    b"SUM": of_numbers(lambda numbers: in_range(sum(numbers))),
    b"MIN": of_numbers(lambda numbers: min(numbers, default=0)),
    b"MAX": of_numbers(lambda numbers: max(numbers, default=0)),
    b"COUNT": lambda *values: sum(isinstance(value, int) for value in values),
    b"CONCAT": concat,
    b"AND": strict(as_truth, lambda *truths: int(all(truths))),
    b"OR": strict(as_truth, lambda *truths: int(any(truths))),
    b"NOT": strict(as_truth, lambda truth: int(not truth)),
    b"LEN": strict(as_text, len),
    b"UPPER": strict(as_text, bytes.upper),
    b"LINES": strict(as_text, lambda text: len(lines(text))),
    b"LINE": strict((as_text, as_number), line),
    b"PICK": pick,
}
negative = strict(as_number, lambda number: in_range(-number))


def indirect(value, look, name_of):
    if isinstance(value, Bad):
        return value
    name = name_of(value) if isinstance(value, bytes) else None
    return Bad.REF if name is None else look(name)


def gather(value, look, name_of):
    if isinstance(value, Bad):
        return value
    names = [name_of(piece) for piece in lines(as_text(value))]
    return Bad.REF if None in names else concat(*[look(name) for name in names])


def values_of(args, look, name_of):
    for arg in args:
        if arg[0] == "range":
            yield from [look(name) for name in arg[1]]
        else:
            yield evaluate(arg, look, name_of)


def evaluate(expr, look, name_of=rule_name):
    match expr:
        case ("value", value):
            return value
        case ("ref", name):
            return look(name)
        case ("neg", operand):
            return negative(evaluate(operand, look, name_of))
        case ("chain", first, rest):
            value = evaluate(first, look, name_of)
            for sign, operand in rest:
                value = OPERATORS[sign](value, evaluate(operand, look, name_of))
            return value
        case ("call", b"IF", args):
            return choose(args, look, name_of)
        case ("call", b"INDIRECT", [arg]):
            return indirect(evaluate(arg, look, name_of), look, name_of)
        case ("call", b"GATHER", [arg]):
            return gather(evaluate(arg, look, name_of), look, name_of)
        case ("call", function, args):
            return FUNCTIONS[function](*values_of(args, look, name_of))


def choose(args, look, name_of):
    condition, *branches = args
    chosen = pick(evaluate(condition, look, name_of), *[*branches, ("value", 0)][:2])
    return chosen if isinstance(chosen, Bad) else evaluate(chosen, look, name_of)
