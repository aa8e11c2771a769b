"""Sheets, read a second time: which book the bytes of a sheet are, or the first fault.

It shares no code with the program. Records are read by Python's own `csv`, which was seen to read all sheets of the
tables (`tables/sheets.tsv`) as the program does, lone carriage returns, nulls and unclosed quotes among them.
"""
import csv
import io
import re

from formulas import Bad, Fault, MOST_TEXT, cell_name, column_name, in_range, read_formula
from reference import MOST_BYTES, MOST_KEYS

MOST_ROWS, MOST_COLUMNS = 9_999, 702
NUMBER = re.compile(rb"[+-]?[0-9]+")
MARK = b"\xef\xbb\xbf"


def records(data):
    """The records that there are, each as its fields. Bytes go through as characters of their own."""
    csv.field_size_limit(MOST_BYTES)
    text = data.removeprefix(MARK).removeprefix(MARK).decode("latin-1")
    found = csv.reader(io.StringIO(text, newline=""), strict=False)
    return [[field.encode("latin-1") for field in record] for record in found if record]


def input_value(name, field):
    if NUMBER.fullmatch(field) and in_range(int(field)) is not Bad.NUM:
        return int(field)
    try:
        field.decode()
    except ValueError:
        raise Fault(f"cell {name.decode()} is not UTF-8") from None
    if len(field) > MOST_TEXT:
        raise Fault(f"bad value of {name.decode()}")
    return field


def rule(name, field):
    try:
        field.decode()
    except ValueError:
        raise Fault(f"cell {name.decode()} is not UTF-8") from None
    try:
        return read_formula(field[1:], cell_name)
    except Fault as fault:
        raise Fault(f"formula of {name.decode()}: {fault}") from None


def place(row, column):
    if row > MOST_ROWS:
        raise Fault(f"more than {MOST_ROWS} rows")
    if column >= MOST_COLUMNS:
        raise Fault(f"more than {MOST_COLUMNS} columns")
    return column_name(column) + b"%d" % row


def read_sheet(data):
    """The inputs and the rules of a sheet, or its first fault."""
    if len(data) > MOST_BYTES:
        raise Fault(f"more than {MOST_BYTES} bytes")
    inputs, rules = {}, {}
    for row, fields in enumerate(records(data), 1):
        for column, field in enumerate(fields):
            if field:
                name = place(row, column)
                if field.startswith(b"="):
                    rules[name] = rule(name, field)
                else:
                    inputs[name] = input_value(name, field)
    if len(inputs) + len(rules) > MOST_KEYS:
        raise Fault(f"more than {MOST_KEYS} keys")
    return inputs, rules
