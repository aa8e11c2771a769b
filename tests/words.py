"""Words of the command line and lines of a script, read a second time: what they ask for, or the fault.

It shares no code with the program. Words are read by hand, as one simple command of the crate `clap` takes them; all
commands and options are known here, also those that the program doesn't have yet.
"""
import re

from formulas import EMPTY, Bad, Fault, MOST_TEXT, cell_name, in_range, quoted, rule_name

COMMANDS = {b"build", b"session", b"explain", b"clean", b"generate"}
OPTIONS = {
    b"scheduler": {b"topological", b"restarting", b"suspending"},
    b"rebuilder": {b"dirty", b"verifying", b"constructive", b"deep"},
    b"workers": {b"%d" % number for number in range(1, 65)},
    b"kind": {b"rules", b"sheet"},
}
NO_COMMAND = Fault("the words are no command")
NUMBER = re.compile(rb"[+-]?[0-9]+")
PRINTED = re.compile(rb'"(?:[^"\\\n\r\t]|\\[\\"nrt])*"')
CONTROLS = {b"n": b"\n", b"r": b"\r", b"t": b"\t"}


# Words

def split(words):
    """The places, and what each option is."""
    places, options, words = [], {}, list(words)
    while words:
        word = words.pop(0)
        if word == b"--":
            return places + words, options
        if word == b"-" or not word.startswith(b"-"):
            places.append(word)
        else:
            take(word, words, options)
    return places, options


def meaning(name, value):
    """A number of workers may have a plus and zeros in front."""
    is_number = name == b"workers" and re.fullmatch(rb"\+?[0-9]+", value)
    return b"%d" % int(value) if is_number else value


def take(word, words, options):
    """Puts an option, whose value may be the next word, to those that there are."""
    name, equals, value = word[2:].partition(b"=")
    if name in options or not word.startswith(b"--"):
        raise NO_COMMAND
    if name == b"list" and not equals:
        options[name] = True
    elif name in OPTIONS and (equals or words):
        options[name] = meaning(name, value if equals else words.pop(0))
    else:
        raise NO_COMMAND
    if name in OPTIONS and options[name] not in OPTIONS[name]:
        raise NO_COMMAND


def is_seed_and_count(targets):
    is_digits = len(targets) == 2 and all(re.fullmatch(rb"[0-9]+", word) for word in targets)
    return is_digits and int(targets[0]) < 2**64 and 2 <= int(targets[1]) <= 65_536


def check_targets(command, targets, name_of):
    if command in (b"build", b"explain") and not targets:
        raise Fault("no target")
    if command in (b"session", b"clean") and targets:
        raise Fault("targets not taken")
    if command == b"generate" and not is_seed_and_count(targets):
        raise Fault("generate takes a seed and a count")
    bad = [word for word in targets if command != b"generate" and name_of(word) is None]
    if bad:
        raise Fault(f"bad target {quoted(bad[0]).decode()}")


def is_utf8(text):
    try:
        text.decode()
    except ValueError:
        return False
    return True


def read_words(words):
    """The command, the files, the targets and the options, or the first fault."""
    if not all(map(is_utf8, words)):
        raise NO_COMMAND
    places, options = split(words)
    if len(places) < 3 or places[0] not in COMMANDS:
        raise NO_COMMAND
    command, book, state, *targets = places
    is_sheet = options.get(b"kind", b"sheet" if book.endswith(b".csv") else b"rules") == b"sheet"
    check_targets(command, targets, cell_name if is_sheet else rule_name)
    if options.get(b"workers", b"1") != b"1" and options.get(b"scheduler", b"suspending") != b"suspending":
        raise Fault("workers need the suspending scheduler")
    return command, book, state, targets, options


# Lines

def read_value(text):
    """The value, or None."""
    if text == b"empty":
        return EMPTY
    if NUMBER.fullmatch(text):
        return None if in_range(int(text)) is Bad.NUM else int(text)
    value = re.sub(rb"\\(.)", lambda match: CONTROLS.get(match[1], match[1]), text[1:-1])
    return value if PRINTED.fullmatch(text) and len(value) <= MOST_TEXT else None


def read_names(words, name_of):
    names = [name_of(word) for word in words]
    return names if names and None not in names else None


def read_set(rest, name_of):
    name, value = (re.split(rb"[ \t]+", rest, maxsplit=1) + [b""])[:2]
    pair = name_of(name), read_value(value)
    return None if None in pair else pair


def read_line(line, name_of):
    """The command and what it is given, `(None, None)` of a line that asks for nothing; or None of one that is none."""
    if not is_utf8(line):
        return None
    text = line.removesuffix(b"\r").strip(b" \t")
    command, *words = re.split(rb"[ \t]+", text)
    if not text or command.startswith(b"#"):
        return None, None
    if command == b"clean" and not words:
        return command, []
    given = None
    if command in (b"build", b"explain"):
        given = read_names(words, name_of)
    elif command == b"set" and words:
        given = read_set(text[len(command):].strip(b" \t"), name_of)
    return given and (command, given)
