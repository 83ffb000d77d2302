"""The form of a line: the word that it begins with, and the options that can follow."""
from collections import namedtuple

from .values import PATTERNS, LineError, hex_of

# A word: how its line looks, what it does, what reads the rest of the line, and its options
Word = namedtuple("Word", "usage meaning read options", defaults=({},))

# An option: what it is given (name, least, greatest), and what it means
Option = namedtuple("Option", "given meaning")


def option(meaning, *given):
    return Option(given, meaning)


def read_options(words, table):
    """The options of a line: name to the values that it was given."""
    found = {}
    while words:
        name = words.next("an option")
        if name not in table:
            expected = f"{'one of ' if len(table) > 1 else ''}{', '.join(table)}"
            raise LineError(f"expected {expected}, and there is {name!r}")
        if name in found:
            raise LineError(f"expected {name} once, and it is there twice")
        found[name] = read_value(words, name, table[name].given)
    return found


def read_value(words, name, given):
    if name in OF_BYTES:
        return OF_BYTES[name](words)
    values = [words.number(*each) for each in given]
    return values[0] if len(values) == 1 else values or True


def read_filling(words):
    word = words.next("zeros, ones, rising or hex bytes")
    return PATTERNS[word](256) if word in PATTERNS else hex_of(word)


# Options that are given bytes: one pattern that is repeated, or all bytes to the end of the line
OF_BYTES = {"fill": read_filling, "bytes": lambda words: words.bytes()}


def option_usage(name, found):
    """An option with what it is given."""
    return " ".join((name, *(given.split()[-1].upper() for given, _, _ in found.given),
                     *(("BYTES",) if name in OF_BYTES else ())))
