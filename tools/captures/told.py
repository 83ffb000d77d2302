"""What is said on standard error, and the answers of the log program in words."""
import collections
import sys

from explain.names import DONE, REFUSAL_FLAG, REFUSALS
from second.log import COMPLETE, RESET, TAKE, TIMEOUT

# A captured packet: where it stands in its file, its bytes, and TO_BOARD, FROM_BOARD or None if the file doesn't say.
Captured = collections.namedtuple("Captured", "place data direction")

TO_BOARD, FROM_BOARD = "to the board", "from the board"
SIDES = ("board", "host")           # from which side words like `in` and `out` are meant
SHOWN = 3                           # notes of one kind that are said one by one


def seen(inward, side):
    """The direction of a packet that is marked as going into (or out of) the side that looked."""
    return TO_BOARD if inward == (side == "board") else FROM_BOARD


class Failure(Exception):
    """Ends the run; its words are what is told."""


class Teller:
    """Says things on standard error. A fault is something of the input that could not be used."""

    def __init__(self, quiet=False):
        self.quiet, self.faults = quiet, 0
        self.repeated = collections.Counter()               # how often a kind of note came

    def note(self, words):
        if not self.quiet:
            print(f"capture.py: {words}", file=sys.stderr)

    def fault(self, words):
        self.faults += 1
        self.note(words)

    def example(self, kind, words):
        """A note of a kind that may come often: the first few are said, the others counted."""
        self.repeated[kind] += 1
        if self.repeated[kind] <= SHOWN:
            self.note(words)

    def summary(self):
        for kind, number in self.repeated.items():
            if number > SHOWN:
                yield f"{kind}: {number:,} in all"


def counted(number, word):
    """ "1 packet", "2 packets", "2 replies" """
    plural = word[:-1] + "ies" if word.endswith("y") else word + "s"
    return f"{number:,} {word if number == 1 else plural}"


CALLS = {TIMEOUT: "timeout of slot {}", TAKE: "take of slot {}", COMPLETE: "completion of slot {}", RESET: "reset"}


def answer_in_words(tag, line):
    """A line of the log program in words; `tag` is the record's."""
    number = int(line.split()[0])
    words = DONE[tag].get(number) or REFUSALS.get(number)
    flag = f" (flag bit {REFUSAL_FLAG[number]})" if number in REFUSAL_FLAG else ""
    return f"answer {number}: {words}{flag}" if words else f"answer {number}"


def call_in_words(tag, body):
    """A record that is neither packet nor poll."""
    return CALLS[tag].format(*body[:1])
