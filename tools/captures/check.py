"""What the board sent beside what the endpoint sends, packet by packet."""
import collections
import itertools

from captures.run import with_lines
from captures.told import Failure, answer_in_words
from explain.names import REFUSALS
from second.log import PACKET, POLL

KINDS = {"same": "the same", "differs": "other than the endpoint's", "missing": "not sent by the endpoint",
         "extra": "sent by the endpoint alone", "refused": "to the board and refused by the endpoint"}
DIFFERENCES = ("differs", "missing", "extra")               # a refusal by itself is none: a board may refuse the same packet

# The parts of a packet by the byte behind them; what is behind the last is payload, and so is all but the first without SOM.
PARTS = ((4, "in the MCTP header"), (5, "in the message type"), (8, "in the message header"))


def where(one, other):
    """The first byte in which two packets differ, in words. The second is the endpoint's."""
    for at, (a, b) in enumerate(zip(one, other)):
        if a != b:
            parts = PARTS if other[3] & 0x80 else PARTS[:1]
            part = next((words for end, words in parts if at < end), "in the payload")
            return f"first at byte {at}, {part}: {a:02x} of the board, {b:02x} of the endpoint"
    return f"in length: {len(one)} bytes of the board, {len(other)} of the endpoint"


def polled(record, line):
    """Which of KINDS a poll is, and the words that tell it; None for a poll at which neither sends."""
    sent = bytes.fromhex(line[2:]) if line.startswith("1 ") else None
    if record.wanted is None:
        return ("extra", f"the endpoint sends {sent.hex()}") if sent else (None, "")
    if sent is None:
        return "missing", f"the endpoint sends nothing here; the board sent {record.wanted.hex()}"
    if sent == record.wanted:
        return "same", ""
    return "differs", f"{where(record.wanted, sent)}\n         board    {record.wanted.hex()}\n         endpoint {sent.hex()}"


def judged(record, line):
    """Which of KINDS a record is, or None, and the words that tell it."""
    if record.tag == POLL:
        return polled(record, line)
    if record.tag == PACKET and int(line) in REFUSALS:
        return "refused", answer_in_words(PACKET, line)
    return None, ""


def compare(records, path, runner, output):
    """Prints what differs. `records` are those of the log at this path. The numbers of each kind."""
    counts = collections.Counter()
    for record, found in itertools.zip_longest(records, with_lines(path, runner)):
        if None in (record, found) or (record.tag, record.body) != found[1:3]:
            raise Failure("the capture changed while it was compared")
        line = found[3]
        kind, words = judged(record, line)
        counts[kind] += kind is not None
        if words:
            print(f"{kind:8} {record.place}: {words}", file=output)
    return counts


def in_words(counts):
    return "packets: " + "; ".join(f"{counts[kind]:,} {words}" for kind, words in KINDS.items())
