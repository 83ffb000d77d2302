"""The records of a log, one by one, with where each begins; a faulty one with its cause."""
from collections import namedtuple

from second.log import LENGTHS

from .names import KINDS, count, number

# tag and body are None for a faulty record; fault says why, and `there` is how many of its bytes were read
Record = namedtuple("Record", "number offset tag body fault there")

HEAD = 3                    # one byte of tag, two of length


def records(stream):
    """The records of a log. A faulty one is the last: the log program reads nothing behind it."""
    offset, place = 0, 1
    while head := stream.read(HEAD):
        tag, body, fault = one(head, stream)
        there = len(head) + len(body)
        if fault:
            yield Record(place, offset, None, None, fault, there)
            return
        yield Record(place, offset, tag, body, None, there)
        offset, place = offset + there, place + 1


def one(head, stream):
    """Tag, body and fault of the record with this head; the fault is None for a good one."""
    if len(head) < HEAD:
        return None, b"", f"cut: {len(head)} of the {HEAD} bytes of tag and length {'is' if len(head) == 1 else 'are'} there"
    tag, length = head[0], head[1] | head[2] << 8
    if tag not in LENGTHS:
        return None, b"", f"unknown tag {tag}"
    least, greatest = LENGTHS[tag]
    if not least <= length <= greatest:
        return None, b"", f"length {number(length)} for a {KINDS[tag]}, which has {span(least, greatest)}"
    body = stream.read(length)
    if len(body) < length:
        return None, body, f"cut: {number(len(body))} of {count(length, 'byte')} of a {KINDS[tag]} are there"
    return tag, body, None


def span(least, greatest):
    """The lengths that a record can have, in words."""
    if least == greatest:
        return number(least)
    return f"at most {number(greatest)}" if least == 0 else f"{number(least)} to {number(greatest)}"
