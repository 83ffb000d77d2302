"""A capture of a log and its answers: the packets to the endpoint, and those that polls handed out.

The captures are for Wireshark. Packets stand behind Linux's cooked header (link type 113), by which it finds MCTP; under any other
link type they stand as they are.
"""
import struct

from captures.pcap import (APPLICATION, COMMENT, COOKED_LINK, ENHANCED, FLAGS, INBOUND, INTERFACE, INTERFACE_NAME, INTERFACE_WORDS,
                           LARGEST_PACKET, MCTP_PROTOCOL, OURS, OUTBOUND, OUTGOING, SECTION)
from captures.told import answer_in_words, call_in_words, counted
from second.log import PACKET, POLL

MCTP_DEVICE = 290                   # Linux's ARPHRD_MCTP, in a cooked header
TICK = 1000                         # microseconds from one record to the next
CALLS_SHOWN = 8                     # calls before a packet that its comment names
CLOCK = "the clock is made up, one record of the log a millisecond: a log has no times"
SIDE = "The endpoint of EID 8. Inbound packets go to it, outbound packets are handed out by its polls."


def cooked(data, mark):
    """The packet behind Linux's cooked header, whose first field has the direction."""
    return struct.pack(">HHH8xH", OUTGOING if mark == OUTBOUND else 0, MCTP_DEVICE, 0, MCTP_PROTOCOL) + data


def padded(data):
    return data + bytes(-len(data) % 4)


def option(code, value):
    value = value.encode()[:65000] if isinstance(value, str) else value
    return struct.pack("<HH", code, len(value)) + padded(value)


def block(kind, body, *options):
    body += b"".join(options) + (bytes(4) if options else b"")
    size = struct.pack("<I", len(body) + 12)
    return struct.pack("<I", kind) + size + body + size


class Pcapng:
    """The bytes of a pcapng file, with directions and comments."""

    def __init__(self, link):
        self.link = link

    def begin(self):
        section = struct.pack("<IHHq", 0x1A2B3C4D, 1, 0, -1)
        interface = struct.pack("<HHI", self.link, 0, 0)
        return (block(SECTION, section, option(COMMENT, CLOCK), option(APPLICATION, OURS))
                + block(INTERFACE, interface, option(INTERFACE_NAME, "mi-log"), option(INTERFACE_WORDS, SIDE)))

    def packet(self, time, data, mark, comments):
        head = struct.pack("<IIIII", 0, time >> 32, time & 0xFFFFFFFF, len(data), len(data))
        told = [option(FLAGS, struct.pack("<I", mark))] + [option(COMMENT, words) for words in comments]
        return block(ENHANCED, head + padded(data), *told)


class Pcap:
    """The bytes of a classic pcap file, which has no place for comments."""

    def __init__(self, link):
        self.link = link

    def begin(self):
        return struct.pack("<IHHiIII", 0xA1B2C3D4, 2, 4, 0, 0, LARGEST_PACKET, self.link)

    def packet(self, time, data, mark, comments):
        return struct.pack("<IIII", *divmod(time, 1_000_000), len(data), len(data)) + data


class Calls:
    """The calls between two packets, for the comment of the second."""

    def __init__(self):
        self.words, self.more = [], 0

    def add(self, words):
        if len(self.words) < CALLS_SHOWN:
            self.words.append(words)
        else:
            self.more += 1

    def told(self):
        """The comments for the calls so far, which are then forgotten."""
        words = self.words + ([f"{self.more:,} more"] if self.more else [])
        self.words, self.more = [], 0
        return [f"before it: {'; '.join(words)}"] if words else []


def write(records, form, output, teller):
    """Writes the capture of records with their lines (run.with_lines). A fault of the log ends it, and is told."""
    output.write(form.begin())
    calls, sent = Calls(), {INBOUND: 0, OUTBOUND: 0}
    for number, tag, body, line in records:
        if tag is None:
            teller.fault(f"record {number} of the log is bad (unknown tag, wrong length, or cut): the capture ends before it")
            break
        words = answer_in_words(tag, line)
        if tag == PACKET:
            mark, data = INBOUND, body
        elif tag == POLL and line.startswith("1 "):
            mark, data = OUTBOUND, bytes.fromhex(line[2:])
        else:
            if tag != POLL:
                calls.add(f"record {number}, {call_in_words(tag, body)}, {words}")
            continue
        sent[mark] += 1
        framed = cooked(data, mark) if form.link == COOKED_LINK else data
        output.write(form.packet(number * TICK, framed, mark, [f"record {number}, {words}", *calls.told()]))
    teller.note(f"{counted(sent[INBOUND], 'packet')} to the endpoint, {sent[OUTBOUND]:,} from it, link type {form.link}")
    teller.note(CLOCK)
