"""Builds the records of a log, the packets in them and the messages in the packets.

Names follow document 01. Each function takes what is usual by default, so that a log names only
what matters to it. The endpoint's EID is 8; requests come from EID 9 under tag 1.
"""
from second import log
from second.wire import MI, sealed
from units import BASE_UNIT, parts

FULL = BASE_UNIT               # payload of every packet of a log but a message's last

def record(tag, body=b""):
    return bytes((tag,)) + len(body).to_bytes(2, "little") + body

def packet(payload, som=1, eom=1, sequence=0, source=9, tag=1, version=1, destination=8, to=1):
    marks = som << 7 | eom << 6 | (sequence & 3) << 4 | to << 3 | tag
    return record(log.PACKET, bytes((version, destination, source, marks)) + payload)

def packets(message, first=0, source=9, tag=1, destination=8, to=1, unit=FULL):
    """The message cut into packets; the first carries the sequence number `first`."""
    payloads = parts(message, unit)
    return [packet(payload, som=i == 0, eom=i == len(payloads) - 1, sequence=first + i,
                   source=source, tag=tag, destination=destination, to=to)
            for i, payload in enumerate(payloads)]

def command(length=20, slot=0, kind=MI, ciap=0, meb=0, ror=0, fill=b"\0"):
    """A command of `length` bytes with its check, filled with the bytes of `fill` repeated."""
    head = bytes((0x84, ror << 7 | kind << 3 | slot, ciap << 1 | meb, 0))
    return sealed(head + (fill * length)[:length - 8])

def control(opcode, slot=0, tag=0x5A, cpsp=0, ciap=0, meb=0, ror=0):
    head = bytes((0x84, ror << 7 | slot, ciap << 1 | meb, 0))
    return sealed(head + bytes((opcode, tag)) + cpsp.to_bytes(2, "little"))

def ask(opcode, slot=0, source=9, tag=2, **fields):
    """A control primitive in its packet, under a tag that the commands of a log do not use."""
    return packet(control(opcode, slot, **fields), source=source, tag=tag)

def damaged(message):
    """The message with its last byte changed, so that its check is wrong."""
    return message[:-1] + bytes((message[-1] ^ 1,))

POLL = record(log.POLL)
RESET = record(log.RESET)

def timeout(slot=0):
    return record(log.TIMEOUT, bytes((slot,)))

def take(slot=0):
    return record(log.TAKE, bytes((slot,)))

def complete(body, slot=0):
    return record(log.COMPLETE, bytes((slot,)) + body)
