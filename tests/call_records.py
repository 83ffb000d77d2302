"""Builds the records of a script for the calls program.

A packet is given as the record of a log that holds it: both kinds of records are built from the same
functions. Each function takes what is usual by default.
"""
from records import record
from second import calls
from second.endpoint import STORE
from units import BASE_UNIT, longest_packet, packet_count

# The records that are for the requester
REQUESTER_TAGS = range(calls.REQUESTER_SETUP, calls.REQUESTER_LOOK + 1)

def receive(packet):
    return record(calls.RECEIVE, packet[3:])

def receive_all(packets):
    return [receive(packet) for packet in packets]

def setup(eid=8, unit=None, record_tag=calls.SETUP):
    """Without a unit the record has the EID alone."""
    return record(record_tag, calls.EID.pack(eid) if unit is None else calls.EID_AND_UNIT.pack(eid, unit))

def stores(first=STORE, second=STORE):
    return record(calls.STORES, calls.TWO_LENGTHS.pack(first, second))

def take(slot=0):
    return record(calls.TAKE, calls.NUMBER.pack(slot))

def read(slot=0):
    return record(calls.READ, calls.NUMBER.pack(slot))

def complete(ticket, body, slot=0):
    return record(calls.COMPLETE, calls.TWO_NUMBERS.pack(slot, ticket) + body)

def declare(ticket, can, slot=0):
    """`can` is 1 if the taken command can still be stopped, 0 if it no longer can; nothing else is right."""
    return record(calls.DECLARE, calls.DECLARATION.pack(slot, ticket, can))

def poll(length=longest_packet(BASE_UNIT)):
    return record(calls.POLL, calls.LENGTH.pack(length))

def timeout(slot=0):
    return record(calls.TIMEOUT, calls.NUMBER.pack(slot))

RESET = record(calls.RESET)
LOOK = record(calls.LOOK)


# The requester

def requester_setup(eid=8, unit=None):
    return setup(eid, unit, calls.REQUESTER_SETUP)

def requester_store(length=STORE):
    return record(calls.REQUESTER_STORE, calls.LENGTH.pack(length))

def await_from(source=9, tag=1):
    return record(calls.REQUESTER_AWAIT, bytes((source, tag)))

def room(size, unit=BASE_UNIT):
    """What a message of this size takes in a buffer: itself and four bytes for each packet."""
    return size + 4 * packet_count(size, unit)

def cut_message(message, length=None, destination=8, tag=1, unit=BASE_UNIT):
    """The buffer has just the length that the packets take, unless another is given."""
    length = room(len(message), unit) if length is None else length
    return record(calls.REQUESTER_CUT, calls.CUT.pack(destination, tag, length) + message)

def primitive(opcode, slot=0, length=16, destination=8, tag=2, primitive_tag=0x5A, cpsp=0):
    fields = destination, tag, slot, opcode, primitive_tag, cpsp, length
    return record(calls.REQUESTER_PRIMITIVE, calls.PRIMITIVE.pack(*fields))

def gather(packet):
    return record(calls.REQUESTER_RECEIVE, packet[3:])

def gather_all(packets):
    return [gather(packet) for packet in packets]

REQUESTER_LOOK = record(calls.REQUESTER_LOOK)
