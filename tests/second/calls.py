"""The calls program: each call with any arguments, and the line that it prints."""
import functools
import struct

from second.endpoint import (ENDPOINT_BITS, SLOT_BIT, STORE, Answered, Endpoint, Idle, Process, Receive,
                             Ticket, Transmit)
from second.framing import framed
from second.requester import Requester
from second.wire import BASE_EID, BASE_UNIT, ControlRequest, crc32c

SETUP, STORES, RECEIVE, TAKE, READ, COMPLETE, POLL, TIMEOUT, RESET, LOOK = range(16, 26)

# "2026-01, the requester."
(REQUESTER_SETUP, REQUESTER_STORE, REQUESTER_AWAIT, REQUESTER_CUT, REQUESTER_PRIMITIVE, REQUESTER_RECEIVE,
 REQUESTER_LOOK) = range(32, 39)

DECLARE = 48

MEMORY = 4300               # "A store is 4,300 bytes of memory, zeros, whose front is lent"
LONGEST_BODY = 8192         # "a body of that many bytes, at most 8,192"
UNTOUCHED = b"\xa5"         # "lent anew at just that length, every byte A5h"

# The least and the greatest length of each body
LENGTHS = {SETUP: (1, 3), STORES: (4, 4), RECEIVE: (0, LONGEST_BODY), TAKE: (4, 4), READ: (4, 4),
           COMPLETE: (8, LONGEST_BODY), POLL: (2, 2), TIMEOUT: (4, 4), RESET: (0, 0), LOOK: (0, 0),
           REQUESTER_SETUP: (1, 3), REQUESTER_STORE: (2, 2), REQUESTER_AWAIT: (2, 2),
           REQUESTER_CUT: (4, LONGEST_BODY), REQUESTER_PRIMITIVE: (12, 12),
           REQUESTER_RECEIVE: (0, LONGEST_BODY), REQUESTER_LOOK: (0, 0), DECLARE: (9, 9)}

# "Numbers in a record are low byte first; slots and tickets are full 32-bit numbers."
NUMBER, TWO_NUMBERS, LENGTH, TWO_LENGTHS = (struct.Struct(form) for form in ("<I", "<II", "<H", "<HH"))

# "EID (1); from 2026-04 on U (2) may follow, and without it U is 64"
EID, EID_AND_UNIT = struct.Struct("<B"), struct.Struct("<BH")
# "destination (1), tag (1), buffer's length (2), message"
CUT = struct.Struct("<BBH")
# "destination (1), message tag (1), slot (4), opcode (1), the primitive's TAG (1), CPSP (2),
# buffer's length (2)"
PRIMITIVE = struct.Struct("<BBIBBHH")
# "slot (4), ticket (4), and 1: the taken command can still be stopped, or 0: it no longer can (1)"
DECLARATION = struct.Struct("<IIB")

# The records that change what is lent
LENT = {STORES: TWO_LENGTHS, REQUESTER_STORE: LENGTH}

# "32 setup: as 16."
SETUPS = SETUP, REQUESTER_SETUP

def records(stream):
    """Tag and bytes of each record; both are None for a faulty one, and that is the last."""
    for tag, data in framed(stream, LENGTHS):
        if is_bad(tag, data):
            yield None, None
            return
        yield tag, data

def is_bad(tag, data):
    """Whether a record whose length lies between those in LENGTHS is faulty all the same."""
    # "lengths of store 0 and store 1 that are lent from now on (2, 2); above 4,300 is `bad`";
    # "length lent from now on (2), above 4,300 `bad`"
    if tag in LENT:
        return max(LENT[tag].unpack(data)) > MEMORY
    # "a declaration other than 0 and 1"
    if tag == DECLARE:
        _, _, stoppable = DECLARATION.unpack(data)
        return stoppable not in (0, 1)
    # "a body's length that the tag can't have": one byte of U alone
    return tag in SETUPS and len(data) not in (EID.size, EID_AND_UNIT.size)

def setup_arguments(data):
    """EID and U of a setup's record."""
    if len(data) == EID_AND_UNIT.size:
        return EID_AND_UNIT.unpack(data)
    return *EID.unpack(data), BASE_UNIT                     # "without it U is 64"


# How a line shows a value

def in_hex(data):
    """ "bytes are lower-case hex and `-` where there are none" """
    return data.hex() or "-"

def joined(*words):
    return ":".join(str(word) for word in words)

def joined_or_none(words):
    return "-" if words is None else joined(*words)

def named(values):
    """What a look prints of a state."""
    return " ".join(f"{name}={value}" for name, value in values.items())

def shown_taking(job):
    """ "it was not taken"; "`taken` while it can't be stopped, `can` while it can" """
    if not job.taken:
        return "untaken"
    return "can" if job.stoppable else "taken"

# What a look prints of a slot, behind its ticket and its two flags
PHASES = {
    Idle: lambda job: "idle" if job.held is None else joined("idle", *job.held.who, job.held.length),
    Receive: lambda job: joined("receive", *job.who, job.sequence, job.length),
    Process: lambda job: joined("process", *job.who, job.header.nmimt, job.length, shown_taking(job)),
    Answered: lambda job: joined("answered", *job.who, job.response),
    Transmit: lambda job: joined("transmit", *job.who, job.length, job.sent)}

def shown_slot(endpoint, slot):
    """ "TICKET,PAUSED,BUSY,PHASE" """
    job = endpoint.jobs[slot]
    paused, busy = endpoint.paused >> slot & 1, endpoint.flags >> SLOT_BIT[slot] & 1
    return f"{endpoint.counts[slot]},{paused},{busy},{PHASES[type(job)](job)}"

def shown_reply(reply):
    """ "`REQUESTER:TAG:BYTES` while a control reply waits [..], `-` once it was handed out" """
    if reply is None:
        return "-"
    who, message = reply
    return joined(*who, message.hex())

# Looks follow each other without a change of the stores, so a check is often wanted again.
@functools.lru_cache(maxsize=4096)
def check_of(data):
    """ "CRC-32C of the lent bytes of the stores as a number, eight hex digits, highest first" """
    return f"{crc32c(data):08x}"


# "A buffer that a record asks for [..] is lent anew at just that length"

def lent_buffer(length):
    return memoryview(bytearray(UNTOUCHED * length))

def shown_buffer(answer, wrote, buffer, length):
    """ "`1 LENGTH PACKET stays`, else `ANSWER stays`"; `wrote` is the answer beside which `length` bytes
    were written."""
    # "`stays` if the bytes behind what was written (all, if nothing was) are still A5h, else `touched`"
    behind = buffer[length:]
    end = "stays" if behind == UNTOUCHED * len(behind) else "touched"
    return f"{answer} {length} {in_hex(buffer[:length])} {end}" if answer == wrote else f"{answer} {end}"


class RequesterCalls:
    """The requester's calls under way: the requester, and its store's memory with the length that is lent."""

    def __init__(self):
        # "At the start: [..] requester as a setup with EID 8 (and U 64) leaves them"; "4,224 bytes at the
        # start"
        self.memory = bytearray(MEMORY)
        self.lent = STORE
        self.setup(EID_AND_UNIT.pack(BASE_EID, BASE_UNIT))
        self.calls = {REQUESTER_SETUP: self.setup, REQUESTER_STORE: self.store,
                      REQUESTER_AWAIT: self.expect, REQUESTER_CUT: self.cut,
                      REQUESTER_PRIMITIVE: self.primitive, REQUESTER_RECEIVE: self.receive,
                      REQUESTER_LOOK: self.look}

    def lend(self):
        self.requester.store = memoryview(self.memory)[:self.lent]

    def setup(self, data):
        # "32 setup: as 16."
        answer, self.requester = Requester.setup(*setup_arguments(data))
        self.lend()
        return answer

    def store(self, data):
        self.lent, = LENGTH.unpack(data)
        self.lend()
        return 0

    def expect(self, data):
        source, tag = data
        return self.requester.expect(source, tag)

    def cut(self, data):
        destination, tag, length = CUT.unpack(data[:CUT.size])
        buffer = lent_buffer(length)
        answer, written = self.requester.cut(destination, tag, data[CUT.size:], buffer)
        # "`0 LENGTH BYTES stays` (what was written, packets end to end), else `ANSWER stays`"
        return shown_buffer(answer, 0, buffer, written)

    def primitive(self, data):
        destination, message_tag, slot, opcode, tag, cpsp, length = PRIMITIVE.unpack(data)
        buffer = lent_buffer(length)
        request = ControlRequest(opcode, tag, cpsp)
        answer, written = self.requester.primitive(destination, message_tag, slot, request, buffer)
        return shown_buffer(answer, 0, buffer, written)     # "the same"

    def receive(self, packet):
        # "`1 LENGTH`, `2 LENGTH`, else ANSWER"
        answer, length = self.requester.receive(packet)
        return f"{answer} {length}" if answer in (1, 2) else answer

    def look(self, _):
        """ "awaits `SOURCE:TAG`, assembly `SEQUENCE:LENGTH`" """
        requester = self.requester
        shown = {"eid": requester.eid, "unit": requester.unit, "awaits": joined_or_none(requester.awaited),
                 "assembly": joined_or_none(requester.assembly), "check": check_of(bytes(requester.store))}
        return named(shown)


class Calls:
    """The calls under way: the endpoint, two stores' memory with the lengths that are lent, and beside them
    the requester's calls."""

    def __init__(self):
        # "At the start: endpoint [..] as a setup with EID 8 (and U 64) leaves them"; "4,224 bytes at the
        # start"
        self.memory = bytearray(MEMORY), bytearray(MEMORY)
        self.lent = STORE, STORE
        self.setup(EID_AND_UNIT.pack(BASE_EID, BASE_UNIT))
        self.calls = {SETUP: self.setup, STORES: self.stores, RECEIVE: self.receive, TAKE: self.take,
                      READ: self.read, COMPLETE: self.complete, POLL: self.poll, TIMEOUT: self.timeout,
                      RESET: self.reset, LOOK: self.look, DECLARE: self.declare, **RequesterCalls().calls}

    def line(self, tag, data):
        """Do what the record says; the line that it prints."""
        return "bad" if tag is None else str(self.calls[tag](data))

    def lend(self):
        self.endpoint.stores = [memoryview(memory)[:length] for memory, length in zip(self.memory, self.lent)]

    def setup(self, data):
        # "A setup replaces the state by the one that the call gives, beside 38 and 39 too, and leaves
        # stores, lent lengths and the other end alone."
        answer, self.endpoint = Endpoint.setup(*setup_arguments(data))
        self.lend()
        return answer

    def stores(self, data):
        # "a change of the lent length keeps the bytes"
        self.lent = TWO_LENGTHS.unpack(data)
        self.lend()
        return 0

    def receive(self, packet):
        return self.endpoint.receive(packet)

    def take(self, data):
        answer, ticket = self.endpoint.take(*NUMBER.unpack(data))
        return f"0 {ticket.number}" if answer == 0 else answer

    def read(self, data):
        part = self.endpoint.read(*NUMBER.unpack(data))
        return f"{len(part)} {in_hex(part)}"

    def complete(self, data):
        slot, ticket = TWO_NUMBERS.unpack(data[:8])
        return self.endpoint.complete(slot, Ticket(ticket), data[8:])

    def declare(self, data):
        slot, ticket, stoppable = DECLARATION.unpack(data)
        return self.endpoint.declare(slot, Ticket(ticket), bool(stoppable))

    def poll(self, data):
        length, = LENGTH.unpack(data)
        buffer = lent_buffer(length)
        answer, packet = self.endpoint.poll(len(buffer))
        buffer[:len(packet)] = packet
        return shown_buffer(answer, 1, buffer, len(packet))

    def timeout(self, data):
        return self.endpoint.timeout(*NUMBER.unpack(data))

    def reset(self, _):
        return self.endpoint.reset()

    def look(self, _):
        """ "flags: four hex digits, bits 4 to 14 of the Get State word at their places" """
        endpoint = self.endpoint
        shown = {"eid": endpoint.eid, "unit": endpoint.unit, "flags": f"{endpoint.flags & ENDPOINT_BITS:04x}",
                 "turn": endpoint.turn, "last": int(endpoint.last_was_control),
                 "reply": shown_reply(endpoint.reply),
                 "slot0": shown_slot(endpoint, 0), "slot1": shown_slot(endpoint, 1),
                 "check0": check_of(bytes(endpoint.stores[0])), "check1": check_of(bytes(endpoint.stores[1]))}
        return named(shown)

def call_lines(stream):
    calls = Calls()
    for tag, data in records(stream):
        yield calls.line(tag, data)
