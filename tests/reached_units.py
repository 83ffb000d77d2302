"""What scripts for the calls program reach of the transmission unit: setups of both ends, and at each unit of
UNITS the bounds that follow it.

GOALS is every line that a right set of scripts has to reach. A response has to be sent in full packets and
the rest, and its payloads have to be the stored bytes: where they are not, the run ends with an error.
"""
from call_records import room
from exchanges import written_by
from runs import answer_of, picture
from second.calls import (CUT, LENGTH, LOOK, POLL, PRIMITIVE, RECEIVE, REQUESTER_CUT, REQUESTER_PRIMITIVE,
                          REQUESTER_RECEIVE, REQUESTER_SETUP, RESET, SETUP, setup_arguments)
from second.endpoint import requester
from second.wire import CONTROL, message_header, packet_fields
from units import (AROUND, BASE_UNIT, LONGEST, UNITS, WRONG_UNITS, around, fitting, longest_packet,
                   most_packets, multiple_beside, packet_count, parts)

SETUPS = {SETUP: "setup", REQUESTER_SETUP: "requester setup"}
PACKETS = {RECEIVE: "receive", REQUESTER_RECEIVE: "gather"}
MESSAGES = (*AROUND.values(), "the longest")
BASE_EID = 8                            # beside 38 and 39
NOTHING, REPLY, FULL, SHORTER = ("nothing", "a control reply", "a full packet", "a shorter packet")
BUILT = {15: "36", 16: "0"}             # the buffer of a primitive, and the answer

# The goals

def setup_goals(call):
    yield from (f"{call} answers 0 to U {unit}" for unit in UNITS)
    yield from (f"{call} answers 39 to U {unit}" for unit in WRONG_UNITS)
    yield from (f"{call} {answer} with another EID and U before" for answer in (38, 39))
    yield f"{call} 38 with another U given"
    yield f"{call} 39 with another EID given"
    yield f"{call} without a U, another before"

def packet_goals(unit, call):
    yield f"{call} 11, U + 5 bytes"
    yield f"{call} takes in U + 4 bytes"
    for place in ("first", "later"):
        yield f"{call} 16 {place}, U - 1 bytes"
        if unit != BASE_UNIT:
            yield f"{call} 16 {place}, {BASE_UNIT} bytes"
    yield f"{call} 22"
    yield from (f"{call} 23, {what}" for what in ("a full packet", "by one byte"))
    yield from (f"{call} 1, {message}" for message in MESSAGES)
    yield from (f"{call} 1, around {count} x U" for count in range(1, fitting(unit) + 1))

def unit_goals(unit):
    for call in PACKETS.values():
        yield from packet_goals(unit, call)
    yield from (f"{message} sent" for message in (*AROUND.values(), "the most packets"))
    yield from (f"poll 36 with U + 3 bytes, {what} to send" for what in (NOTHING, REPLY, FULL, SHORTER))
    yield f"poll 0 with U + 4 bytes, {NOTHING} to send"
    yield from (f"poll 1 with U + 4 bytes, {what} to send" for what in (REPLY, FULL, SHORTER))
    yield "a look after a reset"
    yield from (f"cut {answer}, {message}" for answer in ("0", "36") for message in MESSAGES)
    yield from (f"primitive {answer} with {length} bytes" for length, answer in BUILT.items())

GOALS = (*(goal for call in SETUPS.values() for goal in setup_goals(call)),
         *(f"U {unit}: {goal}" for unit in UNITS for goal in unit_goals(unit)))

# What a run reaches

def message_names(length, unit):
    """What is said of a message's length, if it has several packets."""
    if packet_count(length, unit) > 1 and around(length, unit) is not None:
        yield AROUND[around(length, unit)]
    if length == LONGEST:
        yield "the longest"

def to_send(endpoint):
    """What a poll with a buffer that is long enough hands out."""
    answer, packet = picture(endpoint).poll(longest_packet(endpoint.unit))
    if answer != 1:
        return NOTHING
    if packet_fields(packet).som and message_header(packet[4:]).nmimt == CONTROL:
        return REPLY
    return FULL if len(packet) == longest_packet(endpoint.unit) else SHORTER

class Units:
    """What a run reaches. `before` is the end that a record is for, as it was before."""

    def __init__(self, run):
        self.run = run
        self.sent = []                  # the payloads that were sent of the response under way
        self.was_reset = False          # whether the endpoint was reset since its setup
        self.seen = {SETUP: self.set_up, REQUESTER_SETUP: self.set_up, RECEIVE: self.received,
                     REQUESTER_RECEIVE: self.received, POLL: self.polled, RESET: self.reset,
                     LOOK: self.looked, REQUESTER_CUT: self.was_cut, REQUESTER_PRIMITIVE: self.was_built}

    def noted(self, tag, before, body, line):
        if tag in self.seen:
            self.seen[tag](tag, before, body, line)

    def note(self, unit, text, when=True):
        self.run.note(f"U {unit}: {text}", when)

    # Setups, and what keeps the unit

    def set_up(self, tag, before, body, line):
        call, (eid, unit) = SETUPS[tag], setup_arguments(body)
        given = len(body) > 1
        self.run.note(f"{call} answers {line} to U {unit}", given)
        self.run.note(f"{call} {line} with another EID and U before",
                      before.eid != BASE_EID and before.unit != BASE_UNIT)
        self.run.note(f"{call} {line} with another U given", unit in UNITS[1:])
        self.run.note(f"{call} {line} with another EID given", eid != BASE_EID)
        self.run.note(f"{call} without a U, another before",
                      not given and line == "0" and before.unit != BASE_UNIT)
        if tag == SETUP:
            self.was_reset = False

    def reset(self, _tag, _before, _body, _line):
        self.was_reset = True

    def looked(self, _tag, before, _body, _line):
        self.note(before.unit, "a look after a reset", self.was_reset)

    # Packets that an end is given

    def received(self, tag, before, packet, line):
        call, unit, answer = PACKETS[tag], before.unit, answer_of(line)
        longest = longest_packet(unit)
        self.note(unit, f"{call} 11, U + 5 bytes", answer == "11" and len(packet) == longest + 1)
        self.note(unit, f"{call} takes in U + 4 bytes", answer in ("0", "1") and len(packet) == longest)
        if answer == "16":
            self.wrong_payload(call, unit, packet_fields(packet), len(packet) - 4)
        elif answer in ("1", "22", "23"):
            som = packet_fields(packet).som
            length = (0 if som else self.gathered_before(before, packet)) + len(packet) - 4
            self.note(unit, f"{call} {answer}, around {multiple_beside(length, unit)} x U")
            if not som:
                self.later_packet(call, unit, answer, len(packet) == longest, length)

    def wrong_payload(self, call, unit, fields, size):
        place = "first" if fields.som else "later"
        self.note(unit, f"{call} 16 {place}, U - 1 bytes", size == unit - 1)
        self.note(unit, f"{call} 16 {place}, {size} bytes")

    def gathered_before(self, before, packet):
        """The bytes of the packet's assembly. The endpoint has one for each slot, the requester one."""
        if not hasattr(before, "jobs"):
            return before.assembly.length
        return before.jobs[before.assembly(requester(packet_fields(packet)))].length

    def later_packet(self, call, unit, answer, is_full, length):
        """A packet of an assembly, which makes it a message of this length."""
        self.note(unit, f"{call} {answer}")
        self.note(unit, f"{call} {answer}, a full packet", is_full)
        self.note(unit, f"{call} {answer}, by one byte", length == LONGEST + 1)
        for name in message_names(length, unit):
            self.note(unit, f"{call} {answer}, {name}")

    # Polling

    def polled(self, _tag, before, body, line):
        (length,), answer, unit = LENGTH.unpack(body), answer_of(line), before.unit
        for more in (3, 4):
            if length == unit + more:
                self.note(unit, f"poll {answer} with U + {more} bytes, {to_send(before)} to send")
        if answer == "1" and self.run.endpoint.reply is before.reply:
            self.command_packet_sent(before, written_by(line))

    def command_packet_sent(self, before, packet):
        fields, slot = packet_fields(packet), before.ready()
        self.sent = [packet[4:]] if fields.som else [*self.sent, packet[4:]]
        if not fields.eom:
            return
        response = bytes(before.stores[slot][:before.jobs[slot].length])
        if self.sent != parts(response, before.unit):
            raise ValueError(f"slot {slot} does not send its response in packets of {before.unit} bytes")
        for name in message_names(len(response), before.unit):
            self.note(before.unit, f"{name} sent")
        self.note(before.unit, "the most packets sent", len(self.sent) == most_packets(before.unit))

    # What the requester writes

    def was_cut(self, _tag, before, data, line):
        _, _, length = CUT.unpack(data[:CUT.size])
        size, answer = len(data) - CUT.size, answer_of(line)
        wanted = room(size, before.unit) - (answer == "36")
        for name in message_names(size, before.unit):
            self.note(before.unit, f"cut {answer}, {name}", length == wanted)

    def was_built(self, _tag, before, data, line):
        self.note(before.unit, f"primitive {answer_of(line)} with {PRIMITIVE.unpack(data)[-1]} bytes")
