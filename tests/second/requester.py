"""The requester, the controller's end: what it awaits, and the calls.

    answer, requester = Requester.setup(eid, unit)             answer 0, 38 or 39
    requester.expect(source, tag)                              -> answer
    requester.cut(destination, tag, message, buffer)           -> (answer, bytes written)
    requester.primitive(destination, tag, slot, ControlRequest, buffer)
                                                               -> (answer, bytes written)
    requester.receive(packet)                                  -> (answer, the message's length);
                                                                  None unless the answer is 1 or 2

To look at it, changing nothing:

    .eid, .unit its EID and U
    .store      the lent store, a bytearray; assign another to lend another
    .awaited    the (source, tag) that is awaited, or None
    .assembly   what was gathered so far of the message from there, or None
"""
from collections import namedtuple

from second.wire import (CONTROL, LONGEST_MESSAGE, control_message, is_sealed, longest_packet, message_header,
                         packet_fields, packet_of, setup_values)

STORE = LONGEST_MESSAGE     # "one lent store of 4,224 bytes"
SHORTEST_MESSAGE = 8        # "a command of 8 to 4,224 bytes"
GREATEST_TAG = 7            # "a tag above 7"

# It is of the source and tag that are awaited: the last packet's sequence, the bytes gathered so far.
Assembly = namedtuple("Assembly", "sequence length")


# A message's first packet

def first_refusal(fields, payload, unit):
    """The first number in 01's table for SOM 1 whose test applies, or None; 20, the last, is not asked."""
    if payload[0] != 0x84:
        return 15
    if not fields.eom and len(payload) != unit:             # "EOM 0, payload not 64"
        return 16
    if fields.eom and len(payload) < 8:
        return 17
    header = message_header(payload)
    if not header.ror:                                      # "ROR is 1", turned round
        return 15
    if header.nmimt == CONTROL:
        return control_refusal(fields, payload)
    return None

def control_refusal(fields, payload):
    # "NMIMT 0, and EOM 0 or payload not 12"; "NMIMT 0, check wrong"
    if not fields.eom or len(payload) != 12:
        return 18
    if not is_sealed(payload):
        return 19
    return None


class Requester:
    """ "It awaits one source and tag at a time (none after setup)" """

    def __init__(self, eid, unit):
        self.eid, self.unit = eid, unit
        self.awaited = None
        self.assembly = None
        self.store = bytearray(STORE)

    @classmethod
    def setup(cls, eid, unit):
        # "Its setup is as 01's."; "Both setups (2026-01's too) take U"
        answer, eid, unit = setup_values(eid, unit)
        return answer, cls(eid, unit)

    # Awaiting

    def expect(self, source, tag):
        # "a tag above 7, also in awaiting, gets 41"
        if tag > GREATEST_TAG:
            return 41
        self.awaited = source, tag
        self.assembly = None                                # "Awaiting anew ends an assembly"
        return 0

    # Sending

    def cut(self, destination, tag, message, buffer):
        # "A size outside that range or a tag above 7 [..] gets 41"
        if not SHORTEST_MESSAGE <= len(message) <= LONGEST_MESSAGE or tag > GREATEST_TAG:
            return 41, 0
        return self.write(destination, tag, message, buffer)

    def primitive(self, destination, tag, slot, request, buffer):
        # "a tag above 7 [..] gets 41, then a primitive's slot above 1 gets 30; any opcode goes"
        if tag > GREATEST_TAG:
            return 41, 0
        if slot > 1:
            return 30, 0
        return self.write(destination, tag, control_message(slot, request), buffer)

    def write(self, destination, tag, message, buffer):
        """Write the packets of a message to the front of the buffer."""
        packets = self.packets(destination, tag, message)
        # "a buffer too short for what is written gets 36 as the last test"
        if len(buffer) < len(packets):
            return 36, 0
        buffer[:len(packets)] = packets                     # "bytes behind what is written stay"
        return 0, len(packets)

    def packets(self, destination, tag, message):
        """ "Polling's packets, but with TO 1 and the caller's tag and destination"; "Cut packets lie
        end to end." """
        packets, last = [], False
        while not last:
            packet, last = packet_of(message, self.unit, len(packets), destination, self.eid, 1, tag)
            packets.append(packet)
        return b"".join(packets)

    # Receiving: "gathers responses (TO 0, ROR 1) by 01's gathering rules with those two bits turned round",
    # "without flags". So the numbers and their order are those of 01's tables.

    def receive(self, packet):
        # "one lent store of 4,224 bytes (else 40)", in 01 "before any other test"
        if len(self.store) != STORE:
            return 40, None
        n = len(packet)                                     # "n is its whole length."
        if n < 5:
            return 10, None
        if n > longest_packet(self.unit):                   # "n above 68"
            return 11, None
        fields, payload = packet_fields(packet), bytes(packet[4:])
        if fields.version != 1:
            return 12, None
        if fields.destination != self.eid:
            return 13, None
        if fields.to != 0:                                  # "TO is 0", turned round
            return 14, None
        # An assembly is always of the source and tag that are awaited.
        awaited = (fields.source, fields.tag) == self.awaited
        if fields.som:
            return self.first_packet(fields, payload, awaited)
        return self.later_packet(fields, payload, awaited)

    def first_packet(self, fields, payload, awaited):
        # "if SOM is 1, an assembly with this source and tag [..] ends first [..], even if the packet is
        # refused below"
        if awaited:
            self.assembly = None
        refusal = first_refusal(fields, payload, self.unit)
        if refusal is not None:
            return refusal, None
        if not awaited:
            return 20, None                                 # "20 then means source and tag not awaited"
        if message_header(payload).nmimt == CONTROL:
            # "gathers into one lent store [..], control replies too"
            self.store[:len(payload)] = payload
            return self.finish(2, len(payload))             # "2 control done"
        # "A first packet may carry any sequence."
        return self.gather(fields, 0, payload)

    def later_packet(self, fields, payload, awaited):
        assembly = self.assembly
        if assembly is None or not awaited:
            return 21, None
        for number, applies in ((22, fields.sequence != (assembly.sequence + 1) % 4),
                                (16, not fields.eom and len(payload) != self.unit),
                                (23, assembly.length + len(payload) > LONGEST_MESSAGE)):
            if applies:
                self.assembly = None                        # "For the next three the slot also goes to Idle"
                return number, None
        return self.gather(fields, assembly.length, payload)

    def gather(self, fields, before, payload):
        """Take the payload of a response's packet, `before` bytes being there already."""
        # "gathered at its front"; "refused with 19 leaves its payload stored"
        length = before + len(payload)
        self.store[before:length] = payload
        if not fields.eom:
            self.assembly = Assembly(fields.sequence, length)
            return 0, None                                  # "0 more to come"
        # "With EOM a command is checked whole: wrong, 19 [..] and Idle"
        if not is_sealed(self.store[:length]):
            self.assembly = None
            return 19, None
        return self.finish(1, length)                       # "1 command complete"

    def finish(self, answer, length):
        # "only answers 1 and 2 give the length and end the awaiting"
        self.awaited = self.assembly = None
        return answer, length
