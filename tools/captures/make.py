"""A log's records from captured packets.

Packets to the board become packets of the log, and the board's own packets become polls, so that the log program sends at the same
places. What the drive did is not on the wire; with `answer` each command's response gets a take and a completion with the captured
body, just before the poll of its first packet. Which responses need them is known by the second program of tests/, which follows.
"""
import collections

from captures.told import FROM_BOARD, TO_BOARD, counted
from second.log import COMPLETE, PACKET, POLL, TAKE, Log
from second.wire import CONTROL, LONGEST_MESSAGE, is_sealed, message_header, packet_fields

OWN_EID = 8                         # the log program's EID
LONGEST_RECORD = 4300
WINDOW = 1000                       # packets between the first and the last of one response
NVME_MI = 4                         # message type
BODY = range(4, 4217)               # lengths of a body

# eid: the board's in the capture. readdress: its destination byte becomes 8. everything: also packets to other EIDs. answer: takes
# and completions. drain: packets that the endpoint sends and the board did not send get polls of their own.
Options = collections.namedtuple("Options", "eid readdress everything answer drain", defaults=(False,))

# Where in the capture a record comes from; at a poll, the packet that the board sent, or None at one that drains.
Record = collections.namedtuple("Record", "tag body place wanted", defaults=(None, None))


def record_bytes(record):
    return bytes((record.tag,)) + len(record.body).to_bytes(2, "little") + record.body


def swapped(data, place, one, other):
    """The packet with its EID at this byte exchanged, if it is one of the two."""
    if len(data) <= place or data[place] not in (one, other):
        return data
    return data[:place] + bytes((other if data[place] == one else one,)) + data[place + 1:]


class Response:
    """The response that begins with a packet of the board, gathered as far as it was captured."""

    def __init__(self, fields, payload):
        self.who, self.sequence, self.message = (fields.destination, fields.tag), fields.sequence, bytearray(payload)
        self.whole, self.open = bool(fields.eom), not fields.eom

    def joins(self, fields, payload):
        """Takes a later packet in; False if it does not go on from the last one."""
        if fields.sequence != (self.sequence + 1) % 4 or len(self.message) + len(payload) > LONGEST_MESSAGE:
            return False
        self.sequence = fields.sequence
        self.message += payload
        self.whole, self.open = bool(fields.eom), not fields.eom
        return True

    @property
    def body(self):
        """From byte 4 to the check. Of a response that is not whole, all that is there: so its packets come out as captured."""
        return bytes(self.message[4:-4] if self.whole else self.message[4:])


class Gathering:
    """The board's responses that are not whole yet."""

    def __init__(self):
        self.open = {}

    def response(self, data):
        """The response that begins with this packet, or None."""
        if len(data) < 5:
            return None
        fields, payload = packet_fields(data), data[4:]
        who = fields.destination, fields.tag
        if fields.som:
            self.close(who)
            begun = Response(fields, payload)
            if begun.open:
                self.open[who] = begun
            return begun
        going = self.open.get(who)
        if going and (not going.joins(fields, payload) or going.whole):
            self.close(who)
        return None

    def close(self, who):
        ended = self.open.pop(who, None)
        if ended:
            ended.open = False

    def close_all(self):
        for who in list(self.open):
            self.close(who)


def with_responses(sided):
    """Each packet with the response that it begins, held back until that is whole or has broken off."""
    gathering, waiting = Gathering(), collections.deque()
    for captured, direction in sided:
        response = gathering.response(captured.data) if direction == FROM_BOARD else None
        waiting.append((captured, direction, response))
        if len(waiting) > WINDOW:
            gathering.close(waiting[0][2].who)
        while waiting and not (waiting[0][2] and waiting[0][2].open):
            yield waiting.popleft()
    gathering.close_all()
    yield from waiting


class Maker:
    """Makes records of captured packets; afterwards `counts` has how many of which kind."""

    def __init__(self, options, teller):
        self.options, self.teller = options, teller
        self.counts = collections.Counter()
        self.asked = collections.Counter()                  # packets with TO 1 to each EID
        self.foreign = set()                                # the board's messages under way that are not NVMe-MI
        self.log = Log() if options.answer or options.drain else None

    def records(self, captured):
        sided = self.sided(captured)
        held = with_responses(sided) if self.options.answer else ((packet, direction, None) for packet, direction in sided)
        for packet, direction, response in held:
            if direction == TO_BOARD:
                yield self.record(PACKET, self.readdressed(packet.data, 1), packet.place)[0]
            else:
                if response:
                    yield from self.answered(packet, response)
                yield from self.polls(packet)
        if self.options.drain:
            yield from self.rest()

    # Which packets

    def sided(self, captured):
        """The packets to and from the board; what is left out is counted."""
        for packet in captured:
            direction = self.direction(packet)
            if direction in (TO_BOARD, FROM_BOARD):
                yield packet, direction
            else:
                self.counts[direction] += 1

    def direction(self, packet):
        """To the board, from it, or why it is left out."""
        data = packet.data
        if len(data) > LONGEST_RECORD:
            self.teller.fault(f"{packet.place}: {len(data):,} bytes: a log holds packets of up to {LONGEST_RECORD:,}; left out")
            return "too long"
        self.look_at_version(packet)
        by_header = self.by_header(data)
        if packet.direction is None:
            if by_header == "too short":
                self.teller.fault(f"{packet.place}: {counted(len(data), 'byte')} and no direction: left out")
            direction = by_header
        else:
            direction = packet.direction
            if {direction, by_header} == {TO_BOARD, FROM_BOARD}:
                self.teller.example("marked against their EIDs and TO (perhaps another --seen-from is right)",
                                    f"{packet.place}: marked {direction}, but its EIDs and TO say {by_header}; the mark is used")
        return "of other message types" if direction == FROM_BOARD and self.is_foreign(data) else direction

    def look_at_version(self, packet):
        """Tells a packet that is not of MCTP version 1: something else may stand in front of it."""
        data = packet.data
        if data and data[0] & 15 != 1:
            smbus = "; the SMBus bytes may still stand in front" if data[1:2] == b"\x0f" else ""
            self.teller.example("packets not of MCTP version 1",
                                f"{packet.place}: begins with {data[0]:02x}h, which is not MCTP version 1{smbus}")

    def by_header(self, data):
        """The same by EIDs and TO alone."""
        if len(data) < 4:
            return "too short"
        fields = packet_fields(data)
        if fields.to:
            self.asked[fields.destination] += 1
        if fields.source == self.options.eid and not fields.to:
            return FROM_BOARD
        if fields.destination == self.options.eid:
            return TO_BOARD
        if fields.source == self.options.eid:
            return "the board's own requests"
        return TO_BOARD if self.options.everything else "between other EIDs"

    def is_foreign(self, data):
        """Whether a packet of the board belongs to a message of another type: the endpoint never sends one."""
        if len(data) < 5:
            return False
        fields = packet_fields(data)
        who = fields.destination, fields.tag
        if fields.som:
            self.foreign.discard(who)
            if data[4] & 0x7F != NVME_MI:
                self.foreign.add(who)
        return who in self.foreign

    def readdressed(self, data, place):
        """With `readdress`, the board's EID at this byte becomes 8, and 8 the board's: no other packet then becomes one for it."""
        return swapped(data, place, self.options.eid, OWN_EID) if self.options.readdress else data

    # Which records

    def record(self, tag, body=b"", place=None, wanted=None):
        """A record, and the line that the second program prints for it where it follows."""
        self.counts[tag] += 1
        return Record(tag, body, place, wanted), self.log.line(tag, body) if self.log else None

    def polls(self, packet):
        """The poll for a packet of the board; before it, if asked for, one for each packet that the endpoint sends instead."""
        wanted = self.readdressed(packet.data, 2)
        while True:
            record, line = self.record(POLL, b"", packet.place, wanted)
            sent = bytes.fromhex(line[2:]) if self.options.drain and line.startswith("1 ") else None
            if sent is None or stands_for(sent, wanted):
                yield record
                return
            yield record._replace(place=f"before {packet.place}", wanted=None)

    def rest(self):
        """Polls for what the endpoint has left at the end."""
        line = "1"
        while line.startswith("1"):
            record, line = self.record(POLL, b"", "at the end")
            yield record

    def answered(self, packet, response):
        """The take and the completion of a command's response, unless the endpoint made the response itself or sends it again."""
        if len(response.message) < 4 or message_header(response.message).nmimt == CONTROL:
            return
        slot = self.waiting_slot(packet, response)
        if slot is None:
            return
        size = counted(len(response.message), "byte")
        if not response.whole:
            self.teller.example("responses that are not whole",
                                f"{packet.place}: the response that begins here is not whole in the capture; it is completed with "
                                f"the {size} that are there")
        elif not is_sealed(bytes(response.message)):
            self.teller.example("responses with a wrong integrity check",
                                f"{packet.place}: the integrity check of the response that begins here is wrong in the capture")
        if len(response.body) not in BODY:
            self.teller.example("responses that no completion takes", f"{packet.place}: no completion takes a response of {size}")
            return
        yield self.record(TAKE, bytes((slot,)), packet.place)[0]
        yield self.record(COMPLETE, bytes((slot,)) + response.body, packet.place)[0]

    def waiting_slot(self, packet, response):
        """The slot whose command this response answers, or None if there is none that waits."""
        endpoint, csi = self.log.endpoint, message_header(response.message).csi
        held = {slot: endpoint.state(slot) for slot in (csi, 1 - csi)
                if getattr(endpoint.jobs[slot], "who", None) == response.who}
        for slot, state in held.items():
            if state == "Process untaken":
                return slot
        if not {"Process answered", "Transmit"} & set(held.values()):
            self.teller.example("responses without a waiting command",
                                f"{packet.place}: a response to EID {response.who[0]} under tag {response.who[1]}, who has no "
                                "command waiting in the endpoint")
        return None

    # In words

    def summary(self):
        count, options = self.counts, self.options
        yield (f"records: {counted(count[PACKET], 'packet')} to the board, {counted(count[POLL], 'poll')}"
               + (f", {counted(count[COMPLETE], 'take')} with a completion" if options.answer else ""))
        left = [f"{number:,} {kind}" for kind, number in count.items() if isinstance(kind, str)]
        if left:
            yield f"left out: {', '.join(left)}"
        if options.readdress and options.eid != OWN_EID:
            yield f"destination {options.eid} was written as {OWN_EID} (--readdress)"
        elif options.eid != OWN_EID:
            yield (f"the log program's EID is {OWN_EID}: it answers 13 to packets for EID {options.eid}; "
                   f"--readdress writes them to {OWN_EID}")
        if count[POLL] and not options.answer:
            yield "the drive's answers are not on the wire: without --answer the polls of command responses answer 0"
        if self.asked and not self.asked[options.eid]:
            eids = ", ".join(f"{eid} ({number:,})" for eid, number in self.asked.most_common(8))
            yield f"no packet with TO 1 is for EID {options.eid}; they go to EID {eids}: name the board's with --eid"


def stands_for(sent, wanted):
    """Whether the endpoint's packet stands for the board's: the same requester and SOM, and both control or both not."""
    if len(wanted) < 6:
        return True
    ours, theirs = packet_fields(sent), packet_fields(wanted)
    if (ours.destination, ours.tag, ours.som) != (theirs.destination, theirs.tag, theirs.som):
        return False
    return not ours.som or (message_header(sent[4:]).nmimt == CONTROL) == (message_header(wanted[4:].ljust(3)).nmimt == CONTROL)
