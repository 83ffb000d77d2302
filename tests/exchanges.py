"""What each end of an exchange wrote, and whether the other end gathered it.

    "A well-formed message [..] that either end cuts is gathered by the other to the same bytes, if its
    packets come in order, each once, with no other call between and the same 4,224-byte stores, the EIDs
    match, the receiving slot is Idle (or the requester awaits that tag), and the endpoint makes no response
    at once." (2026-01), which "needs one U at both ends" (2026-04)

Where a script meets all of that and the message is not gathered, the run ends with an error. A message of one
packet needs no more than that the packet is not too long for the other end; a longer one that is gathered
where the units differ is an error too.
"""
from call_records import REQUESTER_TAGS
from runs import ENTRY_GROUNDS, MOST, PRIMITIVES, SCRIPT_COUNTS, answer_of, counted, entry_ground
from second.calls import (LOOK, POLL, PRIMITIVE, RECEIVE, REQUESTER_CUT, REQUESTER_LOOK,
                          REQUESTER_PRIMITIVE, REQUESTER_RECEIVE, SETUP)
from second.endpoint import STORE, Process
from second.wire import CONTROL, REPLAY, is_sealed, message_header, packet_fields
from units import BASE_UNIT, UNITS, longest_packet, parts

OPCODES = (*PRIMITIVES, 5, 255)
# Records that are no other call between: a packet that is not of the message is noted where it is received.
QUIET = (RECEIVE, REQUESTER_RECEIVE, LOOK, REQUESTER_LOOK)
BETWEEN = "with other calls between"
FIRST, ONCE_MORE = "for the first time", "once more"
ONE, SEVERAL = "one packet", "several packets"
# Messages between ends of different units: how many packets, from which unit, and what the first is answered
# with. A longer packet than the other end takes is 11, and a full one of a smaller unit is 16.
UNEQUAL = ((ONE, "larger", "1"), (ONE, "larger", "11"), (ONE, "smaller", "1"), (SEVERAL, "larger", "11"),
           (SEVERAL, "smaller", "16"))

def primitive_name(opcode):
    return PRIMITIVES.get(opcode, f"opcode {opcode}")

def exchange_goals():
    for slot in (0, 1):
        for message in ("a command", "a response"):
            yield from (f"slot {slot}: {message} of {count} packets gathered" for count in SCRIPT_COUNTS)
            yield f"slot {slot}: {message} gathered {BETWEEN}"
        yield from (f"slot {slot}: an exchange of {count} packets both ways" for count in SCRIPT_COUNTS)
        yield from (f"slot {slot}: an error of entry gathered, {ground}" for ground in ENTRY_GROUNDS)
        yield from (f"slot {slot}: the reply to {primitive_name(opcode)} gathered" for opcode in OPCODES)
        yield from (f"slot {slot}: a replay of {count} packets gathered" for count in SCRIPT_COUNTS)
        yield from (f"slot {slot}: a response gathered {when}, by its replay" for when in (FIRST, ONCE_MORE))
        yield from (f"slot {slot}: an exchange with a replay, its response gathered {when}"
                    for when in (FIRST, ONCE_MORE))
    for unit in UNITS:
        yield from (f"U {unit}: an exchange of {count} both ways" for count in (SEVERAL, f"{MOST} packets"))
        yield f"U {unit}: a replay of {SEVERAL} gathered"
    for message in ("a command", "a response"):
        yield from (f"{message} of {count} from a {which} U, {answer}" for count, which, answer in UNEQUAL)
    yield from (f"a control reply of {ONE} from a {which} U, 2" for which in ("larger", "smaller"))

def written_by(line):
    """The bytes that a line shows between its numbers and its last word."""
    return bytes.fromhex(line.split()[2])

def packets_in(line, unit):
    """The packets that a line shows, end to end: all but the last are full."""
    return parts(written_by(line), longest_packet(unit))

class Trip:
    """A message on its way: its packets, and how many of them the other end was given."""

    def __init__(self, packets=(), unit=BASE_UNIT, replayed=False):
        self.packets, self.given = list(packets), 0
        self.unit = unit            # of the end that cut it
        self.replayed = replayed    # whether a Replay let it be sent
        self.alone = False          # whether that end was given nothing else since the first
        self.passes = False         # whether that end's unit lets it pass
        self.promised = False       # whether it has to gather the message then

    @property
    def message(self):
        return b"".join(packet[4:] for packet in self.packets)

    @property
    def count(self):
        return counted(self.packets, self.unit)

    def begins(self, packet):
        return self.packets[:1] == [packet]

    def meets(self, unit, packet, promised):
        """The first packet is about to be given to an end of this unit."""
        is_short = packet_fields(packet).eom and len(packet) <= longest_packet(unit)
        self.passes = self.unit == unit or is_short
        self.promised = self.passes and promised

    def give(self, packet):
        """The other end was given a packet; whether it was the message's last and all came before it."""
        if self.begins(packet):
            self.given, self.alone = 1, True
        elif self.given < len(self.packets) and packet == self.packets[self.given]:
            self.given += 1
        else:
            self.alone = False
            return False
        return self.given == len(self.packets) and packet_fields(packet).eom

class Exchanges:
    """What is on its way in a run."""

    def __init__(self, run):
        self.run = run
        self.command = Trip()                       # the command that was cut last
        self.responses = [Trip(), Trip()]           # what each slot began to send last
        self.reply = Trip()                         # the control reply that was handed out last
        self.sending = 0                            # the slot that began to send last
        self.built = self.asked = self.replied = None   # a primitive: built, its reply waiting, handed out
        self.entered = [None, None]                 # for each slot, the ticket and packets of a command cut
        self.tickets = [None, None]                 # for each slot, the ticket of what it began to send last
        self.came = [None, None]                    # for each slot, ticket and bytes of what came last
        self.told = [None, None]                    # for each slot, the ticket at a Replay's reply of CPSR 1
        self.seen = {REQUESTER_CUT: self.was_cut, REQUESTER_PRIMITIVE: self.was_built, SETUP: self.forget,
                     RECEIVE: self.received, POLL: self.polled, REQUESTER_RECEIVE: self.gathered}

    def before(self, tag, packet):
        """What a packet finds that is the first of a message decides whether that must be gathered."""
        if tag == RECEIVE and self.command.begins(packet):
            self.command.meets(self.run.endpoint.unit, packet, self.endpoint_promises(packet))
        if tag == REQUESTER_RECEIVE:
            for trip in (*self.responses, self.reply):
                if trip.begins(packet):
                    trip.meets(self.run.requester.unit, packet, self.requester_promises(packet))

    def endpoint_promises(self, packet):
        endpoint, message = self.run.endpoint, self.command.message
        header = message_header(message)
        well_formed = message[0] == 0x84 and is_sealed(message) and not header.ror and header.nmimt
        return (well_formed and endpoint.stores_fit() and packet_fields(packet).destination == endpoint.eid
                and endpoint.state(header.csi) == "Idle")

    def requester_promises(self, packet):
        requester, fields = self.run.requester, packet_fields(packet)
        return (len(requester.store) == STORE and fields.destination == requester.eid
                and (fields.source, fields.tag) == requester.awaited)

    def after(self, tag, body, line):
        if tag in self.seen:
            self.seen[tag](body, line)
        if tag not in QUIET:
            self.disturb(tag)

    def forget(self, _body, _line):
        """A setup of the endpoint: tickets count from zero again."""
        self.entered, self.came, self.told = [None, None], [None, None], [None, None]

    def disturb(self, tag):
        """Another call on the end that this record is for."""
        for trip in (*self.responses, self.reply) if tag in REQUESTER_TAGS else (self.command,):
            trip.alone = False

    # The requester writes

    def was_cut(self, _body, line):
        if line.startswith("0 "):
            unit = self.run.requester.unit
            self.command = Trip(packets_in(line, unit), unit)

    def was_built(self, body, line):
        if line.startswith("0 "):
            self.built = written_by(line), PRIMITIVE.unpack(body)[3]

    # The endpoint is given packets, and sends

    def received(self, packet, line):
        if line == "2":
            self.asked = self.built if self.built and self.built[0] == packet else None
        self.note_unequal("a command", self.command, packet, self.run.endpoint.unit, line)
        if self.command.give(packet):
            self.command_came(line)

    def note_unequal(self, message, trip, packet, unit, line):
        """The first packet of a message was given to an end of this unit."""
        if trip.begins(packet) and trip.unit != unit:
            count = ONE if packet_fields(packet).eom else SEVERAL
            which = "larger" if trip.unit > unit else "smaller"
            self.run.note(f"{message} of {count} from a {which} U, {answer_of(line)}")

    def command_came(self, line):
        trip, endpoint = self.command, self.run.endpoint
        slot = message_header(trip.message).csi
        job = endpoint.jobs[slot]
        whole = line == "1" and (not isinstance(job, Process)
                                 or endpoint.stores[slot][:job.length] == trip.message)
        self.judge("endpoint", trip, whole, line)
        if whole:
            self.entered[slot] = endpoint.counts[slot], trip.count, isinstance(job, Process)
            self.note_gathered(slot, "a command", trip)

    def judge(self, end, trip, whole, line):
        """The end was given the message's last packet; `whole` says whether it has gathered it."""
        if trip.alone and trip.promised and not whole:
            raise ValueError(f"the {end} answers {line} to a message that it has to gather")
        if whole and not trip.passes:
            raise ValueError(f"the {end} gathers a message that was cut by another unit")

    def note_gathered(self, slot, message, trip):
        self.run.note(f"slot {slot}: {message} of {trip.count} packets gathered", trip.alone)
        self.run.note(f"slot {slot}: {message} gathered {BETWEEN}", not trip.alone)

    def polled(self, _body, line):
        if not line.startswith("1 "):
            return
        packet = written_by(line)
        if not packet_fields(packet).som:
            self.responses[self.sending].packets.append(packet)
            return
        header, endpoint = message_header(packet[4:]), self.run.endpoint
        if header.nmimt == CONTROL:
            self.reply, self.replied, self.asked = Trip([packet], endpoint.unit), self.asked, None
        else:
            self.sending = slot = header.csi
            self.responses[slot] = Trip([packet], endpoint.unit, self.run.replays.slots[slot].times > 0)
            self.tickets[slot] = endpoint.counts[slot]

    # The requester is given packets

    def gathered(self, packet, line):
        for slot, trip in enumerate(self.responses):
            self.note_unequal("a response", trip, packet, self.run.requester.unit, line)
            if trip.give(packet) and self.has_come(trip, "1", line):
                self.note_gathered(slot, "a response", trip)
                self.exchanged(slot, trip)
                self.came[slot] = self.tickets[slot], trip.message
        self.note_unequal("a control reply", self.reply, packet, self.run.requester.unit, line)
        if self.reply.give(packet) and self.has_come(self.reply, "2", line) and self.replied:
            self.reply_came(packet[4:], self.replied[1])

    def reply_came(self, message, opcode):
        slot = message_header(message).csi
        self.run.note(f"slot {slot}: the reply to {primitive_name(opcode)} gathered")
        if opcode == REPLAY and message[4:8:2] == b"\0\1":          # status 00h, CPSR 1
            self.told[slot] = self.run.endpoint.counts[slot]

    def has_come(self, trip, answer, line):
        """Whether the requester has gathered the message whose last packet it was given."""
        message = trip.message
        whole = line == f"{answer} {len(message)}" and self.run.requester.store[:len(message)] == message
        self.judge("requester", trip, whole, line)
        return whole

    def exchanged(self, slot, trip):
        """A response has come; the command that it answers may have been cut by the requester."""
        ticket = self.tickets[slot]
        when = ONCE_MORE if self.came[slot] == (ticket, trip.message) else FIRST
        count = trip.count
        if trip.replayed:
            self.run.note(f"slot {slot}: a replay of {count} packets gathered")
            self.run.note(f"U {trip.unit}: a replay of {SEVERAL} gathered", count != 1)
            self.run.note(f"slot {slot}: a response gathered {when}, by its replay")
        if self.entered[slot] is None or self.entered[slot][0] != ticket:
            return
        _, sent, waited = self.entered[slot]
        self.run.note(f"slot {slot}: an exchange with a replay, its response gathered {when}",
                      trip.replayed and self.told[slot] == ticket)
        self.run.note(f"U {trip.unit}: an exchange of {SEVERAL} both ways", 1 not in (count, sent))
        for which in (f"slot {slot}", f"U {trip.unit}"):
            self.run.note(f"{which}: an exchange of {count} packets both ways", count == sent)
        self.run.note(f"slot {slot}: an error of entry gathered, {entry_ground(trip.message)}", not waited)
