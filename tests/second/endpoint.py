"""The two-slot endpoint: what a slot holds, and the calls.

    answer, endpoint = Endpoint.setup(eid, unit)          answer 0, 38 or 39
    endpoint.receive(packet), .timeout(slot), .reset()    -> answer
    endpoint.take(slot)                    -> (0, Ticket) or (refusal, None)
    endpoint.read(slot)                    -> memoryview of the slot's store, may be empty
    endpoint.complete(slot, Ticket, body)  -> answer
    endpoint.declare(slot, Ticket, stoppable)             -> answer
    endpoint.poll(buffer_length)           -> (answer, packet); empty unless the answer is 1

To look at it, changing nothing:

    .state(slot)       'Idle', 'Receive', 'Process untaken', 'Process taken' (it can't be stopped),
                       'Process stoppable' (taken, and it can), 'Process answered' (its response
                       is there) or 'Transmit'
    .held(slot)        ((source, tag), length) of the response that an Idle slot still holds, else None
    .flags_word(slot)  the CPSR that Get State would report for the slot
    .eid, .unit        its EID and U
    .stores            the two lent stores, bytearrays; assign others to lend others
    .paused            bits 0 and 1: pause flags of slots 0 and 1
    .flags             bits 4 to 12 and 14; bit 3 is slot 0's, bit 19 is slot 1's bit 3
    .counts            the two ticket counts
    .jobs              what each slot holds (an Idle one: its last response, or nothing),
                       another object whenever that changes
    .gathering         (source, tag) -> slot in Receive
    .reply             the waiting control reply ((source, tag), 12 bytes), or None
    .last_began        the slot whose response last began, or None
    .turn              the slot that goes first when no response is begun
    .last_was_control  whether the last packet handed out was a control reply
"""
from collections import namedtuple

from second.wire import (ABORT, CONTROL, LEAST, LONGEST_MESSAGE, PAUSE, REPLAY, RESUME, control_request,
                         error, is_sealed, longest_packet, message_header, packet_fields, packet_of,
                         response, setup_values, success)

STORE = LONGEST_MESSAGE     # "Each slot has a store of 4,224 bytes"

# "A ticket is a kind of number of its own, never mixed with a slot number."
Ticket = namedtuple("Ticket", "number")


# What a slot holds. `who` is the requester: (source, tag). An assembly is known by it, and the
# response goes back to it.

def requester(fields):
    return fields.source, fields.tag

# A response that was sent whole: `length` bytes, still at the front of the slot's store.
Held = namedtuple("Held", "who length")

Idle = namedtuple("Idle", "held")                                   # held: a Held, or None
Receive = namedtuple("Receive", "who header sequence length")       # length: bytes gathered so far
Process = namedtuple("Process", "who header length taken stoppable")    # length: the request's
Answered = namedtuple("Answered", "who length response")            # the request's length, the response's
Transmit = namedtuple("Transmit", "who length sent")                # the response's length, packets sent

IDLE = Idle(None)

# "CPSR bits 1:0 state (Idle 0, Receive 1, Process 2, Transmit 3)"
STATE_BITS = {Idle: 0, Receive: 1, Process: 2, Answered: 2, Transmit: 3}

# "CPSR: Idle 0, Receive 1, Process untaken 1, Process taken 2, Process with its response there 0,
# Transmit 0."; "Abort of a taken command reports 1 or 2 accordingly": 1 while it "can still be stopped"
ABORT_CPSR = {"Idle": 0, "Receive": 1, "Process untaken": 1, "Process stoppable": 1, "Process taken": 2,
              "Process answered": 0, "Transmit": 0}

SLOT_BIT = (3, 19)                      # where `flags` keeps bit 3 of slots 0 and 1
ENDPOINT_BITS = 0x5FF0                  # bits 4 to 12 and 14
RESET_SEEN = 1 << 14


# Messages that are answered with an error: the body, or None where no test applies

def command_error(header, length):
    # "NMIMT not 1, 2 or 4: status 04h at byte 1 bit 3; MEB 1: 04h at byte 2 bit 0; shorter than 20 (MI),
    # 72 (Admin) or 24 (PCIe): 05h"
    if header.nmimt not in LEAST:
        return error(0x04, byte=1, bit=3)
    if header.meb:
        return error(0x04, byte=2, bit=0)
    if length < LEAST[header.nmimt]:
        return error(0x05)
    return None

def control_error(header, request):
    # "First MEB 1 (04h, byte 2 bit 0), then CIAP 1 (04h, byte 2 bit 1), then opcode above 3 (03h);
    # none of these acts. These error replies carry no TAG."
    # "Opcode 4 becomes known", so the opcode is tested for "above 4".
    if header.meb:
        return error(0x04, byte=2, bit=0)
    if header.ciap:
        return error(0x04, byte=2, bit=1)
    if request.opcode > 4:
        return error(0x03)
    # "Only CPSP 0 is taken; any other gets 04h at byte 6 bit 0."
    if request.opcode == REPLAY and request.cpsp != 0:
        return error(0x04, byte=6, bit=0)
    return None


class Endpoint:
    """ "The endpoint has two slots, kept side by side and chosen by number." """

    def __init__(self, eid, unit):
        # "all zero but the EID, slot 0's turn, last packet counted as not control"; U is kept as the EID is
        self.eid, self.unit = eid, unit
        self.jobs, self.counts = [IDLE, IDLE], [0, 0]
        self.paused = self.flags = 0
        self.reply = None
        self.last_began = None
        self.last_was_control = False
        self.stores = [bytearray(STORE), bytearray(STORE)]

    @classmethod
    def setup(cls, eid, unit):
        answer, eid, unit = setup_values(eid, unit)
        return answer, cls(eid, unit)

    # Looking, changing nothing

    def state(self, slot):
        job = self.jobs[slot]
        if isinstance(job, Process):
            if not job.taken:
                return "Process untaken"
            return "Process stoppable" if job.stoppable else "Process taken"
        if isinstance(job, Answered):
            return "Process answered"
        return type(job).__name__

    def held(self, slot):
        job = self.jobs[slot]
        return job.held if isinstance(job, Idle) else None

    def flags_word(self, slot):
        # "CPSR bits 1:0 state [..], bit 3 the slot's flag above, bits 4 to 12 the endpoint's,
        # 2 and 13 zero, 14 reset seen, 15 the slot's pause flag."
        return (STATE_BITS[type(self.jobs[slot])]
                | (self.flags >> SLOT_BIT[slot] & 1) << 3
                | self.flags & ENDPOINT_BITS
                | (self.paused >> slot & 1) << 15)

    @property
    def gathering(self):
        return {job.who: slot for slot, job in enumerate(self.jobs) if isinstance(job, Receive)}

    @property
    def turn(self):
        # "with none begun, the slot other than the one that last began goes first if in Transmit
        # (after setup or reset, slot 0)"
        return 1 if self.last_began == 0 else 0

    # Steps that several calls share

    def stores_fit(self):
        return len(self.stores[0]) == STORE and len(self.stores[1]) == STORE

    def assembly(self, who):
        """The slot that is in Receive with this source and tag, or None."""
        for slot, job in enumerate(self.jobs):
            if isinstance(job, Receive) and job.who == who:
                return slot
        return None

    def go_idle(self, slot, idle=IDLE):
        # "Any slot entering Idle loses its pause flag."
        self.jobs[slot] = idle
        self.paused &= ~(1 << slot)

    def refuse(self, number, bit=None):
        """The number of a refusal, after its flag bit, if it has one, was set."""
        if bit is not None:
            self.flags |= 1 << bit
        return number

    def pause(self):
        # "sets the flag of each slot that is not Idle"
        for slot in (0, 1):
            if not isinstance(self.jobs[slot], Idle):
                self.paused |= 1 << slot

    def settle(self, slot):
        # "A slot in Process with its response there and its own flag clear goes to Transmit at once,
        # within the same call."
        job = self.jobs[slot]
        if isinstance(job, Answered) and not self.paused >> slot & 1:
            self.jobs[slot] = Transmit(job.who, job.response, 0)

    def respond(self, slot, body):
        # "the response later overwrites that front; nothing else is written"
        job = self.jobs[slot]
        message = response(job.header.nmimt, slot, body)
        self.stores[slot][:len(message)] = message
        self.jobs[slot] = Answered(job.who, job.length, len(message))
        self.settle(slot)

    # Receiving

    def receive(self, packet):
        # "lent one of another length, they answer 40 before any other test and change nothing"
        if not self.stores_fit():
            return 40
        n = len(packet)                                     # "n is its whole length."
        if n < 5:
            return self.refuse(10)
        if n > longest_packet(self.unit):                   # "n above 68"
            return self.refuse(11, 6)
        fields, payload = packet_fields(packet), bytes(packet[4:])
        if fields.version != 1:
            return self.refuse(12, 7)
        if fields.destination != self.eid:
            return self.refuse(13, 8)
        if fields.to == 0:
            return self.refuse(14, 12)
        if fields.som:
            return self.first_packet(fields, payload)
        return self.later_packet(fields, payload)

    def first_packet(self, fields, payload):
        # "if SOM is 1, an assembly with this source and tag in either slot ends first (slot to Idle),
        # even if the packet is refused below"
        ended = self.assembly(requester(fields))
        if ended is not None:
            self.go_idle(ended)
        if payload[0] != 0x84:
            return self.refuse(15)
        if not fields.eom and len(payload) != self.unit:    # "EOM 0, payload not 64"
            return self.refuse(16, 9)
        if fields.eom and len(payload) < 8:
            return self.refuse(17)
        header = message_header(payload)
        if header.ror:
            return self.refuse(15)
        if header.nmimt == CONTROL:
            return self.control_packet(fields, header, payload)
        slot = header.csi
        if not isinstance(self.jobs[slot], Idle):
            return self.refuse(20, SLOT_BIT[slot])          # "3, that slot's"
        # "A first packet may carry any sequence."
        return self.gather(slot, fields, header, 0, payload)

    def control_packet(self, fields, header, payload):
        if not fields.eom or len(payload) != 12:
            return self.refuse(18)
        if not is_sealed(payload):
            return self.refuse(19, 4)
        self.control(requester(fields), header, payload)
        return 2                                            # "2 control done (also with an error reply)"

    def later_packet(self, fields, payload):
        slot = self.assembly(requester(fields))
        if slot is None:
            return self.refuse(21, 10)
        job = self.jobs[slot]
        for number, bit, applies in ((22, 11, fields.sequence != (job.sequence + 1) % 4),
                                     (16, 9, not fields.eom and len(payload) != self.unit),
                                     (23, None, job.length + len(payload) > LONGEST_MESSAGE)):
            if applies:
                self.go_idle(slot)                          # "For the next three the slot also goes to Idle"
                return self.refuse(number, bit)
        return self.gather(slot, fields, job.header, job.length, payload)

    def gather(self, slot, fields, header, before, payload):
        """Take the payload of a command's packet, `before` bytes being there already."""
        # "A request is gathered at its front"; "a command refused with 19 leaves its payload stored"
        # "The held response is lost once a command packet is stored for the slot (refused with 19 or not)":
        # no state that the slot enters below keeps it.
        length = before + len(payload)
        self.stores[slot][before:length] = payload
        if not fields.eom:
            self.jobs[slot] = Receive(requester(fields), header, fields.sequence, length)
            return 0                                        # "0 more to come"
        # "With EOM a command is checked whole: wrong, 19 (bit 4) and Idle; right, the slot enters Process."
        if not is_sealed(self.stores[slot][:length]):
            self.go_idle(slot)
            return self.refuse(19, 4)
        self.enter_process(slot, requester(fields), header, length)
        return 1                                            # "1 command complete"

    def enter_process(self, slot, who, header, length):
        # "The slot's ticket count rises by one; the ticket count goes from 4,294,967,295 to 0 when it wraps."
        self.counts[slot] = (self.counts[slot] + 1) % (1 << 32)
        self.jobs[slot] = Process(who, header, length, taken=False, stoppable=False)
        # "With CIAP 1, Pause then acts (without a reply)."
        if header.ciap:
            self.pause()
        # "Next, the first that applies becomes the response at once"
        body = command_error(header, length)
        if body is not None:
            self.respond(slot, body)

    # Control primitives

    def control(self, who, header, message):
        # "One control reply of 12 bytes waits in the state; a newer one replaces it.
        # Its CSI is the request's."
        request = control_request(message)
        body = control_error(header, request)
        if body is None:
            body = success(request.tag, self.act(request.opcode, header.csi, request.cpsp))
        self.reply = (who, response(CONTROL, header.csi, body))

    def act(self, opcode, slot, cpsp):
        """Let a control primitive act; its CPSR."""
        if opcode == PAUSE:
            # "CPSR bits 0 and 1: flags of slots 0 and 1 afterwards."
            self.pause()
            return self.paused
        if opcode == RESUME:
            # "clears both flags; CPSR 0"
            self.paused = 0
            self.settle(0)
            self.settle(1)
            return 0
        if opcode == ABORT:
            # "its slot goes to Idle"; "The held response is lost [..] at its Abort"
            cpsr = ABORT_CPSR[self.state(slot)]
            self.go_idle(slot)
            return cpsr
        if opcode == REPLAY:
            return self.replay(slot)
        return self.get_state(slot, cpsp)

    def replay(self, slot):
        # "If the slot is Idle and still holds its last response, it goes to Transmit and sends it again under
        # the same tag to the same requester, CPSR 1; otherwise CPSR 0 and nothing happens."
        # "The slot's ticket doesn't change."
        held = self.held(slot)
        if held is None:
            return 0
        self.jobs[slot] = Transmit(held.who, held.length, 0)
        return 1

    def get_state(self, slot, cpsp):
        cpsr = self.flags_word(slot)
        # "CPSP bit 0 set: after reporting, bits 4 to 14 and this slot's bit 3 are cleared."
        if cpsp & 1:
            self.flags &= ~(ENDPOINT_BITS | 1 << SLOT_BIT[slot])
        return cpsr

    # Taking and finishing

    def take(self, slot):
        if slot > 1:
            return 30, None
        job = self.jobs[slot]
        if not isinstance(job, Process):                    # "not in Process, or its response is there"
            return 31, None
        if job.taken:
            return 33, None
        self.jobs[slot] = job._replace(taken=True, stoppable=False)     # "Taking starts at "can't"."
        return 0, Ticket(self.counts[slot])

    def read(self, slot):
        """The request that was taken, "as a part of the slot's store, check included, with no copy"."""
        # "it gives an empty part if the slot is above 1, a store has another length,
        # or no taken command there awaits completion"
        if slot > 1 or not self.stores_fit():
            return memoryview(b"")
        job = self.jobs[slot]
        if not isinstance(job, Process) or not job.taken:
            return memoryview(b"")
        return memoryview(self.stores[slot])[:job.length].toreadonly()

    def taken_refusal(self, slot, ticket):
        """The refusal of a call on the taken command that the ticket is for, or None if it is there."""
        # "Completing: 30; 31; 32 ticket not the slot's present one; 34 not taken", and for declaring
        # "refusals in order 30, 31, 32, 34"
        if slot > 1:
            return 30
        job = self.jobs[slot]
        if not isinstance(job, Process):                    # "not in Process, or its response is there"
            return 31
        if ticket != Ticket(self.counts[slot]):
            return 32
        if not job.taken:
            return 34
        return None

    def complete(self, slot, ticket, body):
        if not self.stores_fit():
            return 40
        refusal = self.taken_refusal(slot, ticket)
        if refusal is not None:
            return refusal
        if not 4 <= len(body) <= 4216:
            return 35
        self.respond(slot, body)                            # "The body runs from byte 4 (status)."
        return 0

    def declare(self, slot, ticket, stoppable):
        """ "declare, with slot and ticket, that the taken command can still be stopped, or no longer can" """
        # "refusals in order 30, 31, 32, 34, else 0": no store is lent, so there is no 40
        refusal = self.taken_refusal(slot, ticket)
        if refusal is not None:
            return refusal
        self.jobs[slot] = self.jobs[slot]._replace(stoppable=stoppable)
        return 0

    def timeout(self, slot):
        if slot > 1:
            return 30
        # "37 slot not in Receive or its flag is set; else Idle, bit 5, answer 0"
        if not isinstance(self.jobs[slot], Receive) or self.paused >> slot & 1:
            return 37
        self.go_idle(slot)
        self.flags |= 1 << 5
        return 0

    def reset(self):
        # "both slots Idle, bits 3 to 12 cleared, control reply gone, bit 14 set, slot 0's turn,
        # last packet counted as not control, ticket counts kept; answer 0"; the EID and U stay
        # "The held response is lost [..] at reset"
        self.go_idle(0)
        self.go_idle(1)
        self.flags = RESET_SEEN
        self.reply = None
        self.last_began = None
        self.last_was_control = False
        return 0

    # Polling

    def poll(self, buffer_length):
        if not self.stores_fit():
            return 40, b""
        if buffer_length < longest_packet(self.unit):       # "36: buffer below 68 bytes"
            return 36, b""
        slot = self.ready()
        # "If a control reply waits and either the last packet handed out was not control or
        # no command packet is ready, it goes."
        if self.reply is not None and (not self.last_was_control or slot is None):
            self.last_was_control = True
            return 1, self.control_reply()
        # "Otherwise a ready command packet goes, else answer 0."
        if slot is None:
            return 0, b""
        self.last_was_control = False
        return 1, self.command_packet(slot)

    def ready(self):
        """The slot whose command packet is ready, or None."""
        # "A command packet is ready if a slot is in Transmit and neither pause flag is set."
        if self.paused:
            return None
        sending = [slot for slot in (0, 1) if isinstance(self.jobs[slot], Transmit)]
        # "A begun response goes on to its end"
        for slot in sending:
            if self.jobs[slot].sent:
                return slot
        if self.turn in sending:
            return self.turn
        return sending[0] if sending else None

    def control_reply(self):
        who, message = self.reply
        self.reply = None
        packet, _ = self.packet(who, message, 0)
        return packet

    def command_packet(self, slot):
        job = self.jobs[slot]
        packet, last = self.packet(job.who, self.stores[slot][:job.length], job.sent)
        if job.sent == 0:
            self.last_began = slot
        if last:
            # "After its last packet a slot is Idle", and it "still holds its last response".
            self.go_idle(slot, Idle(Held(job.who, job.length)))
        else:
            self.jobs[slot] = job._replace(sent=job.sent + 1)
        return packet

    def packet(self, who, message, number):
        # "source ours, destination the requester, TO 0, the request's tag"
        destination, tag = who
        return packet_of(message, self.unit, number, destination, self.eid, 0, tag)
