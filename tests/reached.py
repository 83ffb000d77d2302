"""What logs reach.

GOALS is every line that a right set of logs has to reach; what a log can never show is left out: 34 (the
ticket last taken is never that of an untaken command, short of 2^32 commands), 36, 38, 39 and 40 (buffer,
EID, unit and stores are the log program's own).
"""
import reached_replay
import runs
from grounds import control_answer, control_grounds, ground_goals
from reached_replay import Replays
from runs import ENTRY_GROUNDS, PRIMITIVES, STATES, Run, entry_ground, has_begun, in_transmit, is_paused
from second.endpoint import STORE, Process
from second.log import COMPLETE, LENGTHS, PACKET, POLL, RESET, TAKE, TIMEOUT, Log, records
from second.wire import (ABORT, CRC_TABLE, GET_STATE, PAUSE, RESUME, control_request, message_header,
                         packet_fields)
from units import BASE_UNIT

ANSWERS = {"receive": (0, 1, 2, *range(10, 24)), "poll": (0, 1), "timeout": (0, 30, 37),
           "take": (0, 30, 31, 33), "complete": (0, 30, 31, 32, 35), "reset": (0,)}
SIZES = (3, 4, 56, 57, 4216, 4217)
FLAG_BITS = (3, *range(4, 13), 14)
PAUSE_BIT = 15
ALL_ENTRIES = "all 256 entries of the check's table for {}"
FAULTS = ("an unknown tag", "a wrong length", "a length over 4,300", "a cut record")

# The goals

def call_goals():
    for call, answers in ANSWERS.items():
        yield from (f"{call} answers {answer}" for answer in answers)
    for first in STATES:
        yield from (f"slots {first} and {second}" for second in STATES)

def state_goals(slot, state):
    yield from (f"slot {slot}: {primitive} in {state}" for primitive in PRIMITIVES.values())
    yield f"slot {slot}: reset in {state}"
    yield f"slot {slot}: CIAP of the other slot's command in {state}"
    if state != "Idle":               # an Idle slot has no pause flag
        yield f"slot {slot}: paused in {state}"
        yield f"slot {slot}: resumed from a pause in {state}"
        yield f"slot {slot}: aborted while paused in {state}"

def slot_goals(slot):
    yield from (f"slot {slot}: Get State's reply shows bit {bit}" for bit in (*FLAG_BITS, PAUSE_BIT))
    yield from (f"slot {slot}: bit {bit} cleared by Get State" for bit in FLAG_BITS)
    yield f"slot {slot}: 66-packet request received"
    yield f"slot {slot}: 66-packet response sent"
    yield f"slot {slot} begins while the other is in Transmit too"
    for state in STATES:
        yield from state_goals(slot, state)
    for ground in ENTRY_GROUNDS:
        yield from (f"slot {slot}: answered at once for {ground}, CIAP {ciap}" for ciap in (0, 1))
    yield from (f"slot {slot}: complete with {size} bytes" for size in SIZES)
    yield f"slot {slot}: completed while paused"
    yield f"slot {slot}: timeout refused because of the pause flag"
    yield f"slot {slot}: stale ticket, 31"
    yield f"slot {slot}: stale ticket, 32"
    yield f"slot {slot}: a started response aborted"
    for answer in (0, 1, 2, 15, 16, 17, 18, 19, 20):
        yield f"slot {slot}: assembly ended by a new start that answers {answer}"

def endpoint_goals():
    yield from ground_goals("control")
    yield "control reply replaced by a newer one"
    yield "control reply between two packets of a response"
    yield "command packet between two control replies"
    yield "control reply while a pause flag is set"
    yield "nothing sent because of a pause flag"
    yield "only the other slot's pause flag stops a response"
    yield "one assembly moved to the other slot"
    yield "19 for a control primitive"
    yield "19 for a command of one packet"
    yield "19 for a command of several packets"
    yield "16 for a packet that is not the first"
    yield "15 for ROR"
    yield "a first packet with each sequence number"
    yield from (ALL_ENTRIES.format(message) for message in ("a request", "a response"))
    yield from (f"bad for {fault}" for fault in FAULTS)

GOALS = (*call_goals(), *slot_goals(0), *slot_goals(1), *endpoint_goals(), *reached_replay.GOALS)

# What a log reaches

def entries_of(data):
    """The entries of the check's table, by number, that the check of these bytes looks up."""
    register, entries = 0xFFFFFFFF, set()
    for byte in data:
        entry = (register ^ byte) & 0xFF
        entries.add(entry)
        register = register >> 8 ^ CRC_TABLE[entry]
    return entries

class LogRun(Run):
    """One log under way."""

    def __init__(self):
        super().__init__(Log(), {PACKET: self.received, POLL: self.polled, TIMEOUT: self.timed_out,
                                 TAKE: self.taken, COMPLETE: self.completed, RESET: self.was_reset})
        self.shown = None             # (slot, word) of a Get State whose reply waits
        self.last_kind = None         # kind of the last packet handed out
        self.first_sequences = set()
        self.replays = Replays(self)

    def record(self, tag, body):
        super().record(tag, body)
        states = self.endpoint.state(0), self.endpoint.state(1)
        self.note("slots {} and {}".format(*states))
        for slot in (0, 1):
            self.note(f"slot {slot}: paused in {states[slot]}", is_paused(self.endpoint, slot))

    def fault_of(self, rest):
        """Why the first record of these bytes prints `bad`."""
        if rest[0] not in LENGTHS:
            return "an unknown tag"
        if len(rest) < 3:
            return "a cut record"
        length = int.from_bytes(rest[1:3], "little")
        if length > 4300:
            return "a length over 4,300"
        least, greatest = LENGTHS[rest[0]]
        return "a cut record" if least <= length <= greatest else "a wrong length"

    # Receiving

    def received(self, before, packet, line):
        answer = int(line)
        self.note(f"receive answers {answer}")
        self.replays.received(before, packet, answer)
        if answer in range(10, 15):
            return
        fields, payload = packet_fields(packet), packet[4:]
        if fields.som:
            self.first_received(before, fields, payload, answer)
        else:
            self.later_received(before, fields, answer)

    def first_received(self, before, fields, payload, answer):
        header = message_header(payload) if len(payload) > 2 else None
        self.assembly_ended(before, fields, header, answer)
        if answer == 0:
            self.first_sequences.add(fields.sequence)
            self.note("a first packet with each sequence number", len(self.first_sequences) == 4)
        self.note("15 for ROR", answer == 15 and payload[0] == 0x84)
        if answer == 19:
            self.note(f"19 for {'a command of one packet' if header.nmimt else 'a control primitive'}")
        if answer == 2:
            self.controlled(before, header, payload)
        if answer == 1:
            self.entered(before, header)

    def assembly_ended(self, before, fields, header, answer):
        """An assembly under the same source and tag has ended before the packet did anything else, so
        the endpoint before the packet is seen without it."""
        slot = before.gathering.get((fields.source, fields.tag))
        if slot is not None:
            before.go_idle(slot)
            self.note(f"slot {slot}: assembly ended by a new start that answers {answer}")
            self.note("one assembly moved to the other slot", answer == 0 and header.csi != slot)

    def later_received(self, before, fields, answer):
        self.note("16 for a packet that is not the first", answer == 16)
        self.note("19 for a command of several packets", answer == 19)
        if answer == 1:
            slot = before.gathering[fields.source, fields.tag]
            self.entered(before, before.jobs[slot].header)

    def entered(self, before, header):
        """A command has just entered Process."""
        slot, other = header.csi, 1 - header.csi
        job = self.endpoint.jobs[slot]
        if isinstance(job, Process):
            self.note(f"slot {slot}: 66-packet request received", job.length > STORE - BASE_UNIT)
            self.checked("a request", slot, job.length - 4)
        else:                             # answered at once: the response tells the ground
            ground = entry_ground(self.endpoint.stores[slot])
            self.note(f"slot {slot}: answered at once for {ground}, CIAP {header.ciap}")
        self.note(f"slot {other}: CIAP of the other slot's command in {before.state(other)}", header.ciap)

    def checked(self, message, slot, length):
        """The check of so many bytes of the slot's store was computed. Only long messages are looked at: a
        short one has fewer bytes than the table has entries, and looking takes as long as the check."""
        goal = ALL_ENTRIES.format(message)
        if length > STORE - BASE_UNIT - 4 and goal not in self.reached:
            self.note(goal, len(entries_of(self.endpoint.stores[slot][:length])) == 256)

    # Control primitives

    def controlled(self, before, header, message):
        self.note("control reply replaced by a newer one", before.reply is not None)
        self.shown = None
        grounds, request = control_grounds(message), control_request(message)
        self.answered("control", grounds, control_answer(self.endpoint.reply[1]))
        if grounds:
            return
        for slot in (0, 1) if request.opcode in (PAUSE, RESUME) else (header.csi,):
            self.acted(before, slot, request.opcode)
        if request.opcode == GET_STATE:
            self.state_told(before, header.csi, request)

    def acted(self, before, slot, opcode):
        state, paused = before.state(slot), is_paused(before, slot)
        self.note(f"slot {slot}: {PRIMITIVES[opcode]} in {state}")
        self.note(f"slot {slot}: resumed from a pause in {state}", opcode == RESUME and paused)
        self.note(f"slot {slot}: aborted while paused in {state}", opcode == ABORT and paused)
        self.note(f"slot {slot}: a started response aborted", opcode == ABORT and has_begun(before, slot))

    def state_told(self, before, slot, request):
        word = before.flags_word(slot)
        self.shown = slot, word
        for bit in FLAG_BITS:
            self.note(f"slot {slot}: bit {bit} cleared by Get State", request.cpsp & 1 and word >> bit & 1)

    # Polling

    def polled(self, before, _, line):
        answer, _, handed_out = line.partition(" ")
        packet = bytes.fromhex(handed_out)
        self.note(f"poll answers {answer}")
        self.replays.polled(before, answer, packet)
        if answer == "0":
            self.nothing_sent(before)
        elif self.endpoint.reply is not before.reply:
            self.reply_sent(before)
        else:
            self.command_packet_sent(before, packet_fields(packet))

    def nothing_sent(self, before):
        sending = in_transmit(before)
        self.note("nothing sent because of a pause flag", before.paused and sending)
        self.note("only the other slot's pause flag stops a response",
                  any(before.paused == 2 >> slot for slot in sending))

    def reply_sent(self, before):
        begun = has_begun(before, 0) or has_begun(before, 1)
        self.note("control reply between two packets of a response", begun and not before.paused)
        self.note("control reply while a pause flag is set", before.paused)
        if self.shown:
            slot, word = self.shown
            for bit in (*FLAG_BITS, PAUSE_BIT):
                self.note(f"slot {slot}: Get State's reply shows bit {bit}", word >> bit & 1)
        self.shown = None
        self.last_kind = "control"

    def command_packet_sent(self, before, fields):
        slot = next(i for i in (0, 1) if self.endpoint.jobs[i] is not before.jobs[i])
        self.note(f"slot {slot} begins while the other is in Transmit too",
                  fields.som and len(in_transmit(before)) == 2)
        self.note(f"slot {slot}: 66-packet response sent", fields.eom and before.jobs[slot].sent == 65)
        self.note("command packet between two control replies",
                  self.last_kind == "control" and self.endpoint.reply is not None)
        self.last_kind = "command"

    # Taking and finishing

    def timed_out(self, before, body, line):
        slot = body[0]
        self.note(f"timeout answers {line}")
        self.replays.called(before, f"timeout {line}", slot)
        self.note(f"slot {slot}: timeout refused because of the pause flag",
                  is_paused(before, slot) and before.state(slot) == "Receive")

    def taken(self, before, body, line):
        self.note(f"take answers {line}")
        self.replays.taken(before, body[0], line)

    def completed(self, before, body, line):
        slot, size = body[0], len(body) - 1
        self.note(f"complete answers {line}")
        self.replays.called(before, f"complete {line}", slot)
        self.note(f"slot {slot}: complete with {size} bytes", line in ("0", "35") and size in SIZES)
        self.note(f"slot {slot}: completed while paused", line == "0" and is_paused(before, slot))
        if line == "0":
            self.checked("a response", slot, size + 4)
        self.note(f"slot {slot}: stale ticket, {line}",
                  line in ("31", "32") and slot in self.program.taken)

    def was_reset(self, before, _body, line):
        self.note(f"reset answers {line}")
        self.replays.called(before, "reset")
        for slot in (0, 1):
            self.note(f"slot {slot}: reset in {before.state(slot)}")
        self.shown = None

def replay(log):
    """The Run of a whole log."""
    return runs.replay(LogRun(), records, log)
