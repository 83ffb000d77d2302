"""What scripts for the calls program reach of the requester, and of exchanges between both ends.

GOALS is every line that a right set of scripts has to reach, but for the pairs of grounds, which stand in
`grounds.BEHIND` for the calls of both ends.
"""
import copy

from call_records import REQUESTER_TAGS, room
from exchanges import OPCODES, Exchanges, exchange_goals
from grounds import (HEADER, STORES, await_grounds, cut_grounds, gather_grounds, primitive_grounds,
                     setup_grounds)
from runs import EIDS, FAR_SLOTS, HIGH_PARTS, Run, answer_of, packet_kind
from second.calls import (CUT, LENGTH, MEMORY, PRIMITIVE, REQUESTER_AWAIT, REQUESTER_CUT, REQUESTER_LOOK,
                          REQUESTER_PRIMITIVE, REQUESTER_RECEIVE, REQUESTER_SETUP, REQUESTER_STORE, RESET,
                          SETUP, Calls, RequesterCalls, setup_arguments)
from second.endpoint import STORE
from second.wire import packet_fields
from units import length_of

ANSWERS = {"gather": (0, 1, 2, *range(10, 24), 40), "await": (0, 41), "cut": (0, 36, 41),
           "primitive": (0, 30, 36, 41), "requester setup": (0, 38, 39), "requester store": (0,)}
IDLE, AWAITED, GATHERING = STATES = ("nothing awaited", "awaited", "gathering")

TAGS = {0: 0, 7: 0, 8: 41, 255: 41}
SLOTS = {0: 0, 1: 0, **{slot: 30 for slot in FAR_SLOTS},
         **{part + slot: 30 for part in HIGH_PARTS for slot in (0, 1)}}
SIZES = {0: 41, 7: 41, 8: 0, "U - 1": 0, "U": 0, "U + 1": 0, "2 U": 0, "all but the last packet's": 0,
         "one of the last packet's": 0, 4223: 0, 4224: 0, 4225: 41, 8188: 41}
EXACT = (8, "U", "U + 1", "2 U", 4224)          # sizes whose buffers are a byte too short, right or too long
BUFFERS = {0: 36, 15: 36, 16: 0, 17: 0, 65535: 0}               # of a primitive
LENT = (0, STORE - 1, STORE + 1, MEMORY)
RESPONSES = (8, 12, "U", "U + 1", "2 U", 4224)  # sizes

# What is not compared: of a message that was gathered, whether it is not as usual
IGNORED = {"CSI 1": lambda message: message[1] & 1, "MEB 1": lambda message: message[2] & 1,
           "CIAP 1": lambda message: message[2] & 2,
           "reserved bits": lambda message: message[1] & 6 or message[2] & 0xFC or message[3]}

# What a packet is answered with, or the ground on which it is refused
TAKEN_IN = ("0", "1", "2")
BAD_STARTS = ("15 type", "16 first", "17", "15 ROR", "18", "19 reply")
STRANGE = (STORES, *HEADER, *BAD_STARTS, "20 reply", "20 response", "21")       # of no assembly
REFUSED_STARTS = (*BAD_STARTS, "19 one packet")                 # under the awaited source and tag
ENDS = ("22", "16 later", "23", "19 whole")                     # a later packet that ends its assembly
MET = {IDLE: STRANGE, AWAITED: (*TAKEN_IN, *STRANGE, "19 one packet"),
       GATHERING: (*TAKEN_IN, *STRANGE, "19 one packet", *ENDS)}
# What can happen in an assembly that then goes on
PASSING = (*STRANGE, "await 41", "cut 0", "cut 36", "cut 41", "primitive 0", "primitive 30", "primitive 36",
           "primitive 41", "the endpoint's setup", "the endpoint's reset")

# The goals

def call_goals():
    for call, answers in ANSWERS.items():
        yield from (f"{call} answers {answer}" for answer in answers)
        if call != "gather":
            yield from (f"{call} {answer}, {state}" for answer in answers for state in STATES)
    for state, found in MET.items():
        yield from (f"gather: {what}, {state}" for what in found)
    yield from (f"gather: 40 alone, for {what}"
                for what in ("a control reply", "a first packet", "a later packet"))

def assembly_goals():
    yield from (f"gather: an assembly ended by a start, {what}" for what in (*TAKEN_IN, *REFUSED_STARTS))
    yield from (f"gather: an assembly ended by a later packet, {what}" for what in ENDS)
    yield from (f"gather: a start taken in after {what}, not awaited anew"
                for what in (*REFUSED_STARTS, *ENDS))
    yield from (f"gather: an assembly goes on after {what}" for what in PASSING)
    yield from (f"await 0 in an assembly, of {whose}"
                for whose in ("the same", "another source", "another tag"))
    yield from (f"a first packet of sequence {sequence} gathered" for sequence in range(4))
    yield from (f"a response of {size} bytes gathered" for size in RESPONSES)
    yield from (f"gather answers {answer} to {ignored}"
                for answer in (1, 2) for ignored in (*IGNORED, "a version's high bits"))

def argument_goals():
    yield from (f"{call} with tag {tag} answers {answer}"
                for call in ("await", "cut", "primitive") for tag, answer in TAGS.items())
    yield from (f"{call} with EID {eid}" for call in ("await", "cut", "primitive") for eid in (0, 255))
    yield from (f"requester setup with EID {eid} answers {answer}" for eid, answer in EIDS.items())
    yield from (f"cut of {size} bytes answers {answer}" for size, answer in SIZES.items())
    for size in EXACT:
        yield f"cut of {size} bytes, 1 too few in the buffer"
        yield from (f"cut of {size} bytes, {more} to spare in the buffer" for more in (0, 1))
    yield from (f"primitive for slot {slot} answers {answer}" for slot, answer in SLOTS.items())
    yield from (f"primitive with {length} bytes answers {answer}" for length, answer in BUFFERS.items())
    yield from (f"primitive of opcode {opcode}" for opcode in OPCODES)
    yield "a packet for EID 8 while the requester's is another"

def store_goals():
    yield from (f"requester store of {length} lent" for length in (*LENT, STORE))
    yield from (f"gather: 40 with a store of {length}" for length in LENT)
    yield from (f"{call} with a store of another length"
                for call in ("requester setup 0", "requester setup 38", "requester setup 39", "await 0",
                             "cut 0", "primitive 0"))
    yield "look: the requester's store of another length"
    yield from (f"look: requester, {state}" for state in STATES)

GOALS = (*call_goals(), *assembly_goals(), *argument_goals(), *store_goals(), *exchange_goals())

# What a script reaches

def state_of(requester):
    if requester.assembly is not None:
        return GATHERING
    return IDLE if requester.awaited is None else AWAITED

class BothEnds(Calls):
    """The calls program, with the requester's part in sight."""

    def __init__(self):
        super().__init__()
        self.controller = RequesterCalls()
        self.calls.update(self.controller.calls)

class RequesterRun(Run):
    """The requester's part of a script under way. `notes` are those of the endpoint's records."""

    def __init__(self, notes):
        super().__init__(BothEnds(), {
            **notes, REQUESTER_SETUP: self.requester_set_up, REQUESTER_STORE: self.store_lent,
            REQUESTER_AWAIT: self.awaited, REQUESTER_CUT: self.was_cut, REQUESTER_PRIMITIVE: self.was_built,
            REQUESTER_RECEIVE: self.gathered, REQUESTER_LOOK: self.requester_looked})
        self.exchanges = Exchanges(self)
        self.ended_by = None            # what ended the last assembly, if nothing was awaited since
        self.passing = set()            # what has happened in the assembly under way

    @property
    def requester(self):
        return self.program.controller.requester

    def pictured(self, tag):
        return copy.copy(self.requester) if tag in REQUESTER_TAGS else super().pictured(tag)

    def record(self, tag, body):
        self.exchanges.before(tag, body)
        super().record(tag, body)
        self.exchanges.after(tag, body, self.lines[-1])
        if tag in (SETUP, RESET):
            self.passing.add("the endpoint's setup" if tag == SETUP else "the endpoint's reset")

    # Notes that several calls share

    def called(self, call, before, answer):
        self.note(f"{call} answers {answer}")
        self.note(f"{call} {answer}, {state_of(before)}")
        self.note(f"{call} {answer} with a store of another length", len(before.store) != STORE)
        self.passing.add(f"{call} {answer}")

    # The calls

    def requester_set_up(self, before, body, line):
        self.called("requester setup", before, line)
        self.answered("requester setup", setup_grounds(*setup_arguments(body)), line)
        self.note(f"requester setup with EID {body[0]} answers {line}")
        self.ended_by = None

    def store_lent(self, before, body, line):
        self.called("requester store", before, line)
        self.note("requester store of {} lent".format(*LENGTH.unpack(body)))

    def awaited(self, before, body, line):
        source, tag = body
        self.called("await", before, line)
        self.answered("await", await_grounds(tag), line)
        self.note(f"await with tag {tag} answers {line}")
        if line == "0":
            self.note(f"await with EID {source}")
            self.ended_by = None
            if before.assembly is not None:
                self.awaited_anew(before.awaited, source, tag)

    def awaited_anew(self, before, source, tag):
        """Awaiting has ended an assembly of `before`."""
        for whose, holds in (("the same", before == (source, tag)),
                             ("another source", before[0] != source and before[1] == tag),
                             ("another tag", before[0] == source and before[1] != tag)):
            self.note(f"await 0 in an assembly, of {whose}", holds)

    def was_cut(self, before, data, line):
        destination, tag, length = CUT.unpack(data[:CUT.size])
        size, answer = len(data) - CUT.size, answer_of(line)
        self.called("cut", before, answer)
        self.answered("cut", cut_grounds(before.unit, tag, size, length), answer)
        self.note(f"cut with tag {tag} answers {answer}")
        self.note(f"cut with EID {destination}", answer == "0")
        spare = length - room(size, before.unit)
        for name in SIZES:
            if size == length_of(name, before.unit):
                self.note(f"cut of {name} bytes answers {answer}")
                self.note(f"cut of {name} bytes, 1 too few in the buffer", answer == "36" and spare == -1)
                self.note(f"cut of {name} bytes, {spare} to spare in the buffer", answer == "0")

    def was_built(self, before, data, line):
        destination, tag, slot, opcode, _, _, length = PRIMITIVE.unpack(data)
        answer = answer_of(line)
        self.called("primitive", before, answer)
        self.answered("primitive", primitive_grounds(tag, slot, length), answer)
        self.note(f"primitive with tag {tag} answers {answer}")
        self.note(f"primitive for slot {slot} answers {answer}")
        self.note(f"primitive with {length} bytes answers {answer}")
        if answer == "0":
            self.note(f"primitive with EID {destination}")
            self.note(f"primitive of opcode {opcode}")

    def requester_looked(self, before, _body, _line):
        self.note(f"look: requester, {state_of(before)}")
        self.note("look: the requester's store of another length", len(before.store) != STORE)

    # Gathering

    def gathered(self, before, packet, line):
        answer = answer_of(line)
        self.note(f"gather answers {answer}")
        what = answer if answer in TAKEN_IN else self.refused(before, packet, answer)
        self.note(f"gather: {what}, {state_of(before)}")
        if before.assembly is not None:
            self.met_assembly(before, packet, what)
        if answer in TAKEN_IN and packet_fields(packet).som:
            self.start_taken_in(packet)
        if answer in ("1", "2"):
            self.came_whole(answer, packet, self.requester.store[:int(line.split()[1])])

    def refused(self, before, packet, answer):
        """The ground on which a packet was refused."""
        grounds = gather_grounds(before, self.program.controller.memory, packet)
        self.answered("gather", grounds, answer)
        self.note("a packet for EID 8 while the requester's is another", answer == "13" and packet[1] == 8)
        self.note(f"gather: 40 with a store of {len(before.store)}", answer == "40")
        if grounds == ["40"]:
            self.note(f"gather: 40 alone, for {packet_kind(packet, 'a control reply')}")
        return grounds[0]

    def met_assembly(self, before, packet, what):
        """A packet came while another was expected of an assembly."""
        if self.requester.assembly == before.assembly and what not in TAKEN_IN:
            self.passing.add(what)
        elif not packet_fields(packet).som and what in TAKEN_IN:
            for passed in self.passing:
                self.note(f"gather: an assembly goes on after {passed}")
        else:
            kind = "a start" if packet_fields(packet).som else "a later packet"
            self.note(f"gather: an assembly ended by {kind}, {what}")
            self.ended_by = what

    def came_whole(self, answer, packet, message):
        for name in RESPONSES:
            self.note(f"a response of {name} bytes gathered",
                      answer == "1" and len(message) == length_of(name, self.requester.unit))
        self.note(f"gather answers {answer} to a version's high bits", packet[0] > 15)
        for ignored, is_odd in IGNORED.items():
            self.note(f"gather answers {answer} to {ignored}", is_odd(message))

    def start_taken_in(self, packet):
        self.note(f"gather: a start taken in after {self.ended_by}, not awaited anew")
        self.note(f"a first packet of sequence {packet_fields(packet).sequence} gathered")
        self.ended_by = None
        self.passing = set()
