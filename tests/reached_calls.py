"""What scripts for the calls program reach.

GOALS is every line that a right set of scripts has to reach, those of `reached_requester`, `reached_replay`,
`reached_units` and `reached_declare` too. Many of them are pairs: each two grounds on which a call can refuse
at the same time, of which the earlier one has to be answered.
"""
import reached_declare
import reached_replay
import reached_requester
import reached_units
import runs
from exchanges import written_by
from grounds import (BEHIND, complete_grounds, control_answer, control_grounds, ground_goals, poll_grounds,
                     read_grounds, receive_grounds, setup_grounds, take_grounds, timeout_grounds)
from reached_declare import Declares
from reached_replay import Replays
from reached_requester import RequesterRun
from reached_units import Units
from runs import (EIDS, FAR_SLOTS, HIGH_PARTS, SCRIPT_STATES, WRONG_STORES, answer_of, is_paused, packet_kind,
                  wrong_stores)
from second.calls import (COMPLETE, DECLARE, LENGTH, LENGTHS, LONGEST_BODY, LOOK, MEMORY, NUMBER, POLL, READ,
                          RECEIVE, REQUESTER_SETUP, RESET, SETUP, STORES, TAKE, TIMEOUT, TWO_LENGTHS,
                          TWO_NUMBERS, records, setup_arguments)
from second.endpoint import STORE
from units import length_of

ANSWERS = {"receive": (0, 1, 2, *range(10, 24), 40), "take": (0, 30, 31, 33), "poll": (0, 1, 36, 40),
           "complete": (0, 30, 31, 32, 34, 35, 40), "timeout": (0, 30, 37), "setup": (0, 38, 39),
           "declare": (0, 30, 31, 32, 34), "reset": (0,), "stores": (0,)}
SLOT_CALLS = ("take", "read", "complete", "timeout", "declare")
BUFFERS = (0, "U + 3", "U + 4", "U + 5", 65535)
LENT = ((STORE - 1, STORE), (STORE, STORE - 1), (STORE + 1, STORE), (STORE, STORE + 1), (0, 0),
        (MEMORY, MEMORY), (0, STORE))
FLAG_BITS = (*range(4, 13), 14)
TO_SEND = ("nothing", "a control reply", "a command packet")
WRONG_BODY = {SETUP: "half a unit in a setup", REQUESTER_SETUP: "half a unit in the requester's setup",
              DECLARE: "a declaration other than 0 and 1"}
FAULTS = ("an unknown tag", "a wrong length", "a body over 8,192", "a store above 4,300", "a cut head",
          "a cut body", *WRONG_BODY.values())

# The goals

def refusal_goals():
    for call in BEHIND:
        yield from ground_goals(call)
    yield from (f"receive: 40 alone, for {what}"
                for what in ("a primitive", "a first packet", "a later packet"))

def argument_goals():
    for call in SLOT_CALLS:
        yield from (f"{call} with slot {slot}" for slot in FAR_SLOTS)
        for part in HIGH_PARTS:
            yield from (f"{call} with slot {part + slot} while slot {slot} would do" for slot in (0, 1))
    for length in BUFFERS:
        yield from (f"poll with {length} bytes, {what} to send" for what in TO_SEND)
    for eid, answer in EIDS.items():
        yield f"setup with EID {eid} answers {answer}"
    for first, second in LENT:
        yield f"stores of {first} and {second} lent"
    for which in WRONG_STORES.values():
        yield from (f"{call} with {which} of another length"
                    for call in ("receive", "complete", "poll", "read"))
    yield from (f"{call} with stores of another length"
                for call in ("take 0", "timeout 0", "reset 0", "setup 0", "setup 38", "setup 39"))
    yield "a packet for EID 8 while ours is another"

def state_goals(slot, state):
    yield from (f"slot {slot}: setup {answer} in {state}" for answer in ANSWERS["setup"])
    yield f"slot {slot}: reset in {state}"
    if state != "Idle":                 # an Idle slot has no pause flag
        yield f"look: slot {slot} paused in {state}"

def ticket_goals():
    for state in SCRIPT_STATES:
        yield from (f"{which} ticket in {state}" for which in ("another", "the present"))
    yield from ("a ticket that no command had, 32", "the other slot's ticket, 32")
    yield from (f"the present ticket plus {part}, 32" for part in HIGH_PARTS)
    yield from (f"a ticket kept over reset, {answer}" for answer in (31, 32))
    yield from (f"a ticket kept over setup, {answer}" for answer in (0, 31, 32))

def slot_goals(slot):
    for state in SCRIPT_STATES:
        yield from state_goals(slot, state)
    yield from (f"slot {slot}: {call}{goal}" for call in ("", "declare with ") for goal in ticket_goals())
    yield from (f"slot {slot}: {what} after other lengths were lent"
                for what in ("a part read", "a packet joined", "completed", "a packet sent"))
    yield f"look: slot {slot} busy"
    yield f"look: slot {slot} holds a response"
    yield f"look: slot {slot} in a replay"

def look_goals():
    for first in SCRIPT_STATES:
        yield from (f"look: slots {first} and {second}" for second in SCRIPT_STATES)
    yield from (f"look: flag {bit}" for bit in FLAG_BITS)
    yield from ("look: turn 1", "look: last 1", "look: a reply waits", "look: stores of another length")

def call_goals():
    for call, answers in ANSWERS.items():
        yield from (f"{call} answers {answer}" for answer in answers)
    yield "read gives a part"
    yield from (f"bad for {fault}" for fault in FAULTS)

GOALS = (*call_goals(), *refusal_goals(), *argument_goals(), *slot_goals(0), *slot_goals(1), *look_goals(),
         *reached_requester.GOALS, *reached_replay.SCRIPT_GOALS, *reached_units.GOALS, *reached_declare.GOALS)

# What a script reaches

class CallsRun(RequesterRun):
    """One script under way."""

    def __init__(self):
        super().__init__({
            SETUP: self.was_set_up, STORES: self.were_lent, RECEIVE: self.received, TAKE: self.taken,
            READ: self.was_read, COMPLETE: self.completed, POLL: self.polled, TIMEOUT: self.timed_out,
            RESET: self.was_reset, LOOK: self.looked, DECLARE: lambda *given: self.declares.declared(*given)})
        self.replays, self.units, self.declares = Replays(self), Units(self), Declares(self)
        self.was_taken = [False, False]         # whether the slot's last command was taken
        self.given = [set(), set()]             # tickets given since the last reset or setup
        self.over_reset, self.over_setup = [set(), set()], [set(), set()]
        self.lent_otherwise = [False, False]    # whether other lengths were lent since the slot was Idle

    def record(self, tag, body):
        counts = list(self.endpoint.counts)
        super().record(tag, body)
        for slot in (0, 1):
            if self.endpoint.counts[slot] != counts[slot]:
                self.was_taken[slot] = False
            if self.endpoint.state(slot) == "Idle":
                self.lent_otherwise[slot] = False
            elif not self.endpoint.stores_fit():
                self.lent_otherwise[slot] = True

    def noted(self, tag, before, body, line):
        super().noted(tag, before, body, line)
        self.units.noted(tag, before, body, line)
        self.declares.noted(tag, before, body, line)

    def fault_of(self, rest):
        """Why the first record of these bytes prints `bad`."""
        if len(rest) < 3:
            return "a cut head"
        length = int.from_bytes(rest[1:3], "little")
        if rest[0] not in LENGTHS:
            return "an unknown tag"
        if length > LONGEST_BODY:
            return "a body over 8,192"
        least, greatest = LENGTHS[rest[0]]
        if not least <= length <= greatest:
            return "a wrong length"
        return "a cut body" if len(rest) < 3 + length else WRONG_BODY.get(rest[0], "a store above 4,300")

    # Notes that several calls share

    def named(self, call, slot, would_do):
        """The slot that was named; would_do says whether a slot would not have been refused."""
        self.note(f"{call} with slot {slot}", slot in FAR_SLOTS)
        low = slot & 1
        self.note(f"{call} with slot {slot} while slot {low} would do",
                  slot - low in HIGH_PARTS and would_do(low))

    def stored(self, call, before, refused):
        """Which of the lent stores was the reason."""
        self.note(f"{call} with {wrong_stores(before)} of another length", refused)

    def without_stores(self, call, answer, before):
        self.note(f"{call} {answer} with stores of another length", not before.stores_fit())

    # The calls

    def was_set_up(self, before, body, line):
        self.note(f"setup answers {line}")
        self.answered("setup", setup_grounds(*setup_arguments(body)), line)
        self.note(f"setup with EID {body[0]} answers {line}")
        self.without_stores("setup", line, before)
        self.replays.called(before, "setup")
        for slot in (0, 1):
            self.note(f"slot {slot}: setup {line} in {before.state(slot)}")
            self.over_setup[slot] |= self.given[slot] | self.over_reset[slot]
            self.given[slot], self.over_reset[slot] = set(), set()
            self.was_taken[slot] = False

    def were_lent(self, before, body, line):
        self.note(f"stores answers {line}")
        self.replays.called(before, "other lengths lent" if not self.endpoint.stores_fit() else "stores")
        self.note("stores of {} and {} lent".format(*TWO_LENGTHS.unpack(body)))

    def received(self, before, packet, line):
        self.note(f"receive answers {line}")
        self.stored("receive", before, line == "40")
        self.replays.received(before, packet, int(line))
        if line == "2":
            self.answered("control", control_grounds(packet[4:]), control_answer(self.endpoint.reply[1]))
        if int(line) < 10:
            slots = [slot for slot in (0, 1) if self.endpoint.jobs[slot] is not before.jobs[slot]]
            for slot in slots:
                self.note(f"slot {slot}: a packet joined after other lengths were lent",
                          self.lent_otherwise[slot])
            return
        grounds = receive_grounds(before, self.program.memory, packet)
        self.answered("receive", grounds, line)
        self.note("a packet for EID 8 while ours is another", line == "13" and packet[1] == 8)
        if grounds == ["40"]:
            self.note(f"receive: 40 alone, for {packet_kind(packet, 'a primitive')}")

    def taken(self, before, body, line):
        slot, answer = *NUMBER.unpack(body), answer_of(line)
        self.note(f"take answers {answer}")
        self.replays.taken(before, slot, answer)
        self.answered("take", take_grounds(before, self.was_taken, slot), answer)
        self.named("take", slot, lambda low: not take_grounds(before, self.was_taken, low))
        if answer == "0":
            self.was_taken[slot] = True
            self.given[slot].add(int(line.split()[1]))
            self.without_stores("take", answer, before)

    def was_read(self, before, body, line):
        slot, = NUMBER.unpack(body)
        part = line != "0 -"
        self.note("read gives a part", part)
        self.replays.called(before, "read", slot)
        grounds = read_grounds(before, slot)
        self.answered("read", grounds, None)
        if part == bool(grounds):
            raise ValueError(f"read prints {line}, but its grounds are {grounds}")
        self.stored("read", before, "stores" in grounds)
        self.named("read", slot, lambda low: not read_grounds(before, low))
        self.note(f"slot {slot}: a part read after other lengths were lent",
                  part and self.lent_otherwise[slot])

    def completed(self, before, data, line):
        slot, ticket = TWO_NUMBERS.unpack(data[:8])
        self.note(f"complete answers {line}")
        self.replays.called(before, f"complete {line}", slot)
        self.answered("complete", complete_grounds(before, self.was_taken, slot, ticket, data[8:]), line)
        self.stored("complete", before, line == "40")
        self.named("complete", slot,
                   lambda low: not complete_grounds(before, self.was_taken, low, ticket, data[8:]))
        if slot < 2 and line != "40":
            self.ticket_used(before, slot, ticket, line)
            self.note(f"slot {slot}: completed after other lengths were lent",
                      line == "0" and self.lent_otherwise[slot])

    def ticket_used(self, before, slot, ticket, line, call=""):
        """The ticket with which something was completed or, as `call` says, declared."""
        present, others, who = before.counts[slot], before.counts[1 - slot], f"slot {slot}: {call}"
        which = "the present" if ticket == present else "another"
        self.note(f"{who}{which} ticket in {before.state(slot)}")
        self.note(f"{who}a ticket that no command had, {line}", ticket > max(present, others))
        self.note(f"{who}the other slot's ticket, {line}",
                  ticket == others and ticket in self.given[1 - slot])
        self.note(f"{who}the present ticket plus {ticket - present}, {line}")
        self.note(f"{who}a ticket kept over reset, {line}", ticket in self.over_reset[slot])
        self.note(f"{who}a ticket kept over setup, {line}",
                  ticket in self.over_setup[slot] and (ticket not in self.given[slot] or line == "0"))

    def polled(self, before, body, line):
        length, answer = *LENGTH.unpack(body), answer_of(line)
        self.note(f"poll answers {answer}")
        self.replays.polled(before, answer, written_by(line) if answer == "1" else b"")
        self.answered("poll", poll_grounds(before, length), answer)
        self.stored("poll", before, answer == "40")
        ready = before.ready()
        for name in BUFFERS:
            if answer != "40" and length == length_of(name, before.unit):
                self.note(f"poll with {name} bytes, nothing to send", before.reply is None and ready is None)
                self.note(f"poll with {name} bytes, a control reply to send", before.reply is not None)
                self.note(f"poll with {name} bytes, a command packet to send", ready is not None)
        if answer == "1" and self.endpoint.reply is before.reply:
            self.note(f"slot {ready}: a packet sent after other lengths were lent",
                      self.lent_otherwise[ready])

    def timed_out(self, before, body, line):
        slot, = NUMBER.unpack(body)
        self.note(f"timeout answers {line}")
        self.replays.called(before, f"timeout {line}", slot)
        self.answered("timeout", timeout_grounds(before, slot), line)
        self.named("timeout", slot, lambda low: not timeout_grounds(before, low))
        if line == "0":
            self.without_stores("timeout", line, before)

    def was_reset(self, before, _body, line):
        self.note(f"reset answers {line}")
        self.replays.called(before, "reset")
        self.without_stores("reset", line, before)
        for slot in (0, 1):
            self.note(f"slot {slot}: reset in {before.state(slot)}")
            self.over_reset[slot] |= self.given[slot]
            self.given[slot] = set()

    def looked(self, _before, _body, _line):
        endpoint = self.endpoint
        states = endpoint.state(0), endpoint.state(1)
        self.note("look: slots {} and {}".format(*states))
        for slot in (0, 1):
            self.note(f"look: slot {slot} paused in {states[slot]}", is_paused(endpoint, slot))
            self.note(f"look: slot {slot} busy", endpoint.flags_word(slot) & 8)
            self.note(f"look: slot {slot} holds a response", endpoint.held(slot))
            self.note(f"look: slot {slot} in a replay", self.replays.sends_again(endpoint, slot))
        for bit in FLAG_BITS:
            self.note(f"look: flag {bit}", endpoint.flags >> bit & 1)
        self.note("look: turn 1", endpoint.turn)
        self.note("look: last 1", endpoint.last_was_control)
        self.note("look: a reply waits", endpoint.reply)
        self.note("look: stores of another length", not endpoint.stores_fit())

def replay(script):
    """The Run of a whole script."""
    return runs.replay(CallsRun(), records, script)
