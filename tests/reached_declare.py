"""What scripts for the calls program reach of declarations: each answer in each phase of a slot, and what an
Abort reports of a command, by what was declared of it and by what came between.

GOALS is every line that a right set of scripts has to reach. What an Abort reports of a taken command, and
what a look shows of it, is foretold by `declared`; in every other state an Abort reports what it always did,
and a declaration changes at most the mark of its own command. Where it is not so, the run ends with an error.
"""
import functools

from declared import REPORTED, Declared, last_mark
from exchanges import written_by
from grounds import BEHIND, control_answer, declare_grounds
from runs import TAKEN, WRONG_STORES, answer_of, is_paused, wrong_stores
from second.calls import (COMPLETE, DECLARATION, DECLARE, LOOK, NUMBER, POLL, READ, RECEIVE, RESET, SETUP,
                          STORES, TAKE, TIMEOUT)
from second.endpoint import Process, requester
from second.wire import ABORT, control_request, message_header, packet_fields
from units import BASE_UNIT

CANT, CAN = MARKS = ("can't", "can")            # by the number in the record
HOLDING = "Idle, with a response held"
OVER = ("Idle", HOLDING, "Receive", "Process answered", "Transmit")
ANSWERS = {**{phase: (30, 31) for phase in OVER}, "Process untaken": (30, 32, 34),
           **{phase: (0, 30, 32) for phase in TAKEN}}
REFUSALS = (30, 31, 32, 34)
FLAGGED = {(1, 0): "its own pause flag set", (0, 1): "the other's pause flag set",
           (1, 1): "both pause flags set"}
CALLS = {POLL: "poll", STORES: "stores"}
SLOT_CALLS = {TAKE: "take", READ: "read", COMPLETE: "complete", TIMEOUT: "timeout", DECLARE: "declare"}

# What was declared of a command before it is aborted, and what an Abort reports then
NOTHING = "nothing declared"
DECLARED = {NOTHING: 2, CAN: 1, CANT: 2,
            **{f"{first}, then {last}": cpsr for first in MARKS for last, cpsr in ((CAN, 1), (CANT, 2))},
            f"{CAN}, {CANT}, then {CAN}": 1, f"{CANT}, {CAN}, then {CANT}": 2}
# What it reports of any other state
ALWAYS = {"Idle": 0, "Receive": 1, "Process untaken": 1, "Process answered": 0, "Transmit": 0}
# What a declaration leaves, beside what the slots hold
LEFT = ("eid", "unit", "counts", "paused", "flags", "reply", "last_began", "last_was_control")
# Behind what was declared last, a refused declaration of the opposite
REFUSED = [(last, answer) for last in (NOTHING, CANT, CAN)
           for answer in ((30, 31, 32, 34) if last == NOTHING else (30, 32))]
# How the command before ended, which could be stopped
ENDED = ("Abort", "its response", "its replay", "reset", "setup")
# What can come behind a declaration
MET = ("take 33", "complete 32", "complete 35", "complete 40", "read", "timeout 37", "poll 0", "poll 1",
       "stores 0", "20", "40", "Pause", "Resume", "Get State", "Replay", "Abort with MEB", "Abort with CIAP",
       "the other's Abort", "the other's declare 0", "the other's complete 0")

# The goals

def answer_goals():
    for mark in MARKS:
        for phase, answers in ANSWERS.items():
            yield from (f"declare {mark} answers {answer} in {phase}" for answer in answers)
        for ground in BEHIND["declare"]:
            yield f"declare {mark}: {ground} alone"
            yield from (f"declare {mark}: {ground} before {other}" for other in BEHIND["declare"][ground])
        yield f"declare {mark} after a second take"
        yield from (f"declare {mark} with {which} of another length" for which in WRONG_STORES.values())
        yield from (f"declare {mark}, {flags}" for flags in FLAGGED.values())
    for answer in REFUSALS:
        yield f"declare {answer} with stores of another length"
        yield f"declare {answer} under a pause flag"
    yield from (f"declare {answer} at another unit" for answer in (0, *REFUSALS))

def abort_goals():
    yield "Abort reports 1, untaken"
    yield from (f"Abort reports {cpsr}, {declared}" for declared, cpsr in DECLARED.items())
    yield from (f"Abort reports {DECLARED[last]}, {last}, and {answer} to the opposite"
                for last, answer in REFUSED)
    for how in ENDED:
        yield f"Abort reports 1, untaken, the one before could be stopped until {how}"
        yield f"Abort reports 2, {NOTHING}, the one before could be stopped until {how}"
    yield from (f"Abort reports 1, {CAN}, then {what}" for what in MET)
    for mark in MARKS:
        yield from (f"Abort reports {DECLARED[mark]}, {mark}, {flags}" for flags in FLAGGED.values())
        yield f"Abort reports {DECLARED[mark]}, {mark}, at another unit"
        yield from (f"Abort reports 0 in {phase}, declared {mark}"
                    for phase in ("Process answered", "Transmit"))
        yield from (f"{DECLARED[mark]} of a taken command in a {line}" for line in ("look", "poll"))

def ended_goals():
    for mark in MARKS:
        yield from (f"declared {mark}, completed and sent {how}" for how in ("whole", "again"))
        yield from (f"declared {mark}, then {what}" for what in ("reset", "setup"))

GOALS = tuple(f"slot {slot}: {goal}" for slot in (0, 1)
              for goals in (answer_goals, abort_goals, ended_goals) for goal in goals())

# What a run reaches

def phase_of(endpoint, slot):
    return HOLDING if endpoint.held(slot) is not None else endpoint.state(slot)

def flagged(endpoint, slot):
    """Which pause flags are set, as the slot sees it; None if none is."""
    return FLAGGED.get((is_paused(endpoint, slot), is_paused(endpoint, 1 - slot)))

def declared_names(marks):
    """What is said of a command of which this was declared, one behind the other."""
    yield marks[-1] if marks else NOTHING
    if len(marks) > 1:
        yield ", then ".join(marks[-2:])
    if len(marks) > 2:
        yield "{}, {}, then {}".format(*marks[-3:])

def without_mark(job):
    return job._replace(stoppable=None) if isinstance(job, Process) else job

class History:
    """What was declared of a slot's commands."""

    def __init__(self):
        self.marks = []         # of the command whose response is there or was sent
        self.ended = None       # how the command before ended, if it could be stopped
        self.again = False      # whether a second take of the command was refused
        self.refused = set()    # answers and marks of declarations that were refused since one was not
        self.met = set()        # what came since a declaration

class Declares:
    """What a run reaches. `before` is the endpoint as it was before a record."""

    def __init__(self, run):
        self.run, self.known = run, Declared()
        self.slots = [History(), History()]
        self.seen = {TAKE: self.taken, COMPLETE: self.completed, RECEIVE: self.received, POLL: self.polled,
                     RESET: functools.partial(self.forgotten, "reset"),
                     SETUP: functools.partial(self.forgotten, "setup")}

    def note(self, slot, text, when=True):
        self.run.note(f"slot {slot}: {text}", when)

    def noted(self, tag, before, body, line):
        for slot, taken in enumerate(self.known.taken):
            if taken and last_mark(taken):
                self.slots[slot].met.add(self.name(tag, before, slot, body, line))
        if tag in self.seen:
            self.seen[tag](before, body, line)
        report = self.known.saw(tag, body, line)
        if report is not None:
            where = "look" if tag == LOOK else "poll"
            self.note(report.slot, f"{report.cpsr} of a taken command in a {where}")

    def marks(self, slot):
        """What was declared of the slot's taken command."""
        taken = self.known.taken[slot]
        return [MARKS[mark] for mark in taken.marks] if taken else []

    def name(self, tag, before, slot, body, line):
        """What a record was, as the slot sees it."""
        if tag == RECEIVE:
            return self.run.replays.packet_name(before, slot, body, int(line))
        if tag in CALLS:
            return f"{CALLS[tag]} {answer_of(line)}"
        if tag not in SLOT_CALLS:
            return None
        name = "read" if tag == READ else f"{SLOT_CALLS[tag]} {answer_of(line)}"
        return name if NUMBER.unpack(body[:4]) == (slot,) else f"the other's {name}"

    # Declaring

    def declared(self, before, body, line):
        slot, ticket, number = DECLARATION.unpack(body)
        run, low, mark = self.run, slot & 1, MARKS[number]
        run.note(f"declare answers {line}")
        run.replays.called(before, f"declare {line}", slot)
        grounds = declare_grounds(before, run.was_taken, slot, ticket)
        run.answered("declare", grounds, line)
        run.named("declare", slot, lambda low: not declare_grounds(before, run.was_taken, low, ticket))
        if slot < 2:
            run.ticket_used(before, slot, ticket, line, "declare with ")
        self.found(before, low, mark, line, grounds)
        self.changed(before, slot if line == "0" else None)
        history = self.slots[low]
        if line == "0":
            self.note(slot, f"declare {mark} after a second take", history.again)
            history.refused, history.met = set(), set()
        else:
            history.refused.add((line, mark))

    def changed(self, before, declared):
        """What a declaration has changed; `declared` is the slot, if it was not refused."""
        now = self.run.endpoint
        changed = [name for name in LEFT if getattr(before, name) != getattr(now, name)]
        for slot, jobs in enumerate(zip(before.jobs, now.jobs)):
            was, job = map(without_mark, jobs) if slot == declared else jobs
            changed += [f"slot {slot}"] if was != job else []
        if changed:
            raise ValueError(f"a declaration has changed {changed}")

    def found(self, before, slot, mark, line, grounds):
        """The state that a declaration has found."""
        self.note(slot, f"declare {mark} answers {line} in {phase_of(before, slot)}")
        self.note(slot, f"declare {mark}: {line} alone", len(grounds) == 1)
        for other in grounds[1:]:
            self.note(slot, f"declare {mark}: {line} before {other}")
        what = mark if line == "0" else line
        which, flags = wrong_stores(before), flagged(before, slot)
        self.note(slot, f"declare {what} with {which} of another length")
        self.note(slot, f"declare {what} with stores of another length", which)
        self.note(slot, f"declare {what}, {flags}")
        self.note(slot, f"declare {what} under a pause flag", flags)
        self.note(slot, f"declare {line} at another unit", before.unit != BASE_UNIT)

    def taken(self, _before, body, line):
        slot, = NUMBER.unpack(body)
        if slot < 2:
            self.slots[slot].again = line == "33"

    # Abort

    def received(self, before, packet, line):
        if line == "1":
            for slot in (0, 1):
                if self.run.endpoint.counts[slot] != before.counts[slot]:
                    self.entered(slot)
        elif line == "2":
            message, reply = packet[4:], self.run.endpoint.reply[1]
            if control_request(message).opcode == ABORT and control_answer(reply) == "0":
                slot, ended = message_header(message).csi, before.assembly(requester(packet_fields(packet)))
                state = "Idle" if ended == slot else before.state(slot)
                self.aborted(before, slot, state, int.from_bytes(reply[6:8], "little"))

    def entered(self, slot):
        """A command has entered Process; it may be answered at once."""
        self.slots[slot].marks = []
        if not isinstance(self.run.endpoint.jobs[slot], Process):
            self.slots[slot].ended = None

    def aborted(self, before, slot, state, cpsr):
        history, taken = self.slots[slot], self.known.taken[slot]
        if (state in TAKEN) != (taken is not None):
            raise ValueError(f"slot {slot} is in {state}, but of its command {taken} is known")
        if ALWAYS.get(state, cpsr) != cpsr:
            raise ValueError(f"Abort of slot {slot} in {state} reports {cpsr}")
        if taken is not None:
            self.taken_aborted(before, slot, cpsr)
        elif state == "Process untaken":
            self.note(slot, f"Abort reports {cpsr}, untaken")
            self.note(slot, f"Abort reports {cpsr}, untaken, the one before could be stopped until "
                            f"{history.ended}")
            history.ended = None
        elif state != "Idle":
            if history.marks:
                self.note(slot, f"Abort reports {cpsr} in {state}, declared {history.marks[-1]}")
            history.ended = None
        history.marks, history.refused = [], set()

    def taken_aborted(self, before, slot, cpsr):
        history, marks = self.slots[slot], self.marks(slot)
        if cpsr != REPORTED[last_mark(self.known.taken[slot])]:
            raise ValueError(f"Abort of slot {slot} reports {cpsr}, but declared was {marks}")
        said, last = f"Abort reports {cpsr}", marks[-1] if marks else NOTHING
        for name in declared_names(marks):
            self.note(slot, f"{said}, {name}")
        for answer, mark in history.refused:
            self.note(slot, f"{said}, {last}, and {answer} to the opposite", (mark == CAN) != (last == CAN))
        for what in history.met:
            self.note(slot, f"{said}, {last}, then {what}", last == CAN)
        self.note(slot, f"{said}, {last}, {flagged(before, slot)}")
        self.note(slot, f"{said}, {last}, at another unit", before.unit != BASE_UNIT)
        self.note(slot, f"{said}, {last}, the one before could be stopped until {history.ended}")
        history.ended = "Abort" if last == CAN else None

    # Other ends of a command

    def completed(self, _before, body, line):
        if line == "0":
            slot, = NUMBER.unpack(body[:4])
            self.slots[slot].marks, self.slots[slot].ended = self.marks(slot), None

    def polled(self, before, _body, line):
        if not line.startswith("1 ") or self.run.endpoint.reply is not before.reply:
            return
        slot = before.ready()
        history, again = self.slots[slot], self.run.replays.slots[slot].times
        if packet_fields(written_by(line)).eom and history.marks:
            last = history.marks[-1]
            self.note(slot, f"declared {last}, completed and sent {'again' if again else 'whole'}")
            if last == CAN:
                history.ended = "its replay" if again else "its response"

    def forgotten(self, what, before, _body, _line):
        for slot, history in enumerate(self.slots):
            marks = self.marks(slot)
            if marks:
                self.note(slot, f"declared {marks[-1]}, then {what}")
            if before.state(slot) != "Idle":
                history.ended = what if marks[-1:] == [CAN] else None
            history.marks, history.refused = [], set()
