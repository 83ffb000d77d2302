"""A call as an event of the explaining tool: the answer, and the slots before and after, as looks show them."""
from collections import namedtuple

from explain.following import HEADER, Event, Follower, sends_again
from second import calls, log
from second.endpoint import ABORT_CPSR, Answered, Process, Receive, Transmit
from second.wire import ABORT, CONTROL, REPLAY, packet_fields, success

from .declaring import ABORTED, DECLARE, Declaration, aborted_in, is_declaration
from .program import Trouble
from .state import read_state

# A call: the record's tag and body
Call = namedtuple("Call", "tag body")

# The kind of each call that is an event: that of a log's record, and for declaring, which no log has, its own
KINDS = {calls.RECEIVE: log.PACKET, calls.POLL: log.POLL, calls.TIMEOUT: log.TIMEOUT, calls.TAKE: log.TAKE,
         calls.COMPLETE: log.COMPLETE, calls.RESET: log.RESET, calls.DECLARE: DECLARE}
ON_SLOT = log.TIMEOUT, log.TAKE, log.COMPLETE, DECLARE
WITH_TICKET = log.COMPLETE, DECLARE
WRONG_STORES = 40

# What an event is made of: its number, the kind of a log's record, and what such a record would have as body
Record = namedtuple("Record", "number tag body")


def is_event(tag, body):
    """Whether a record is told as an event. A wrong program can answer a declaration that is none."""
    return tag in KINDS and (tag != calls.DECLARE or is_declaration(body))


def as_in_a_log(tag, line):
    """The line that the log program would print: without a ticket, a length and the word about the buffer."""
    words = line.split(" ")
    if tag == calls.TAKE:
        return words[0]
    if tag == calls.POLL:
        return f"1 {words[2]}" if words[0] == "1" and len(words) == 4 else words[0]
    return line


def slot_and_rest(tag, body):
    """The slot that a call names, and what stands behind it and a ticket."""
    return int.from_bytes(body[:4], "little"), body[8:] if tag in (calls.COMPLETE, calls.DECLARE) else b""


class Watcher(Follower):
    """Follows the calls by looks in place of the second program."""

    def __init__(self, line):
        self.state = read_state(line)
        self.view = self.look()
        self.forget()

    def forget(self):
        """What was known of messages and tickets is of another state."""
        self.waiting = None                     # the primitive whose reply waits
        self.taken_at, self.given = {}, {}      # by slot and ticket, the take that gave it; by slot, the ticket last given
        self.replays = {}                       # by slot, the record of a Replay, as an event has them
        self.gathered = [b"", b""]              # the bytes of the command that each slot gathers

    @property
    def endpoint(self):
        return self.state.endpoint

    def look_at(self, line):
        self.state = read_state(line, self.state)
        self.view = self.look()

    def event(self, number, call, line, look):
        """The event of a call. Without `expected` if answer and slots do not go together."""
        kind = KINDS[call.tag]
        slot, rest = slot_and_rest(call.tag, call.body)
        body = call.body if kind == log.PACKET else bytes((slot & 0xFF,)) + rest
        made = Declaration if kind == DECLARE else Event
        event = made(Record(number, kind, body), as_in_a_log(call.tag, line), self.view, self.replays)
        event.expected, event.eid, event.not_taken = event.line, self.endpoint.eid, "which no take of that slot gave"
        self.look_at(look)
        event.after = self.view
        if kind in ON_SLOT:
            self.on_slot(event, slot)
        if kind == log.TAKE and event.answer == 0:
            self.took(event, event.after.counts[slot] if slot < 2 else 0)
        if kind in WITH_TICKET:
            event.ticket = int.from_bytes(call.body[4:8], "little")
            event.taken_at = self.taken_at.get((slot, event.ticket))
        if kind in WATCHED:
            getattr(self, WATCHED[kind])(event)
        if not event.known:
            raise Trouble(f"record {number}: {line!r} is no line for this call")
        if not fits(event):
            event.expected = None
            if kind == log.PACKET and event.primitive:
                self.waiting = event.primitive._replace(after=None, aborted=ABORTED)
        return event

    def on_slot(self, event, slot):
        event.named = slot
        event.slots = frozenset((slot,))

    def took(self, event, ticket):
        event.ticket = self.given[event.named] = ticket
        self.taken_at[event.named, ticket] = event.number

    def packet(self, event):
        if event.answer == WRONG_STORES:        # nothing was looked at
            if len(event.body) >= HEADER:
                event.fields, event.payload = packet_fields(event.body), event.body[HEADER:]
            return
        super().packet(event)
        if event.answer == 0 and event.named is not None:
            self.gathered[event.named] = self.so_far(event)

    def control(self, event):
        if event.after.reply is not None:
            super().control(event)
            event.primitive = self.waiting = event.primitive._replace(aborted=aborted_in(found_state(event)))

    def so_far(self, event):
        """The command's bytes up to and with this packet."""
        return bytes(event.payload) if event.fields.som else self.gathered[event.named] + bytes(event.payload)

    def entered(self, event):
        """The error that answers a command at once is in the store, which a look does not show."""

    def wrong_check(self, event):
        is_control = event.head and event.head.nmimt == CONTROL
        event.message = bytes(event.payload) if is_control else self.so_far(event)


# What the slot that a call names has to hold after its answer
HELD = {(log.PACKET, 0): Receive, (log.PACKET, 1): (Process, Answered, Transmit), (log.TAKE, 0): Process,
        (log.COMPLETE, 0): (Answered, Transmit)}


def fits(event):
    """Whether an answer can be told from the slots: a program that is wrong can print others."""
    kind = event.tag, event.answer
    if kind in HELD:
        return event.named in (0, 1) and isinstance(event.after.jobs[event.named], HELD[kind])
    if kind == (log.PACKET, 2):
        return event.primitive is not None and replay_fits(event) and abort_fits(event)
    if kind == (DECLARE, 0):
        return event.named in (0, 1) and declaration_fits(event)
    if kind == (log.POLL, 1) and not (event.head and event.head.nmimt == CONTROL):
        return event.named is not None and isinstance(event.before.jobs[event.named], Transmit)
    return True


def replay_fits(event):
    """Whether a Replay's reply goes with its slot: CPSR 1 if that held a response and now sends it, else CPSR 0."""
    primitive, slot = event.primitive, event.primitive.slot
    if primitive.opcode != REPLAY or primitive.body[0]:
        return True
    if sends_again(primitive):
        return event.before.held[slot] is not None and isinstance(event.after.jobs[slot], Transmit)
    return event.before.held[slot] is None


def found_state(event):
    """The state in which a control primitive found its slot: its own packet can end an assembly there."""
    slot = event.primitive.slot
    return "Idle" if event.ended == slot else event.before.states[slot]


def abort_fits(event):
    """Whether an Abort's reply goes with what it found in its slot."""
    primitive = event.primitive
    if primitive.opcode != ABORT or primitive.body[0]:
        return True
    return primitive.body == success(primitive.tag, ABORT_CPSR[found_state(event)])


def declaration_fits(event):
    """Whether a declaration is of a taken command, and changed no more than what it declares."""
    before, slot = event.before, event.named
    jobs = list(before.jobs)
    if not isinstance(jobs[slot], Process) or not jobs[slot].taken:
        return False
    jobs[slot] = jobs[slot]._replace(stoppable=event.can)
    return event.after == before._replace(jobs=tuple(jobs), states=event.after.states)


WATCHED = {log.PACKET: "packet", log.POLL: "poll", log.RESET: "reset"}


class Joiner:
    """Joins the packets that polls hand out to responses."""

    def __init__(self):
        self.parts = {}

    def joined(self, packet):
        """The whole message with its number of packets, at its last packet; else None."""
        fields = packet_fields(packet)
        who = fields.destination, fields.tag
        if fields.som:
            self.parts[who] = []
        parts = self.parts.setdefault(who, [])
        parts.append(packet[HEADER:])
        if not fields.eom:
            return None
        del self.parts[who]
        return b"".join(parts), len(parts)
