"""What happened at a record: the answer that was printed, and the slots before and after.

A log has no states in it. They are followed with the second program (tests/second/), which is given every record; where it would
have answered otherwise, the event says so and no ground is told from its slots.
"""
from collections import namedtuple

from second.endpoint import Receive, Transmit
from second.log import COMPLETE, PACKET, POLL, RESET, TAKE, TIMEOUT, Log
from second.wire import CONTROL, PAUSE, REPLAY, RESUME, control_request, message_header, packet_fields, success

from .names import ABORTED, DONE, REFUSALS

# The slots and what belongs to both, as the second program has them. words: what Get State would report for each slot;
# held: the last response, for each slot that is Idle and still holds it; unit: the bytes of a full payload
View = namedtuple("View", "jobs states paused words counts reply held unit")

# A control primitive that was answered: the record that brought it, the body of the reply that then waited,
# the slots then, where they are known, and what each CPSR of an Abort says
Primitive = namedtuple("Primitive", "record opcode slot who tag cpsp body after aborted",
                       defaults=(None, ABORTED))

REQUEST = 0x84              # the first byte of every NVMe-MI message with an integrity check
HEADER = 4                  # bytes of a packet's header, and of a message's


class Event:
    """A record with its answer.

    named              the slot that it names, or None; slots: all that it is about
    who                the requester, (EID, tag), or None
    ended              the slot whose assembly a first packet ended
    primitive          the control primitive that came, or whose reply goes
    replaced           the one whose reply was replaced, or gone with a reset, before it went
    ticket, taken_at   what a take gave or a complete used, and the record of its take
    message            a whole message whose check is wrong
    at_once            the body that answered a command on entering Process
    replays            by slot, the record of the last Replay with CPSR 1 since the slot's last command
    eid                the endpoint's own; not_taken: what is said of a ticket that no take gave
    """

    eid, not_taken = 8, "since none was taken there"

    def __init__(self, record, line, before, replays):
        self.record, self.line, self.before, self.after, self.replays = record, line, before, before, dict(replays)
        self.number, self.tag, self.body = record.number, record.tag, record.body
        self.answer, self.sent = read_line(record.tag, line)
        self.expected = None
        self.fields = self.head = self.payload = None
        self.named = self.who = self.ended = self.primitive = self.replaced = self.ticket = self.taken_at = None
        self.message = self.at_once = None
        self.slots = frozenset()

    @property
    def refused(self):
        return self.answer in REFUSALS

    @property
    def differs(self):
        """Whether the second program would have answered otherwise."""
        return self.expected != self.line

    @property
    def known(self):
        """Whether the line is one that the log program can print for this record."""
        return self.line == "bad" if self.tag is None else self.answer in REFUSALS or self.answer in DONE[self.tag]


def read_line(tag, line):
    """Number and packet of a printed line; None and no packet if it can't be read so."""
    answer, _, packet = line.partition(" ")
    try:
        number, sent = int(answer), bytes.fromhex(packet)
    except ValueError:
        return None, b""
    whole = len(sent) > HEADER if tag == POLL and number == 1 else not sent
    return (number, sent) if whole else (None, b"")


def header_of(payload):
    """The message header, as far as it is there; None where the first two bytes are not those of an NVMe-MI message."""
    if len(payload) < 2 or payload[0] != REQUEST:
        return None
    return message_header(bytes(payload[:HEADER]) + bytes(HEADER))


class Follower:
    """Follows a log with the second program. Its memory is the endpoint, and what the last take and the last primitive were."""

    def __init__(self):
        self.log = Log()
        self.endpoint = self.log.endpoint
        self.view = self.look()
        self.waiting = None                     # the primitive whose reply waits
        self.taken_at = {}                      # by slot, the record of the last take that gave a ticket
        self.replays = {}                       # as an event has them

    def look(self):
        endpoint = self.endpoint
        return View(tuple(endpoint.jobs), (endpoint.state(0), endpoint.state(1)), endpoint.paused,
                    (endpoint.flags_word(0), endpoint.flags_word(1)), tuple(endpoint.counts), endpoint.reply,
                    (endpoint.held(0), endpoint.held(1)), endpoint.unit)

    def event(self, record, line):
        """Lets the second program do what the record says."""
        event = Event(record, line, self.view, self.replays)
        if record.tag is None:
            event.expected = "bad"
            return event
        if record.tag == COMPLETE:
            event.ticket, event.taken_at = self.log.ticket(record.body[0]).number, self.taken_at.get(record.body[0])
        event.expected = str(self.log.line(record.tag, record.body))
        event.after = self.view = self.look()
        DETAILS[record.tag](self, event)
        event.slots |= moved(event)
        return event

    def packet(self, event):
        if len(event.body) >= HEADER:
            event.fields, event.payload = packet_fields(event.body), event.body[HEADER:]
            event.who = event.fields.source, event.fields.tag
        if event.expected in ("10", "11", "12", "13", "14"):    # refused before the message is looked at
            return
        gathering = gathers(event.before, event.who)
        if event.fields.som:
            event.ended, event.head = gathering, header_of(event.payload)
            event.named = event.head.csi if event.head else None
        else:
            event.named = gathering
        event.slots = only(event.named)
        if event.expected in WHOLE:
            getattr(self, WHOLE[event.expected])(event)
        if event.expected == "1":
            self.replays.pop(event.named, None)

    def entered(self, event):
        """A command entered Process; where a test failed, its response is there already."""
        if event.after.states[event.named] in ("Process answered", "Transmit"):
            event.at_once = bytes(self.endpoint.stores[event.named][HEADER:2 * HEADER])

    def wrong_check(self, event):
        """A command that is refused for its check stays in the store."""
        if event.head and event.head.nmimt == CONTROL:
            event.message = bytes(event.payload)
        else:
            before = 0 if event.fields.som else event.before.jobs[event.named].length
            event.message = bytes(self.endpoint.stores[event.named][:before + len(event.payload)])

    def control(self, event):
        request = control_request(event.payload)
        event.replaced = self.waiting
        body = event.after.reply[1][HEADER:-HEADER]
        event.primitive = self.waiting = Primitive(event.number, request.opcode, event.head.csi, event.who, request.tag,
                                                   request.cpsp, body, event.after)
        if sends_again(event.primitive):
            self.replays[event.named] = event.number
        if request.opcode in (PAUSE, RESUME):                   # "CSI is ignored by both"
            event.slots = frozenset((0, 1))

    def poll(self, event):
        if not event.sent:
            return
        event.fields, event.payload = packet_fields(event.sent), event.sent[HEADER:]
        event.who = event.fields.destination, event.fields.tag
        event.head = header_of(event.payload) if event.fields.som else None
        if event.head and event.head.nmimt == CONTROL:
            event.named, event.primitive, self.waiting = event.head.csi, self.waiting, None
        else:
            event.named = next((slot for slot in (0, 1) if event.before.jobs[slot] is not event.after.jobs[slot]), None)
        event.slots = only(event.named)

    def on_slot(self, event):
        """A timeout, take or complete: about the command that its slot has."""
        event.named = event.body[0]
        event.slots = only(event.named)
        if event.named < 2:
            event.who = getattr(event.before.jobs[event.named], "who", None)

    def take(self, event):
        self.on_slot(event)
        if event.expected == "0":
            self.taken_at[event.named] = event.number
            event.ticket = event.after.counts[event.named]

    def reset(self, event):
        event.slots = frozenset((0, 1))
        event.replaced, self.waiting = self.waiting, None


# What to look at when a message is whole: a method, by the answer
WHOLE = {"1": "entered", "2": "control", "19": "wrong_check"}

DETAILS = {PACKET: Follower.packet, POLL: Follower.poll, TIMEOUT: Follower.on_slot, TAKE: Follower.take,
           COMPLETE: Follower.on_slot, RESET: Follower.reset}


def only(slot):
    return frozenset() if slot is None else frozenset((slot,))


def gathers(view, who):
    """The slot that is in Receive with this source and tag, or None."""
    return next((slot for slot, job in enumerate(view.jobs) if isinstance(job, Receive) and job.who == who), None)


def moved(event):
    """The slots that are otherwise after the record."""
    before, after = event.before, event.after
    return frozenset(slot for slot in (0, 1)
                     if before.states[slot] != after.states[slot] or (before.paused ^ after.paused) >> slot & 1)


def sends_again(primitive):
    """Whether a primitive is a Replay with CPSR 1, so that its slot sends again."""
    return primitive.opcode == REPLAY and primitive.body == success(primitive.tag, 1)


def is_paused(view, slot):
    return bool(view.paused >> slot & 1)


def left_for_idle(event, slot):
    """Whether what the slot held was given up at this record, also if it began anew within it."""
    return event.before.states[slot] != "Idle" and (event.after.states[slot] == "Idle" or event.ended == slot)


def is_lost(event, slot):
    """Whether the slot's last response, which was held or sent again before the record, is neither after it."""
    before, after = event.before, event.after
    was_there = before.held[slot] or slot in event.replays and before.states[slot] == "Transmit"
    is_there = after.held[slot] or after.states[slot] == "Transmit" and before.counts[slot] == after.counts[slot]
    return bool(was_there) and not is_there


def packets_of(view, slot):
    """Packets that the slot's response has, and how many went."""
    job = view.jobs[slot]
    length, sent = (job.length, job.sent) if isinstance(job, Transmit) else (job.response, 0)
    return -(-length // view.unit), sent
