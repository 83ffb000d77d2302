"""The requester: what its records say, what a look at it shows, and its calls as events."""
from collections import namedtuple

from explain.following import HEADER, Primitive, header_of
from second import calls
from second.endpoint import STORE
from second.wire import CONTROL, packet_fields

from .declaring import ABORTED
from .program import Trouble
from .setups import ANSWERS as SETUP_ANSWERS
from .setups import left_by


# What records say

# What a cut and a primitive are given; tag is the message tag of the packets.
Cut = namedtuple("Cut", "destination tag buffer message")
Built = namedtuple("Built", "destination tag slot opcode primitive_tag cpsp buffer")


def read_cut(body):
    return Cut(*calls.CUT.unpack(body[:calls.CUT.size]), body[calls.CUT.size:])


def read_primitive(body):
    return Built(*calls.PRIMITIVE.unpack(body))


# What a look shows

# awaits: (source, tag) or None. assembly: what is gathered from there, or None. check: the store's, in hex
Look = namedtuple("Look", "eid unit awaits assembly check")
Assembly = namedtuple("Assembly", "sequence length")


def read_look(line):
    if line == "bad":
        raise Trouble("the program has no requester: it printed bad for a look at it and ended")
    try:
        fields = dict(word.split("=", 1) for word in line.split(" "))
        assembly = read_pair(fields["assembly"])
        return Look(int(fields["eid"]), int(fields["unit"]), read_pair(fields["awaits"]),
                    assembly and Assembly(*assembly), fields["check"])
    except (KeyError, ValueError):
        raise Trouble(f"a look at the requester printed {line!r}, which is no state") from None


def read_pair(text):
    if text == "-":
        return None
    first, second = text.split(":")
    return int(first), int(second)


# The line of a call

# The answers that each call has
ANSWERS = {
    calls.REQUESTER_SETUP: SETUP_ANSWERS, calls.REQUESTER_STORE: (0,), calls.REQUESTER_AWAIT: (0, 41),
    calls.REQUESTER_CUT: (0, 36, 41), calls.REQUESTER_PRIMITIVE: (0, 30, 36, 41),
    calls.REQUESTER_RECEIVE: (0, 1, 2, *range(10, 24), 40),
}
WRITING = calls.REQUESTER_CUT, calls.REQUESTER_PRIMITIVE
WHOLE = 1, 2                        # a response, a control reply
UNREAD = 10, 11, 12, 13, 14, 40     # the packet was refused before its message is looked at
WRONG_CHECK = 19
ENDING = 16, 19, 22, 23             # a later packet that is refused so ends its assembly
OF_ASSEMBLY = 22, 23                # only a packet of an assembly is refused so
REPLY = 12                          # bytes of a control reply


def is_call(tag, body):
    """Whether a record is a call of the requester, with a body that it can have."""
    least, greatest = calls.LENGTHS.get(tag, (0, 0))
    return tag in ANSWERS and least <= len(body) <= greatest and not calls.is_bad(tag, body)


# length: of a whole message or of what was written. touched: whether the buffer was, behind what was written
Line = namedtuple("Line", "answer length written touched", defaults=(None, b"", False))


def read_line(tag, line):
    """A printed line; IndexError or ValueError if this call can't print it."""
    words = line.split(" ")
    found = read_written(words) if tag in WRITING else read_answer(tag, words)
    if found.answer not in ANSWERS[tag]:
        raise ValueError
    return found


def read_answer(tag, words):
    answer, *lengths = map(int, words)
    if len(lengths) != (tag == calls.REQUESTER_RECEIVE and answer in WHOLE):
        raise ValueError
    return Line(answer, *lengths)


def read_written(words):
    answer, *shown, end = words
    touched = ("stays", "touched").index(end) == 1
    if answer != "0" and not shown:
        return Line(int(answer), touched=touched)
    length, written = int(shown[0]), bytes.fromhex(shown[1])
    if (answer, len(shown), length) != ("0", 2, len(written)):
        raise ValueError
    return Line(0, length, written, touched)


# A call with its line and the looks before and after it

class Event:
    """A call of the requester with its answer, and what else its line says.

    before, after     the looks; leaves: what a look has to show beside this answer
    lent              the store's length
    packets           those that a cut or a primitive wrote
    fields, payload   of a packet that came, as far as it has them
    message, parts    the message up to and with this packet, and how many packets of it came
    ended             the assembly that the call ended, where no message is whole with it
    asked             the control primitive that was last built for the packet's source and tag
    """

    packets, parts = (), 0
    fields = ended = asked = None
    payload = message = b""

    def __init__(self, number, call, line, before, after):
        self.number, self.tag, self.body = number, call.tag, call.body
        self.before, self.after, self.leaves = before, after, before
        try:
            self.answer, self.length, self.written, self.touched = read_line(call.tag, line)
        except (IndexError, ValueError):
            raise Trouble(f"record {number}: {line!r} is no line for this call") from None

    @property
    def who(self):
        """Source and tag of a packet."""
        return self.fields.source, self.fields.tag

    @property
    def is_odd(self):
        """Whether the answer does not go with the packet and the looks: a wrong program can print such."""
        return self.after != self.leaves or self.tag == calls.REQUESTER_RECEIVE and lacks(self)


def lacks(event):
    """Whether something that a packet's answer needs is not there."""
    answer = event.answer
    return (answer in (0, *WHOLE) and not event.payload
            or answer in WHOLE and event.length != len(event.message)
            or answer == 2 and len(event.payload) != REPLY
            or answer in OF_ASSEMBLY and event.before.assembly is None)


class Requester:
    """Follows the requester by looks.

    look     the last one
    memory   the store's bytes, as the packets make them; lent: how many of them are lent
    parts    packets of the assembly
    asked    by EID and message tag, the control primitive that was last built for there
    """

    def __init__(self, line):
        self.look = read_look(line)
        self.memory, self.lent = bytearray(calls.MEMORY), STORE
        self.parts, self.asked = 0, {}

    def event(self, number, call, line, look):
        event = Event(number, call, line, self.look, read_look(look))
        FOLLOWED[call.tag](self, event)
        event.leaves = event.leaves._replace(check=calls.check_of(bytes(self.memory[:self.lent])))
        event.lent, self.look = self.lent, event.after
        return event

    def setup(self, event):
        event.leaves = Look(*left_by(event.body, event.answer), None, None, None)

    def store(self, event):
        self.lent, = calls.LENGTH.unpack(event.body)

    def awaiting(self, event):
        if event.answer == 0:
            event.ended = event.before.assembly
            event.leaves = event.before._replace(awaits=tuple(event.body), assembly=None)

    def cut(self, event):
        full = event.before.unit + HEADER
        event.packets = [event.written[at:at + full] for at in range(0, len(event.written), full)]

    def primitive(self, event):
        self.cut(event)
        if event.answer == 0:
            built = read_primitive(event.body)
            who = built.destination, built.tag
            self.asked[who] = Primitive(event.number, built.opcode, built.slot, who, built.primitive_tag,
                                        built.cpsp, body=b"", aborted=ABORTED)

    def receive(self, event):
        if len(event.body) >= HEADER:
            event.fields, event.payload = packet_fields(event.body), event.body[HEADER:]
        if not event.payload or event.answer in UNREAD:
            return
        assembly = event.before.assembly
        start = 0 if event.fields.som or assembly is None else assembly.length
        event.message = bytes(self.memory[:start]) + event.payload
        event.parts = 1 if event.fields.som else self.parts + 1
        event.asked = self.asked.get(event.who)
        event.ended = assembly if ends(event) else None
        event.leaves = event.before._replace(**left(event))
        if is_stored(event):
            self.memory[:len(event.message)], self.parts = event.message, event.parts


def ends(event):
    """Whether a packet ends the assembly that was there, and no message is whole with it."""
    return event.who == event.before.awaits if event.fields.som else event.answer in ENDING


def left(event):
    """What a packet makes of awaiting and assembly."""
    if event.answer in WHOLE:
        return {"awaits": None, "assembly": None}
    if event.answer == 0:
        return {"assembly": Assembly(event.fields.sequence, len(event.message))}
    return {"assembly": None} if ends(event) else {}


def is_stored(event):
    """Whether the payload is then in the store. Of messages with a wrong check only a response's is."""
    head = header_of(event.payload) if event.fields.som else None
    is_control = head is not None and head.nmimt == CONTROL
    return event.answer in (0, *WHOLE) or event.answer == WRONG_CHECK and not is_control


FOLLOWED = {
    calls.REQUESTER_SETUP: Requester.setup, calls.REQUESTER_STORE: Requester.store,
    calls.REQUESTER_AWAIT: Requester.awaiting, calls.REQUESTER_CUT: Requester.cut,
    calls.REQUESTER_PRIMITIVE: Requester.primitive, calls.REQUESTER_RECEIVE: Requester.receive,
}
