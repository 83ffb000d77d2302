"""Lines, one by one: the calls that they ask for, the answers in words, and what was expected."""
import textwrap

from call_records import LOOK, REQUESTER_LOOK
from explain.wording import slots_words
from second import calls

from . import requester
from .program import Trouble
from .requester_telling import requester_lines, requester_look_lines, state_words, who_words
from .setups import ANSWERS as SETUP_ANSWERS
from .telling import About, event_lines, look_lines, read_lines, response_lines, setup_lines, stores_lines
from .values import LineError
from .watching import Call, Joiner, Watcher, is_event
from .words import STATES, read_line

INDENT = " " * 8
WIDTH = 120
AT_ENDS = 2                 # calls that are told at each end of a long row


class Unexpected(Exception):
    """An expectation that does not hold."""


class Quit(Exception):
    """The user wants to end."""


class Session:
    """An endpoint and a requester under trial.

    answers   the answers of the last line that called, as numbers
    line      what the program printed for its last call
    body      the body of the last response or control reply that was whole
    packets   by end, the packets that the other end wrote last for it
    """

    def __init__(self, program, write, raw=False, save=None, width=WIDTH):
        self.program, self.write, self.raw, self.save, self.width = program, write, raw, save, width
        self.number, self.answers, self.line, self.body = 0, [], None, None
        self.lent, self.joiner = (4224, 4224), Joiner()
        self.watcher, self.followed = Watcher(self.printed(LOOK)), None
        self.shown, self.packets = {"slots": self.slots_line()}, {"endpoint": [], "requester": []}

    @property
    def eid(self):
        return self.watcher.endpoint.eid

    @property
    def unit(self):
        """The endpoint's transmission unit."""
        return self.watcher.endpoint.unit

    @property
    def requester(self):
        """The requester. It is looked at when a line first asks for it: a program may have none."""
        if self.followed is None:
            self.followed = requester.Requester(self.printed(REQUESTER_LOOK))
            self.shown["requester"] = state_words(self.followed.look)
        return self.followed

    def ticket(self, slot):
        """The ticket last taken there, else 0."""
        return self.watcher.given.get(slot, 0)

    # A line

    def run(self, text):
        """Does what a line of the user says."""
        act = read_line(text)
        if act is not None:
            act(self)

    def call(self, *records):
        """Makes calls, and tells them."""
        self.row(iter(records))

    def polls(self, record):
        """Polls until no packet comes."""
        def more():
            yield record
            while self.answers[-1] == 1:
                yield record
        self.row(more())

    def row(self, records):
        self.answers, self.polled, told, first = [], [], [], self.number + 1
        try:
            for record in records:
                told.append(self.one(record))
        finally:
            self.tell(first, told)
            self.tell_states()

    def one(self, record):
        """Makes a call; its lines."""
        call = Call(record[0], record[3:])
        before = self.watcher.state
        follower = self.requester if requester.is_call(*call) else None
        self.number += 1
        self.line = self.printed(record)
        if self.line == "bad":
            self.answers.append(None)
            raise Trouble(f"record {self.number}: the program printed bad and ended: the record is none that it has")
        if is_event(*call):
            return self.event(call, before)
        return self.asked(call, follower) if follower else self.other(call)

    def event(self, call, before):
        event = self.watcher.event(self.number, call, self.line, self.printed(LOOK))
        self.answers.append(event.answer)
        buffer = int.from_bytes(call.body, "little") if call.tag == calls.POLL else 0
        lines = event_lines(event, About(self.lent, buffer), before, self.watcher.state)
        if call.tag == calls.POLL:
            self.packets["requester"] = self.polled
        if event.sent:
            self.polled.append(event.sent)
            lines += self.sent(event)
        if self.line.endswith(" touched"):
            lines.append("!! bytes of the buffer behind the packet were touched")
        return lines

    def sent(self, event):
        """A response that is whole with this packet."""
        whole = self.joiner.joined(event.sent)
        if whole is None:
            return []
        message, packets = whole
        self.body = message[4:-4]
        return [] if event.primitive else [f"   {line}" for line in response_lines(message, packets)]

    def asked(self, call, follower):
        """A call of the requester."""
        event = follower.event(self.number, call, self.line, self.printed(REQUESTER_LOOK))
        self.answers.append(event.answer)
        if call.tag in requester.WRITING:
            self.packets["endpoint"] = event.packets
        if event.answer in requester.WHOLE:
            self.body = event.message[4:-4]
        return requester_lines(event)

    def other(self, call):
        """A call that no log has, and that is no declaration."""
        words = self.line.split(" ")
        self.answers.append(int(words[0]) if words[0].isdigit() else None)
        if call.tag != calls.LOOK:
            self.watcher.look_at(self.printed(LOOK))
        if call.tag == calls.SETUP and not calls.is_bad(*call):
            return self.set_up(call)
        if call.tag == calls.STORES:
            self.lent = calls.TWO_LENGTHS.unpack(call.body)
            return stores_lines(self.lent, self.line)
        if call.tag == calls.READ:
            return read_lines(calls.NUMBER.unpack(call.body)[0], bytes.fromhex(words[-1]) if words[-1] != "-" else b"")
        return [f"record with tag {call.tag}", f"-> {self.line}"]

    def set_up(self, call):
        """A setup of the endpoint."""
        if self.line not in map(str, SETUP_ANSWERS):
            raise Trouble(f"record {self.number}: {self.line!r} is no line for this call")
        self.watcher.forget()
        return setup_lines(call.body, self.answers[-1], self.watcher.endpoint)

    def printed(self, record):
        """The program's line for a record."""
        if self.save:
            self.save.write(record)
        if self.raw:
            self.write(f"{INDENT}record {record[:3].hex(' ')} {record[3:].hex()}".rstrip() + "\n")
        line = self.program.line(record)
        if self.raw:
            self.write(f"{INDENT}line   {line}\n")
        return line

    # Telling

    def tell(self, first, told):
        """The lines of calls from number `first` on; of a long row those at its ends, if the answers between them are the same."""
        between = range(AT_ENDS, len(told) - AT_ENDS)
        short = len(between) > 2 and len(set(self.answers[AT_ENDS:len(told) - AT_ENDS])) == 1
        for place, lines in enumerate(told):
            if not short or place not in between:
                self.put(first + place, lines)
            elif place == between[0]:
                self.put("", [f"records {first + place} to {first + between[-1]} are alike: {self.answers[place]} each"])

    def put(self, number, lines):
        """Lines, the first with a number in front; long ones go on below."""
        for place, line in enumerate(lines):
            text = line.lstrip()
            lead = INDENT + " " * (len(line) - len(text))
            front = f"{number:>6}  " if place == 0 else lead
            self.write("".join(f"{part}\n" for part in textwrap.wrap(
                text, self.width, initial_indent=front, subsequent_indent=lead + "   ", break_long_words=False,
                break_on_hyphens=False)))

    def slots_line(self):
        return slots_words(self.watcher.view)

    def tell_states(self):
        """What the slots are, and what the requester awaits, if they are otherwise than was told before."""
        states = {"slots": self.slots_line()}
        if self.followed:
            states["requester"] = state_words(self.followed.look)
        for name, words in states.items():
            if words != self.shown[name]:
                self.put("", [f"= {words}"])
        self.shown = states

    def look(self):
        self.line = self.printed(LOOK)
        self.watcher.look_at(self.line)
        self.put("", look_lines(self.watcher.state, self.watcher.view, self.lent))

    def look_at_requester(self):
        found = self.requester
        self.line = self.printed(REQUESTER_LOOK)
        found.look = requester.read_look(self.line)
        self.put("", requester_look_lines(found.look, found.lent))

    # What was expected

    def expect_answers(self, numbers):
        if not self.answers:
            raise LineError("expected a call above: there is no answer yet")
        found = self.answers if len(numbers) > 1 else self.answers[-1:]
        self.compare("the answer", "the answers", " ".join(map(str, numbers)), " ".join(map(str, found)))

    def expect_slot(self, slot, state):
        found = self.watcher.endpoint.state(slot)
        self.compare(f"slot {slot}", "", state, next(name for name, known in STATES.items() if known == found))

    def expect_body(self, body):
        self.compare("the body", "", body.hex(" "), "none" if self.body is None else self.body.hex(" "))

    def expect_awaits(self, who):
        found = self.requester.look.awaits
        self.compare("the awaiting", "", who_words(who), who_words(found))

    def expect_gathered(self, length):
        found = self.requester.look.assembly
        self.compare("the gathered length", "", str(length), str(found.length if found else 0))

    def expect_unit(self, end, unit):
        found = self.unit if end == "endpoint" else self.requester.look.unit
        self.compare(f"the unit of the {end}", "", str(unit), str(found))

    def expect_line(self, line):
        self.compare("the line", "", line, self.line or "none")

    def compare(self, what, several, wanted, found):
        if wanted != found:
            verb = f"{several} were" if several and " " in found + wanted else f"{what} was"
            raise Unexpected(f"expected {wanted}, and {verb} {found}")

    def quit(self):
        raise Quit
