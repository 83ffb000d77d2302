"""What was declared of each slot's taken command, from the records and the printed lines of a script alone.

The declarations that were answered 0 since a command was taken say what a look has to show of it, and what
its Abort has to report: 1 if the last one said that it can be stopped, else 2. Where a line shows another
thing, the run ends with an error.
"""
import collections

from exchanges import written_by
from second.calls import (COMPLETE, DECLARATION, DECLARE, LOOK, NUMBER, POLL, RECEIVE, RESET, SETUP, TAKE,
                          TWO_NUMBERS)

# Of a primitive: its opcode, and the bits of byte 2 that let it not act. Of a reply: the bits of byte 1 that
# are zero, where its status is, and its CPSR.
ABORT, MEB_OR_CIAP = 2, 3
NMIMT, STATUS, CPSR = 0x78, 4, slice(6, 8)
SHOWN = {1: "can", 0: "taken"}          # by a look
REPORTED = {1: 1, 0: 2}                 # by an Abort

# A taken command: the ticket that was given for it, and what was declared since, 1 or 0 each
Taken = collections.namedtuple("Taken", "ticket marks")

# What an Abort of a taken command reports, while its reply waits
Report = collections.namedtuple("Report", "slot cpsr")

def last_mark(taken):
    """ "Taking starts at "can't"." """
    return taken.marks[-1] if taken.marks else 0

def words_of(look):
    """What a look shows, by its names."""
    return dict(word.split("=") for word in look.split())

def is_reply(packet):
    """Whether a packet that was handed out is a control reply."""
    return packet[3] & 0x80 and not packet[5] & NMIMT

class Declared:
    """A script under way."""

    def __init__(self):
        self.taken = [None, None]       # for each slot, its command while it is taken and has no response
        self.report = None              # the Report that the reply has to show, if that can be said
        self.seen = {TAKE: self.was_taken, DECLARE: self.was_declared, COMPLETE: self.was_completed,
                     RECEIVE: self.received, POLL: self.polled, LOOK: self.looked, RESET: self.ended,
                     SETUP: self.ended}

    def saw(self, tag, body, line):
        """Takes in a record and its line; the Report that the line shows, or None."""
        return self.seen[tag](body, line) if tag in self.seen else None

    def was_taken(self, body, line):
        slot, (answer, *ticket) = *NUMBER.unpack(body), line.split()
        if answer == "0":
            self.taken[slot] = Taken(int(*ticket), [])

    def was_declared(self, body, line):
        slot, ticket, mark = DECLARATION.unpack(body)
        if line == "0":
            self.known(slot, ticket, "declares").marks.append(mark)

    def was_completed(self, body, line):
        if line == "0":
            slot, ticket = TWO_NUMBERS.unpack(body[:8])
            self.known(slot, ticket, "completes")
            self.taken[slot] = None

    def known(self, slot, ticket, what):
        taken = self.taken[slot]
        if taken is None or taken.ticket != ticket:
            raise ValueError(f"slot {slot} {what} with the ticket {ticket}, which no taking has given")
        return taken

    def ended(self, _body, _line):
        self.taken, self.report = [None, None], None

    def received(self, packet, line):
        """A primitive's reply takes the place of the one that waits."""
        if line == "2":
            message = packet[4:]
            slot, acts = message[1] & 1, message[4] == ABORT and not message[2] & MEB_OR_CIAP
            taken, self.report = self.taken[slot], None
            if acts and taken is not None:
                self.report, self.taken[slot] = Report(slot, REPORTED[last_mark(taken)]), None

    # What the lines show

    def polled(self, _body, line):
        if not line.startswith("1 ") or not is_reply(written_by(line)):
            return None
        report, self.report = self.report, None
        return self.judged(report, written_by(line)[4:])

    def looked(self, _body, line):
        words = words_of(line)
        for slot, taken in enumerate(self.taken):
            state = words[f"slot{slot}"].split(",")[3].split(":")[-1]
            wanted = None if taken is None else SHOWN[last_mark(taken)]
            if (state if state in SHOWN.values() else None) != wanted:
                raise ValueError(f"a look shows slot {slot} as {state}, but of its command {wanted} is known")
        reply = words["reply"].split(":")[-1]
        return self.judged(self.report, b"" if reply == "-" else bytes.fromhex(reply))

    def judged(self, report, reply):
        """The report, if there is one and the reply shows it."""
        told = reply[STATUS:STATUS + 1], int.from_bytes(reply[CPSR], "little")
        if report is not None and told != (b"\0", report.cpsr):
            raise ValueError(f"Abort of slot {report.slot}'s taken command is answered with {reply.hex()}, "
                             f"but has to report {report.cpsr}")
        return report
