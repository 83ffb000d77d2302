"""Runs records on the second program and notes what they reach.

A goal is a short line of text. `reached` has those of the logs, `reached_calls`, `reached_requester`,
`reached_units` and `reached_declare` those of the scripts, and `reached_replay` those of Replay for both.
"""
import copy
import io

from second.endpoint import STORE
from second.wire import ABORT, CONTROL, GET_STATE, PAUSE, REPLAY, RESUME, message_header, packet_fields
from units import most_packets

# Arguments at a bound, for calls of both ends; what setup answers to an EID
FAR_SLOTS = (2, (1 << 32) - 1)
HIGH_PARTS = (1 << 8, 1 << 16, 1 << 31)         # added to a slot or a ticket: the low bits stay equal
EIDS = {0: 38, 7: 38, 8: 0, 254: 0, 255: 38}

STATES = ("Idle", "Receive", "Process untaken", "Process taken", "Process answered", "Transmit")
STOPPABLE = "Process stoppable"                 # taken, and declared so that it can be stopped: not in a log
SCRIPT_STATES = (*STATES[:4], STOPPABLE, *STATES[4:])
TAKEN = ("Process taken", STOPPABLE)
PRIMITIVES = {PAUSE: "Pause", RESUME: "Resume", ABORT: "Abort", GET_STATE: "Get State", REPLAY: "Replay"}
COUNTS = (1, 2, 66)                             # packets of a message that is a goal of logs
MOST = "the most"
SCRIPT_COUNTS = (1, 2, MOST)                    # the same of scripts; how many are the most, the unit says
ENTRY_GROUNDS = ("NMIMT", "MEB", "size")
WRONG_STORES = {(False, True): "store 0", (True, False): "store 1", (False, False): "both stores"}

def picture(endpoint):
    """The endpoint as it is now, to be looked at after a call; the stores are not copied."""
    kept = copy.copy(endpoint)
    kept.jobs, kept.counts = list(endpoint.jobs), list(endpoint.counts)
    return kept

def counted(packets, unit):
    """How many packets a message has, as a goal of scripts says it."""
    return MOST if len(packets) == most_packets(unit) else len(packets)

def answer_of(line):
    return line.split()[0]

def packet_kind(packet, control):
    """What a packet is; `control` is the name for a control message."""
    if not packet_fields(packet).som:
        return "a later packet"
    return control if message_header(packet[4:]).nmimt == CONTROL else "a first packet"

def is_paused(endpoint, slot):
    return slot < 2 and endpoint.paused >> slot & 1

def wrong_stores(endpoint):
    """Which of the lent stores have another length, or None if they are right."""
    return WRONG_STORES.get(tuple(len(store) == STORE for store in endpoint.stores))

def has_begun(endpoint, slot):
    """Whether the slot has sent a packet of its response and has more to send."""
    return getattr(endpoint.jobs[slot], "sent", 0) > 0

def entry_ground(response):
    """Why a command was answered at once with this response."""
    status, place = response[4], response[6]
    return "size" if status == 5 else "NMIMT" if place == 1 else "MEB"

def in_transmit(endpoint):
    return [slot for slot in (0, 1) if endpoint.state(slot) == "Transmit"]

class Run:
    """Records under way on a program of the second one: the lines that it printed, and what it reached.

    `notes` has for each tag what is noted of such a record, from the end that it is for as it was before, the
    record's bytes and the printed line."""

    def __init__(self, program, notes):
        self.program, self.notes = program, notes
        self.lines, self.reached = [], set()

    @property
    def endpoint(self):
        return self.program.endpoint

    def note(self, text, when=True):
        if when:
            self.reached.add(text)

    def answered(self, call, grounds, answer):
        """The call's grounds, of which the first has to be what was answered."""
        if grounds:
            first, *others = grounds
            if answer is not None and first.split()[0] != answer:
                raise ValueError(f"{call} answers {answer}, but the first ground is {first}")
            self.note(f"{call}: {first} alone", not others)
            for other in others:
                self.note(f"{call}: {first} before {other}")
        elif answer not in (None, "0", "1", "2"):
            raise ValueError(f"{call} answers {answer} without a ground")

    def pictured(self, _tag):
        """The end that a record of this tag is for, as it is now."""
        return picture(self.endpoint)

    def record(self, tag, body):
        before = self.pictured(tag)
        line = self.program.line(tag, body)
        self.lines.append(line)
        self.noted(tag, before, body, line)

    def noted(self, tag, before, body, line):
        self.notes[tag](before, body, line)

    def fault(self, rest):
        """The rest of the records from a faulty one on."""
        self.lines.append(self.program.line(None, None))
        self.note(f"bad for {self.fault_of(rest)}")

def replay(run, records, given):
    """The run after all of the bytes given, which `records` cuts into records."""
    at = 0
    for tag, body in records(io.BytesIO(given)):
        if tag is None:
            run.fault(given[at:])
        else:
            run.record(tag, body)
            at += 3 + len(body)
    return run
