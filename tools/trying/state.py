"""What a look shows, held in an endpoint of the second program, which is only looked at: no call is made on it."""
from collections import namedtuple

from second.endpoint import IDLE, SLOT_BIT, Answered, Endpoint, Held, Idle, Process, Receive, Transmit
from second.wire import MessageHeader

from .program import Trouble

# fields: the words of the line by their names
State = namedtuple("State", "fields endpoint")


def read_idle(*last):
    """Idle, with the last response if it is still held: requester, tag, length."""
    if not last:
        return IDLE
    requester, tag, length = last
    return Idle(Held((requester, tag), length))


# A command in Process, by the last word of its phase: whether it was taken, and whether it can be stopped
TAKINGS = {"untaken": (False, False), "taken": (True, False), "can": (True, True)}


def read_process(source, tag, nmimt, length, taking):
    return Process((source, tag), MessageHeader(0, nmimt, 0, 0, 0), length, *TAKINGS[taking])


# What a slot holds, by the first word of its phase
PHASES = {
    "idle": read_idle,
    "receive": lambda source, tag, sequence, length: Receive((source, tag), None, sequence, length),
    "process": read_process,
    "answered": lambda requester, tag, length: Answered((requester, tag), None, length),
    "transmit": lambda requester, tag, length, sent: Transmit((requester, tag), length, sent),
}


def read_state(line, before=None):
    """The state of a look's line. What a slot held before is the same object if it has not changed."""
    try:
        fields = dict(word.split("=", 1) for word in line.split(" "))
        return State(fields, held(fields, before and before.endpoint))
    except (KeyError, TypeError, ValueError):
        raise Trouble(f"a look printed {line!r}, which is no state") from None


def held(fields, before):
    endpoint = Endpoint(int(fields["eid"]), int(fields["unit"]))
    endpoint.flags = int(fields["flags"], 16)
    endpoint.last_was_control = fields["last"] == "1"
    endpoint.reply = read_reply(fields["reply"])
    for slot in (0, 1):
        ticket, paused, busy, phase = fields[f"slot{slot}"].split(",")
        endpoint.counts[slot] = int(ticket)
        endpoint.paused |= int(paused) << slot
        endpoint.flags |= int(busy) << SLOT_BIT[slot]
        endpoint.jobs[slot] = same(read_job(phase), before and before.jobs[slot])
    return endpoint


def read_job(phase):
    name, *values = phase.split(":")
    return PHASES[name](*(int(value) if value.isdigit() else value for value in values))


def read_reply(text):
    if text == "-":
        return None
    requester, tag, message = text.split(":")
    return (int(requester), int(tag)), bytes.fromhex(message)


def same(job, before):
    return before if type(before) is type(job) and before == job else job
