"""Describes stored logs and scripts. A step of one is records, and the lines that they have to print.

The lines are written by hand from the document. Packets and responses are put together here and not
by the second program, so that the two can disagree; only the integrity check is shared.
"""
from records import FULL, POLL, ask, command, control, damaged, packet, packets, record
from second.wire import GET_STATE, MI, REPLAY, sealed
from units import parts

class Described(dict):
    """The logs or the scripts of a folder: a name, and its records and lines."""

    def add(self, name, *steps):
        """A step is (records, expected lines); one record or line may stand without a list."""
        if name in self:
            raise ValueError(f"the name {name} is there twice")
        records, lines = [], []
        for given, printed in steps:
            records += [given] if isinstance(given, bytes) else given
            lines += printed if isinstance(printed, list) else [printed]
        self[name] = records, [str(line) for line in lines]

# Records that many logs use
MI_COMMAND = packet(command())
OTHER = packet(command(slot=1), tag=3)                # an MI command for slot 1
COMMANDS, TAGS = (MI_COMMAND, OTHER), (1, 3)          # an MI command of each slot, and its message tag
SLOTS = ((0, 1), (1, 0))                              # a slot, and the other one
BODY = bytes((0, 7, 8, 9))

def start(slot=0, tag=1, **fields):
    """The first of two packets of a command; the slot is then in Receive."""
    return packets(command(100, slot, **fields), tag=tag)[0]

def refused(slot):
    """For each refusal that stores nothing a packet that gets it, where the slot is Idle and nothing is
    assembled. It names the slot, if it is long enough."""
    whole, replay = command(slot=slot), control(REPLAY, slot)
    return (("10", record(1, b"\1\x08\x09\xc9"), 10), ("11", packet(command(65, slot)), 11),
            ("12", packet(whole, version=2), 12), ("13", packet(whole, destination=9), 13),
            ("14", packet(whole, to=0), 14), ("15-type", packet(b"\x85" + whole[1:]), 15),
            ("15-ror", packet(command(slot=slot, ror=1)), 15), ("16", packet(whole, eom=0), 16),
            ("17", packet(whole[:7]), 17), ("18", packet(replay + b"\0"), 18),
            ("19-primitive", packet(damaged(replay)), 19), ("21", packet(whole, som=0), 21))

# What a poll prints
def sent(payload, som=1, eom=1, sequence=0, to=9, tag=1, source=8):
    marks = som << 7 | eom << 6 | (sequence & 3) << 4 | tag
    return "1 " + (bytes((1, to, source, marks)) + payload).hex()

def response(body, slot=0, kind=MI):
    return sealed(bytes((0x84, 0x80 | kind << 3 | slot, 0, 0)) + body)

def answered(*body, slot=0, kind=MI, tag=1):
    """The one packet of a short response."""
    return sent(response(bytes(body), slot, kind), tag=tag)

def replied(cpsr, slot=0, to=9, tag=2):
    """The reply to a control primitive of `ask`."""
    body = bytes((0, 0x5A)) + cpsr.to_bytes(2, "little")
    return sent(response(body, slot, 0), to=to, tag=tag)

def shows(word, slot=0):
    """A Get State that clears nothing, and its reply."""
    return [ask(GET_STATE, slot), POLL], [2, replied(word, slot)]

def cut(message, tag=1, unit=FULL):
    """The lines of the polls that send a whole message."""
    payloads = parts(message, unit)
    return [sent(payload, i == 0, i == len(payloads) - 1, i, tag=tag) for i, payload in enumerate(payloads)]

def sends(slot=0, body=BODY, unit=FULL):
    """The lines of the polls that send the response to the slot's command of COMMANDS."""
    return cut(response(body, slot), TAGS[slot], unit)
