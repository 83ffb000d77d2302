"""Calls of the requester in words: what was called, the answer with its ground, what changed."""
from call_records import room
from explain.following import HEADER, header_of
from explain.names import MESSAGES, count, listed
from explain.wording import (GROUNDS, message_words, packet_words, plain_refusal, primitive_name, reply_words,
                             size_words, status_given, status_words)
from second import calls
from second.wire import CONTROL, packet_fields

from .requester import WHOLE, read_cut, read_primitive
from .requester_words import BUFFER
from .setups import setup_called, setup_done, setup_refused
from .telling import ODD, SHORTEST, STORE, hex_words, response_lines, unit_words

GREATEST_TAG = 7
SIZES = range(8, STORE + 1)
PRIMITIVE = 16              # bytes of a control primitive's packet
AT_ENDS = 2                 # packets that are told at each end of many
OF_CONTENTS = range(12, 24)             # refusals for what a packet has in it

# Answers of a call that was refused: those that are what they are at the endpoint, and those that are not
SHARED = 10, 11, 12, 16, 17, 19, 22, 23, 30, 38, 39
OWN = {
    13: "the destination is not the requester's EID",
    14: "TO is 1",
    15: "the first byte is not 84h, or ROR is 0",
    18: "a control reply that is not one packet of 12 payload bytes",
    20: "source and tag are not awaited",
    21: "no message with this source and tag is being gathered",
    36: "the buffer is too short for what is written",
    40: f"the store has not {STORE:,} bytes",
    41: f"the message has not 8 to {STORE:,} bytes, or the message tag is above {GREATEST_TAG}",
}
REFUSALS = {*SHARED, *OWN}


def requester_lines(event):
    """An event in lines."""
    words = ground(event) if event.answer in REFUSALS else DONE[event.tag](event)
    odd = [ODD] if event.is_odd else []
    touched = ["!! bytes of the buffer behind the packets were touched"] if event.touched else []
    return [f"requester: {'; '.join(CALLED[event.tag](event))}", f"-> {event.answer}, {words}",
            *odd, *touched, *(f"   {line}" for line in effect_lines(event))]


def who_words(who):
    return f"EID {who[0]} under tag {who[1]}" if who else "nothing"


# What was called

def packet_called(event):
    """A packet. Where it begins a response, the byte behind the header is a status and no opcode."""
    words = packet_words(event.body, event.fields)
    head = header_of(event.payload) if event.fields and event.fields.som else None
    return [words[0], response_words(event, head)] if head and head.ror else words


def response_words(event, head):
    """The response that a first packet begins."""
    payload, eom = event.payload, event.fields.eom
    body = payload[HEADER:-HEADER] if eom else payload[HEADER:]
    kind = MESSAGES.get(head.nmimt, f"command of unknown kind (NMIMT {head.nmimt})")
    name = "control reply" if head.nmimt == CONTROL else f"response to the {kind}"
    return f"{name} of slot {head.csi}{status_given(body, head.nmimt)}, {size_words(len(payload), eom)}"


def cut_called(event):
    given = read_cut(event.body)
    message = message_words(given.message, 1) if given.message else "a message without a byte"
    return [f"cut for {who_words(given)}{buffer_words(given)}", message]


def primitive_called(event):
    given = read_primitive(event.body)
    return [f"primitive for {who_words(given)}{buffer_words(given)}",
            f"{primitive_name(given)}, TAG {given.primitive_tag:02x}h, CPSP {given.cpsp:04x}h"]


def buffer_words(given):
    return "" if given.buffer == BUFFER else f" with a buffer of {count(given.buffer, 'byte')}"


CALLED = {
    calls.REQUESTER_SETUP: lambda event: [setup_called(event.body)],
    calls.REQUESTER_STORE: lambda event: [f"a store of {count(event.lent, 'byte')}"],
    calls.REQUESTER_AWAIT: lambda event: [f"await {who_words(event.body)}"],
    calls.REQUESTER_CUT: cut_called,
    calls.REQUESTER_PRIMITIVE: primitive_called,
    calls.REQUESTER_RECEIVE: packet_called,
}


# The answer

RECEIVED = {0: "taken in, more to come", 1: "a response is complete", 2: "a control reply is there"}


def store_done(event):
    return f"it is lent from here on{'' if event.lent == STORE else ': receive answers 40'}"


def cut_done(event):
    return f"cut into {count(len(event.packets), 'packet')}, {count(event.length, 'byte')}"


def packet_done(event):
    plain = RECEIVED[event.answer]
    if event.is_odd:
        return plain
    return f"{plain}: {count(len(event.message), 'byte')} from {who_words(event.who)}"


DONE = {
    calls.REQUESTER_SETUP: lambda event: f"{setup_done('requester', event.after)}, and it awaits nothing",
    calls.REQUESTER_STORE: store_done,
    calls.REQUESTER_AWAIT: lambda event: "awaited from here on",
    calls.REQUESTER_CUT: cut_done,
    calls.REQUESTER_PRIMITIVE: lambda event: f"built, {count(event.length, 'byte')}",
    calls.REQUESTER_RECEIVE: packet_done,
}


# The ground of a refusal

def ground(event):
    """Why a call was refused; the plain words of its number where packet and look do not show it."""
    hidden = event.is_odd or event.answer in OF_CONTENTS and not event.payload
    found = None if hidden else OWN_GROUNDS.get(event.answer) or GROUNDS.get(event.answer)
    return found(event) if found else OWN.get(event.answer) or plain_refusal(event)


def ground_destination(event):
    return f"the destination is EID {event.fields.destination} and not the requester's, {event.before.eid}"


def ground_shape(event):
    if event.payload[0] != 0x84:
        return f"the first byte is {event.payload[0]:02x}h and not 84h"
    return "ROR is 0: it is no response"


def ground_control(event):
    size = len(event.payload)
    parts = [] if event.fields.eom else ["EOM is 0"]
    if size != 12:
        parts.append(f"it has {count(size, 'payload byte')} and not 12")
    return f"a control reply has to be one packet of 12 payload bytes: {listed(parts)}"


def ground_not_awaited(event):
    return (f"source and tag are not awaited: {who_words(event.who)} came, and "
            f"{who_words(event.before.awaits)} is awaited")


def ground_no_assembly(event):
    gathered = f"one from {who_words(event.before.awaits)}" if event.before.assembly else "none"
    return f"no message from {who_words(event.who)} is being gathered ({gathered} is)"


def ground_sequence(event):
    last = event.before.assembly.sequence
    return f"out of sequence: {event.fields.sequence} came, and after {last} comes {(last + 1) % 4}"


def ground_arguments(event):
    """The size, the message tag, or both; the tag is the second byte of each body."""
    parts, tag = [], event.body[1]
    if event.tag == calls.REQUESTER_CUT and (size := len(read_cut(event.body).message)) not in SIZES:
        parts.append(f"the message has {count(size, 'byte')}, not 8 to {STORE:,}")
    if tag > GREATEST_TAG:
        parts.append(f"the message tag is {tag}, above {GREATEST_TAG}")
    return "; ".join(parts) or OWN[41]


def ground_buffer(event):
    """The buffer against what would be written: the message, with a header for each packet."""
    if event.tag == calls.REQUESTER_CUT:
        given = read_cut(event.body)
        needed = room(len(given.message), event.before.unit)
    else:
        given, needed = read_primitive(event.body), PRIMITIVE
    return f"the buffer has {count(given.buffer, 'byte')}, fewer than the {needed:,} that are to be written"


def ground_setup(event):
    return setup_refused(event.answer, event.after)


OWN_GROUNDS = {
    13: ground_destination,
    14: lambda event: "TO is 1: it is no response",
    15: ground_shape,
    18: ground_control,
    20: ground_not_awaited,
    21: ground_no_assembly,
    22: ground_sequence,
    23: lambda event: f"the total would be {count(len(event.message), 'byte')}, above {STORE:,}",
    30: lambda event: f"there is no slot {read_primitive(event.body).slot}, only 0 and 1",
    36: ground_buffer,
    38: ground_setup,
    39: ground_setup,
    40: lambda event: f"the store has {count(event.lent, 'byte')} and not {STORE:,}",
    41: ground_arguments,
}


# What else a call did

def effect_lines(event):
    yield from packet_lines(event.packets)
    if event.answer in REFUSALS:
        yield from refusal_lines(event)
    elif event.ended:
        yield ended_words(event)
    if event.answer in WHOLE and not event.is_odd:
        yield from whole_lines(event)


def packet_lines(packets):
    """The packets that were written; of many those at the ends."""
    lines = [packet_words(packet, packet_fields(packet) if len(packet) >= HEADER else None)[0]
             for packet in packets]
    between = len(lines) - 2 * AT_ENDS
    return lines if between <= 2 else [*lines[:AT_ENDS], f"{between} more packets", *lines[-AT_ENDS:]]


def refusal_lines(event):
    """What a refusal leaves otherwise than it was."""
    if event.ended:
        yield f"{ended_words(event)}; it is still awaited"
    if event.before.check != event.after.check:
        yield "its payload stays in the store"
    if event.before == event.after and event.tag != calls.REQUESTER_SETUP:
        yield "nothing changed"


def ended_words(event):
    return (f"ends the assembly from {who_words(event.before.awaits)}, "
            f"{count(event.ended.length, 'byte')} gathered")


def whole_lines(event):
    """The message that is whole, which lies at the store's front."""
    body = event.message[HEADER:-HEADER]
    if event.answer == 2:
        yield reply_line(event.asked, body)
    elif len(event.message) < SHORTEST:
        yield f"its body of {count(len(body), 'byte')}: {hex_words(body)}"
    else:
        yield from response_lines(event.message, event.parts)


def reply_line(asked, body):
    """What a control reply says. Its CPSR has a meaning with the primitive that it answers."""
    if asked and (body[0] or body[1] == asked.tag):
        said = reply_words(asked._replace(body=body))
        return f"the reply to {primitive_name(asked)} of record {asked.record}: {said}"
    if body[0]:
        return f"it says error {status_words(body, CONTROL)}"
    return f"it says TAG {body[1]:02x}h, CPSR {body[2] | body[3] << 8:04x}h"


# The state

def state_words(look):
    """What is awaited and gathered."""
    gathered = f", {count(look.assembly.length, 'byte')} gathered" if look.assembly else ""
    return f"requester EID {look.eid}, awaits {who_words(look.awaits)}{gathered}"


def requester_look_lines(look, lent):
    sequence = f"; the last packet's sequence was {look.assembly.sequence}" if look.assembly else ""
    return [f"{state_words(look)}{sequence}",
            f"{unit_words(look.unit)}; its store: {count(lent, 'byte')}, CRC-32C {look.check}h"]
