"""An event in words: the record, its answer with the ground, what else it did, and the slots afterwards."""
from second.endpoint import Answered, Receive, Transmit
from second.log import COMPLETE, PACKET, POLL, RESET, TAKE, TIMEOUT
from second.wire import ABORT, CONTROL, GET_STATE, PAUSE, REPLAY, RESUME, crc32c, error

from .following import HEADER, REQUEST, is_lost, is_paused, left_for_idle, packets_of
from .names import (DONE, FLAGS, INVALID_PARAMETER, KINDS, MESSAGES, OPCODES, PRIMITIVES, REFUSAL_FLAG,
                    STATE_NAMES, STATES, STATUS, count, field_at, flags_set, listed, longest_words, number,
                    refusals)


# The record

def record_words(event):
    """What a record is, in parts."""
    if event.tag is None:
        return ["a faulty record, where the log program ends"]
    if event.tag == PACKET:
        return packet_words(event.body, event.fields)
    if event.tag == COMPLETE:
        return [f"complete of slot {event.named} with a body of {count(len(event.body) - 1, 'byte')}{status_given(event.body[1:])}"]
    return [{POLL: "poll", TIMEOUT: "timeout of slot {}", TAKE: "take of slot {}", RESET: "reset"}[event.tag].format(event.named)]


def status_given(body, nmimt=None):
    return f", status {status_words(body, nmimt)}" if len(body) >= 4 else ""


def packet_words(packet, fields):
    """A packet's header and, with SOM, what message it begins."""
    words = [f"packet of {count(len(packet), 'byte')}, {header_words(packet, fields)}"]
    if fields and fields.som and len(packet) > HEADER:
        words.append(message_words(packet[HEADER:], fields.eom))
    elif fields and len(packet) > HEADER:
        words.append(f"a later packet of a message, {count(len(packet) - HEADER, 'payload byte')}")
    return words


def header_words(packet, fields):
    if fields is None:
        names = ("version {}".format(packet[0] & 15) if packet else "", *(f"{name} EID {value}" for name, value
                                                                           in zip(("destination", "source"), packet[1:])))
        return f"too short for a packet's header: {listed(names)}" if packet else "nothing is there"
    marks = " ".join(name for name, mark in (("SOM", fields.som), ("EOM", fields.eom), ("TO", fields.to)) if mark)
    version = "" if fields.version == 1 else f", version {fields.version}"
    payload = "" if len(packet) > HEADER else ", no payload"
    return (f"EID {fields.source} to {fields.destination}, {marks or 'no marks'}, sequence {fields.sequence}, tag {fields.tag}"
            f"{version}{payload}")


def message_words(payload, eom):
    """What the first packet of a message carries, as far as it is there."""
    if payload[0] != REQUEST:
        return (f"{count(len(payload), 'payload byte')}, the first is {payload[0]:02x}h: no NVMe-MI message with an integrity check "
                "(84h)")
    there = len(payload)
    if there == 1:
        return "an NVMe-MI message (84h) of which this 1 byte is there"
    nmimt, slot = payload[1] >> 3 & 15, payload[1] & 1
    name = opcode_words(nmimt, payload, eom)
    words = [f"{name} for both slots" if name in ("Pause", "Resume") else f"{name} for slot {slot}"]
    words += [name for name, mark in (("ROR 1", payload[1] >> 7), ("MEB 1", there > 2 and payload[2] & 1),
                                      ("CIAP 1", there > 2 and payload[2] >> 1 & 1)) if mark]
    if nmimt == CONTROL and there >= 12:
        words.append(f"TAG {payload[5]:02x}h, CPSP {payload[6] | payload[7] << 8:04x}h")
    return ", ".join(words + [size_words(there, eom)])


def opcode_words(nmimt, payload, eom):
    """The kind of a message (NMIMT) and its opcode. A message that ends within 8 bytes has none: its last four are the check."""
    kind = MESSAGES.get(nmimt, f"command of unknown kind (NMIMT {nmimt})")
    if len(payload) <= (8 if eom else HEADER):
        return kind
    opcode = payload[HEADER]
    name = OPCODES.get(nmimt, {}).get(opcode)
    if nmimt == CONTROL:
        return name or f"control primitive of unknown opcode {opcode:02x}h"
    return f"{kind}, opcode {opcode:02x}h{f' ({name})' if name else ''},"


def size_words(there, eom):
    if there < HEADER:
        return f"{there} of the {HEADER} bytes of its header are there"
    if not eom:
        return f"its first {count(there, 'byte')}"
    return count(there, "byte") + (", which is too few for a message" if there < 8 else "")


# The answer

def answer_words(event):
    """The printed line in words, with the ground of a refusal."""
    if not event.known:
        return f"{event.line!r}, which is no line for a {KINDS.get(event.tag, 'faulty record')}"
    if event.tag is None:
        return f"bad: {event.record.fault}"
    if event.refused:
        return f"{event.answer}, {plain_refusal(event) if event.differs else ground(event)}"
    if event.sent:
        return f"1, sends a {packet_words(event.sent, event.fields)[0]}; {sent_words(event)}"
    return f"{event.answer}, {done_words(event)}"


def done_words(event):
    plain = DONE[event.tag][event.answer]
    if event.differs:
        return plain
    return {PACKET: received_words, POLL: silence_words, TAKE: taken_words, COMPLETE: completed_words}.get(
        event.tag, lambda _, words: words)(event, plain)


def received_words(event, plain):
    job = event.after.jobs[event.named]
    if event.answer == 0:
        return f"{plain}: slot {event.named} has {count(job.length, 'byte')} from EID {event.who[0]} under tag {event.who[1]}"
    if event.answer == 1:
        return f"{plain}: slot {event.named} enters Process with ticket {number(event.after.counts[event.named])}{at_once(event)}"
    return f"{plain}: its reply is {reply_words(event.primitive)}"


def at_once(event):
    """The error that answered a command on entering Process, where there was one."""
    return f"; answered at once with error {status_words(event.at_once)}" if event.at_once else ""


def taken_words(event, plain):
    job = event.after.jobs[event.named]
    return (f"{plain}: ticket {number(event.ticket)}, a request of {count(job.length, 'byte')} from EID {job.who[0]} "
            f"under tag {job.who[1]}")


def completed_words(event, plain):
    packets, _ = packets_of(event.after, event.named)
    return f"{plain}: {ticket_words(event)}; a response of {count(packets, 'packet')}"


def ticket_words(event):
    where = f"taken at record {event.taken_at}" if event.taken_at else event.not_taken
    return f"it used ticket {number(event.ticket)}, {where}; the slot's present one is {number(event.after.counts[event.named])}"


def silence_words(event, plain):
    """Why a poll found nothing."""
    view = event.before
    kept = [f"slot {slot}" for slot in (0, 1) if isinstance(view.jobs[slot], (Answered, Transmit))]
    if kept:
        return f"{plain}, because {flags_set(view.paused)}: the response of {listed(kept)} waits for Resume"
    none = "is in Transmit" if any(view.held) else "has a response"
    return f"{plain}: no control reply waits, and no slot {none}" + (f" ({flags_set(view.paused)})" if view.paused else "")


# Grounds of a refusal, from the packet and the slots before it

def ground(event):
    """Why a record was refused; where one of several grounds can be it, which."""
    return GROUNDS.get(event.answer, plain_refusal)(event)


def plain_refusal(event):
    """What the number of a refusal means, without a look at packet and slots."""
    return refusals(event.before.unit)[event.answer]


def ground_long(event):
    return f"the packet has {count(len(event.body), 'byte')}, more than {longest_words(event.before.unit)}"


def ground_not_full(event):
    return f"EOM 0, and the payload is {count(len(event.payload), 'byte')} and not {event.before.unit}"


def ground_shape(event):
    if event.payload[0] != REQUEST:
        return f"the first byte is {event.payload[0]:02x}h and not 84h"
    return "ROR is 1: it is no request"


def ground_control(event):
    size = len(event.payload)
    parts = (("EOM is 0", not event.fields.eom), (f"it has {count(size, 'payload byte')} and not 12", size != 12))
    return f"a control primitive has to be one packet of 12 payload bytes: {listed(words for words, applies in parts if applies)}"


def ground_check(event):
    message = event.message
    carried, found = int.from_bytes(message[-4:], "little"), crc32c(message[:-4])
    return (f"the integrity check is wrong: the message of {count(len(message), 'byte')} carries {carried:08x}h, and its bytes "
            f"give {found:08x}h")


def ground_busy(event):
    return f"the command's slot is not Idle: {slot_words(event.before, event.named)}"


def ground_no_assembly(event):
    under = [f"slot {slot} from EID {job.who[0]} under tag {job.who[1]}" for slot, job in enumerate(event.before.jobs)
             if isinstance(job, Receive)]
    others = f"in Receive: {listed(under)}" if under else "no slot is in Receive"
    return f"no slot is in Receive with EID {event.who[0]} and tag {event.who[1]} ({others})"


def ground_sequence(event):
    last = event.before.jobs[event.named].sequence
    return f"out of sequence: {event.fields.sequence} came, and after {last} comes {(last + 1) % 4}"


def ground_too_long(event):
    total = event.before.jobs[event.named].length + len(event.payload)
    return f"the total would be {count(total, 'byte')}, above 4,224"


def ground_no_command(event):
    state = event.before.states[event.named]
    used = "" if event.ticket is None else f"; {ticket_words(event)}"
    if state == "Process answered":
        return f"slot {event.named} is in Process, and its response is there{used}"
    return f"slot {event.named} is not in Process: it is {in_state(state)}{used}"


def ground_timeout(event):
    state = event.before.states[event.named]
    if state == "Receive":
        return f"slot {event.named} is in Receive, and its pause flag is set"
    return f"slot {event.named} is not in Receive: it is {in_state(state)}"


def in_state(state):
    return state if state == "Idle" else f"in {STATES[state]}"


GROUNDS = {
    10: lambda event: f"the packet has {count(len(event.body), 'byte')}, fewer than 5",
    11: ground_long,
    12: lambda event: f"the version is {event.fields.version} and not 1",
    13: lambda event: f"the destination is EID {event.fields.destination} and not ours, {event.eid}",
    15: ground_shape,
    16: ground_not_full,
    17: lambda event: f"EOM 1, and the payload is {count(len(event.payload), 'byte')}, below 8",
    18: ground_control,
    19: ground_check,
    20: ground_busy,
    21: ground_no_assembly,
    22: ground_sequence,
    23: ground_too_long,
    30: lambda event: f"there is no slot {event.named}, only 0 and 1",
    31: ground_no_command,
    32: lambda event: f"the ticket is not the slot's present one: {ticket_words(event)}",
    33: lambda event: f"taken already: {slot_words(event.before, event.named)}",
    35: lambda event: f"the body has {count(len(event.body) - 1, 'byte')}, not 4 to 4,216",
    37: ground_timeout,
}


# What goes out

def status_words(body, nmimt=None):
    """Status and, for an invalid parameter, the error place: body is a response's from byte 4 on, nmimt its kind."""
    name = STATUS.get(body[0])
    words = f"{body[0]:02x}h{f' ({name})' if name else ''}"
    if body[0] == INVALID_PARAMETER:
        byte, bit = body[2] | body[3] << 8, body[1] & 7
        words += f" at byte {byte} bit {bit}, {field_at(byte, bit, nmimt)}"
    return words


def sent_words(event):
    """What a packet of ours carries."""
    if event.differs:
        return "which is not what the second program sends"
    if event.head and event.head.nmimt == CONTROL:
        asked = event.primitive
        return f"the reply to {primitive_name(asked)} of record {asked.record}: {reply_words(asked)}"
    packets, sent = packets_of(event.before, event.named)
    part = f"packet {sent + 1} of {packets} of "
    again = f", sent again by the Replay of record {event.replays[event.named]}" if event.named in event.replays else ""
    if not event.fields.som:
        return f"{part}the response of slot {event.named}{again}"
    kind = MESSAGES.get(event.head.nmimt, f"command of unknown kind (NMIMT {event.head.nmimt})")
    return f"{part}the response of slot {event.named} to its {kind}, status {status_words(event.payload[HEADER:])}{again}"


def primitive_name(primitive):
    """A control primitive and whom it is for."""
    if primitive.opcode in (PAUSE, RESUME):                 # "CSI is ignored by both"
        return f"{PRIMITIVES[primitive.opcode]} for both slots"
    return f"{PRIMITIVES.get(primitive.opcode, f'control primitive {primitive.opcode:02x}h')} for slot {primitive.slot}"


WRONG_CPSP = REPLAY, error(INVALID_PARAMETER, byte=6, bit=0)


def reply_words(primitive):
    """What the reply to a control primitive says."""
    if primitive.body[0]:
        ground = ": Replay takes only CPSP 0" if (primitive.opcode, primitive.body) == WRONG_CPSP else ""
        return f"error {status_words(primitive.body, CONTROL)}{ground}; it did not act"
    return f"TAG {primitive.body[1]:02x}h, CPSR {cpsr_words(primitive, primitive.body[2] | primitive.body[3] << 8)}"


def cpsr_words(primitive, cpsr):
    if primitive.opcode == GET_STATE:
        return f"{cpsr:04x}h: {state_word_words(cpsr)}"
    if primitive.opcode == ABORT:
        return f"{cpsr}: {primitive.aborted.get(cpsr, 'an unknown value')}"
    if primitive.opcode == REPLAY:
        return f"{cpsr}: {replay_words(primitive, cpsr)}"
    return f"{cpsr}: {flags_set(cpsr)}"


def replay_words(primitive, cpsr):
    """What Replay's CPSR says, and what is known of the slot: which response it sends again, or why it sends none."""
    view, slot = primitive.after, primitive.slot
    if cpsr == 1:
        return "the slot sends its last response again" + (f", {response_words(view.jobs[slot])}" if view else "")
    if cpsr > 1:
        return "an unknown value"
    if view is None:
        ground = "was not Idle or held no response"
    elif view.states[slot] == "Idle":
        ground = "held no response"
    else:
        ground = f"was not Idle but in {STATES[view.states[slot]]}"
    return f"nothing happened, since the slot {ground}"


def state_word_words(word):
    """The word that Get State reports."""
    bits = [f"bit {bit} ({name})" for bit, name in FLAGS.items() if bit != 15 and word >> bit & 1]
    paused = "its pause flag (bit 15) is set" if word >> 15 & 1 else "not paused"
    return f"state {STATE_NAMES[word & 3]}, {paused}, " + (f"set: {', '.join(bits)}" if bits else "no other bit is set")


# What else a record did

def effect_words(event):
    """What a record did beside its answer, in parts."""
    if event.tag is None or event.differs:
        return []
    return [*ended_words(event), *primitive_words(event), *replaced_words(event), *flag_words(event), *pause_words(event),
            *move_words(event)]


def ended_words(event):
    if event.ended is None:
        return
    job = event.before.jobs[event.ended]
    flag = "; its pause flag goes with it" if is_paused(event.before, event.ended) else ""
    yield (f"ends the assembly of slot {event.ended} from EID {job.who[0]} under tag {job.who[1]}, "
           f"{count(job.length, 'byte')} gathered{flag}")


def primitive_words(event):
    """What Get State cleared, and what an Abort stopped."""
    primitive = event.primitive
    if event.tag != PACKET or primitive is None or primitive.body[0]:
        return
    if primitive.opcode == ABORT and event.before.states[primitive.slot] != "Idle" and event.ended != primitive.slot:
        yield f"aborts what slot {primitive.slot} had: {slot_words(event.before, primitive.slot)}"
    if primitive.opcode == GET_STATE and primitive.cpsp & 1:
        gone = event.before.words[primitive.slot] & ~event.after.words[primitive.slot]
        cleared = [f"bit {bit}" for bit in FLAGS if gone >> bit & 1 and bit != 15]
        yield f"CPSP bit 0 clears {listed(cleared) if cleared else 'the flag bits, none of which was set'}"


def replaced_words(event):
    if event.replaced is None:
        return
    yield (f"the reply to {primitive_name(event.replaced)} of record {event.replaced.record}, which waited, "
           f"{'is gone' if event.tag == RESET else 'is replaced'}")


def flag_words(event):
    """The flag bit that a refusal or a timeout sets."""
    bit = 5 if event.tag == TIMEOUT and event.answer == 0 else REFUSAL_FLAG.get(event.answer)
    if event.tag == RESET:
        yield f"sets flag bit 14 ({FLAGS[14]}) and clears bits 3 to 12"
    elif bit is not None:
        slot = event.named if bit == 3 else 0
        of = f" of slot {slot}" if bit == 3 else ""
        again = ", which was set already" if event.before.words[slot] >> bit & 1 else ""
        yield f"sets flag bit {bit}{of} ({FLAGS[bit]}){again}"


def pause_words(event):
    """Pause flags that a command with CIAP, Pause, Resume or going to Idle changed."""
    for slot in (0, 1):
        was, now = is_paused(event.before, slot) and event.ended != slot, is_paused(event.after, slot)
        if now and not was:
            yield f"sets the pause flag of slot {slot}" + ("" if event.primitive else ", because CIAP is 1")
        if was and not now:
            yield f"clears the pause flag of slot {slot}"


def move_words(event):
    """Slots that went to another state, or hold their last response no longer."""
    before, after = event.before, event.after
    for slot in (0, 1):
        words = []
        if before.states[slot] != after.states[slot] and event.ended != slot:
            dropped = dropped_words(before.jobs[slot]) if left_for_idle(event, slot) and event.tag != POLL else ""
            words.append(f"goes from {STATES[before.states[slot]]} to {STATES[after.states[slot]]}{dropped}")
        if is_lost(event, slot):
            words.append("loses its last response")
        if words:
            yield f"slot {slot} {' and '.join(words)}"


def dropped_words(job):
    return f"; {count(job.length, 'gathered byte')} of it are given up" if isinstance(job, Receive) else ""


# The slots

def slot_words(view, slot):
    """One slot, in words."""
    job, words = view.jobs[slot], [f"slot {slot} {STATES[view.states[slot]]}"]
    if isinstance(job, Receive):
        words.append(f"{count(job.length, 'byte')} from EID {job.who[0]} under tag {job.who[1]}")
    elif isinstance(job, (Answered, Transmit)):
        packets, sent = packets_of(view, slot)
        words.append(f"{sent} of {packets} packets sent to EID {job.who[0]} under tag {job.who[1]}")
    elif view.held[slot]:
        words.append(held_words(view.held[slot]))
    elif view.states[slot] != "Idle":
        words.append(f"{count(job.length, 'byte')} from EID {job.who[0]} under tag {job.who[1]}")
    if is_paused(view, slot):
        words.append("paused")
    return ", ".join(words + [f"ticket {number(view.counts[slot])}"])


def held_words(held):
    """The response that an Idle slot still holds."""
    return f"holds its last response ({response_words(held)})"


def response_words(response):
    """A response's length, and whom it is for."""
    return f"{count(response.length, 'byte')} to EID {response.who[0]} under tag {response.who[1]}"


def slots_words(view):
    """Both slots, and whether a control reply waits."""
    reply = [f"a control reply waits for EID {view.reply[0][0]} under tag {view.reply[0][1]}"] if view.reply else []
    return "; ".join([slot_words(view, 0), slot_words(view, 1), *reply])
