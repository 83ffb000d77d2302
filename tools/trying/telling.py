"""Calls in words: what was called, the answer with its ground, what changed."""
from collections import namedtuple

from explain.following import HEADER
from explain.names import FLAGS, MESSAGES, count, listed, number
from explain.wording import (answer_words, effect_words, message_words, packet_words, record_words, slot_words, status_given,
                             status_words)
from second.log import COMPLETE, PACKET, POLL
from second.wire import CONTROL, is_sealed, longest_packet, message_header

from .declaring import DECLARE, declare_called, declare_done, declare_effects
from .setups import left_by, setup_called, setup_done, setup_refused
from .watching import WRONG_STORES

SHOWN = 20                  # bytes that are shown of a body
SHORT_BUFFER = 36
STORE = 4224
SHORTEST = 12               # bytes of the shortest response: header, status with three bytes, check
ODD = "!! the answer does not go with what a look shows"

# What is told of a call beside its event: the lent lengths of the stores, and the buffer's length of a poll
About = namedtuple("About", "lent buffer")


def hex_words(data):
    """Bytes for a person: in pairs, and not more than some of them."""
    if not data:
        return "none"
    return data[:SHOWN].hex(" ") + (f" and {count(len(data) - SHOWN, 'more byte')}" if len(data) > SHOWN else "")


# Calls that a log has too, and declarations

def event_lines(event, about, before, after):
    """An event in lines; `before` and `after` are the states."""
    odd = [ODD] if event.differs else []
    declared = declare_effects(event) if event.tag == DECLARE else ()
    effects = *effect_words(event), *declared, *store_words(event, before, after)
    return ["; ".join(called_words(event, about)), f"-> {answer(event, about)}", *odd,
            *(f"   {words}" for words in effects)]


def called_words(event, about):
    if event.tag == DECLARE:
        return [declare_called(event)]
    if event.tag == COMPLETE:
        body = event.body[1:]
        return [f"complete of slot {event.named} with ticket {number(event.ticket)} and a body of {count(len(body), 'byte')}"
                f"{status_given(body)}"]
    if event.tag == POLL and about.buffer != longest_packet(event.before.unit):
        return [f"poll with a buffer of {count(about.buffer, 'byte')}"]
    return record_words(event)


def answer(event, about):
    """The answer with its ground."""
    if event.answer == WRONG_STORES:
        wrong = [f"store {slot} has {count(length, 'byte')}" for slot, length in enumerate(about.lent) if length != STORE]
        return f"{WRONG_STORES}, a store has not {STORE:,} bytes: {listed(wrong)}"
    if event.answer == SHORT_BUFFER:
        longest = longest_packet(event.before.unit)
        return f"{SHORT_BUFFER}, the buffer has {count(about.buffer, 'byte')}, fewer than {longest}"
    if (event.tag, event.answer) == (DECLARE, 0):
        return f"0, {declare_done(event)}"
    if event.sent and event.head and event.head.nmimt == CONTROL and event.primitive is None:
        return f"1, sends a {packet_words(event.sent, event.fields)[0]}; a control reply"
    if event.sent and event.differs:
        return f"1, sends a {packet_words(event.sent, event.fields)[0]}"
    return answer_words(event) + at_once(event)


def at_once(event):
    """A command whose response is there on entering Process: a test failed, and polls show the error."""
    if (event.tag, event.answer) != (PACKET, 1) or event.differs:
        return ""
    is_there = event.after.states[event.named] in ("Process answered", "Transmit")
    return "; answered at once with an error, which polls hand out" if is_there else ""


def store_words(event, before, after):
    """What a refusal leaves otherwise than it was."""
    if not event.refused:
        return
    written = [f"store {slot}" for slot in (0, 1) if before.fields[f"check{slot}"] != after.fields[f"check{slot}"]]
    if written:
        yield f"its payload stays in {listed(written)}"
    if before.fields == after.fields:
        yield "nothing changed"


# Other calls

def setup_lines(body, answer, endpoint):
    """A setup, which `endpoint` came of."""
    done = f"{setup_done('endpoint', endpoint)}, all else is zero"
    words = done if answer == 0 else setup_refused(answer, endpoint)
    odd = [] if (endpoint.eid, endpoint.unit) == left_by(body, answer) else [ODD]
    return [setup_called(body), f"-> {answer}, {words}", *odd]


def stores_lines(lent, line):
    wrong = "" if all(length == STORE for length in lent) else f": receive, complete and poll answer {WRONG_STORES}"
    return [f"stores of {number(lent[0])} and {count(lent[1], 'byte')}", f"-> {line}, they are lent from here on{wrong}"]


def read_lines(slot, part):
    if part:
        return [f"read of slot {slot}", f"-> {count(len(part), 'byte')}: {message_words(part, 1)}", f"   {hex_words(part)}"]
    return [f"read of slot {slot}", "-> 0, an empty part: no taken command awaits completion there, or a store has another length"]


# What polls hand out

def response_lines(message, packets):
    """A whole response, joined from its packets; of a single packet all but its body was told with the packet."""
    if len(message) < SHORTEST:
        yield f"{count(len(message), 'byte')}, which is too few for a response: {hex_words(message)}"
        return
    head, body = message_header(message), message[HEADER:-HEADER]
    check = f"integrity check {'right' if is_sealed(message) else 'wrong'}"
    if packets > 1:
        kind = MESSAGES.get(head.nmimt, f"command of unknown kind (NMIMT {head.nmimt})")
        yield (f"the whole response to the {kind} of slot {head.csi}: {count(len(message), 'byte')} in {count(packets, 'packet')}, "
               f"status {status_words(body)}, {check}")
    yield f"its body of {count(len(body), 'byte')}: {hex_words(body)}{'' if packets > 1 else f'; {check}'}"


# The state

def look_lines(state, view, lent):
    fields = state.fields
    word = int(fields["flags"], 16)
    flags = [f"bit {bit} ({FLAGS[bit]})" for bit in FLAGS if word >> bit & 1]
    last = "a control reply" if fields["last"] == "1" else "no control reply"
    return [f"EID {fields['eid']}, {unit_words(fields['unit'])}, flags {fields['flags']}h: "
            f"{listed(flags) or 'none is set'}",
            f"slot {fields['turn']} goes first when no response is begun; the last packet handed out was {last}",
            reply_line(view.reply), *(slot_line(fields, view, slot, lent[slot]) for slot in (0, 1))]


def unit_words(unit):
    return f"unit {unit} (payload bytes of a full packet)"


def reply_line(reply):
    if reply is None:
        return "no control reply waits"
    (eid, tag), message = reply
    return f"a control reply waits for EID {eid} under tag {tag}: {message.hex(' ')}"


def slot_line(fields, view, slot, lent):
    busy = f", bit 3 is set ({FLAGS[3]})" if view.words[slot] >> 3 & 1 else ""
    return f"{slot_words(view, slot)}{busy}; its store: {count(lent, 'byte')}, CRC-32C {fields[f'check{slot}']}h"

