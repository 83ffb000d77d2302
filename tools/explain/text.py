"""Events as text, and as JSON."""
import json

from second.endpoint import Answered, Receive, Transmit
from second.log import COMPLETE, PACKET, TAKE
from second.wire import CONTROL

from .following import HEADER, is_paused, packets_of
from .names import KINDS, number
from .summary import held_data
from .wording import answer_words, effect_words, record_words, slots_words

INDENT = " " * 8


class Text:
    """For a person at a terminal."""

    def __init__(self, write):
        self.write = write
        self.shown = False

    def begin(self, title):
        pass

    def event(self, event):
        self.shown = True
        lines = ["; ".join(record_words(event)), f"-> {answer_words(event)}", *(f"   {words}" for words in effect_words(event))]
        if event.differs:
            lines.append(f"!! the second program answers {event.expected}")
        if event.tag is not None:
            lines.append(f"   = {slots_words(event.after)}")
        self.write(f"{event.number:6}  byte {number(event.record.offset)} ({event.record.offset:x}h): {lines[0]}\n")
        self.write("".join(f"{INDENT}{line}\n" for line in lines[1:]))

    def end(self, summary):
        self.write(("\n" if self.shown else "") + "".join(f"{line}\n" for line in summary.words()))


class Json:
    """For a program: one object for each line. The names of the fields stay; new ones may come."""

    def __init__(self, write):
        self.write = write

    def begin(self, title):
        pass

    def event(self, event):
        self.put({
            "record": event.number,
            "offset": event.record.offset,
            "kind": KINDS.get(event.tag, "bad"),
            "fields": fields_of(event),
            "answer": event.answer,
            "refused": event.refused,
            "sent": sent_of(event),
            "words": [*record_words(event), answer_words(event), *effect_words(event)],
            "second": event.expected if event.differs else None,
            "slots": [slot_of(event.after, slot) for slot in (0, 1)],
            "reply_waits": event.after.reply is not None,
        })

    def end(self, summary):
        self.put({"summary": summary.data()})

    def put(self, found):
        self.write(json.dumps(found) + "\n")


def fields_of(event):
    """What the record itself says."""
    if event.tag is None:
        return {"cause": event.record.fault}
    if event.tag == PACKET:
        return {**packet_data(event.body, event.fields), **message_data(event)}
    found = {} if event.named is None or not event.body else {"slot": event.named}
    if event.tag == COMPLETE:
        found.update(body_bytes=len(event.body) - 1, ticket=event.ticket)
    if event.tag == TAKE:
        found.update(ticket=event.ticket)
    return found


def packet_data(packet, fields):
    return {"bytes": len(packet), **(fields._asdict() if fields else {}), "data": packet.hex()}


def message_data(event):
    """The message header of a first packet that was looked at, and the fields of a control primitive."""
    if event.head is None:
        return {}
    found = event.head._asdict()
    if event.head.nmimt == CONTROL and len(event.payload) >= 12:
        found.update(opcode=event.payload[4], primitive_tag=event.payload[5], cpsp=event.payload[6] | event.payload[7] << 8)
    elif len(event.payload) > 8:
        found.update(opcode=event.payload[HEADER])
    return {"message": found}


def sent_of(event):
    """The packet that a poll handed out; slot is None for one that the second program did not send."""
    if not event.sent:
        return None
    control = bool(event.head and event.head.nmimt == CONTROL)
    return {**packet_data(event.sent, event.fields), "slot": event.named, "control": control,
            "request": event.primitive.record if control and event.primitive else None,
            "replay": None if control else event.replays.get(event.named)}


def slot_of(view, slot):
    job = view.jobs[slot]
    who = getattr(job, "who", None)
    found = {"slot": slot, "state": view.states[slot], "paused": is_paused(view, slot), "ticket": view.counts[slot],
             "eid": who and who[0], "tag": who and who[1], "get_state": view.words[slot], "held": held_data(view.held[slot])}
    if isinstance(job, Receive):
        found["gathered"] = job.length
    if isinstance(job, (Answered, Transmit)):
        found["packets"], found["sent"] = packets_of(view, slot)
    return found
