"""The summary of a log: what came, what was answered, and what became of each command. Its memory does not grow with the log."""
from collections import Counter

from second.log import COMPLETE, PACKET, POLL, RESET, TIMEOUT
from second.wire import ABORT, REPLAY

from .following import left_for_idle, sends_again
from .names import DONE, KINDS, PRIMITIVES, REFUSALS, STATES, count, flags_set, listed, number
from .wording import held_words

# What can become of a command, of an assembly that was never whole, or of a replay; the names are for JSON
COMMAND_ENDS = {"sent": "answered, the last packet went", "aborted": "aborted", "reset": "ended by a reset"}
ASSEMBLY_ENDS = {"timed_out": "timed out", "started_anew": "ended by a first packet under the same source and tag",
                 "dropped": "dropped by a refusal", "aborted": "aborted", "reset": "ended by a reset"}
REPLAY_ENDS = {**COMMAND_ENDS, "sent": "sent to the last packet"}
ENDS = {"command": ("commands", COMMAND_ENDS), "assembly": ("assemblies that never were whole", ASSEMBLY_ENDS),
        "replay": ("replays", REPLAY_ENDS)}
ANSWERED = ("Process answered", "Transmit")         # states of a slot whose response is there


class Slot:
    """What became of one slot's commands."""

    def __init__(self):
        self.commands = self.completed = self.at_once = self.replays_asked = self.replays_begun = 0
        self.ends = {"command": Counter(), "assembly": Counter(), "replay": Counter()}
        self.since = None                   # the record at which the slot went to the state it has
        self.answered_at = None             # the record at which its response was fixed


class Summary:
    """Takes in events one by one. `size` is the log's, None where it isn't known."""

    CALM = "Nothing to look at: nothing was refused, every command was answered"

    def __init__(self, size=None):
        self.size = size
        self.kinds, self.answers, self.first, self.primitives = Counter(), Counter(), {}, Counter()
        self.bytes = Counter()
        self.requesters = {}
        self.slots = [Slot(), Slot()]
        self.records = self.log_bytes = self.replaced = self.silent = self.silent_paused = self.differ = 0
        self.first_difference = self.fault = self.view = self.paused_since = None
        self.longest_wait = self.longest_pause = None

    def add(self, event):
        self.records, self.log_bytes = event.number, event.record.offset + event.record.there
        self.view = event.after
        if event.differs:
            self.differ += 1
            self.first_difference = self.first_difference or event.number
        if event.tag is None:
            self.fault = event
            return
        self.kinds[event.tag] += 1
        key = event.tag, event.answer
        self.answers[key] += 1
        self.first.setdefault(key, event.number)
        if event.tag == PACKET:
            self.came(event)
        elif event.tag == POLL:
            self.polled(event)
        elif event.tag == COMPLETE:
            self.bytes["bodies"] += len(event.body) - 1
        self.follow(event)

    # Packets

    def came(self, event):
        self.bytes["in"] += len(event.body)
        if event.refused:
            self.bytes["refused"] += len(event.body)
        if event.who:
            seen = self.requester(event.who)
            seen["in"] += 1
            seen["refused"] += event.refused
        if event.primitive:
            self.primitives[event.primitive.opcode] += 1
        if event.replaced:
            self.replaced += 1

    def polled(self, event):
        if event.sent:
            self.bytes["out"] += len(event.sent)
            self.requester(event.who)["out"] += 1
        else:
            self.silent += 1
            self.silent_paused += bool(event.before.paused and any(state in ANSWERED for state in event.before.states))

    def requester(self, who):
        return self.requesters.setdefault(who, Counter({"in": 0, "refused": 0, "out": 0}))

    # Commands

    def follow(self, event):
        """What the record did to the commands of both slots, by the second program, which has the slots."""
        if event.tag == PACKET and event.expected == "1":
            self.slots[event.named].commands += 1
            self.slots[event.named].at_once += event.at_once is not None
        if event.tag == COMPLETE and event.expected == "0":
            self.slots[event.named].completed += 1
        if event.tag == PACKET and event.primitive and event.primitive.opcode == REPLAY:
            self.slots[event.named].replays_asked += 1
            self.slots[event.named].replays_begun += sends_again(event.primitive)
        for index, slot in enumerate(self.slots):
            if left_for_idle(event, index):
                self.ended(event, index, slot)
            if event.before.states[index] != event.after.states[index] or event.ended == index:
                slot.since = event.number
                if event.before.states[index] not in ANSWERED and event.after.states[index] in ANSWERED:
                    slot.answered_at = event.number
        self.follow_pause(event)

    def ended(self, event, index, slot):
        kind = "assembly" if event.before.states[index] == "Receive" else "replay" if index in event.replays else "command"
        end = self.cause(event, index)
        slot.ends[kind][end] += 1
        if (kind, end) == ("command", "sent"):
            wait = event.number - slot.answered_at
            if self.longest_wait is None or wait > self.longest_wait[0]:
                self.longest_wait = wait, index, event.before.counts[index], slot.answered_at, event.number

    @staticmethod
    def cause(event, index):
        if event.tag == POLL:
            return "sent"
        if event.tag in (RESET, TIMEOUT):
            return "reset" if event.tag == RESET else "timed_out"
        if event.ended == index:
            return "started_anew"
        return "aborted" if event.primitive and event.primitive.opcode == ABORT else "dropped"

    def follow_pause(self, event):
        if event.after.paused and not event.before.paused:
            self.paused_since = event.number
        elif event.before.paused and not event.after.paused:
            self.note_pause(event.number)
            self.paused_since = None

    def note_pause(self, end):
        length = end - self.paused_since
        if self.longest_pause is None or length > self.longest_pause[0]:
            self.longest_pause = length, self.paused_since, end

    # What is told

    @property
    def refusals(self):
        """Refusals with how often and where first, by number."""
        found = {}
        for (tag, answer), times in self.answers.items():
            if answer in REFUSALS:
                times_before, first = found.get(answer, (0, self.records))
                found[answer] = times_before + times, min(first, self.first[tag, answer])
        return dict(sorted(found.items()))

    def state(self, index):
        return self.view.states[index] if self.view else "Idle"

    def held(self, index):
        return self.view.held[index] if self.view else None

    def answer_rows(self):
        """Kind, answer, words, how often, and the first record, in order."""
        for (tag, answer), times in sorted(self.answers.items(), key=lambda item: (item[0][0], item[0][1] or 0)):
            words = REFUSALS.get(answer) or DONE[tag].get(answer, "no line of the log program")
            yield KINDS[tag], answer, words, times, self.first[tag, answer]

    def remarks(self):
        """What a person should look at, the most serious first."""
        if self.differ:
            yield f"at {count(self.differ, 'record')} the second program answers otherwise, first at record {self.first_difference}"
        if self.fault:
            behind = (self.size or 0) - self.log_bytes
            unread = f"; the {count(behind, 'byte')} behind it are not read" if behind > 0 else ""
            yield f"the log ends with a faulty record at byte {number(self.fault.record.offset)}: {self.fault.record.fault}{unread}"
        for answer, (times, first) in self.refusals.items():
            yield f"refused {count(times, 'time')} with {answer}, first at record {first}: {REFUSALS[answer]}"
        yield from self.broken_off()
        yield from self.leftovers()
        if self.replaced:
            yield f"replaced by a newer one before a poll sent it: {count(self.replaced, 'control reply', 'control replies')}"
        if self.silent_paused:
            yield f"{count(self.silent_paused, 'poll')} found nothing because a pause flag held a response back"

    def broken_off(self):
        """Commands and assemblies that came to no answer; those that a refusal dropped are among the refusals."""
        for index, slot in enumerate(self.slots):
            for end, times in slot.ends["command"].items():
                if end != "sent":
                    yield f"slot {index}: {count(times, 'command')} {COMMAND_ENDS[end]}"
            for end, times in slot.ends["assembly"].items():
                if end != "dropped":
                    yield f"slot {index}: {count(times, 'assembly', 'assemblies')} {ASSEMBLY_ENDS[end]}"
            for end, times in slot.ends["replay"].items():
                if end != "sent":
                    yield f"slot {index}: {count(times, 'replay')} {REPLAY_ENDS[end]}"
            if slot.replays_asked > slot.replays_begun:
                yield f"slot {index}: {count(slot.replays_asked - slot.replays_begun, 'Replay')} sent nothing (CPSR 0 or an error)"

    def leftovers(self):
        """What is still there when the log ends."""
        waits = {"Receive": "its message has not ended, and no timeout came", "Process untaken": "the drive has not taken it",
                 "Process taken": "the drive has not completed it", "Process answered": "its pause flag holds the response back",
                 "Transmit": "not all packets of its response were polled"}
        for index, slot in enumerate(self.slots):
            if self.state(index) in waits:
                yield f"slot {index} is still in {STATES[self.state(index)]} since record {slot.since}: {waits[self.state(index)]}"
        if self.view and self.view.paused:
            yield f"{flags_set(self.view.paused)} at the end, since record {self.paused_since}"
        if self.view and self.view.reply:
            yield "a control reply still waits at the end"

    def data(self):
        """The summary for machines; the field names stay."""
        return {
            "records": self.records,
            "log_bytes": self.log_bytes,
            "kinds": {name: self.kinds[tag] for tag, name in KINDS.items()},
            "answers": [{"kind": kind, "answer": answer, "words": words, "times": times, "first": first}
                        for kind, answer, words, times, first in self.answer_rows()],
            "primitives": {PRIMITIVES.get(opcode, f"{opcode:02x}h"): times for opcode, times in sorted(self.primitives.items())},
            "slots": [self.slot_data(index) for index in (0, 1)],
            "bytes": {name: self.bytes[name] for name in ("in", "refused", "out", "bodies")},
            "requesters": [{"eid": eid, "tag": tag, **seen} for (eid, tag), seen in sorted(self.requesters.items())],
            "longest_wait": named(self.longest_wait, ("records", "slot", "ticket", "from", "to")),
            "longest_pause": named(self.longest_pause, ("records", "from", "to")),
            "silent_polls": self.silent,
            "silent_polls_paused": self.silent_paused,
            "replies_replaced": self.replaced,
            "fault": self.fault and {"offset": self.fault.record.offset, "cause": self.fault.record.fault},
            "differ": self.differ,
            "remarks": list(self.remarks()),
        }

    def slot_data(self, index):
        slot = self.slots[index]
        return {"slot": index, "commands": slot.commands, "completed": slot.completed, "answered_at_once": slot.at_once,
                "ended": {name: slot.ends["command"][name] for name in COMMAND_ENDS},
                "assemblies_ended": {name: slot.ends["assembly"][name] for name in ASSEMBLY_ENDS},
                "replays": {"asked": slot.replays_asked, "begun": slot.replays_begun,
                            **{name: slot.ends["replay"][name] for name in REPLAY_ENDS}},
                "state": self.state(index), "held": held_data(self.held(index))}

    def words(self):
        """The summary as lines of text."""
        yield "Summary"
        yield f"  {count(self.records, 'record')}, {count(self.log_bytes, 'byte')}: {self.kind_words()}"
        yield from self.answer_words()
        yield from self.byte_words()
        for index in (0, 1):
            yield from self.slot_lines(index)
        yield from self.wait_words()
        remarks = list(self.remarks())
        yield "To look at" if remarks else self.CALM
        yield from (f"  {remark}" for remark in remarks)

    def kind_words(self):
        found = [count(self.kinds[tag], name) for tag, name in KINDS.items() if self.kinds[tag]]
        return listed(found + ["1 faulty record"] * (self.fault is not None)) or "the log is empty"

    def answer_words(self):
        if self.answers:
            yield "Answers"
        for kind, answer, words, times, first in self.answer_rows():
            yield f"  {kind:8} {'?' if answer is None else answer:>3}  {number(times):>9}  {words} (first at record {first})"

    def byte_words(self):
        sums = self.bytes
        yield "Bytes"
        out = sum(seen["out"] for seen in self.requesters.values())
        yield (f"  in {number(sums['in'])} in {count(self.kinds[PACKET], 'packet')} ({number(sums['refused'])} refused); "
               f"out {number(sums['out'])} in {count(out, 'packet')}; {number(sums['bodies'])} in bodies from the drive")
        if self.primitives:
            yield "  control primitives: " + listed(f"{number(times)} {PRIMITIVES.get(opcode, f'of opcode {opcode:02x}h')}"
                                                    for opcode, times in sorted(self.primitives.items()))
        if self.requesters:
            yield "Requesters"
        for (eid, tag), seen in sorted(self.requesters.items()):
            yield (f"  EID {eid:3} tag {tag}: {count(seen['in'], 'packet')} came, {number(seen['refused'])} refused; "
                   f"{number(seen['out'])} went back")

    def slot_lines(self, index):
        slot, held = self.slots[index], self.held(index)
        yield f"Slot {index}, now {STATES[self.state(index)]}{f', {held_words(held)}' if held else ''}"
        yield (f"  {count(slot.commands, 'command')} entered Process: {number(slot.completed)} completed by the drive, "
               f"{number(slot.at_once)} answered at once with an error")
        for kind, (title, names) in ENDS.items():
            ends = [f"{number(slot.ends[kind][name])} {words}" for name, words in names.items() if slot.ends[kind][name]]
            if ends:
                yield f"  {title}: {', '.join(ends)}"

    def wait_words(self):
        if self.longest_wait:
            wait, slot, ticket, start, end = self.longest_wait
            yield (f"Longest wait from a completion to its last packet: {count(wait, 'record')} "
                   f"(slot {slot}, ticket {number(ticket)}, records {start} to {end})")
        if self.longest_pause:
            yield "Longest pause: {} (records {} to {})".format(count(self.longest_pause[0], "record"), *self.longest_pause[1:])


def held_data(held):
    """A held response for machines."""
    return held and {"eid": held.who[0], "tag": held.who[1], "bytes": held.length}


def named(values, names):
    return None if values is None else dict(zip(names, values))
