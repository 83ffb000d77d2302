"""What logs and scripts reach of Replay: the state that it finds, what a held response outlives, how one is
lost, and what comes of a replay.

GOALS is every line that a right set of logs has to reach. SCRIPT_GOALS is the part of it that scripts have to
reach too, and what logs can't show. A replay has to be the packets that were sent first: where it is not, the
run ends with an error.
"""
from grounds import control_answer
from runs import (COUNTS, ENTRY_GROUNDS, PRIMITIVES, SCRIPT_COUNTS, SCRIPT_STATES, STATES, counted,
                  entry_ground, has_begun, in_transmit, is_paused, picture)
from second.endpoint import Idle, Process, requester
from second.wire import CONTROL, REPLAY, control_request, message_header, packet_fields

SAME, OTHER_SOURCE, OTHER_TAG = ASKERS = ("the command's source and tag", "another source", "another tag")
ITS_OWN, OF_THE_OTHER, PAUSED = ASSEMBLIES = ("its own assembly", "the other's assembly",
                                              "the other's paused assembly, and sends at once")
WRONG_CPSP = (1, 2, 0x0100, 0xFFFF)

# What Replay still finds the response after: a packet's answer, a primitive, a call and its answer. 20 is for
# a command that comes while the response is sent again; all else comes in Idle.
REFUSED = ("10", "11", "12", "13", "14", "15", "16", "17", "18", "19 of a primitive", "20", "21")
ASKED = ("Pause", "Resume", "Get State", "Abort with MEB", "Abort with CIAP", "Replay with MEB",
         "Replay with CIAP", "Replay with CPSP")
CALLED = ("take 31", "complete 31", "timeout 37", "poll 0", "poll 1")
OTHERS = ("0", "1", "19", "20", "Abort", "Replay", "Get State", "take 0", "complete 0", "timeout 0")
KEPT = (*REFUSED, *ASKED, *CALLED, *(f"the other's {what}" for what in OTHERS))
KEPT_IN_SCRIPTS = ("take 31", "complete 31", "declare 31", "40", "poll 36", "poll 40", "complete 40", "read",
                   "other lengths lent", "the other's declare 0")

# What it finds none after, in Idle. 0 and 1 are the answers to the first packet of a command that has ended
# without a response.
OPEN = ("0", "1")
ENDS = ("timeout 0", "22", "16", "23", "19", "a new start", "Abort", "reset")
LOST = ("the start", "19", "Abort", "reset", *(f"0, then {what}" for what in ENDS), "1, then Abort",
        "1, then reset",
        *(f"{what} of a {kind}" for what in ("Abort", "reset") for kind in ("replay", "begun replay")))
LOST_IN_SCRIPTS = ("19", "Abort", "reset", "setup", "setup of a replay")

# The goals

def asked_goals(slot):
    yield f"slot {slot}: Replay in Idle, with a response held"
    yield from (f"slot {slot}: Replay in {state} of a command that took a held response's place"
                for state in STATES[1:])
    for kind in ("response", "replay"):
        yield from (f"slot {slot}: Replay in Transmit of a {kind} {how}" for how in ("not begun", "begun"))
    yield from (f"slot {slot}: nothing to replay after {what}" for what in LOST)
    yield from (f"slot {slot}: replayed after {what}" for what in KEPT)
    yield from (f"slot {slot}: replayed, asked for by {asker}" for asker in ASKERS)
    yield from (f"slot {slot}: replayed while the other is in {state}" for state in STATES)
    yield from (f"slot {slot}: replayed while the other is paused in {state}" for state in STATES[1:])
    yield f"slot {slot}: replayed while the other has begun"
    yield from (f"slot {slot}: Replay ends {what}" for what in ASSEMBLIES)

def sent_goals(slot):
    yield from (f"slot {slot}: a replay of {count} packets sent" for count in COUNTS)
    yield from (f"slot {slot}: an error of entry sent again, {ground}" for ground in ENTRY_GROUNDS)
    yield f"slot {slot}: a replay of a replay sent"
    yield from (f"slot {slot}: a replay waits for the other's {what}" for what in ("begun response", "turn"))
    yield f"slot {slot}: a replay begins while the other is in Transmit too"
    yield f"slot {slot}: control reply between two packets of a replay"
    yield from (f"slot {slot}: a replay paused by {what}" for what in ("Pause", "CIAP"))
    yield f"slot {slot}: a replay mute because of the other's pause flag"
    yield from (f"slot {slot}: a replay sent that was {what}" for what in ("paused", "mute"))
    yield f"slot {slot}: a command taken after a replay"

def script_goals(slot):
    yield f"slot {slot}: Replay in Idle, with a response held"
    yield from (f"slot {slot}: Replay in {state}" for state in SCRIPT_STATES[1:])
    yield from (f"slot {slot}: nothing to replay after {what}" for what in LOST_IN_SCRIPTS)
    yield from (f"slot {slot}: replayed after {what}" for what in KEPT_IN_SCRIPTS)
    yield from (f"slot {slot}: replayed while the other is in {state}" for state in SCRIPT_STATES)
    yield from (f"slot {slot}: a replay of {count} packets sent" for count in SCRIPT_COUNTS)
    yield f"slot {slot}: a replay of a replay sent"
    yield f"slot {slot}: a command taken after a replay"

GOALS = (*asked_goals(0), *asked_goals(1), *sent_goals(0), *sent_goals(1),
         *(f"Replay with CPSP {cpsp:04x}" for cpsp in WRONG_CPSP))
SCRIPT_GOALS = (*script_goals(0), *script_goals(1))

# What a run reaches

def asked_name(message, reply):
    """A primitive and, if its reply is an error, the ground."""
    name, ground = PRIMITIVES.get(control_request(message).opcode, "an opcode"), control_answer(reply)
    return name if ground == "0" else f"{name} with {ground}"

def asker(who, requester):
    """Who asks for a replay, beside the command's requester."""
    if who == requester:
        return SAME
    return OTHER_TAG if who[0] == requester[0] else OTHER_SOURCE

class Response:
    """A slot's last response, from the first packet of its command on."""

    def __init__(self, lost, after_replay=False):
        self.packets, self.first = [], None     # of the sending under way, and those that went first
        self.times = 0                          # how often Replay has found it
        self.met = set()                        # what has happened since it was held
        self.lost = lost                        # how the one before was lost, and this one then
        self.after_replay = after_replay        # whether the one before was replayed
        self.error = None                       # the ground of an error at entry
        self.states = set()                     # "paused" and "mute", if the replay under way was that

class Replays:
    """What a run reaches. `before` is the endpoint as it was before a call."""

    def __init__(self, run):
        self.run = run
        self.slots = [Response("the start"), Response("the start")]

    def note(self, slot, text, when=True):
        self.run.note(f"slot {slot}: {text}", when)

    def sends_again(self, before, slot):
        """Whether a replay was under way."""
        return self.slots[slot].times and not isinstance(before.jobs[slot], Idle)

    # What a call leaves of a held response

    def called(self, before, name, slot=None):
        """A call by name, on one slot or on both."""
        for each in (0, 1):
            self.passed(before, each, lambda: name if slot in (None, each) else f"the other's {name}")

    def passed(self, before, slot, name):
        """Something has happened that `name` gives the name of, as the slot sees it."""
        was, now = before.jobs[slot], self.run.endpoint.jobs[slot]
        if was is not now:
            self.moved(slot, was, now, name())
        elif isinstance(was, Idle) and was.held is not None:
            self.slots[slot].met.add(name())

    def moved(self, slot, was, now, name):
        response = self.slots[slot]
        if isinstance(was, Idle) and not isinstance(now, Idle):
            if name != "Replay":                # a command's first packet was stored
                lost = response.lost if was.held is None else name
                self.slots[slot] = Response(lost, response.times > 0)
        elif isinstance(now, Idle) and now.held is None:
            if isinstance(was, Idle):
                response.lost = name
            elif response.times:
                response.lost = f"{name} of a {'begun ' if was.sent else ''}replay"
            elif response.lost in OPEN:
                response.lost += f", then {name}"
            response.times = 0

    # Receiving

    def received(self, before, packet, answer):
        for slot in (0, 1):
            self.passed(before, slot, lambda: self.packet_name(before, slot, packet, answer))
            if self.sends_again(before, slot):
                self.met_in_replay(before, slot, packet, answer)
        if answer == 1:
            self.entered(before)
        if answer == 2:
            self.asked(before, packet)

    def packet_name(self, before, slot, packet, answer):
        """What a packet was for the slot."""
        if answer == 40 or len(packet) < 5:
            return str(answer)
        fields, name = packet_fields(packet), str(answer)
        if not fields.som:
            its = before.gathering.get(requester(fields), slot) == slot
        else:
            if answer > 14 and before.gathering.get(requester(fields)) == slot:
                return "a new start"
            its = len(packet) < 6 or packet[5] & 1 == slot
            if answer == 2:
                name = asked_name(packet[4:], self.run.endpoint.reply[1])
                its |= name in ("Pause", "Resume")
            elif answer == 19 and message_header(packet[4:]).nmimt == CONTROL:
                name = "19 of a primitive"
        return name if its else f"the other's {name}"

    def met_in_replay(self, before, slot, packet, answer):
        response = self.slots[slot]
        if answer == 20 and packet[5] & 1 == slot:
            response.met.add("20")
        if is_paused(self.run.endpoint, slot) and not is_paused(before, slot):
            self.note(slot, f"a replay paused by {'CIAP' if answer == 1 else 'Pause'}")
            response.states.add("paused")

    def entered(self, before):
        """A command has entered Process; it may be answered at once."""
        for slot in (0, 1):
            job = self.run.endpoint.jobs[slot]
            if job is not before.jobs[slot] and not isinstance(job, (Idle, Process)):
                self.slots[slot].error = entry_ground(self.run.endpoint.stores[slot])

    def asked(self, before, packet):
        """A primitive was answered; if it was Replay, what it has found."""
        message = packet[4:]
        request, ground = control_request(message), control_answer(self.run.endpoint.reply[1])
        if request.opcode != REPLAY:
            return
        self.run.note(f"Replay with CPSP {request.cpsp:04x}", ground == "CPSP")
        if ground == "0":
            self.acted(before, requester(packet_fields(packet)), message_header(message).csi)

    def acted(self, before, who, slot):
        ended, was_paused = before.gathering.get(who), before.paused
        if ended is not None:
            before = picture(before)
            before.go_idle(ended)
            self.note(slot, f"Replay ends {ITS_OWN if ended == slot else OF_THE_OTHER}")
        held, state = before.held(slot), before.state(slot)
        if held is not None:
            self.note(slot, f"Replay ends {PAUSED}", was_paused and not before.paused)
            self.replayed(before, who, slot, held)
        elif state == "Idle":
            self.note(slot, f"nothing to replay after {self.slots[slot].lost}")
        else:
            self.not_idle(before, slot, state)

    def not_idle(self, before, slot, state):
        response = self.slots[slot]
        self.note(slot, f"Replay in {state}")
        self.note(slot, f"Replay in {state} of a command that took a held response's place",
                  response.lost in OPEN and not response.times)
        if state == "Transmit":
            self.note(slot, f"Replay in Transmit of a {'replay' if response.times else 'response'} "
                            f"{'begun' if has_begun(before, slot) else 'not begun'}")

    def replayed(self, before, who, slot, held):
        response, other = self.slots[slot], 1 - slot
        self.note(slot, "Replay in Idle, with a response held")
        self.note(slot, f"replayed, asked for by {asker(who, held.who)}")
        for what in response.met:
            self.note(slot, f"replayed after {what}")
        state = before.state(other)
        self.note(slot, f"replayed while the other is in {state}")
        self.note(slot, f"replayed while the other is paused in {state}", is_paused(before, other))
        self.note(slot, "replayed while the other has begun", has_begun(before, other))
        response.times += 1
        response.met, response.states = set(), set()

    # Sending

    def polled(self, before, answer, packet):
        """`packet` is what was handed out with the answer 1."""
        self.called(before, f"poll {answer}")
        endpoint = self.run.endpoint
        if answer == "0":
            self.nothing_sent(before)
        elif answer == "1" and endpoint.reply is not before.reply:
            self.reply_sent(before)
        elif answer == "1":
            slot = next(slot for slot in (0, 1) if endpoint.jobs[slot] is not before.jobs[slot])
            self.packet_sent(before, slot, packet)

    def nothing_sent(self, before):
        for slot in (0, 1):
            if before.paused == 2 >> slot and self.sends_again(before, slot):
                self.note(slot, "a replay mute because of the other's pause flag")
                self.slots[slot].states.add("mute")

    def reply_sent(self, before):
        for slot in (0, 1):
            self.note(slot, "control reply between two packets of a replay",
                      self.sends_again(before, slot) and has_begun(before, slot) and not before.paused)

    def packet_sent(self, before, slot, packet):
        response, other, fields = self.slots[slot], 1 - slot, packet_fields(packet)
        if self.sends_again(before, other) and not has_begun(before, other):
            self.note(other, f"a replay waits for the other's {'turn' if fields.som else 'begun response'}")
        if fields.som:
            response.packets = []
            self.note(slot, "a replay begins while the other is in Transmit too",
                      response.times and len(in_transmit(before)) == 2)
        response.packets.append(packet)
        if fields.eom:
            self.sent_whole(slot, response)

    def sent_whole(self, slot, response):
        if not response.times:
            response.first = response.packets
            return
        if response.packets != response.first:
            raise ValueError(f"slot {slot} does not send again what it sent first")
        for count in (len(response.packets), counted(response.packets, self.run.endpoint.unit)):
            self.note(slot, f"a replay of {count} packets sent")
        self.note(slot, f"an error of entry sent again, {response.error}", response.error)
        self.note(slot, "a replay of a replay sent", response.times > 1)
        for state in response.states:
            self.note(slot, f"a replay sent that was {state}")

    # Taking

    def taken(self, before, slot, answer):
        self.called(before, f"take {answer}", slot)
        self.note(slot, "a command taken after a replay", answer == "0" and self.slots[slot].after_replay)
