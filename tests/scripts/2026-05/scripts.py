"""The scripts of request 2026-05, Abort tells.

Each script shows one rule; a number at the end of its name is the slot. `can` and `cant` are what is declared
of a taken command: it can still be stopped, or it no longer can. A look shows the whole state, what was
declared last too, and in the reply that waits what an Abort has reported.
"""
from call_records import (LOOK, RESET, await_from, complete, declare, poll, primitive, read, receive,
                          receive_all, requester_setup, setup, stores, take, timeout)
from call_steps import (NOTHING, SHORT, WRONG_STORES, aborts, at, both, carried, declares, error_reply, looks,
                        of, over, polls, process, reply, requester_looks, taken, written)
from records import ask, command, control, damaged, packet, packets, record
from second.wire import ABORT, GET_STATE, PAUSE, REPLAY, RESUME
from steps import BODY, COMMANDS, SLOTS, TAGS, Described, cut, refused, replied, response, sends, start

SCRIPTS = Described()
script = SCRIPTS.add

CAN, CANT = MARKS = (1, 0)
NAMES = {CAN: "can", CANT: "cant"}
SHOWN = {CAN: "can", CANT: "taken"}                   # by a look
CPSR = {CAN: 1, CANT: 2}                              # of an Abort
OPPOSITE = {CAN: CANT, CANT: CAN}
CASES = [(slot, other, mark, f"{NAMES[mark]}-{slot}") for slot, other in SLOTS for mark in MARKS]

TWO = bytes(range(57))                                # the body of a response of two packets
LONG = bytes(i % 253 for i in range(4216))            # 66 packets
LAST = (1 << 32) - 1
FAR_SLOTS = (2, 3, 255, 256, 257, 65536, 65537, 1 << 31, (1 << 31) + 1, LAST)
LENT = ((0, 4224), (4224, 0), (4223, 4224), (4224, 4225), (4300, 4300), (0, 0))

def declared(slot, mark):
    """A taken command of which this was declared."""
    return *taken(slot), declares(1, mark, slot)

def each(slot, tickets, answer):
    """Declarations of both kinds with each of these tickets, and their answer."""
    return [declares(ticket, mark, slot, answer) for ticket in tickets for mark in MARKS]

def spent(slot, count):
    """So many commands of the slot that are not taken."""
    return ((receive(COMMANDS[slot]), 1), (receive(ask(ABORT, slot)), 2)) * count

def paused(slot, **fields):
    """A command of the slot that pauses."""
    return command(slot=slot, ciap=1, **fields)

def told(slot, phase, body=TWO, **fields):
    """What a look shows of the slot's command with its response there."""
    return at(slot, phase.format(f"9:{TAGS[slot]}:{len(body) + 8}"),
              over(response(body, slot), command(slot=slot)), **fields)

# Declarations that are answered 0, one behind the other: the last one counts
for slot, other in SLOTS:
    for marks in ((), (CAN,), (CANT,), (CAN, CAN), (CAN, CANT), (CANT, CAN), (CANT, CANT), (CAN, CANT, CAN),
                  (CANT, CAN, CANT), (CAN, CAN, CANT), (CANT, CAN, CAN), (CAN, CANT, CANT, CAN)):
        name, last = "-".join(NAMES[mark] for mark in marks) or "nothing", marks[-1] if marks else CANT
        script(f"declared-{name}-{slot}", *taken(slot), looks(**process(slot, "taken")),
               *(step for mark in marks
                 for step in (declares(1, mark, slot), looks(**process(slot, SHOWN[mark])))),
               *aborts(slot, CPSR[last], process(slot, SHOWN[last])), polls(replied(CPSR[last], slot)),
               (poll(), NOTHING), looks(**at(slot, "idle", command(slot=slot), last=1)))
    script(f"declared-untaken-{slot}", (receive(COMMANDS[slot]), 1), looks(**process(slot, "untaken")),
           *aborts(slot, 1, process(slot, "untaken")), polls(replied(1, slot)))

# What else a declaration leaves: turn, flags, bit 3, the waiting reply, and all of the other slot, which has
# begun to send.
for slot, other, mark, name in CASES:
    steps = (*taken(other), (complete(1, TWO, other), 0), (receive(ask(GET_STATE)), 2),
             polls(replied(3 if other == 0 else 0), sends(other, TWO)[0]), *taken(slot),
             (receive(packet(command(slot=slot), tag=4)), 20), (receive(packet(b"\0", to=0)), 14),
             (receive(ask(GET_STATE, other)), 2))
    state = both(process(slot, "taken"), told(other, "transmit:{}:1", turn=slot), busy=of(slot, 1),
                 flags=0x1000, reply=reply(0x1003, other))
    shown = {**state, **{f"slot{slot}": process(slot, SHOWN[mark])[f"slot{slot}"]}}
    script(f"leaves-the-rest-{name}", *steps, looks(**state), declares(1, OPPOSITE[mark], slot),
           declares(1, mark, slot), looks(**shown), polls(replied(0x1003, other)),
           looks(**{**shown, "reply": "-", "last": 1}), declares(1, mark, slot),
           looks(**{**shown, "reply": "-", "last": 1}),
           *aborts(slot, CPSR[mark], {**shown, "last": 1}), polls(sends(other, TWO)[1]))

# 31: every other state than Process without a response, with the present ticket and with others
def phases(slot, other):
    """States in which nothing can be declared: a name, steps, what a look shows, the present ticket."""
    tag, request, pausing = TAGS[slot], command(slot=slot), paused(slot)
    completed, (one, two) = (*taken(slot), (complete(1, TWO, slot), 0)), sends(slot, TWO)
    gathered, damage = command(100, slot)[:64], damaged(request)
    wrong, stopping = command(slot=slot, kind=3), paused(slot, kind=3)
    fixed = response(bytes((4, 3, 1, 0)), slot, 3)
    yield "idle", (), at(slot, tickets=0), 0
    yield ("receive", ((receive(start(slot, tag)), 0),),
           at(slot, f"receive:9:{tag}:0:64", gathered, 0), 0)
    yield ("answered", ((receive(packet(pausing, tag=tag)), 1), (take(slot), "0 1"),
                        declares(1, CAN, slot), (complete(1, BODY, slot), 0)),
           at(slot, f"answered:9:{tag}:12", over(response(BODY, slot), pausing), paused=of(slot, 1)), 1)
    yield "transmit", completed, told(slot, "transmit:{}:0"), 1
    yield "begun", (*completed, polls(one)), told(slot, "transmit:{}:1", turn=other), 1
    yield "held", (*completed, polls(one, two)), told(slot, "idle:{}", turn=other), 1
    yield ("replay", (*completed, polls(one, two), (receive(ask(REPLAY, slot)), 2)),
           told(slot, "transmit:{}:0", turn=other, reply=reply(1, slot)), 1)
    yield ("error-answered", ((receive(packet(stopping, tag=tag)), 1),),
           at(slot, f"answered:9:{tag}:12", over(fixed, stopping), paused=of(slot, 1)), 1)
    yield ("error-transmit", ((receive(packet(wrong, tag=tag)), 1),),
           at(slot, f"transmit:9:{tag}:12:0", over(fixed, wrong)), 1)
    yield ("abort-untaken", ((receive(COMMANDS[slot]), 1), (receive(ask(ABORT, slot)), 2)),
           at(slot, "idle", request, reply=reply(1, slot)), 1)
    for mark, name in NAMES.items():
        begin = declared(slot, mark)
        yield (f"abort-{name}", (*begin, (receive(ask(ABORT, slot)), 2)),
               at(slot, "idle", request, reply=reply(CPSR[mark], slot)), 1)
        yield f"reset-{name}", (*begin, (RESET, 0)), at(slot, "idle", request, flags=0x4000), 1
        yield f"setup-{name}", (*begin, (setup(), 0)), at(slot, "idle", request, 0), 0
    yield "setup-38", (*declared(slot, CAN), (setup(255), 38)), at(slot, "idle", request, 0), 0
    yield "setup-39", (*declared(slot, CAN), (setup(9, 251), 39)), at(slot, "idle", request, 0), 0
    yield ("timeout", ((receive(start(slot, tag)), 0), (timeout(slot), 0)),
           at(slot, "idle", gathered, 0, flags=0x20), 0)
    yield ("19", (*declared(slot, CAN), (receive(ask(ABORT, slot)), 2),
                  (receive(packet(damage, tag=tag)), 19)),
           at(slot, "idle", damage, flags=0x10, reply=reply(1, slot)), 1)

for slot, other in SLOTS:
    for name, steps, state, present in phases(slot, other):
        script(f"31-{name}-{slot}", *steps, looks(**state), *each(slot, (present,), 31), looks(**state),
               *each(slot, (0, 1, 2, present + 256, LAST), 31), looks(**state))
    first, rest = packets(command(100, slot), tag=TAGS[slot])
    state = process(slot, "taken", request=command(100, slot))
    script(f"31-then-taken-{slot}", *each(slot, (0, 1), 31), (receive(first), 0), *each(slot, (0, 1), 31),
           (receive(rest), 1), (take(slot), "0 1"), looks(**state), *aborts(slot, 2, state))

# 30: before every other answer, also where the low bits name a slot that would do
for slot, other in SLOTS:
    found = [(*phase, int(phase[0] == "receive")) for phase in phases(slot, other)
             if phase[0] in ("idle", "receive", "answered", "transmit", "held")]
    for name, steps, state, present, cpsr in (
            *found, ("untaken", ((receive(COMMANDS[slot]), 1),), process(slot, "untaken"), 1, 1),
            ("taken", taken(slot), process(slot, "taken"), 1, 2),
            ("can", declared(slot, CAN), process(slot, "can"), 1, 1)):
        script(f"30-{name}-{slot}", *steps, looks(**state),
               *(step for far in FAR_SLOTS for step in each(far, (present, present + 1), 30)),
               looks(**state), *aborts(slot, cpsr, state))

# 32: tickets that are not the present one, which is 3; the other slot's is 5
WRONG = (0, 1, 2, 4, 5, 3 << 8, 3 << 24, 259, 65539, (1 << 24) + 3, (1 << 31) + 3, LAST)
for slot, other in SLOTS:
    begin = (*spent(other, 4), (receive(COMMANDS[other]), 1), (take(other), "0 5"), *spent(slot, 2),
             (receive(COMMANDS[slot]), 1))
    for how, steps, cpsr in (("untaken", (), 1), ("taken", ((take(slot), "0 3"),), 2),
                             ("can", ((take(slot), "0 3"), declares(3, CAN, slot)), 1)):
        state = both(process(slot, how, 3), process(other, "taken", 5), reply=reply(1, slot))
        script(f"32-{how}-{slot}", *begin, *steps, looks(**state), *each(slot, WRONG, 32), looks(**state),
               *aborts(slot, cpsr, state))
    for mark in MARKS:                                # each of the slots with its own ticket
        off = OPPOSITE[mark]
        state = both(process(slot, SHOWN[mark], 3), process(other, SHOWN[off], 5), reply=reply(1, slot))
        script(f"32-other-slot-{NAMES[mark]}-{slot}", *begin, (take(slot), "0 3"), declares(3, mark, slot),
               declares(5, off, other), looks(**state), *each(slot, (5,), 32), *each(other, (3,), 32),
               looks(**state), *aborts(slot, CPSR[mark], state), (receive(ask(ABORT, other)), 2),
               polls(replied(CPSR[off], other)))

# A ticket that is kept over an Abort: 31, and 32 once there is a new command, whose own mark stays
for slot, other, mark, name in CASES:
    idle, off = at(slot, "idle", command(slot=slot), reply=reply(CPSR[mark], slot)), OPPOSITE[mark]
    new = dict(tickets=2, reply=idle["reply"])
    script(f"old-ticket-{name}", *declared(slot, mark), (receive(ask(ABORT, slot)), 2), *each(slot, (1,), 31),
           looks(**idle), (receive(COMMANDS[slot]), 1), *each(slot, (1,), 32),
           looks(**process(slot, "untaken", **new)), (take(slot), "0 2"), declares(1, CANT, slot, 32),
           declares(1, CAN, slot, 32), looks(**process(slot, "taken", **new)), declares(2, mark, slot),
           declares(1, off, slot, 32), looks(**process(slot, SHOWN[mark], **new)), declares(2, off, slot),
           declares(1, mark, slot, 32), *aborts(slot, CPSR[off], process(slot, SHOWN[off], **new)))

# 34: not taken. Taking starts at "can't", whatever was declared before.
for slot, other, mark, name in CASES:
    waits = (receive(COMMANDS[slot]), 1), declares(1, mark, slot, 34), looks(**process(slot, "untaken"))
    script(f"34-{name}", *waits, declares(1, mark, slot, 34), (complete(1, BODY, slot), 34),
           *aborts(slot, 1, process(slot, "untaken")))
    script(f"34-then-taken-{name}", *waits, (take(slot), "0 1"), looks(**process(slot, "taken")),
           (take(slot), 33), looks(**process(slot, "taken")), *aborts(slot, 2, process(slot, "taken")))
    script(f"34-then-declared-{name}", *waits, (take(slot), "0 1"), declares(1, mark, slot),
           looks(**process(slot, SHOWN[mark])), *aborts(slot, CPSR[mark], process(slot, SHOWN[mark])))

# What may come between a declaration and the Abort, and leaves what was declared
FLAGS = 0x17D0                                        # of all packets of `refused`

def between(slot, other, off):
    """A name, steps, and what a look shows beside the slot's command; `off` is the opposite of what was
    declared."""
    request, waits = command(slot=slot), process(other, "untaken")
    wrong = (stores(4224, 4223), 0)
    yield "33", [(take(slot), 33)] * 2, {}
    yield "33-and-declared", [(take(slot), 33), declares(1, off, slot), (take(slot), 33),
                              declares(1, OPPOSITE[off], slot)], {}
    yield "declare-30", [declares(1, off, far, 30) for far in FAR_SLOTS], {}
    yield "declare-31", [declares(0, off, other, 31), declares(1, off, other, 31)], {}
    yield "declare-32", [declares(ticket, off, slot, 32) for ticket in (0, 2, 257, LAST)], {}
    yield "declare-34", [(receive(COMMANDS[other]), 1), declares(1, off, other, 34)], waits
    yield "declare-0", [*taken(other), declares(1, off, other)], process(other, SHOWN[off])
    yield "complete-30", [(complete(1, BODY, far), 30) for far in (2, 256 + slot)], {}
    yield "complete-31", [(complete(1, BODY, other), 31)], {}
    yield "complete-32", [(complete(ticket, BODY, slot), 32) for ticket in (0, 2, 257)], {}
    yield "complete-35", [(complete(1, bytes(size), slot), 35) for size in (0, 3, 4217)], {}
    yield "complete-40", [wrong, (complete(1, BODY, slot), 40), (stores(), 0)], {}
    yield "40", [wrong, (receive(ask(ABORT, slot)), 40), (poll(), WRONG_STORES), (stores(), 0)], {}
    yield "read", [(read(slot), f"20 {request.hex()}"), (read(other), "0 -"), (read(2), "0 -")], {}
    yield "poll", [(poll(), NOTHING), (poll(67), SHORT)], {}
    yield "timeout", [(timeout(slot), 37), (timeout(other), 37), (timeout(2), 30)], {}
    yield "20", [(receive(packet(command(slot=slot, fill=b"\5"), tag=4)), 20)], dict(busy=of(slot, 1))
    yield ("refused-packets", [(receive(given), answer) for _, given, answer in refused(slot)],
           dict(flags=FLAGS))
    yield "pause", [(receive(ask(PAUSE)), 2)], dict(paused=of(slot, 1), reply=reply(1 << slot))
    yield "resume", [(receive_all([ask(PAUSE), ask(RESUME)]), [2, 2])], dict(reply=reply(0))
    yield "get-state", [(receive(ask(GET_STATE, slot)), 2)], dict(reply=reply(2, slot))
    yield "get-state-1", [(receive(ask(GET_STATE, slot, cpsp=1)), 2)], dict(reply=reply(2, slot))
    yield "replay", [(receive(ask(REPLAY, slot)), 2)], dict(reply=reply(0, slot))
    yield ("replay-with-cpsp", [(receive(ask(REPLAY, slot, cpsp=1)), 2)],
           dict(reply=error_reply(slot, 4, 0, 6, 0)))
    yield ("abort-with-meb", [(receive(ask(ABORT, slot, meb=1)), 2)],
           dict(reply=error_reply(slot, 4, 0, 2, 0)))
    yield ("abort-with-ciap", [(receive(ask(ABORT, slot, ciap=1)), 2)],
           dict(reply=error_reply(slot, 4, 1, 2, 0)))
    yield "abort-with-19", [(receive(packet(damaged(control(ABORT, slot)))), 19)], dict(flags=0x10)
    yield "abort-of-the-other", [(receive(ask(ABORT, other)), 2)], dict(reply=reply(0, other))
    yield ("abort-of-the-other-taken", [*declared(other, off), (receive(ask(ABORT, other)), 2)],
           at(other, "idle", command(slot=other), reply=reply(CPSR[off], other)))
    yield ("the-other-done", [*declared(other, off), (complete(1, TWO, other), 0),
                              polls(*sends(other, TWO))], told(other, "idle:{}", turn=slot))

for slot, other, mark, name in CASES:
    for what, steps, fields in between(slot, other, OPPOSITE[mark]):
        if mark == CANT and not what.startswith(("33", "declare", "abort-of-the-other-", "the-other")):
            continue                                  # nothing there says `can`
        before = process(slot, SHOWN[mark])
        state = both(before, {"tickets": (0, 0), **fields})
        script(f"after-{what}-{name}", *declared(slot, mark), looks(**before), *steps, looks(**state),
               *aborts(slot, CPSR[mark], state))

# Many of them one behind the other
for slot, other in SLOTS:
    found, fields, steps = {name: rest for name, *rest in between(slot, other, CANT)}, {}, []
    for name in ("read", "poll", "timeout", "33", "declare-30", "declare-32", "complete-32", "complete-35",
                 "complete-40", "40", "get-state", "replay", "abort-with-meb", "20", "pause"):
        fields |= found[name][1]
        steps += [*found[name][0], looks(**{**process(slot, "can"), **fields})]
    fields |= dict(paused=(0, 0), reply=reply(0))
    state = {**process(slot, "can"), **fields}
    script(f"after-many-can-{slot}", *declared(slot, CAN), *steps, (receive(ask(RESUME)), 2), looks(**state),
           *aborts(slot, 1, state))

# Both slots at once: each has its own mark, and none is left for the next commands.
for first, second in ((CAN, CAN), (CAN, CANT), (CANT, CAN)):
    begin = *declared(0, first), *declared(1, second)
    state = both(process(0, SHOWN[first]), process(1, SHOWN[second]))
    name = f"{NAMES[first]}-{NAMES[second]}"
    script(f"both-abort-{name}", *begin, looks(**state), *aborts(0, CPSR[first], state),
           *aborts(1, CPSR[second], {**state, "slot0": "idle"}))
    script(f"both-complete-{name}", *begin, (complete(1, TWO), 0), polls(*sends(0, TWO)),
           looks(**both(process(1, SHOWN[second]), told(0, "idle:{}"), turn=1)), (receive(ask(ABORT, 1)), 2),
           polls(replied(CPSR[second], 1)))
    for how, step, count, flags in (("reset", (RESET, 0), 2, 0x4000), ("setup", (setup(), 0), 1, 0)):
        state = both(process(0, "taken", count), process(1, "taken", count), flags=flags)
        script(f"both-{how}-{name}", *begin, step, (receive_all(COMMANDS), [1, 1]), (take(), f"0 {count}"),
               (take(1), f"0 {count}"), looks(**state), *aborts(0, 2, state),
               *aborts(1, 2, {**state, "slot0": "idle"}))

# Declared under a pause flag: its own, the other slot's, both
for slot, other, mark, name in CASES:
    its, others = ((receive(packet(paused(one), tag=TAGS[one])), 1) for one in (slot, other))
    own = process(slot, SHOWN[mark], request=paused(slot))
    theirs = process(other, "untaken", request=paused(other))
    for whose, steps, state in (
            ("its", (its,), {**own, "paused": of(slot, 1)}),
            ("others", (others, (receive(COMMANDS[slot]), 1)),
             both(process(slot, SHOWN[mark]), theirs, paused=of(other, 1))),
            ("both", (others, its), both(own, theirs, paused=(1, 1)))):
        script(f"paused-{whose}-{name}", *steps, *each(slot, (1,), 34), *each(slot, (2,), 32),
               (take(slot), "0 1"), *each(slot, (2,), 32), declares(1, OPPOSITE[mark], slot),
               declares(1, mark, slot), looks(**state), *aborts(slot, CPSR[mark], state))

# The next command of the slot starts anew, however the one that could be stopped has ended.
for slot, other in SLOTS:
    done = (complete(1, BODY, slot), 0), polls(*sends(slot))
    again = (receive(ask(REPLAY, slot)), 2), polls(replied(1, slot), *sends(slot))
    for how, steps, fields in (
            ("abort", [(receive(ask(ABORT, slot)), 2)], dict(tickets=2, reply=reply(1, slot))),
            ("complete", done, dict(tickets=2, turn=other)),
            ("replay", (*done, *again), dict(tickets=2, turn=other)),
            ("reset", [(RESET, 0)], dict(tickets=2, flags=0x4000)),
            ("setup", [(setup(), 0)], dict(tickets=1)), ("setup-38", [(setup(255), 38)], dict(tickets=1)),
            ("setup-39", [(setup(8, 63), 39)], dict(tickets=1))):
        new, untaken = fields["tickets"], process(slot, "untaken", **fields)
        begin = *declared(slot, CAN), *steps, (receive(COMMANDS[slot]), 1), looks(**untaken)
        script(f"next-untaken-{how}-{slot}", *begin, *aborts(slot, 1, untaken))
        script(f"next-taken-{how}-{slot}", *begin, declares(new, CAN, slot, 34), (take(slot), f"0 {new}"),
               looks(**process(slot, "taken", **fields)),
               *aborts(slot, 2, process(slot, "taken", **fields)))
        script(f"next-declared-{how}-{slot}", *begin, (take(slot), f"0 {new}"), declares(new, CAN, slot),
               looks(**process(slot, "can", **fields)), *aborts(slot, 1, process(slot, "can", **fields)))

# Completing: the response is there, and Abort reports 0; what is sent is what is always sent.
for slot, other, mark, name in CASES:
    begin, (one, two), pausing = declared(slot, mark), sends(slot, TWO), paused(slot)
    completed = *begin, (complete(1, TWO, slot), 0)
    waits, goes, held = (told(slot, phase) for phase in ("transmit:{}:0", "transmit:{}:1", "idle:{}"))
    goes["turn"] = held["turn"] = other
    script(f"completed-{name}", *completed, looks(**waits), *each(slot, (1,), 31), polls(one), looks(**goes),
           *each(slot, (1,), 31), polls(two), looks(**held), *each(slot, (1,), 31), (poll(), NOTHING),
           looks(**held))
    script(f"completed-longest-{name}", *begin, (complete(1, LONG, slot), 0), polls(*sends(slot, LONG)),
           looks(**told(slot, "idle:{}", LONG, turn=other)))
    script(f"replayed-{name}", *completed, polls(one, two), (receive(ask(REPLAY, slot)), 2),
           looks(**{**waits, "turn": other, "reply": reply(1, slot)}), polls(replied(1, slot), one, two),
           looks(**held), (receive(ask(ABORT, slot)), 2), polls(replied(0, slot)))
    for how, steps, state in (("transmit", completed, waits), ("begun", (*completed, polls(one)), goes),
                              ("held", (*completed, polls(one, two)), held)):
        script(f"abort-{how}-{name}", *steps, looks(**state), *aborts(slot, 0, state))
    answered = at(slot, f"answered:9:{TAGS[slot]}:65", over(response(TWO, slot), pausing),
                  paused=of(slot, 1))
    under_pause = ((receive(packet(pausing, tag=TAGS[slot])), 1), (take(slot), "0 1"),
                   declares(1, mark, slot), (complete(1, TWO, slot), 0), looks(**answered),
                   *each(slot, (1,), 31), looks(**answered))
    script(f"abort-answered-{name}", *under_pause, *aborts(slot, 0, answered))
    script(f"completed-paused-{name}", *under_pause, (receive(ask(RESUME)), 2),
           polls(replied(0), one, two), looks(**held))

# No store is lent: stores of another length are the same to a declaration, refused or not.
for slot, other in SLOTS:
    for first, second in LENT:
        lent = dict(lent=(first, second))
        script(f"stores-{first}-{second}-{slot}", (stores(first, second), 0), *each(slot, (0, 1), 31),
               *each(2 + slot, (0,), 30), (stores(), 0), (receive(COMMANDS[slot]), 1),
               (stores(first, second), 0), *each(slot, (1,), 34), *each(slot, (0,), 32),
               looks(**process(slot, "untaken", **lent)),
               (take(slot), "0 1"), *each(slot, (2,), 32), looks(**process(slot, "taken", **lent)),
               declares(1, CAN, slot), looks(**process(slot, "can", **lent)), declares(1, CANT, slot),
               looks(**process(slot, "taken", **lent)), declares(1, CAN, slot),
               (receive(ask(ABORT, slot)), 40), (stores(), 0), looks(**process(slot, "can")),
               *aborts(slot, 1, process(slot, "can")))

# At other units
for slot, other, mark, name in CASES:
    for unit in (65, 250):
        request, body, tag = command(unit + 1, slot), bytes(unit - 7), TAGS[slot]
        begin = ((setup(8, unit), 0), *each(2 + slot, (0,), 30), *each(slot, (0,), 31),
                 (receive_all(packets(request, tag=tag, unit=unit)), [0, 1]), *each(slot, (1,), 34),
                 (take(slot), "0 1"), declares(1, mark, slot))
        state = process(slot, SHOWN[mark], request=request, unit=unit)
        script(f"unit-{unit}-{name}", *begin, looks(**state), *each(slot, (unit,), 32),
               *aborts(slot, CPSR[mark], state), *begin, (complete(1, body, slot), 0),
               polls(*cut(response(body, slot), tag, unit), unit=unit),
               looks(**at(slot, f"idle:9:{tag}:{unit + 1}", response(body, slot), turn=other, unit=unit)))

# Exchanges: the requester, EID 9, builds the Abort and gathers what it reports.
for slot, other, mark, name in CASES:
    gathered = response(bytes((0, 0x5A, CPSR[mark], 0)), slot, 0)
    script(f"exchange-{name}", (requester_setup(9), 0), *declared(slot, mark), (await_from(8, 2), 0),
           (primitive(ABORT, slot), written([ask(ABORT, slot)])), (receive(ask(ABORT, slot)), 2),
           *carried([replied(CPSR[mark], slot)], "2 12"), requester_looks(eid=9, store=gathered))

# Faults: one `bad`, and the records behind it are not read
TAG = declare(1, CAN)[0]
for name, steps in (("idle", ()), ("taken", taken(0)), ("can", declared(1, CAN))):
    for length in (0, 8, 10):
        script(f"bad-declare-{length}-{name}", *steps, ([record(TAG, bytes(length)), LOOK], "bad"))
    for tag in (47, 49):
        script(f"bad-tag-{tag}-{name}", *steps, ([record(tag, declare(1, CAN)[3:]), LOOK], "bad"))
for mark in (2, 3, 128, 255):
    script(f"bad-mark-{mark}", *declared(0, CANT), ([declare(1, mark), LOOK], "bad"))
for mark in (2, 255):                                 # also where the call would be refused
    for answer, steps, given in ((30, (), (0, mark, 2)), (31, (), (0, mark, 1)), (32, taken(1), (2, mark, 1)),
                                 (34, ((receive(COMMANDS[1]), 1),), (1, mark, 1))):
        script(f"bad-mark-{mark}-{answer}", *steps, ([declare(*given), LOOK], "bad"))
for name, length in (("tag", 1), ("length", 2), ("empty-body", 3), ("body", 11)):
    script(f"bad-cut-{name}", *taken(0), (declare(1, CAN)[:length], "bad"))
