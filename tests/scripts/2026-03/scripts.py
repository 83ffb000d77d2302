"""The scripts of request 2026-03, Replay.

Each script shows one rule, by looks at the whole state and by calls that no log can make, or an exchange in
which the requester asks for a response again. A number at the end of a name is the slot. Where both ends are
in a script the requester is EID 9 and the endpoint EID 8.
"""
from call_records import (RESET, await_from, complete, cut_message, poll, primitive, read, receive,
                          receive_all, requester_setup, setup, stores, take, timeout)
from call_steps import (NOTHING, SHORT, TAKEN, WRONG_STORES, at, both, carried, error_reply, looks, of, over,
                        polls, reply, requester_looks, taken, written)
from records import ask, command, control, damaged, packet, packets
from second.wire import ABORT, GET_STATE, PAUSE, REPLAY, RESUME
from steps import BODY, COMMANDS, SLOTS, TAGS, Described, refused, replied, response, sends, sent, start

SCRIPTS = Described()
script = SCRIPTS.add

TWO = bytes(range(57))                                # the body of a response of two packets
LONG = bytes(i % 253 for i in range(4216))            # 66 packets
FLAGS = {11: 0x40, 12: 0x80, 13: 0x100, 14: 0x1000, 16: 0x200, 19: 0x10, 21: 0x400}

def done(slot, body=TWO):
    """The slot's command, its response sent whole: the slot is Idle and holds it."""
    return *taken(slot), (complete(1, body, slot), 0), polls(*sends(slot, body))

def replay(slot, **fields):
    return receive(ask(REPLAY, slot, **fields)), 2

def after(slot, phase="idle", front=b"", **fields):
    """The slot has sent the response of TWO, or began to; since then `front` was stored."""
    return at(slot, phase, over(front, response(TWO, slot)), **{"turn": 1 - slot, **fields})

def held(slot, **fields):
    return after(slot, f"idle:9:{TAGS[slot]}:65", **fields)

def replaying(slot, count, **fields):
    """So many packets of the response of TWO went again."""
    return after(slot, f"transmit:9:{TAGS[slot]}:65:{count}", **fields)

# A replay from its beginning to its end; the tickets and the stores stay
for slot, other in SLOTS:
    one, two = sends(slot, TWO)
    script(f"look-replay-{slot}", *done(slot), looks(**held(slot)), replay(slot, source=10, tag=7),
           looks(**replaying(slot, 0, reply=reply(1, slot, to=10, tag=7))),
           polls(replied(1, slot, to=10, tag=7)), looks(**replaying(slot, 0, last=1)), polls(one),
           looks(**replaying(slot, 1)), polls(two), looks(**held(slot)), (poll(), NOTHING),
           looks(**held(slot)))
    script(f"look-66-packets-{slot}", *done(slot, LONG), replay(slot),
           polls(replied(1, slot), *sends(slot, LONG)[:65]),
           looks(**at(slot, f"transmit:9:{TAGS[slot]}:4224:65", response(LONG, slot), turn=1 - slot)),
           polls(sends(slot, LONG)[65]),
           looks(**at(slot, f"idle:9:{TAGS[slot]}:4224", response(LONG, slot), turn=1 - slot)))
    wrong = response(bytes((4, 3, 1, 0)), slot, 3)
    script(f"look-entry-error-{slot}", (receive(packet(command(8, slot, kind=3))), 1), polls(sent(wrong)),
           looks(**at(slot, "idle:9:1:12", wrong, turn=1 - slot)), replay(slot),
           looks(**at(slot, "transmit:9:1:12:0", wrong, turn=1 - slot, reply=reply(1, slot))))
    script(f"look-replay-of-a-replay-{slot}", *done(slot), replay(slot), polls(replied(1, slot), one, two),
           looks(**held(slot)), replay(slot), looks(**replaying(slot, 0, reply=reply(1, slot))),
           polls(replied(1, slot), one, two), looks(**held(slot)))
    script(f"look-second-replay-{slot}", *done(slot), replay(slot), polls(replied(1, slot), one),
           replay(slot), looks(**replaying(slot, 1, reply=reply(0, slot))), polls(replied(0, slot), two),
           looks(**held(slot)))
    script(f"ticket-{slot}", *done(slot), replay(slot), (take(slot), 31), (complete(1, BODY, slot), 31),
           (complete(2, BODY, slot), 31), (read(slot), "0 -"), polls(replied(1, slot), one, two),
           looks(**held(slot)), (receive(COMMANDS[slot]), 1), (take(slot), "0 2"),
           (complete(1, BODY, slot), 32), (complete(2, BODY, slot), 0))
    script(f"other-eid-{slot}", (setup(200), 0), (receive(packet(command(slot=slot), destination=200)), 1),
           (take(slot), "0 1"), (complete(1, BODY, slot), 0), polls(sent(response(BODY, slot), source=200)),
           (receive(ask(REPLAY, slot)), 13),
           (receive(packet(control(REPLAY, slot), tag=2, destination=200)), 2),
           polls(sent(response(bytes((0, 0x5A, 1, 0)), slot, 0), tag=2, source=200),
                 sent(response(BODY, slot), source=200)))
# A replay is what began last, so that it is the other slot's turn.
for slot, other in SLOTS:
    one, two = sends(slot, TWO)
    script(f"look-turn-{slot}", *done(slot), *done(other), replay(slot), replay(other),
           polls(replied(1, other), one), looks(**both(replaying(slot, 1), replaying(other, 0))), polls(two),
           looks(**both(held(slot), replaying(other, 0))), polls(*sends(other, TWO)),
           looks(**both(held(slot), held(other), turn=slot)))

# In every other state a Replay leaves all but the reply as it is.
for slot, other in SLOTS:
    tag, request, paused = TAGS[slot], command(slot=slot), command(slot=slot, ciap=1)
    completed = *taken(slot), (complete(1, TWO, slot), 0)
    for name, steps, state in (
            ("never-used", (), at(slot, tickets=0)),
            ("receive", ((receive(start(slot, tag)), 0),),
             at(slot, f"receive:9:{tag}:0:64", command(100, slot)[:64], 0)),
            ("untaken", taken(slot)[:1], at(slot, f"process:9:{tag}:1:20:untaken", request)),
            ("taken", taken(slot), at(slot, f"process:9:{tag}:1:20:taken", request)),
            ("answered", ((receive(packet(paused, tag=tag)), 1), (take(slot), "0 1"),
                          (complete(1, BODY, slot), 0)),
             at(slot, f"answered:9:{tag}:12", over(response(BODY, slot), paused), paused=of(slot, 1))),
            ("transmit", completed, replaying(slot, 0, turn=0)),
            ("begun", (*completed, polls(sends(slot, TWO)[0])), replaying(slot, 1))):
        script(f"{name}-{slot}", *steps, looks(**state), replay(slot), looks(**state, reply=reply(0, slot)))

# Lost: a look shows an Idle slot without its response, and the next Replay finds nothing.
for slot, other in SLOTS:
    tag, one = TAGS[slot], sends(slot, TWO)[0]
    new, gathered, wrong = command(slot=slot), command(100, slot)[:64], damaged(command(slot=slot))
    begun = replay(slot), polls(replied(1, slot), one)
    for name, steps, state in (
            ("0", ((receive(start(slot, tag)), 0),), after(slot, f"receive:9:{tag}:0:64", gathered)),
            ("0-then-timeout", ((receive(start(slot, tag)), 0), (timeout(slot), 0)),
             after(slot, front=gathered, flags=0x20)),
            ("0-then-15", ((receive(start(slot, tag)), 0), (receive(packet(b"\0", tag=tag)), 15)),
             after(slot, front=gathered)),
            ("1", ((receive(COMMANDS[slot]), 1),),
             after(slot, f"process:9:{tag}:1:20:untaken", new, tickets=2)),
            ("19", ((receive(packet(wrong, tag=tag)), 19),), after(slot, front=wrong, flags=0x10)),
            ("abort", ((receive(ask(ABORT, slot)), 2), polls(replied(0, slot))), after(slot, last=1)),
            ("abort-of-a-replay", (*begun, (receive(ask(ABORT, slot)), 2), polls(replied(0, slot))),
             after(slot, last=1)),
            ("reset", ((RESET, 0),), after(slot, flags=0x4000, turn=0)),
            ("reset-of-a-replay", (*begun, (RESET, 0)), after(slot, flags=0x4000, turn=0)),
            ("reset-without-stores", ((stores(0, 4300), 0), (RESET, 0), (stores(), 0)),
             after(slot, flags=0x4000, turn=0)),
            ("setup", ((setup(), 0),), after(slot, tickets=0, turn=0)),
            ("setup-38", ((setup(255), 38),), after(slot, tickets=0, turn=0)),
            ("setup-in-a-replay", (*begun, (setup(), 0)), after(slot, tickets=0, turn=0))):
        script(f"lost-{name}-{slot}", *done(slot), looks(**held(slot)), *steps, looks(**state), replay(slot),
               looks(**{**state, "reply": reply(0, slot)}))

# Kept: a look shows it before and after.
for slot, other in SLOTS:
    one, two = sends(slot, TWO)
    for name, given, answer in refused(slot):
        script(f"kept-{name}-{slot}", *done(slot), (receive(given), answer),
               looks(**held(slot, flags=FLAGS.get(answer, 0))), replay(slot),
               looks(**replaying(slot, 0, flags=FLAGS.get(answer, 0), reply=reply(1, slot))))
    for name, opcode, csi in (("pause", PAUSE, 0), ("resume", RESUME, 0), ("get-state", GET_STATE, slot)):
        script(f"kept-{name}-{slot}", *done(slot), (receive(ask(opcode, csi)), 2),
               looks(**held(slot, reply=reply(0, csi))))
    for name, opcode, fields, body in (("abort-with-meb", ABORT, dict(meb=1), (4, 0, 2, 0)),
                                       ("abort-with-ciap", ABORT, dict(ciap=1), (4, 1, 2, 0)),
                                       ("replay-with-meb", REPLAY, dict(meb=1), (4, 0, 2, 0)),
                                       ("replay-with-ciap", REPLAY, dict(ciap=1), (4, 1, 2, 0)),
                                       ("cpsp-0001", REPLAY, dict(cpsp=1), (4, 0, 6, 0)),
                                       ("cpsp-0100", REPLAY, dict(cpsp=0x0100), (4, 0, 6, 0)),
                                       ("opcode-5", 5, {}, (3, 0, 0, 0))):
        script(f"kept-{name}-{slot}", *done(slot), (receive(ask(opcode, slot, **fields)), 2),
               looks(**held(slot, reply=error_reply(slot, *body))))
    script(f"kept-calls-{slot}", *done(slot), (take(slot), 31), (read(slot), "0 -"),
           (complete(1, BODY, slot), 31), (complete(0, b"", slot), 31), (timeout(slot), 37), (take(2), 30),
           (complete(1, BODY, 2), 30), (timeout(2), 30), (poll(), NOTHING), looks(**held(slot)))
    script(f"kept-36-{slot}", *done(slot), (poll(67), SHORT), looks(**held(slot)), replay(slot),
           (poll(0), SHORT), (poll(67), SHORT), looks(**replaying(slot, 0, reply=reply(1, slot))),
           polls(replied(1, slot), one), (poll(67), SHORT), looks(**replaying(slot, 1)), polls(two),
           looks(**held(slot)))
    for first, second in ((4223, 4224), (4224, 4225), (0, 0), (4300, 4300)):
        lent = dict(lent=(first, second))
        script(f"kept-40-stores-{first}-{second}-{slot}", *done(slot), (stores(first, second), 0),
               (receive_all([ask(REPLAY, slot), ask(ABORT, slot), COMMANDS[slot], start(slot, TAGS[slot])]),
                [40] * 4), (receive(packet(damaged(command(slot=slot)))), 40), (complete(1, BODY, slot), 40),
               (poll(), WRONG_STORES), looks(**held(slot, **lent)), (stores(), 0), replay(slot),
               polls(replied(1, slot), one), (stores(first, second), 0), (poll(), WRONG_STORES),
               looks(**replaying(slot, 1, **lent)), (stores(), 0), polls(two), looks(**held(slot)))
    script(f"kept-20-{slot}", *done(slot), replay(slot), polls(replied(1, slot), one),
           (receive(packet(command(slot=slot), tag=4)), 20), looks(**replaying(slot, 1, busy=of(slot, 1))),
           polls(two), looks(**held(slot, busy=of(slot, 1))))

# The other slot: its pause flag keeps a replay mute until Resume; its assembly ends under Replay's source and
# tag, and its flag with it.
for slot, other in SLOTS:
    waits = at(other, f"process:9:{TAGS[other]}:1:20:untaken", command(slot=other))
    gathered, opened = command(100, other)[:64], f"receive:9:{TAGS[other]}:0:64"
    script(f"other-paused-{slot}", *done(slot), (receive(COMMANDS[other]), 1), (receive(ask(PAUSE)), 2),
           polls(replied(1 << other)), replay(slot),
           looks(**both(replaying(slot, 0), waits, paused=of(other, 1), last=1, reply=reply(1, slot))),
           polls(replied(1, slot)), (poll(), NOTHING), (receive(ask(PAUSE)), 2), polls(replied(3)),
           looks(**both(replaying(slot, 0), waits, paused=(1, 1), last=1)), (receive(ask(RESUME)), 2),
           looks(**both(replaying(slot, 0), waits, last=1, reply=reply(0))))
    script(f"assembly-of-the-other-{slot}", *done(slot), (receive(start(other, TAGS[other])), 0),
           (receive(ask(PAUSE)), 2), polls(replied(1 << other)),
           looks(**both(held(slot), at(other, opened, gathered, 0), paused=of(other, 1), last=1)),
           replay(slot, tag=TAGS[other]),
           looks(**both(replaying(slot, 0), at(other, "idle", gathered, 0), last=1,
                        reply=reply(1, slot, tag=TAGS[other]))))

# Exchanges: the requester asks again for a response under the command's tag, by a Replay under tag 2.
ENDS = (requester_setup(9), 0),
REPLY = {(slot, cpsr): response(bytes((0, 0x5A, cpsr, 0)), slot, 0) for slot in (0, 1) for cpsr in (0, 1)}

def cut_and_taken(slot, request):
    """A command that the requester cuts, up to its taking; its response is awaited."""
    parts = packets(request, tag=TAGS[slot])
    return (*ENDS, (await_from(8, TAGS[slot]), 0), (cut_message(request, tag=TAGS[slot]), written(parts)),
            (receive_all(parts), [0] * (len(parts) - 1) + [1]), (take(slot), "0 1"))

def asked_again(slot, cpsr=1):
    """The Replay that the requester builds, from the awaiting of its reply to the gathering."""
    return ((await_from(8, 2), 0), (primitive(REPLAY, slot), written([ask(REPLAY, slot)])),
            (receive(ask(REPLAY, slot)), 2), *carried([replied(cpsr, slot)], "2 12"))

for slot, other in SLOTS:
    tag = TAGS[slot]
    for name, request, body in (("1-packet", command(slot=slot), BODY),
                                ("2-packets", command(100, slot), TWO),
                                ("66-packets", command(4224, slot, fill=bytes(range(251))), LONG)):
        told, lines = response(body, slot), sends(slot, body)
        begin = *cut_and_taken(slot, request), (complete(1, body, slot), 0)
        once_more = (await_from(8, tag), 0), *carried(lines, f"1 {len(told)}")
        script(f"exchange-lost-{name}-{slot}", *begin, polls(*lines), requester_looks(f"8:{tag}", eid=9),
               *asked_again(slot), requester_looks(eid=9, store=REPLY[slot, 1]), *once_more,
               requester_looks(eid=9, store=told), (poll(), NOTHING))
        script(f"exchange-again-{name}-{slot}", *begin, *carried(lines, f"1 {len(told)}"),
               requester_looks(eid=9, store=told), *asked_again(slot), *once_more,
               requester_looks(eid=9, store=told), *asked_again(slot), *once_more,
               requester_looks(eid=9, store=told))
    one, two = sends(slot, TWO)
    begin = *cut_and_taken(slot, command(slot=slot)), (complete(1, TWO, slot), 0)
    whole = requester_looks(eid=9, store=response(TWO, slot))
    # Awaiting the reply ends what was gathered of the response.
    script(f"exchange-lost-last-packet-{slot}", *begin, *carried([one], 0), polls(two),
           requester_looks(f"8:{tag}", "0:64", eid=9, store=response(TWO, slot)[:64]), *asked_again(slot),
           (await_from(8, tag), 0), *carried([one, two], "1 65"), whole)
    # Where the response is still awaited the reply is refused, and the response comes all the same.
    script(f"exchange-reply-not-awaited-{slot}", *begin, polls(one, two), (receive(ask(REPLAY, slot)), 2),
           *carried([replied(1, slot)], 20), *carried([one, two], "1 65"), whole)
    # Under the command's own tag, the reply ends the awaiting.
    script(f"exchange-same-tag-{slot}", *begin, polls(one, two),
           (primitive(REPLAY, slot, tag=tag), written([ask(REPLAY, slot, tag=tag)])),
           (receive(ask(REPLAY, slot, tag=tag)), 2), *carried([replied(1, slot, tag=tag)], "2 12"),
           *carried([one], 20), (await_from(8, tag), 0), *carried([two], 21), *asked_again(slot),
           (await_from(8, tag), 0), *carried([one, two], "1 65"), whole)
    script(f"exchange-nothing-held-{slot}", *begin, polls(one, two), (receive(ask(ABORT, slot)), 2),
           polls(replied(0, slot)), *asked_again(slot, 0), requester_looks(eid=9, store=REPLY[slot, 0]),
           (poll(), NOTHING))
    wrong, error = command(slot=slot, kind=3), response(bytes((4, 3, 1, 0)), slot, 3)
    parts, line = [packet(wrong, tag=tag)], sent(error, tag=tag)
    script(f"exchange-entry-error-{slot}", *ENDS, (await_from(8, tag), 0),
           (cut_message(wrong, tag=tag), written(parts)), (receive_all(parts), 1), polls(line),
           *asked_again(slot), (await_from(8, tag), 0), *carried([line], "1 12"),
           requester_looks(eid=9, store=error))

# A Replay that the requester builds, and an opcode above it: the reply, and the state
IS_TAKEN = at(0, "process:9:1:1:20:taken", command())
for name, opcode, body in (("replay", REPLAY, (0, 0x5A, 0, 0)), ("opcode-5", 5, (3, 0, 0, 0))):
    told = response(bytes(body), kind=0)
    script(f"primitive-{name}", *ENDS, *TAKEN, (await_from(8, 2), 0),
           (primitive(opcode), written([ask(opcode)])), requester_looks("8:2", eid=9),
           (receive(ask(opcode)), 2), looks(**IS_TAKEN, reply=f"9:2:{told.hex()}"),
           *carried([sent(told, tag=2)], "2 12"), requester_looks(eid=9, store=told),
           looks(**IS_TAKEN, last=1))
for slot, other in SLOTS:
    told = response(bytes((4, 0, 6, 0)), slot, 0)
    script(f"primitive-cpsp-{slot}", *ENDS, *done(slot), (await_from(8, 2), 0),
           (primitive(REPLAY, slot, cpsp=0x0100), written([ask(REPLAY, slot, cpsp=0x0100)])),
           (receive(ask(REPLAY, slot, cpsp=0x0100)), 2), *carried([sent(told, tag=2)], "2 12"),
           requester_looks(eid=9, store=told), looks(**held(slot, last=1)))
