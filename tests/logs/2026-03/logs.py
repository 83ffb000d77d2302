"""The logs of request 2026-03, Replay.

Each log shows one rule, for the slot at the end of its name. A slot's command is that of COMMANDS, from EID 9
under tag 1 or 3, and a Replay comes from EID 9 under tag 2, unless the log is about that.
"""
from records import POLL, RESET, ask, command, complete, damaged, packet, packets, take, timeout
from second.wire import ABORT, GET_STATE, MI, PAUSE, REPLAY, RESUME
from steps import (BODY, COMMANDS, SLOTS, TAGS, Described, answered, refused, replied, response, sends, sent,
                   shows, start)

LOGS = Described()
log = LOGS.add

TWO = bytes(range(57))                                # the body of a response of two packets
FULL = bytes(range(120))                              # two full packets
EARLIER = bytes(range(150))                           # three packets

def ready(slot, body=BODY):
    """The slot's command, up to a response that is to be sent."""
    return (COMMANDS[slot], 1), (take(slot), 0), (complete(body, slot), 0)

def done(slot, body=BODY):
    """The slot's command, its response sent whole: the slot is Idle and holds it."""
    lines = sends(slot, body)
    return *ready(slot, body), ([POLL] * len(lines), lines)

def replay(slot, cpsr=1):
    """A Replay and its reply, which goes first: the packet before was none of control, or nothing is sent."""
    return (ask(REPLAY, slot), 2), (POLL, replied(cpsr, slot))

def again(slot, body=BODY):
    """A Replay, its reply, and the response once more."""
    lines = sends(slot, body)
    return *replay(slot), ([POLL] * (len(lines) + 1), [*lines, 0])

def again_first(slot, body=BODY):
    """The same behind a control reply, so that a command packet goes first."""
    first, *rest = sends(slot, body)
    return (ask(REPLAY, slot), 2), ([POLL] * (len(rest) + 3), [first, replied(1, slot), *rest, 0])

def nothing(slot):
    """A Replay that finds nothing to send."""
    return *replay(slot, 0), (POLL, 0)

def error(*body, slot=0):
    """The line of an error reply, which carries no TAG."""
    return answered(*body, slot=slot, kind=0, tag=2)

# What is held goes again: the same packets to the same requester
for slot, other in SLOTS:
    for size in (4, 57, 4216):
        body = bytes(i % 251 for i in range(size))
        log(f"body-{size}-{slot}", *done(slot, body), *again(slot, body))
    for name, fields, body in (("nmimt", dict(kind=3), (4, 3, 1, 0)), ("meb", dict(meb=1), (4, 0, 2, 0)),
                               ("size", dict(length=19), (5, 0, 0, 0))):
        line = answered(*body, slot=slot, kind=fields.get("kind", MI))
        log(f"entry-error-{name}-{slot}", (packet(command(slot=slot, **fields)), 1), (POLL, line),
            *replay(slot), ([POLL, POLL], [line, 0]))
    line = sent(response(BODY, slot), to=20, tag=5)
    log(f"requester-{slot}", (packet(command(slot=slot), source=20, tag=5), 1), (take(slot), 0),
        (complete(BODY, slot), 0), (POLL, line), (ask(REPLAY, slot, source=10, tag=7), 2),
        ([POLL] * 3, [replied(1, slot, to=10, tag=7), line, 0]))
    log(f"same-requester-{slot}", *done(slot), (ask(REPLAY, slot, tag=TAGS[slot]), 2),
        ([POLL] * 3, [replied(1, slot, tag=TAGS[slot]), *sends(slot), 0]))
    log(f"last-response-{slot}", *done(slot, EARLIER), *done(slot), *again(slot))
    log(f"replay-of-a-replay-{slot}", *done(slot, TWO), *again(slot, TWO), *again(slot, TWO))
    log(f"ticket-{slot}", *done(slot), *replay(slot), (take(slot), 31), (complete(BODY, slot), 31),
        ([POLL, POLL], [*sends(slot), 0]), (take(slot), 31), (COMMANDS[slot], 1),
        (complete(BODY, slot), 32),                   # the ticket taken last is that of the command before
        (take(slot), 0), (complete(BODY, slot), 0), (POLL, sends(slot)))
    log(f"held-is-idle-{slot}", *done(slot), shows(0, slot), (ask(PAUSE), 2), (POLL, replied(0)),
        (COMMANDS[slot], 1))

# In every other state: CPSR 0, and nothing happens; with nothing sent before, and behind an earlier response
for slot, other in SLOTS:
    log(f"never-used-{slot}", *nothing(slot))
    gathered, rest = packets(command(100, slot), tag=TAGS[slot])
    one, two = sends(slot, TWO)
    for name, before in (("", ()), ("-after-a-response", done(slot, EARLIER))):
        log(f"receive{name}-{slot}", *before, (gathered, 0), *nothing(slot), (rest, 1), (take(slot), 0))
        log(f"untaken{name}-{slot}", *before, (COMMANDS[slot], 1), *nothing(slot), (take(slot), 0))
        log(f"taken{name}-{slot}", *before, (COMMANDS[slot], 1), (take(slot), 0), *nothing(slot),
            (complete(BODY, slot), 0), ([POLL, POLL], [*sends(slot), 0]))
        log(f"answered{name}-{slot}", *before, (packet(command(slot=slot, ciap=1), tag=TAGS[slot]), 1),
            (take(slot), 0), (complete(BODY, slot), 0), *nothing(slot), shows(0x8002, slot), (ask(RESUME), 2),
            ([POLL] * 3, [*sends(slot), replied(0), 0]))
        log(f"transmit{name}-{slot}", *before, *ready(slot, TWO), *replay(slot, 0),
            ([POLL] * 3, [one, two, 0]))
        log(f"begun{name}-{slot}", *before, *ready(slot, TWO), (POLL, one), *replay(slot, 0),
            ([POLL, POLL], [two, 0]))
    log(f"second-replay-{slot}", *done(slot, TWO), *replay(slot), (ask(REPLAY, slot), 2),
        ([POLL] * 4, [one, replied(0, slot), two, 0]))
    log(f"second-replay-begun-{slot}", *done(slot, TWO), *replay(slot), (POLL, one), *replay(slot, 0),
        ([POLL, POLL], [two, 0]))
    log(f"second-replay-replaces-the-reply-{slot}", *done(slot), (ask(REPLAY, slot), 2), *replay(slot, 0),
        ([POLL, POLL], [*sends(slot), 0]))

# Lost at the first packet that is stored, whatever becomes of the command
for slot, other in SLOTS:
    tag = TAGS[slot]
    gathered, *more = packets(command(4288, slot), tag=tag)    # longer than a message can be
    for name, *ends in (("timeout", (timeout(slot), 0)),
                        ("22", (packet(bytes(36), som=0, sequence=2, tag=tag), 22)),
                        ("16", (packet(bytes(63), som=0, eom=0, sequence=1, tag=tag), 16)),
                        ("23", (more, [0] * 65 + [23])),
                        ("19", (packet(bytes(36), som=0, sequence=1, tag=tag), 19)),
                        ("start-15", (packet(b"\0", tag=tag), 15)),
                        ("start-19", (packet(damaged(command(slot=slot)), tag=tag), 19)),
                        ("start-20", (COMMANDS[other], 1), (packet(command(slot=other), tag=tag), 20)),
                        ("start-for-the-other-slot", (start(other, tag), 0)),
                        ("start-2", (ask(GET_STATE, slot, tag=tag), 2), (POLL, replied(0, slot, tag=tag))),
                        ("abort", (ask(ABORT, slot), 2), (POLL, replied(1, slot))), ("reset", (RESET, 0))):
        log(f"lost-0-then-{name}-{slot}", *done(slot), (gathered, 0), *ends, *nothing(slot))
    log(f"lost-1-then-abort-{slot}", *done(slot), (COMMANDS[slot], 1), (ask(ABORT, slot), 2),
        (POLL, replied(1, slot)), *nothing(slot))
    log(f"lost-1-then-reset-{slot}", *done(slot), (COMMANDS[slot], 1), (take(slot), 0), (RESET, 0),
        *nothing(slot))
    log(f"lost-19-{slot}", *done(slot), (packet(damaged(command(slot=slot)), tag=tag), 19), *nothing(slot))

# Lost at its Abort and at reset
for slot, other in SLOTS:
    one, two = sends(slot, TWO)
    log(f"lost-abort-{slot}", *done(slot), (ask(ABORT, slot), 2), (POLL, replied(0, slot)), *nothing(slot))
    log(f"lost-abort-of-a-replay-{slot}", *done(slot, TWO), *replay(slot), (ask(ABORT, slot), 2),
        ([POLL, POLL], [replied(0, slot), 0]), *nothing(slot))
    log(f"lost-abort-of-a-begun-replay-{slot}", *done(slot, TWO), *replay(slot), (POLL, one),
        (ask(ABORT, slot), 2), ([POLL, POLL], [replied(0, slot), 0]), *nothing(slot))
    log(f"lost-abort-of-the-first-sending-{slot}", *ready(slot, TWO), (POLL, one), (ask(ABORT, slot), 2),
        ([POLL, POLL], [replied(0, slot), 0]), *nothing(slot))
    log(f"lost-reset-{slot}", *done(slot), (RESET, 0), *nothing(slot))
    log(f"lost-reset-of-a-replay-{slot}", *done(slot, TWO), (ask(REPLAY, slot), 2), (RESET, 0), (POLL, 0),
        *nothing(slot))
    log(f"lost-reset-of-a-begun-replay-{slot}", *done(slot, TWO), *replay(slot), (POLL, one), (RESET, 0),
        (POLL, 0), *nothing(slot))

# Kept by everything else: packets that store nothing, other primitives, other calls, the other slot
for slot, other in SLOTS:
    one, two = sends(slot, TWO)
    for name, given, answer in refused(slot):
        log(f"kept-{name}-{slot}", *done(slot), (given, answer), *again(slot))
    busy = packet(command(slot=slot), tag=4), 20
    log(f"kept-20-{slot}", *done(slot, TWO), *replay(slot), busy, (POLL, one), busy, ([POLL, POLL], [two, 0]),
        *again(slot, TWO))
    for name, opcode, csi in (("pause", PAUSE, 0), ("resume", RESUME, 0), ("get-state", GET_STATE, slot)):
        log(f"kept-{name}-{slot}", *done(slot), (ask(opcode, csi), 2), (POLL, replied(0, csi)),
            *again_first(slot))
    for name, opcode in (("abort", ABORT), ("replay", REPLAY)):
        for error_name, fields, bit in (("meb", dict(meb=1), 0), ("ciap", dict(ciap=1), 1)):
            log(f"kept-{name}-with-{error_name}-{slot}", *done(slot), (ask(opcode, slot, **fields), 2),
                ([POLL, POLL], [error(4, bit, 2, 0, slot=slot), 0]), *again_first(slot))
    for name, call, answer in (("timeout", timeout(slot), 37), ("take", take(slot), 31),
                               ("complete", complete(BODY, slot), 31), ("poll", POLL, 0)):
        log(f"kept-{name}-{slot}", *done(slot), (call, answer), *again(slot))
    log(f"kept-other-command-{slot}", *done(slot), (COMMANDS[other], 1), (take(other), 0), *again(slot))
    log(f"kept-other-19-{slot}", *done(slot), (packet(damaged(command(slot=other))), 19), *again(slot))
    log(f"kept-other-20-{slot}", *done(slot), (COMMANDS[other], 1), (packet(command(slot=other), tag=4), 20),
        *again(slot))
    log(f"kept-other-timeout-{slot}", *done(slot), (start(other), 0), (timeout(other), 0), *again(slot))
    log(f"kept-other-get-state-{slot}", *done(slot), shows(0, other), *again_first(slot))
    log(f"kept-other-abort-{slot}", *done(slot), *done(other), (ask(ABORT, other), 2),
        (POLL, replied(0, other)), *again_first(slot))
    log(f"kept-other-response-{slot}", *done(slot), *done(other, TWO), *again(slot), *again(other, TWO))
    log(f"kept-other-replay-{slot}", *done(slot), *done(other, TWO), *again(other, TWO), *again(slot))

# Errors: MEB, CIAP, then the opcode, then Replay's CPSP; none of these acts, in whatever state
for slot, other in SLOTS:
    for cpsp in (1, 2, 0x0100, 0xFFFF):
        log(f"cpsp-{cpsp:04x}-{slot}", *done(slot), (ask(REPLAY, slot, cpsp=cpsp), 2),
            ([POLL, POLL], [error(4, 0, 6, 0, slot=slot), 0]), *again_first(slot))
    wrong = (ask(REPLAY, slot, cpsp=1), 2), (POLL, error(4, 0, 6, 0, slot=slot))
    log(f"cpsp-nothing-held-{slot}", *wrong, (POLL, 0), (COMMANDS[slot], 1), *wrong, (take(slot), 0))
    for opcode in (5, 255):
        log(f"opcode-{opcode}-{slot}", *done(slot), (ask(opcode, slot, cpsp=1), 2),
            ([POLL, POLL], [error(3, 0, 0, 0, slot=slot), 0]), *again_first(slot))
    log(f"error-order-{slot}", *done(slot),
        *(step for opcode in (REPLAY, 5) for fields, bit in ((dict(meb=1, ciap=1), 0), (dict(ciap=1), 1))
          for step in ((ask(opcode, slot, cpsp=1, **fields), 2), (POLL, error(4, bit, 2, 0, slot=slot)))),
        *again_first(slot))

# Pause flags: the other slot's keeps a replay mute, a later Pause flags it
for slot, other in SLOTS:
    one, two = sends(slot, TWO)
    pause, resume = ((ask(PAUSE), 2),), ((ask(RESUME), 2),)
    log(f"other-paused-{slot}", *done(slot), (COMMANDS[other], 1), *pause, (POLL, replied(1 << other)),
        *replay(slot), (POLL, 0), shows(3, slot), *resume, ([POLL] * 3, [*sends(slot), replied(0), 0]))
    log(f"other-paused-again-{slot}", *done(slot), (COMMANDS[other], 1), *pause, (POLL, replied(1 << other)),
        *replay(slot), *pause, ([POLL, POLL], [replied(3), 0]), shows(0x8003, slot), *resume,
        ([POLL] * 3, [*sends(slot), replied(0), 0]))
    log(f"other-sends-paused-{slot}", *done(slot), *ready(other, TWO), (POLL, sends(other, TWO)[0]), *pause,
        (POLL, replied(1 << other)), *replay(slot), (POLL, 0), *resume,
        ([POLL] * 4, [sends(other, TWO)[1], replied(0), *sends(slot), 0]))
    log(f"paused-{slot}", *done(slot, TWO), *replay(slot), *pause, ([POLL, POLL], [replied(1 << slot), 0]),
        shows(0x8003, slot), *resume, ([POLL] * 4, [one, replied(0), two, 0]))
    log(f"paused-begun-{slot}", *done(slot, TWO), *replay(slot), (POLL, one), *pause,
        ([POLL, POLL], [replied(1 << slot), 0]), *resume, ([POLL] * 3, [two, replied(0), 0]),
        *again_first(slot, TWO))
    log(f"paused-by-ciap-{slot}", *done(slot, TWO), *replay(slot), (POLL, one),
        (packet(command(slot=other, ciap=1)), 1), (POLL, 0), shows(0x8003, slot), *resume,
        ([POLL] * 3, [two, replied(0), 0]))

# The order of sending: a replay takes its turn as any response
for slot, other in SLOTS:
    one, two = sends(slot, FULL)
    log(f"turn-of-the-other-{slot}", *done(slot), *ready(other), *replay(slot),
        ([POLL] * 3, [*sends(other), *sends(slot), 0]))
    log(f"turn-of-the-replay-{slot}", *done(slot), *done(other), *ready(other), *replay(slot),
        ([POLL] * 3, [*sends(slot), *sends(other), 0]))
    # The replay is what began last, so the other slot goes first.
    log(f"turn-behind-a-replay-{slot}", *done(slot), *done(other), *again(slot), *replay(slot),
        (ask(REPLAY, other), 2), ([POLL] * 4, [*sends(other), replied(1, other), *sends(slot), 0]))
    log(f"other-begun-goes-on-{slot}", *done(slot), *ready(other, TWO), (POLL, sends(other, TWO)[0]),
        *replay(slot), ([POLL] * 3, [sends(other, TWO)[1], *sends(slot), 0]))
    log(f"begun-replay-goes-on-{slot}", *done(slot, FULL), *replay(slot), (POLL, one), *ready(other),
        ([POLL] * 3, [two, *sends(other), 0]))
    log(f"control-alternates-{slot}", *done(slot, FULL), *replay(slot), (ask(GET_STATE, slot), 2),
        (POLL, one), (ask(GET_STATE, slot), 2), ([POLL] * 3, [replied(3, slot), two, 0]))

# Under an assembly's source and tag Replay ends the assembly first
for slot, other in SLOTS:
    gathered, rest = packets(command(100, slot), tag=TAGS[slot])
    tag = TAGS[other]
    others, others_rest = packets(command(100, other), tag=tag)
    log(f"assembly-of-its-own-{slot}", *done(slot), (gathered, 0), (ask(REPLAY, slot, tag=TAGS[slot]), 2),
        ([POLL, POLL], [replied(0, slot, tag=TAGS[slot]), 0]), (rest, 21))
    log(f"assembly-of-the-other-{slot}", *done(slot), (others, 0), (ask(REPLAY, slot, tag=tag), 2),
        ([POLL] * 3, [replied(1, slot, tag=tag), *sends(slot), 0]), (others_rest, 21), shows(0x400, other))
    # No flag is left, so that the packet goes at once, first behind a control reply.
    log(f"assembly-of-the-other-paused-{slot}", *done(slot), (others, 0), (ask(PAUSE), 2),
        (POLL, replied(1 << other)), (ask(REPLAY, slot, tag=tag), 2),
        ([POLL] * 3, [*sends(slot), replied(1, slot, tag=tag), 0]), (others_rest, 21))
    log(f"assembly-and-cpsp-{slot}", *done(slot), (others, 0), (ask(REPLAY, slot, tag=tag, cpsp=1), 2),
        ([POLL, POLL], [answered(4, 0, 6, 0, slot=slot, kind=0, tag=tag), 0]), (others_rest, 21),
        *again_first(slot))
