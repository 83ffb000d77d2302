"""The logs of document 01, the base.

Each log shows one rule or refusal. 34, 36, 38 and 40 can't be shown by a log: scripts show them.
"""
from records import (POLL, RESET, ask, command, complete, control, damaged, packet, packets, record, take,
                     timeout)
from second.wire import ABORT, ADMIN, GET_STATE, MI, PAUSE, PCIE, RESUME
from steps import BODY, MI_COMMAND, OTHER, Described, answered, cut, replied, response, shows, start

LOGS = Described()
log = LOGS.add
LONG = command(4224, fill=bytes(range(251)))          # 66 full packets

log("whole-case", (bytes.fromhex("010500010910c884"), 13), (POLL, 0), (timeout(0), 37))

# Refusals of a packet, in their order
log("10-short", (record(1), 10), (record(1, b"\1\x08\x09\xc9"), 10), (packet(b"\x84"), 17),
    shows(0))
log("11-long", (packet(bytes(65)), 11), (packet(bytes(4296)), 11), (packet(bytes(64)), 15),
    shows(1 << 6))
log("12-version", (packet(command(), version=0), 12), (packet(command(), version=2), 12),
    shows(1 << 7), (packet(command(), version=0xF1), 1))
log("13-destination", (packet(command(), destination=9), 13), (packet(command(), destination=0), 13),
    (packet(command(), destination=255), 13), shows(1 << 8))
log("14-to", (packet(command(), to=0), 14), shows(1 << 12))
log("10-to-14-order", (packet(bytes(65), version=0, destination=9, to=0), 11),
    (packet(b"\0", version=0, destination=9, to=0), 12), (packet(b"\0", destination=9, to=0), 13),
    (packet(b"\0", to=0), 14), (packet(b"\0"), 15))
log("15-type-and-ror", (packet(b"\x04" + command()[1:]), 15), (packet(b"\x85" + command()[1:]), 15),
    (packet(b"\0", eom=0), 15), (packet(command(ror=1)), 15),
    (packet(command(7 + 64, ror=1)[:64], eom=0), 15), shows(0))
log("16-unit", (packet(command(100)[:63], eom=0), 16), shows(1 << 9),
    (packet(command(20, ror=1), eom=0), 16))          # before ROR is looked at
log("16-unit-later", (start(), 0), (packet(bytes(63), som=0, eom=0, sequence=1), 16),
    shows(1 << 9), (packet(bytes(36), som=0, sequence=2), 21))
log("17-small", (packet(command()[:7]), 17), (packet(b"\x84\x80"), 17), shows(0),
    (packet(command(8)), 1))
log("18-control-shape", (packet(control(GET_STATE) + bytes(52), eom=0), 18),
    (packet(control(GET_STATE)[:11]), 18), (packet(control(GET_STATE) + b"\0"), 18), shows(0))
log("19-check", (packet(damaged(control(GET_STATE))), 19), shows(1 << 4),
    (ask(GET_STATE, cpsp=1), 2), (POLL, replied(1 << 4)),
    (packet(damaged(command())), 19), shows(1 << 4), (take(), 31),
    (packets(damaged(command(100))), [0, 19]), (take(), 31), shows(1 << 4, 1))
log("20-busy", (MI_COMMAND, 1), (packet(command(), tag=4), 20), (packet(damaged(command())), 20),
    shows(2 | 1 << 3), shows(0, slot=1), (OTHER, 1), (take(), 0), (take(1), 0),
    (ask(ABORT), 2), shows(1 << 3))                   # the bit lives on through Idle
log("21-no-assembly", (packet(bytes(10), som=0), 21), shows(1 << 10), (start(), 0),
    (packet(bytes(36), som=0, sequence=1, tag=2), 21),
    (packet(bytes(36), som=0, sequence=1, source=10), 21), shows(1 << 10 | 1))
log("22-sequence", (packets(command(100), first=3), [0, 1]), (ask(ABORT), 2),
    (packets(command(100), first=3)[0], 0), (packets(command(100), first=2)[1], 22),
    shows(1 << 11), (packets(command(100), first=3)[1], 21))
log("23-too-long", (packets(LONG)[:-1], [0] * 65),
    (packet(LONG[-64:], som=0, eom=0, sequence=65), 0), shows(1),
    (packet(b"\0", som=0, sequence=66), 23), shows(0), (packet(b"\0", som=0, sequence=66), 21))
log("66-packets", (packets(LONG), [0] * 65 + [1]), (take(), 0), shows(2))

# An assembly is known by its source and tag, in either slot
log("start-again", (start(), 0), (start(slot=1), 0), shows(0), shows(1, slot=1),
    (packets(command(100, slot=1))[1], 1), (take(), 31), (take(1), 0))
log("start-again-control", (start(), 0), (packet(control(GET_STATE)), 2), (POLL, replied(0, tag=1)),
    (packets(command(100))[1], 21))
log("start-again-refused", (start(), 0), (packet(command()[:7]), 17), shows(0),
    (OTHER, 1), (start(), 0), (packet(command(slot=1)), 20), shows(0),
    (start(), 0), (packet(command(), to=0), 14), shows(1 | 1 << 12))
log("start-again-pause", (start(), 0), (ask(PAUSE), 2), (POLL, replied(1)), (start(), 0),
    shows(1), (timeout(), 0))
log("two-assemblies", (packets(command(100))[0], 0),
    (packets(command(100, slot=1), tag=3)[0], 0), (packets(command(100))[1], 1),
    (packets(command(100, slot=1), tag=3)[1], 1), (take(1), 0), (take(), 0))

# Taking, completing, timeout
log("30-slot", (take(2), 30), (complete(BODY, 2), 30), (timeout(2), 30), (take(255), 30))
log("31-not-waiting", (take(), 31), (complete(BODY), 31), (start(), 0), (take(), 31),
    (complete(BODY), 31), (packets(command(100))[1], 1), (take(), 0), (complete(BODY), 0),
    (take(), 31), (complete(BODY), 31), (POLL, answered(*BODY)), (complete(BODY), 31))
log("31-answered", (packet(command(kind=3, ciap=1)), 1), shows(0x8002), (take(), 31),
    (complete(BODY), 31), (ask(ABORT), 2), (POLL, replied(0)))
log("32-stale", (MI_COMMAND, 1), (complete(BODY), 32), (take(), 0), (ask(ABORT), 2),
    (POLL, replied(2)), (complete(BODY), 31), (MI_COMMAND, 1), (complete(BODY), 32), (take(), 0),
    (complete(BODY), 0), (POLL, answered(*BODY)))
log("33-taken", (MI_COMMAND, 1), (take(), 0), (take(), 33), (take(1), 31))
log("35-body", (MI_COMMAND, 1), (take(), 0), (complete(b""), 35), (complete(bytes(3)), 35),
    (complete(bytes(4217)), 35), (complete(bytes(4)), 0), (POLL, answered(0, 0, 0, 0)))
log("37-timeout", (timeout(), 37), (start(), 0), (timeout(1), 37), (ask(PAUSE), 2), (timeout(), 37),
    (ask(RESUME), 2), (timeout(), 0), (timeout(), 37), (POLL, replied(0)), shows(1 << 5),
    (MI_COMMAND, 1), (timeout(), 37))

# Responses
for size in (56, 57, 4216):
    log(f"body-{size}", (MI_COMMAND, 1), (take(), 0), (complete(bytes(i % 251 for i in range(size))), 0),
        ([POLL] * (size // 64 + 1 + (size % 64 > 56)), cut(response(bytes(i % 251 for i in range(size))))),
        (POLL, 0), shows(0))
log("at-once-nmimt", (packet(command(kind=3)), 1), (POLL, answered(4, 3, 1, 0, kind=3)),
    (packet(command(8, kind=15, meb=1)), 1), (POLL, answered(4, 3, 1, 0, kind=15)))
log("at-once-meb", (packet(command(8, meb=1)), 1), (POLL, answered(4, 0, 2, 0)),
    (packet(command(meb=1, slot=1)), 1), (POLL, answered(4, 0, 2, 0, slot=1)))
for name, kind, least in (("mi", MI, 20), ("admin", ADMIN, 72), ("pcie", PCIE, 24)):
    whole = packets(command(least, kind=kind))
    log(f"at-once-size-{name}", (packets(command(least - 1, kind=kind)), [0] * (len(whole) - 1) + [1]),
        (take(), 31), (POLL, answered(5, 0, 0, 0, kind=kind)),
        (whole, [0] * (len(whole) - 1) + [1]), (POLL, 0), (take(), 0))
log("at-once-spends-ticket", (MI_COMMAND, 1), (take(), 0), (ask(ABORT), 2), (packet(command(8)), 1),
    ([POLL, POLL], [replied(2), answered(5, 0, 0, 0)]), (MI_COMMAND, 1), (complete(BODY), 32))

# Control primitives
log("control-errors", (ask(PAUSE, ciap=1, meb=1), 2), (POLL, answered(4, 0, 2, 0, kind=0, tag=2)),
    (ask(ABORT, slot=1, ciap=1), 2), (POLL, answered(4, 1, 2, 0, slot=1, kind=0, tag=2)),
    (ask(5), 2), (POLL, answered(3, 0, 0, 0, kind=0, tag=2)), (MI_COMMAND, 1),
    (ask(ABORT, meb=1), 2), (take(), 0))              # an error reply aborts nothing
log("pause-idle", (ask(PAUSE), 2), (POLL, replied(0)))
log("pause-and-resume", (MI_COMMAND, 1), (take(), 0), (ask(PAUSE), 2), (POLL, replied(1)),
    shows(0x8002), (OTHER, 1), (take(1), 0), shows(2, slot=1),
    (complete(BODY, 1), 0), shows(3, slot=1), (POLL, 0),    # slot 0's flag stops slot 1's packets
    (complete(BODY), 0), shows(0x8002), (ask(PAUSE), 2), (POLL, replied(3)), (ask(RESUME), 2),
    # the last packet was control, so a command packet goes first
    ([POLL] * 4, [answered(*BODY), replied(0), answered(*BODY, slot=1, tag=3), 0]))
log("pause-leaves-with-idle", (MI_COMMAND, 1), (ask(PAUSE), 2), (POLL, replied(1)), (ask(ABORT), 2),
    (POLL, replied(1)), shows(0), (MI_COMMAND, 1), (take(), 0), (complete(BODY), 0),
    (POLL, answered(*BODY)))
log("abort-each-state", (ask(ABORT), 2), (POLL, replied(0)), (start(), 0), (ask(ABORT), 2),
    (POLL, replied(1)), (MI_COMMAND, 1), (ask(ABORT), 2), (POLL, replied(1)), (MI_COMMAND, 1), (take(), 0),
    (ask(ABORT), 2), (POLL, replied(2)), (packet(command(8, ciap=1)), 1), (ask(ABORT), 2), (POLL, replied(0)),
    (packet(command(8)), 1), (ask(ABORT), 2), (POLL, replied(0)), (POLL, 0), shows(0))
log("abort-begun", (MI_COMMAND, 1), (take(), 0), (complete(bytes(57)), 0),
    (POLL, cut(response(bytes(57)))[0]), (ask(ABORT), 2), ([POLL, POLL], [replied(0), 0]),
    (MI_COMMAND, 1), (OTHER, 1), (take(), 0), (take(1), 0), (complete(BODY), 0),
    (complete(BODY, 1), 0),                           # slot 0 last began, so slot 1 goes first
    ([POLL] * 3, [answered(*BODY, slot=1, tag=3), answered(*BODY), 0]))
log("get-state", shows(0), (start(), 0), shows(1), (packets(command(100))[1], 1), shows(2), (take(), 0),
    shows(2), (complete(BODY), 0), (ask(GET_STATE), 2), ([POLL, POLL], [answered(*BODY), replied(3)]),
    shows(0))
log("get-state-clear", (packet(command(), to=0), 14), (packet(command(), destination=9), 13),
    (MI_COMMAND, 1), (OTHER, 1), (packet(command(), tag=4), 20), (packet(command(slot=1), tag=4), 20),
    (ask(GET_STATE, cpsp=1), 2), (POLL, replied(0x1102 | 8)), shows(2), shows(2 | 8, slot=1),
    (ask(GET_STATE, cpsp=0xFFFE), 2), (POLL, replied(2)))
log("control-reply-replaced", (ask(PAUSE), 2), (ask(GET_STATE, slot=1, source=10, tag=7), 2),
    ([POLL, POLL], [replied(0, slot=1, to=10, tag=7), 0]))
log("ciap", (OTHER, 1), (packet(command(ciap=1)), 1), shows(0x8002), shows(0x8002, slot=1),
    (take(), 0), (complete(BODY), 0), (POLL, 0), (ask(RESUME), 2),
    ([POLL, POLL], [answered(*BODY), replied(0)]))

# The order of sending
log("control-alternates", (MI_COMMAND, 1), (take(), 0), (complete(bytes(120)), 0), (ask(GET_STATE), 2),
    (POLL, replied(3)), (ask(GET_STATE), 2), (POLL, cut(response(bytes(120)))[0]),
    (ask(GET_STATE), 2), (POLL, replied(3)), (POLL, cut(response(bytes(120)))[1]), (POLL, 0))
log("begun-goes-on", (MI_COMMAND, 1), (take(), 0), (complete(bytes(120)), 0),
    (POLL, cut(response(bytes(120)))[0]), (OTHER, 1), (take(1), 0), (complete(BODY, 1), 0),
    ([POLL] * 3, [cut(response(bytes(120)))[1], answered(*BODY, slot=1, tag=3), 0]))
log("turns", (OTHER, 1), (MI_COMMAND, 1), (take(1), 0), (take(), 0), (complete(BODY, 1), 0),
    (complete(BODY), 0), (POLL, answered(*BODY)), (MI_COMMAND, 1), (take(), 0), (complete(BODY), 0),
    ([POLL] * 3, [answered(*BODY, slot=1, tag=3), answered(*BODY), 0]))

log("reset", (MI_COMMAND, 1), (take(), 0), (packet(command(), to=0), 14), (packet(command(), tag=4), 20),
    (ask(PAUSE), 2), (RESET, 0), (POLL, 0), shows(1 << 14), (complete(BODY), 31), (MI_COMMAND, 1),
    (complete(BODY), 32),                             # ticket counts are kept
    (take(), 0), (complete(BODY), 0), (POLL, answered(*BODY)), (ask(GET_STATE, cpsp=1), 2),
    (POLL, replied(1 << 14)), shows(0))
log("reset-turn", (MI_COMMAND, 1), (take(), 0), (complete(BODY), 0), (POLL, answered(*BODY)), (RESET, 0),
    (OTHER, 1), (MI_COMMAND, 1), (take(1), 0), (take(), 0), (complete(BODY, 1), 0), (complete(BODY), 0),
    ([POLL] * 2, [answered(*BODY), answered(*BODY, slot=1, tag=3)]))

# Faults: one `bad`, and the records behind it are not read
log("empty")
for name, fault in (("tag-0", record(0)), ("tag-7", record(7, bytes(2))), ("poll-1", record(2, b"\0")),
                    ("timeout-0", record(3)), ("timeout-2", record(3, bytes(2))), ("take-0", record(4)),
                    ("take-2", record(4, bytes(2))), ("complete-0", record(5)), ("reset-1", record(6, b"\0")),
                    ("packet-4301", record(1, bytes(4301))), ("complete-4301", record(5, bytes(4301)))):
    log(f"bad-{name}", (POLL, 0), ([fault, POLL], "bad"))
log("length-4300", (record(1, bytes(4300)), 11), (record(5, bytes(4300)), 31))
log("bad-cut-tag", (POLL, 0), (POLL[:1], "bad"))
log("bad-cut-length", (POLL, 0), (take()[:2], "bad"))
log("bad-cut-body", (POLL, 0), (MI_COMMAND[:-1], "bad"))
log("bad-cut-empty-body", (POLL, 0), (take()[:3], "bad"))
