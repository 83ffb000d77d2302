"""The scripts of document 01, the base.

Each script shows one rule or refusal, by calls with arguments that no log can have, and by looks: every
byte of the state and of the stores is in a look.
"""
from call_records import LOOK, RESET, complete, poll, read, receive, receive_all, setup, stores, take, timeout
from call_steps import NOTHING, OTHER_TAKEN, SHORT, TAKEN, WAITING, WRONG_STORES, looks, over, polled, reply
from records import ask, command, control, damaged, packet, packets, record
from second.wire import ABORT, GET_STATE, PAUSE, RESUME
from steps import BODY, MI_COMMAND, OTHER, Described, answered, cut, replied, response, sent, start

SCRIPTS = Described()
script = SCRIPTS.add

LONG = command(4224, fill=bytes(range(251)))          # 66 full packets
LONG_BODY = bytes(i % 253 for i in range(4216))
LAST_OPEN = packet(LONG[-64:], som=0, eom=0, sequence=65)      # the 66th without EOM
REQUEST, OTHER_REQUEST = command(), command(slot=1)
WAITS, IS_TAKEN = "process:9:1:1:20:untaken", "process:9:1:1:20:taken"
OTHER_WAITS, OTHER_IS_TAKEN = "process:9:3:1:20:untaken", "process:9:3:1:20:taken"
DONE = over(response(BODY), REQUEST)                  # slot 0's store after BODY was accepted
OTHER_DONE = over(response(BODY, 1), OTHER_REQUEST)
FAR_SLOTS = (2, 3, 255, 256, 257, 65536, 65537, 1 << 31, (1 << 31) + 1, (1 << 32) - 1)

# What a look shows
script("look-new", (LOOK, "eid=8 unit=64 flags=0000 turn=0 last=0 reply=- slot0=0,0,0,idle slot1=0,0,0,idle "
                          "check0=5714439c check1=5714439c"))
TWO = response(bytes(57))                             # a response of two packets
script("look-phases", (receive(start(fill=b"\7\0")), 0),
       looks("receive:9:1:0:64", store0=command(100, fill=b"\7\0")[:64]),
       (receive(packets(command(100, fill=b"\7\0"))[1]), 1),
       looks("process:9:1:1:100:untaken", tickets=(1, 0), store0=command(100, fill=b"\7\0")),
       (take(), "0 1"),
       looks("process:9:1:1:100:taken", tickets=(1, 0), store0=command(100, fill=b"\7\0")),
       (complete(1, bytes(57)), 0),
       looks("transmit:9:1:65:0", tickets=(1, 0), store0=over(TWO, command(100, fill=b"\7\0"))),
       (poll(), polled(cut(TWO)[0])),                 # slot 0 began, so slot 1 goes first next time
       looks("transmit:9:1:65:1", tickets=(1, 0), turn=1, store0=over(TWO, command(100, fill=b"\7\0"))),
       (poll(), polled(cut(TWO)[1])),                 # Idle, and the slot holds what it sent
       looks("idle:9:1:65", tickets=(1, 0), turn=1, store0=over(TWO, command(100, fill=b"\7\0"))),
       (poll(), NOTHING))
script("look-slot-1", (receive(packets(command(100, 1, kind=4), first=3, source=200, tag=7)[0]), 0),
       looks(slot1="receive:200:7:3:64", store1=command(100, 1, kind=4)[:64]),
       (receive(packets(command(100, 1, kind=4), first=3, source=200, tag=7)[1]), 1),
       looks(slot1="process:200:7:4:100:untaken", tickets=(0, 1), store1=command(100, 1, kind=4)),
       (take(1), "0 1"), (complete(1, BODY, 1), 0),
       looks(slot1="transmit:200:7:12:0", tickets=(0, 1),
             store1=over(response(BODY, 1, 4), command(100, 1, kind=4))),
       (poll(), polled(sent(response(BODY, 1, 4), to=200, tag=7))),
       looks(slot1="idle:200:7:12", tickets=(0, 1),
             store1=over(response(BODY, 1, 4), command(100, 1, kind=4))))
script("look-answered", (receive(packet(command(ciap=1))), 1),
       looks(WAITS, tickets=(1, 0), paused=(1, 0), store0=command(ciap=1)), (take(), "0 1"),
       (complete(1, BODY), 0),
       looks("answered:9:1:12", tickets=(1, 0), paused=(1, 0), store0=over(response(BODY), command(ciap=1))),
       (poll(), NOTHING), (receive(ask(RESUME)), 2),
       looks("transmit:9:1:12:0", tickets=(1, 0), reply=reply(0),
             store0=over(response(BODY), command(ciap=1))), (poll(), polled(replied(0))),
       looks("transmit:9:1:12:0", tickets=(1, 0), last=1, store0=over(response(BODY), command(ciap=1))),
       (poll(), polled(answered(*BODY))),
       looks("idle:9:1:12", tickets=(1, 0), turn=1, store0=over(response(BODY), command(ciap=1))))
script("look-answered-at-once", (receive(packet(command(8, kind=3, ciap=1))), 1),
       looks("answered:9:1:12", tickets=(1, 0), paused=(1, 0), store0=response(bytes((4, 3, 1, 0)), kind=3)),
       (receive(packet(command(8, slot=1), tag=3)), 1),
       looks("answered:9:1:12", "transmit:9:3:12:0", tickets=(1, 1), paused=(1, 0),
             store0=response(bytes((4, 3, 1, 0)), kind=3), store1=response(bytes((5, 0, 0, 0)), 1)))
GATHERED = command(100)[:64]
script("look-flags", (receive(packet(bytes(65))), 11), looks(flags=0x0040),
       (receive(packet(REQUEST, version=2)), 12), looks(flags=0x00C0),
       (receive(packet(REQUEST, destination=9)), 13), looks(flags=0x01C0),
       (receive(packet(REQUEST, to=0)), 14), looks(flags=0x11C0),
       (receive(packet(damaged(control(PAUSE)))), 19), looks(flags=0x11D0),
       (receive(packet(bytes((0x84,)), eom=0)), 16), looks(flags=0x13D0), (receive(packet(b"\0", som=0)), 21),
       looks(flags=0x17D0), (receive(start()), 0), (receive(packets(command(100), first=2)[1]), 22),
       looks(flags=0x1FD0, store0=GATHERED), (receive(start()), 0), (timeout(), 0),
       looks(flags=0x1FF0, store0=GATHERED), (receive(MI_COMMAND), 1), (receive(packet(REQUEST, tag=4)), 20),
       looks(WAITS, tickets=(1, 0), busy=(1, 0), flags=0x1FF0, store0=over(REQUEST, GATHERED)),
       (receive(ask(GET_STATE, slot=1, cpsp=1)), 2),  # clears slot 1's bit 3, not slot 0's
       looks(WAITS, tickets=(1, 0), busy=(1, 0), reply=reply(0x1FF0, 1), store0=over(REQUEST, GATHERED)),
       (receive(ask(GET_STATE, cpsp=1)), 2),
       looks(WAITS, tickets=(1, 0), reply=reply(2 | 8), store0=over(REQUEST, GATHERED)))
script("look-reply-replaced", (receive(ask(PAUSE)), 2), looks(reply=reply(0)),
       (receive(ask(GET_STATE, slot=1, source=10, tag=7)), 2), looks(reply=reply(0, 1, to=10, tag=7)),
       (receive(packet(damaged(control(PAUSE)))), 19), looks(reply=reply(0, 1, to=10, tag=7), flags=0x10),
       (poll(), polled(replied(0, 1, to=10, tag=7))), looks(last=1, flags=0x10), (poll(), NOTHING),
       looks(last=1, flags=0x10))
script("look-pause", *TAKEN, (receive(ask(PAUSE)), 2),
       looks(IS_TAKEN, tickets=(1, 0), paused=(1, 0), reply=reply(1), store0=REQUEST), (receive(OTHER), 1),
       (receive(ask(PAUSE)), 2),
       looks(IS_TAKEN, OTHER_WAITS, tickets=(1, 1), paused=(1, 1), reply=reply(3), store0=REQUEST,
             store1=OTHER_REQUEST), (receive(ask(ABORT)), 2),  # a slot entering Idle loses its flag
       looks(slot1=OTHER_WAITS, tickets=(1, 1), paused=(0, 1), reply=reply(2), store0=REQUEST,
             store1=OTHER_REQUEST), (receive(ask(RESUME)), 2),
       looks(slot1=OTHER_WAITS, tickets=(1, 1), reply=reply(0), store0=REQUEST, store1=OTHER_REQUEST))
script("look-reset", *TAKEN, (complete(1, bytes(57)), 0), (poll(), polled(cut(TWO)[0])), *OTHER_TAKEN,
       (receive_all([packet(REQUEST, tag=4), packet(OTHER_REQUEST, tag=4), packet(REQUEST, to=0)]),
        [20, 20, 14]), (receive(ask(PAUSE)), 2), (poll(), polled(replied(3))), (receive(ask(PAUSE)), 2),
       looks("transmit:9:1:65:1", OTHER_IS_TAKEN, tickets=(1, 1), paused=(1, 1), busy=(1, 1), flags=0x1000,
             turn=1, last=1, reply=reply(3), store0=over(TWO, REQUEST), store1=OTHER_REQUEST), (RESET, 0),
       looks(tickets=(1, 1), flags=0x4000, store0=over(TWO, REQUEST), store1=OTHER_REQUEST), (RESET, 0))
script("look-refused-writes-nothing", (receive(packet(b"\x85" + REQUEST[1:])), 15),
       (receive(packet(command(ror=1))), 15), (receive(packet(control(PAUSE) + b"\0")), 18), looks(),
       (receive(packet(damaged(REQUEST))), 19),       # leaves its payload stored
       looks(flags=0x10, store0=damaged(REQUEST)), *WAITING,
       (receive(packet(command(fill=b"\5"), tag=4)), 20),
       looks(WAITS, tickets=(1, 0), busy=(1, 0), flags=0x10, store0=REQUEST))
script("look-start-again", (receive(start()), 0), (receive(packet(b"\0")), 15), looks(store0=GATHERED),
       (receive(start()), 0), (receive(start(slot=1)), 0),
       looks(slot1="receive:9:1:0:64", store0=GATHERED, store1=command(100, 1)[:64]))

# The longest message
script("66-packets", (receive_all(packets(LONG)), [0] * 65 + [1]),
       looks("process:9:1:1:4224:untaken", tickets=(1, 0), store0=LONG), (take(), "0 1"),
       (read(), f"4224 {LONG.hex()}"), (complete(1, LONG_BODY), 0),
       looks("transmit:9:1:4224:0", tickets=(1, 0), store0=response(LONG_BODY)),
       ([poll()] * 65, [polled(line) for line in cut(response(LONG_BODY))[:65]]),
       looks("transmit:9:1:4224:65", tickets=(1, 0), turn=1, store0=response(LONG_BODY)),
       (poll(), polled(cut(response(LONG_BODY))[65])),
       looks("idle:9:1:4224", tickets=(1, 0), turn=1, store0=response(LONG_BODY)))
script("67-packets", (receive_all(packets(LONG)[:-1]), [0] * 65), (receive(LAST_OPEN), 0),
       looks("receive:9:1:1:4224", store0=LONG), (receive(packet(b"\0", som=0, sequence=66)), 23),
       looks(store0=LONG), (receive(packet(b"\0", som=0, sequence=67)), 21))

# Setup
for eid, answer, ours in ((0, 38, 8), (7, 38, 8), (8, 0, 8), (254, 0, 254), (255, 38, 8)):
    script(f"setup-{eid}", (setup(eid), answer), looks(eid=ours),
           (receive(packet(REQUEST, destination=ours ^ 1)), 13),
           (receive(packet(REQUEST, destination=ours)), 1),
           looks(WAITS, tickets=(1, 0), eid=ours, flags=0x100, store0=REQUEST))
script("setup-other-eid", (setup(200), 0), (receive(MI_COMMAND), 13),
       (receive(packet(REQUEST, destination=200)), 1), (take(), "0 1"), (complete(1, BODY), 0),
       (receive(packet(control(GET_STATE), tag=2, destination=200)), 2),
       (poll(), polled(sent(response(bytes((0, 0x5A, 3, 1)), kind=0), tag=2, source=200))),
       (poll(), polled(sent(response(BODY), source=200))), (setup(201), 0), looks(eid=201, store0=DONE))
MIDDLE = (*TAKEN, (complete(1, bytes(57)), 0), (poll(), polled(cut(TWO)[0])), *OTHER_TAKEN,
          (receive(packet(OTHER_REQUEST, tag=4)), 20), (receive(packet(REQUEST, to=0)), 14),
          (receive(ask(GET_STATE)), 2), (poll(), polled(replied(0x1003))), (receive(ask(PAUSE)), 2),
          looks("transmit:9:1:65:1", OTHER_IS_TAKEN, tickets=(1, 1), paused=(1, 1), busy=(0, 1), flags=0x1000,
                turn=1, last=1, reply=reply(3), store0=over(TWO, REQUEST), store1=OTHER_REQUEST))
AFTER = dict(store0=over(TWO, REQUEST), store1=OTHER_REQUEST)  # stores stay
for name, eid, answer, ours in (("refused", 255, 38, 8), ("again", 8, 0, 8), ("other", 9, 0, 9)):
    script(f"setup-middle-{name}", *MIDDLE, (setup(eid), answer), looks(eid=ours, **AFTER), (poll(), NOTHING),
           (take(1), 31), (read(1), "0 -"), (complete(1, BODY, 1), 31),
           (receive(packet(REQUEST, destination=ours)), 1), (take(), "0 1"))
script("setup-refused-other-eid", (setup(9), 0), (receive(packet(REQUEST, destination=9)), 1), (setup(7), 38),
       looks(store0=REQUEST), (receive(MI_COMMAND), 1))
script("setup-lent-lengths", (stores(4223, 4225), 0), (setup(9), 0), looks(eid=9, lent=(4223, 4225)),
       (receive(MI_COMMAND), 40), (setup(0), 38), looks(lent=(4223, 4225)), (stores(), 0),
       (receive(MI_COMMAND), 1))

# Stores of another length
READY = *TAKEN, *OTHER_TAKEN, (complete(1, BODY, 1), 0)        # slot 1 has something to send
READY_LOOK = dict(slot0=IS_TAKEN, slot1="transmit:9:3:12:0", tickets=(1, 1), store0=REQUEST,
                  store1=OTHER_DONE)
for first, second in ((4223, 4224), (4225, 4224), (4224, 4223), (4224, 4225), (0, 0), (4300, 4300),
                      (4224, 0)):
    script(f"40-stores-{first}-{second}", *READY, (stores(first, second), 0), (receive(ask(GET_STATE)), 40),
           (receive(packet(REQUEST, tag=4)), 40), (complete(1, BODY), 40), (poll(), WRONG_STORES),
           (read(), "0 -"), looks(**READY_LOOK, lent=(first, second)), (stores(), 0), looks(**READY_LOOK),
           (read(), f"20 {REQUEST.hex()}"), (complete(1, BODY), 0), (receive(ask(GET_STATE)), 2),
           ([poll()] * 4,
            [*map(polled, (replied(3), answered(*BODY), answered(*BODY, slot=1, tag=3))), NOTHING]))
script("stores-part", (receive(MI_COMMAND), 1), (stores(20, 1), 0),
       looks(WAITS, tickets=(1, 0), store0=REQUEST, lent=(20, 1)), (stores(19, 0), 0),
       looks(WAITS, tickets=(1, 0), store0=REQUEST, lent=(19, 0)), (stores(4300, 4224), 0),
       looks(WAITS, tickets=(1, 0), store0=REQUEST, lent=(4300, 4224)), (stores(), 0), (take(), "0 1"),
       (read(), f"20 {REQUEST.hex()}"))
script("stores-assembly", (receive(start()), 0), (stores(0, 0), 0), (receive(packets(command(100))[1]), 40),
       (stores(), 0), looks("receive:9:1:0:64", store0=GATHERED), (receive(packets(command(100))[1]), 1),
       (take(), "0 1"), (read(), f"100 {command(100).hex()}"))
script("stores-begun", *TAKEN, (complete(1, bytes(57)), 0), (poll(), polled(cut(TWO)[0])),
       (stores(4224, 4225), 0), (poll(), WRONG_STORES), (stores(), 0), (poll(), polled(cut(TWO)[1])),
       (poll(), NOTHING))
# Taking, timeout, reset and setup are lent no stores.
script("stores-not-lent", *WAITING, (receive(start(slot=1, tag=3)), 0), (stores(0, 4300), 0), (take(), "0 1"),
       (take(), 33), (timeout(1), 0),
       looks(IS_TAKEN, tickets=(1, 0), flags=0x20, store0=REQUEST, store1=command(100, 1)[:64],
             lent=(0, 4300)), (timeout(1), 37), (RESET, 0), (take(), 31),
       looks(tickets=(1, 0), flags=0x4000, store0=REQUEST, store1=command(100, 1)[:64], lent=(0, 4300)))

# A packet with stores of another length: 40 comes before each other answer
REFUSED = [(record(1), 10), (record(1, b"\1\x08\x09\xc9"), 10), (packet(bytes(65)), 11),
           (packet(REQUEST, version=0), 12),
           (packet(REQUEST, destination=9), 13), (packet(REQUEST, to=0), 14), (packet(b"\0"), 15),
           (packet(GATHERED[:63], eom=0), 16), (packet(REQUEST[:7]), 17), (packet(command(ror=1)), 15),
           (packet(control(PAUSE) + b"\0"), 18), (packet(damaged(control(PAUSE))), 19),
           (packet(REQUEST, tag=4), 20), (packet(b"\0", som=0), 21),
           (packets(command(100), first=2, tag=3)[1], 22)]
HALF = *WAITING, (receive(start(slot=1, tag=3)), 0)   # slot 0 is not Idle, slot 1 is in Receive
HALF_LOOK = dict(slot0=WAITS, tickets=(1, 0), store0=REQUEST, store1=command(100, 1)[:64])
script("40-before-refusals", *HALF, (stores(4224, 4223), 0),
       ([receive(given) for given, _ in REFUSED], [40] * len(REFUSED)),
       looks(slot1="receive:9:3:0:64", **HALF_LOOK, lent=(4224, 4223)), (stores(), 0),
       *((receive(given), answer) for given, answer in REFUSED),
       looks(**HALF_LOOK, busy=(1, 0), flags=0x1FD0))
for name, given, answer in (("16-later", packet(bytes(63), som=0, eom=0, sequence=1), 16),
                            ("19-whole", packets(damaged(command(100)))[1], 19),
                            ("1", packets(command(100))[1], 1),
                            ("0", packet(bytes(64), som=0, eom=0, sequence=1), 0)):
    script(f"40-before-{name}", (receive(start()), 0), (stores(4223), 0), (receive(given), 40),
           looks("receive:9:1:0:64", store0=GATHERED, lent=(4223, 4224)), (stores(), 0),
           (receive(given), answer))
script("40-before-19-stored", (stores(0), 0), (receive(packet(damaged(REQUEST))), 40), (stores(), 0), looks(),
       (receive(packet(damaged(REQUEST))), 19), looks(flags=0x10, store0=damaged(REQUEST)))
script("40-before-2", *TAKEN, (stores(4224, 4225), 0), (receive(ask(ABORT)), 40),
       (receive(ask(PAUSE, meb=1)), 40), looks(IS_TAKEN, tickets=(1, 0), store0=REQUEST, lent=(4224, 4225)),
       (stores(), 0), (receive(ask(ABORT)), 2), looks(tickets=(1, 0), reply=reply(2), store0=REQUEST))
script("40-before-23", (receive_all(packets(LONG)[:-1]), [0] * 65), (receive(LAST_OPEN), 0),
       (stores(4300, 4300), 0), (receive(packet(b"\0", som=0, sequence=66)), 40),
       looks("receive:9:1:1:4224", store0=LONG, lent=(4300, 4300)), (stores(), 0),
       (receive(packet(b"\0", som=0, sequence=66)), 23), looks(store0=LONG))
# An assembly is not ended by a new start that is answered 40.
script("40-ends-no-assembly", (receive(start()), 0), (stores(0, 0), 0), (receive(start()), 40),
       (receive(packet(b"\0")), 40), (stores(), 0), looks("receive:9:1:0:64", store0=GATHERED),
       (receive(packet(b"\0")), 15), looks(store0=GATHERED))

# Two faults of a packet: the earlier one in document 01's order is answered
script("receive-10-first", (receive(record(1, b"\0\0\x09\x40")), 10), (receive(record(1, b"\0")), 10),
       looks())
script("receive-11-to-14-first", (receive(packet(bytes(65), version=0, destination=9, to=0)), 11),
       (receive(packet(b"\0", version=0, destination=9, to=0)), 12),
       (receive(packet(b"\0", destination=9, to=0)), 13), (receive(packet(b"\0", to=0)), 14),
       looks(flags=0x11C0))
script("receive-15-first", (receive(packet(bytes(63), eom=0)), 15), (receive(packet(bytes(7))), 15),
       (receive(packet(b"\0" + control(PAUSE))), 15),
       (receive(packet(b"\0" + damaged(control(PAUSE))[1:])), 15), *WAITING,
       (receive(packet(b"\0" + REQUEST[1:], tag=4)), 15), looks(WAITS, tickets=(1, 0), store0=REQUEST))
script("receive-16-first", *WAITING, (receive(packet(command(ror=1), eom=0)), 16),
       (receive(packet(control(PAUSE), eom=0)), 16), (receive(packet(damaged(control(PAUSE)), eom=0)), 16),
       (receive(packet(REQUEST, eom=0, tag=4)), 16),
       looks(WAITS, tickets=(1, 0), flags=0x200, store0=REQUEST))
script("receive-17-first", *WAITING, (receive(packet(b"\x84\x80\0")), 17),
       (receive(packet(control(PAUSE)[:7])), 17), (receive(packet(REQUEST[:7], tag=4)), 17),
       looks(WAITS, tickets=(1, 0), store0=REQUEST))
script("receive-ror-first", *WAITING, (receive(packet(control(PAUSE, slot=0x80) + b"\0")), 15),
       (receive(packet(damaged(control(PAUSE, slot=0x80)))), 15),
       (receive(packet(command(ror=1), tag=4)), 15), (receive(packet(damaged(command(slot=1, ror=1)))), 15),
       looks(WAITS, tickets=(1, 0), store0=REQUEST))
script("receive-18-first", (receive(packet(damaged(control(PAUSE) + b"\0"))), 18), looks())
script("receive-20-first", *WAITING, (receive(packet(damaged(command(fill=b"\1")), tag=4)), 20),
       looks(WAITS, tickets=(1, 0), busy=(1, 0), store0=REQUEST))
script("receive-21-first", (receive(packet(b"\0", som=0, eom=0)), 21), looks(flags=0x400))
script("receive-22-first", (receive(start()), 0), (receive(packet(b"\0", som=0, eom=0, sequence=2)), 22),
       looks(flags=0x800, store0=GATHERED), (receive(start()), 0),
       (receive(packets(damaged(command(100)), first=1)[1]), 22), looks(flags=0x800, store0=GATHERED))
for name, fields, answer, flags in (("22", dict(sequence=67), 22, 0x800),
                                    ("16", dict(sequence=66, eom=0), 16, 0x200)):
    script(f"receive-{name}-before-23", (receive_all(packets(LONG)[:-1]), [0] * 65), (receive(LAST_OPEN), 0),
           (receive(packet(b"\0", som=0, **fields)), answer), looks(flags=flags, store0=LONG))

# Slot numbers above 1, also those whose low bits name a slot that would do
script("30-slot", *HALF, *((call(slot), 30) for slot in FAR_SLOTS for call in (take, timeout)),
       looks(slot1="receive:9:3:0:64", **HALF_LOOK), (take(), "0 1"), (timeout(1), 0))
script("30-complete", *TAKEN, *OTHER_TAKEN, *((complete(1, BODY, slot), 30) for slot in FAR_SLOTS),
       looks(IS_TAKEN, OTHER_IS_TAKEN, tickets=(1, 1), store0=REQUEST, store1=OTHER_REQUEST),
       (complete(1, BODY), 0), (complete(1, BODY, 1), 0))
script("read-slot", *TAKEN, *OTHER_TAKEN, *((read(slot), "0 -") for slot in FAR_SLOTS),
       (read(), f"20 {REQUEST.hex()}"), (read(1), f"20 {OTHER_REQUEST.hex()}"))

# Taking and reading
script("read-request", (read(), "0 -"), (receive(start()), 0), (read(), "0 -"),
       (receive(packets(command(100))[1]), 1), (read(), "0 -"), (take(), "0 1"),
       (read(), f"100 {command(100).hex()}"), (read(1), "0 -"),
       looks("process:9:1:1:100:taken", tickets=(1, 0), store0=command(100)), (receive(ask(PAUSE)), 2),
       (read(), f"100 {command(100).hex()}"), (complete(1, BODY), 0),
       (read(), "0 -"),                               # its response is there
       (receive(ask(RESUME)), 2), (read(), "0 -"))
script("read-and-stores", (stores(0, 0), 0), (read(2), "0 -"), (read(), "0 -"), (stores(), 0), *TAKEN,
       (stores(4224, 4223), 0), (read(), "0 -"), (read(2), "0 -"), (stores(), 0),
       (read(), f"20 {REQUEST.hex()}"))
script("take", (take(), 31), *WAITING, (take(), "0 1"), (take(), 33), (receive(ask(ABORT)), 2), (take(), 31),
       *WAITING, looks(WAITS, tickets=(2, 0), reply=reply(2), store0=REQUEST), (take(), "0 2"), (take(1), 31),
       *OTHER_TAKEN)
script("take-31-before-33", (receive(packet(command(ciap=1))), 1), (take(), "0 1"), (complete(1, BODY), 0),
       looks("answered:9:1:12", tickets=(1, 0), paused=(1, 0), store0=over(response(BODY), command(ciap=1))),
       (take(), 31), (receive(ask(RESUME)), 2), (take(), 31))

# Completing
script("34-untaken", *WAITING, (complete(1, BODY), 34), looks(WAITS, tickets=(1, 0), store0=REQUEST),
       (take(), "0 1"), (complete(1, BODY), 0), looks("transmit:9:1:12:0", tickets=(1, 0), store0=DONE))
script("35-body", *TAKEN, (complete(1, b""), 35), (complete(1, bytes(3)), 35), (complete(1, bytes(4217)), 35),
       (complete(1, bytes(8184)), 35), looks(IS_TAKEN, tickets=(1, 0), store0=REQUEST),
       (complete(1, bytes(4216)), 0),
       looks("transmit:9:1:4224:0", tickets=(1, 0), store0=response(bytes(4216))))
script("32-invented", *TAKEN,
       *((complete(ticket, BODY), 32) for ticket in (0, 2, 257, 65537, (1 << 31) + 1, (1 << 32) - 1)),
       looks(IS_TAKEN, tickets=(1, 0), store0=REQUEST), (complete(1, BODY), 0),
       (poll(), polled(answered(*BODY))))
script("32-other-slot", *WAITING, (receive(ask(ABORT)), 2), *WAITING, (take(), "0 2"), *OTHER_TAKEN,
       (complete(1, BODY), 32), (complete(2, BODY, 1), 32),
       looks(IS_TAKEN, OTHER_IS_TAKEN, tickets=(2, 1), reply=reply(1), store0=REQUEST, store1=OTHER_REQUEST),
       (complete(2, BODY), 0), (complete(1, BODY, 1), 0))
script("ticket-over-reset", *TAKEN, (RESET, 0), (complete(1, BODY), 31),
       looks(tickets=(1, 0), flags=0x4000, store0=REQUEST), *WAITING, (complete(1, BODY), 32),
       (take(), "0 2"), (complete(1, BODY), 32), (complete(2, BODY), 0))
script("ticket-over-setup", *TAKEN, (setup(), 0), (complete(1, BODY), 31), looks(store0=REQUEST), *TAKEN,
       (complete(1, BODY), 0))                        # tickets count from zero again, so 1 is the present one
script("ticket-not-waiting", (complete(0, BODY), 31), (receive(start()), 0), (complete(0, BODY), 31),
       (receive(ask(ABORT)), 2), *TAKEN, (complete(1, BODY), 0), (complete(1, BODY), 31),
       (poll(), polled(replied(1))),
       looks("transmit:9:1:12:0", tickets=(1, 0), last=1, store0=over(DONE, GATHERED)))

# Two faults of a completion
script("complete-40-first", *WAITING, (stores(4224, 4225), 0), (complete(1, BODY, 2), 40),
       (complete(1, b"", 2), 40), (complete(0, BODY, 1), 40), (complete(7, BODY, 1), 40),
       (complete(2, BODY), 40), (complete(1, BODY), 40), (complete(1, b""), 40), (take(), "0 1"),
       (complete(2, BODY), 40), (complete(1, b""), 40), (complete(1, BODY), 40), (stores(), 0),
       looks(IS_TAKEN, tickets=(1, 0), store0=REQUEST), (complete(1, BODY), 0))
script("complete-30-first", *TAKEN, (complete(1, b"", 2), 30), (complete(9, bytes(4217), 256), 30),
       looks(IS_TAKEN, tickets=(1, 0), store0=REQUEST))
script("complete-31-first", (complete(7, BODY), 31), (complete(0, b""), 31), (complete(7, bytes(3)), 31),
       (receive(packet(command(kind=3, ciap=1))), 1), # its response is there, and it was never taken
       (complete(1, BODY), 31), (complete(0, BODY), 31), (complete(1, b""), 31))
script("complete-32-first", *WAITING, (complete(0, BODY), 32), (complete(0, b""), 32), (take(), "0 1"),
       (complete(0, bytes(3)), 32), (complete(2, bytes(4217)), 32),
       looks(IS_TAKEN, tickets=(1, 0), store0=REQUEST))
script("complete-34-first", *WAITING, (complete(1, b""), 34), (complete(1, bytes(4217)), 34),
       looks(WAITS, tickets=(1, 0), store0=REQUEST))

# Timeout
script("37-timeout", (timeout(), 37), (receive(start()), 0), (receive(ask(PAUSE)), 2), (timeout(), 37),
       (timeout(1), 37), looks("receive:9:1:0:64", paused=(1, 0), reply=reply(1), store0=GATHERED),
       (receive(ask(RESUME)), 2), (timeout(), 0), looks(reply=reply(0), flags=0x20, store0=GATHERED),
       (timeout(), 37), *WAITING, (receive(ask(PAUSE)), 2),
       (timeout(), 37),                               # neither in Receive nor without its flag
       looks(WAITS, tickets=(1, 0), paused=(1, 0), flags=0x20, reply=reply(1),
             store0=over(REQUEST, GATHERED)))

# Polling: the buffer
script("36-buffer", (poll(0), SHORT), (poll(67), SHORT), (poll(68), NOTHING), (poll(69), NOTHING),
       (poll(65535), NOTHING), looks())
script("36-control-reply", (receive(ask(GET_STATE)), 2), (poll(0), SHORT), (poll(67), SHORT),
       looks(reply=reply(0)), (poll(68), polled(replied(0))), looks(last=1), (receive(ask(GET_STATE)), 2),
       (poll(65535), polled(replied(0))))
script("36-command-packet", *TAKEN, (complete(1, bytes(120)), 0), (poll(0), SHORT), (poll(67), SHORT),
       looks("transmit:9:1:128:0", tickets=(1, 0), store0=response(bytes(120))),
       (poll(68), polled(cut(response(bytes(120)))[0])), (poll(67), SHORT),
       looks("transmit:9:1:128:1", tickets=(1, 0), turn=1, store0=response(bytes(120))),
       (poll(65535), polled(cut(response(bytes(120)))[1])),
       looks("idle:9:1:128", tickets=(1, 0), turn=1, store0=response(bytes(120))))
script("poll-40-first", (stores(4223), 0), (poll(0), WRONG_STORES), (poll(67), WRONG_STORES),
       (poll(65535), WRONG_STORES), (stores(), 0), (receive(ask(PAUSE)), 2), (stores(4224, 0), 0),
       (poll(0), WRONG_STORES), (poll(68), WRONG_STORES), looks(reply=reply(0), lent=(4224, 0)),
       (stores(), 0), (poll(), polled(replied(0))))

# Faults: one `bad`, and the records behind it are not read
script("empty")
script("length-8192", (receive(record(1, bytes(8192))), 11), (complete(0, bytes(8184)), 31),
       (complete(0, bytes(8184), 2), 30))
script("length-0", (receive(record(1)), 10), (complete(0, b""), 31), looks())
for tag in (0, 1, 6, 15, 26, 31, 255):
    script(f"bad-tag-{tag}", (poll(), NOTHING), ([record(tag), LOOK], "bad"))
for name, right, *wrong in (("setup", setup(), 0, 2), ("stores", stores(), 0, 3, 5),
                            ("take", take(), 0, 1, 3, 5), ("read", read(), 0, 1, 3, 5),
                            ("complete", complete(0, b""), 0, 4, 7, 8193), ("poll", poll(), 0, 1, 3),
                            ("timeout", timeout(), 0, 1, 3, 5), ("reset", RESET, 1), ("look", LOOK, 1),
                            ("receive", receive(MI_COMMAND), 8193, 65535)):
    for length in wrong:
        script(f"bad-{name}-{length}", (poll(), NOTHING), ([record(right[0], bytes(length)), LOOK], "bad"))
for first, second in ((4301, 4224), (4224, 4301), (65535, 65535)):
    script(f"bad-stores-{first}-{second}", (stores(4300, 4300), 0), ([stores(first, second), LOOK], "bad"))
script("bad-cut-tag", (poll(), NOTHING), (LOOK[:1], "bad"))
script("bad-cut-length", (poll(), NOTHING), (LOOK[:2], "bad"))
script("bad-cut-body", (poll(), NOTHING), (complete(0, BODY)[:-1], "bad"))
script("bad-cut-empty-body", (poll(), NOTHING), (setup()[:3], "bad"))
script("bad-cut-long-body", (poll(), NOTHING), (record(18, bytes(8192))[:-1], "bad"))
