"""The scripts of request 2026-01, the controller's end.

Each script shows one rule or refusal of the requester, by calls with any arguments and by looks, or an
exchange in which what one end wrote is given to the other. Where both ends are in a script the requester is
EID 9 and the endpoint EID 8; else the requester is EID 8 and is answered from EID 9 under tag 1.
"""
from call_records import (LOOK, REQUESTER_LOOK, RESET, await_from, complete, cut_message, gather, gather_all,
                          poll, primitive, read, receive, receive_all, requester_setup, requester_store, room,
                          setup, stores, take)
from call_steps import (AWAITED, NOTHING, SHORT, TAKEN, back, carried, looks, over, polled, reply,
                        requester_looks, written)
from records import ask, command, control, damaged, packet, packets, record
from second.wire import ABORT, GET_STATE, PAUSE, RESUME, sealed
from steps import BODY, MI_COMMAND, Described, answered, cut, replied, response, sent

SCRIPTS = Described()
script = SCRIPTS.add

def later(payload, eom=1, **fields):
    return back(payload, som=0, eom=eom, **fields)

COMMAND = command(100, fill=bytes(range(1, 200)))     # two packets
OTHER = command(slot=1)                               # one packet
LONG = command(4224, fill=bytes(range(251)))          # 66 full packets
LONG_BODY = bytes(i % 253 for i in range(4216))
ANSWER = response(BODY)                               # one packet, as an endpoint sends it
TWO_BODY = bytes(range(92))
TWO = response(TWO_BODY)                              # 100 bytes, two packets
FIRST, REST = packets(TWO, to=0)
GATHERED = TWO[:64]
OTHERS = packets(response(bytes(92), kind=4), to=0)   # another response of two packets
OTHER_GATHERED = response(bytes(92), kind=4)[:64]
REPLY = response(bytes((0, 0x5A, 3, 0)), kind=0)      # a control reply
FULL = response(LONG_BODY)
FAR_SLOTS = (2, 3, 255, 256, 257, 65536, 65537, 1 << 31, (1 << 31) + 1, (1 << 32) - 1)
LAST_OPEN = later(FULL[-64:], eom=0, sequence=65)     # the 66th without EOM

# Steps that many scripts begin with, and what a look shows behind them
OPEN = *AWAITED, (gather(FIRST), 0)
IS_AWAITED, IS_OPEN = dict(awaits="9:1"), dict(awaits="9:1", assembly="0:64", store=GATHERED)
FILLED = *AWAITED, (gather_all(packets(FULL, to=0)[:-1]), [0] * 65), (gather(LAST_OPEN), 0)

# What a look shows
script("look-new", (REQUESTER_LOOK, "eid=8 unit=64 awaits=- assembly=- check=5714439c"), looks())
script("look-states", requester_looks(), *AWAITED, requester_looks(**IS_AWAITED), (gather(FIRST), 0),
       requester_looks(**IS_OPEN), (gather(REST), "1 100"), requester_looks(store=TWO),
       *AWAITED, requester_looks(**IS_AWAITED, store=TWO), (gather(back(ANSWER)), "1 12"),
       requester_looks(store=over(ANSWER, TWO)))
script("look-sequence", *AWAITED, (gather(packets(FULL, first=3, to=0)[0]), 0),
       requester_looks("9:1", "3:64", store=FULL[:64]),
       (gather_all(packets(FULL, first=3, to=0)[1:4]), [0, 0, 0]),
       requester_looks("9:1", "2:256", store=FULL[:256]))
script("look-store", (requester_store(4300), 0), requester_looks(lent=4300), (requester_store(), 0), *AWAITED,
       (gather_all(packets(FULL, to=0)), [0] * 65 + ["1 4224"]), requester_looks(store=FULL),
       (requester_store(4300), 0), requester_looks(store=FULL, lent=4300), (requester_store(100), 0),
       requester_looks(store=FULL, lent=100), (requester_store(0), 0), requester_looks(store=FULL, lent=0),
       (requester_store(), 0), requester_looks(store=FULL))

# An exchange of both ends
ENDS = (requester_setup(9), 0),
script("exchange", *ENDS, (await_from(8), 0), requester_looks("8:1", eid=9),
       (cut_message(COMMAND), written(packets(COMMAND))), requester_looks("8:1", eid=9), looks(),
       (receive_all(packets(COMMAND)), [0, 1]),
       looks("process:9:1:1:100:untaken", tickets=(1, 0), store0=COMMAND), (take(), "0 1"),
       (read(), f"100 {COMMAND.hex()}"), (complete(1, TWO_BODY), 0), *carried(cut(TWO), "1 100"),
       requester_looks(eid=9, store=TWO), looks("idle:9:1:100", tickets=(1, 0), turn=1, store0=TWO),
       (poll(), NOTHING))
script("exchange-slot-1", *ENDS, (await_from(8, 7), 0),
       (cut_message(OTHER, tag=7), written([packet(OTHER, tag=7)])), (receive(packet(OTHER, tag=7)), 1),
       (take(1), "0 1"), (read(1), f"20 {OTHER.hex()}"), (complete(1, BODY, 1), 0),
       *carried([answered(*BODY, slot=1, tag=7)], "1 12"), requester_looks(eid=9, store=response(BODY, 1)),
       looks(slot1="idle:9:7:12", tickets=(0, 1), store1=over(response(BODY, 1), OTHER)))
script("exchange-66-packets", *ENDS, (await_from(8), 0), (cut_message(LONG), written(packets(LONG))),
       (receive_all(packets(LONG)), [0] * 65 + [1]), (take(), "0 1"), (read(), f"4224 {LONG.hex()}"),
       (complete(1, LONG_BODY), 0), *carried(cut(FULL), "1 4224"), requester_looks(eid=9, store=FULL),
       looks("idle:9:1:4224", tickets=(1, 0), turn=1, store0=FULL))
script("exchange-other-eids", (requester_setup(254), 0), (setup(100), 0), (await_from(100), 0),
       (cut_message(COMMAND, destination=100), written(packets(COMMAND, source=254, destination=100))),
       (receive_all(packets(COMMAND, source=254, destination=100)), [0, 1]), (take(), "0 1"),
       (read(), f"100 {COMMAND.hex()}"), (complete(1, BODY), 0),
       *carried([sent(ANSWER, to=254, source=100)], "1 12"), requester_looks(eid=254, store=ANSWER),
       looks("idle:254:1:12", tickets=(1, 0), turn=1, eid=100, store0=over(ANSWER, COMMAND)))
# Each packet is gathered as soon as it was handed out.
script("exchange-by-turns", *ENDS, (await_from(8), 0), *TAKEN, (complete(1, TWO_BODY), 0),
       *carried(cut(TWO)[:1], 0), requester_looks("8:1", "0:64", eid=9, store=GATHERED),
       looks("transmit:9:1:100:1", tickets=(1, 0), turn=1, store0=TWO), *carried(cut(TWO)[1:], "1 100"),
       requester_looks(eid=9, store=TWO))
for slot in (0, 1):
    for name, fields, body in (("nmimt", dict(kind=3), (4, 3, 1, 0)), ("meb", dict(meb=1), (4, 0, 2, 0)),
                               ("size", dict(length=19), (5, 0, 0, 0))):
        wrong, kind = command(slot=slot, **fields), fields.get("kind", 1)
        error = response(bytes(body), slot, kind)
        script(f"exchange-error-{name}-{slot}", *ENDS, (await_from(8), 0),
               (cut_message(wrong), written([packet(wrong)])), (receive(packet(wrong)), 1),
               *carried([answered(*body, slot=slot, kind=kind)], "1 12"), requester_looks(eid=9, store=error))

# A primitive, its reply, and the state it acted on
IS_TAKEN = dict(slot0="process:9:1:1:20:taken", tickets=(1, 0), store0=command())
for name, opcode, body, after in (("pause", PAUSE, (0, 0x5A, 1, 0), dict(IS_TAKEN, paused=(1, 0))),
                                  ("resume", RESUME, (0, 0x5A, 0, 0), IS_TAKEN),
                                  ("abort", ABORT, (0, 0x5A, 2, 0), dict(IS_TAKEN, slot0="idle")),
                                  ("get-state", GET_STATE, (0, 0x5A, 2, 0), IS_TAKEN),
                                  ("opcode-255", 255, (3, 0, 0, 0), IS_TAKEN)):
    told = response(bytes(body), kind=0)
    script(f"primitive-{name}", *ENDS, *TAKEN, (await_from(8, 2), 0),
           (primitive(opcode), written([ask(opcode)])), requester_looks("8:2", eid=9),
           (receive(ask(opcode)), 2), looks(**after, reply=f"9:2:{told.hex()}"),
           *carried([sent(told, tag=2)], "2 12"), requester_looks(eid=9, store=told), looks(**after, last=1))
script("primitive-slot-1", *ENDS, *TAKEN, (await_from(8, 2), 0),
       (primitive(GET_STATE, 1), written([ask(GET_STATE, 1)])), (receive(ask(GET_STATE, 1)), 2),
       *carried([replied(0, 1)], "2 12"),
       requester_looks(eid=9, store=response(bytes((0, 0x5A, 0, 0)), 1, 0)))
# Any TAG and CPSP, the low byte of CPSP first; any destination
script("primitive-bytes",
       (primitive(7, 1, destination=255, tag=7, primitive_tag=0xFE, cpsp=0x1234),
        written([packet(sealed(bytes((0x84, 1, 0, 0, 7, 0xFE, 0x34, 0x12))), source=8, tag=7,
                        destination=255)])),
       (primitive(0, destination=0, tag=0, primitive_tag=0, cpsp=0xFFFF),
        written([packet(sealed(bytes((0x84, 0, 0, 0, 0, 0, 0xFF, 0xFF))), source=8, tag=0, destination=0)])),
       requester_looks())

# Cutting: full payloads, then the rest
for size, count in ((8, 1), (63, 1), (64, 1), (65, 2), (128, 2), (4224, 66)):
    message = bytes(i * 7 % 256 for i in range(size)) # what is cut is not looked at
    script(f"cut-{size}", (cut_message(message, size + 4 * count), written(packets(message, source=8))),
           (cut_message(message, size + 4 * count - 1), SHORT), (cut_message(message, 0), SHORT),
           (cut_message(message, 65535), written(packets(message, source=8))), requester_looks())
script("cut-bytes", (requester_setup(254), 0),
       (cut_message(COMMAND, destination=0, tag=0),
        written(packets(COMMAND, source=254, tag=0, destination=0))),
       (cut_message(COMMAND, destination=255, tag=7),
        written(packets(COMMAND, source=254, tag=7, destination=255))), requester_looks(eid=254))
# Cutting and building change no state, refused or not.
script("cut-in-an-assembly", *OPEN, (cut_message(COMMAND, tag=3), written(packets(COMMAND, source=8, tag=3))),
       (primitive(ABORT), written([ask(ABORT, source=8)])), (cut_message(COMMAND, 0), SHORT),
       (primitive(ABORT, 2), "30 stays"), (cut_message(bytes(7)), "41 stays"), requester_looks(**IS_OPEN),
       (gather(REST), "1 100"))

# Refusals of writing; 41 before 30 before 36
script("41-size", requester_looks(),
       *((cut_message(bytes(size), 65535), "41 stays") for size in (0, 7, 4225, 8188)), requester_looks())
script("41-tag", requester_looks(),
       *((call, "41 stays") for tag in (8, 9, 128, 255)
         for call in (cut_message(COMMAND, tag=tag), primitive(PAUSE, tag=tag))), requester_looks())
script("41-first", (cut_message(bytes(7), 0), "41 stays"), (cut_message(bytes(4225), 0), "41 stays"),
       (cut_message(COMMAND, 0, tag=8), "41 stays"), (cut_message(bytes(7), 0, tag=8), "41 stays"),
       (primitive(PAUSE, 2, 0, tag=8), "41 stays"), (primitive(PAUSE, 2, tag=8), "41 stays"),
       (primitive(PAUSE, 0, 15, tag=8), "41 stays"), requester_looks())
script("30-primitive", requester_looks(),
       *((primitive(GET_STATE, slot), "30 stays") for slot in FAR_SLOTS),
       (primitive(GET_STATE, 2, 0), "30 stays"), (primitive(GET_STATE, 256, 15), "30 stays"),
       requester_looks(), (primitive(GET_STATE, 1), written([ask(GET_STATE, 1, source=8)])))
script("36-cut", requester_looks(), (cut_message(COMMAND, room(100) - 1), SHORT),
       (cut_message(COMMAND, 100), SHORT), (cut_message(COMMAND, 68), SHORT), requester_looks(),
       (cut_message(COMMAND, 108), written(packets(COMMAND, source=8))))
script("36-primitive", requester_looks(), (primitive(RESUME, length=0), SHORT),
       (primitive(RESUME, length=15), SHORT), requester_looks(),
       (primitive(RESUME, length=16), written([ask(RESUME, source=8)])),
       (primitive(RESUME, length=17), written([ask(RESUME, source=8)])),
       (primitive(RESUME, length=65535), written([ask(RESUME, source=8)])))

# Awaiting
script("await", *(step for source, tag in ((0, 0), (8, 1), (255, 7))
                  for step in ((await_from(source, tag), 0), requester_looks(f"{source}:{tag}"))),
       (gather(back(ANSWER, source=8)), 20), (gather(back(ANSWER, source=255, tag=7)), "1 12"),
       requester_looks(store=ANSWER))
script("await-41", requester_looks(), (await_from(9, 8), 41), requester_looks(), *AWAITED,
       (await_from(9, 8), 41), (await_from(10, 255), 41), requester_looks(**IS_AWAITED),
       (gather(back(ANSWER)), "1 12"))
script("await-41-in-an-assembly", *OPEN, (await_from(9, 8), 41), (await_from(9, 9), 41),
       (await_from(9, 129), 41), requester_looks(**IS_OPEN), (gather(REST), "1 100"),
       requester_looks(store=TWO))
script("await-same-in-an-assembly", *OPEN, *AWAITED, requester_looks(**IS_AWAITED, store=GATHERED),
       (gather(REST), 21), (gather_all(packets(TWO, to=0)), [0, "1 100"]), requester_looks(store=TWO))
script("await-other-in-an-assembly", *OPEN, (await_from(10, 1), 0), requester_looks("10:1", store=GATHERED),
       (gather(REST), 21), (gather(FIRST), 20), (await_from(9, 2), 0), requester_looks("9:2", store=GATHERED),
       (gather(FIRST), 20), (gather(back(ANSWER, tag=2)), "1 12"))
# 1 and 2 end the awaiting, and nothing else does.
script("await-ended", *AWAITED, (gather(back(ANSWER)), "1 12"), (gather(back(ANSWER)), 20),
       (gather(back(REPLY)), 20), requester_looks(store=ANSWER), *AWAITED, (gather(back(REPLY)), "2 12"),
       (gather(back(ANSWER)), 20), (gather(REST), 21), requester_looks(store=REPLY))

# A packet that is refused, alone: a look before and one after
TOO_SHORT, TOO_LONG = record(1, b"\1\x08\x09\xc1"), back(response(bytes(57)))
NOT_OURS = (("10", TOO_SHORT, 10), ("10-empty", record(1), 10), ("11", TOO_LONG, 11),
            ("12", back(ANSWER, version=2), 12), ("13", back(ANSWER, destination=9), 13),
            ("14", packet(ANSWER), 14))
STARTS = (("15-type", back(b"\x04" + ANSWER[1:]), 15), ("16", back(TWO[:63], eom=0), 16),
          ("17", back(ANSWER[:7]), 17), ("15-ror", back(command()), 15),
          ("18", back(response(bytes(5), kind=0)), 18),
          ("18-open", back(response(bytes(56), kind=0), eom=0), 18), ("19-reply", back(damaged(REPLY)), 19))
for name, given, answer in (*NOT_OURS, *STARTS, ("20", back(ANSWER, tag=2), 20),
                            ("20-source", back(ANSWER, source=10), 20), ("20-reply", back(REPLY, tag=2), 20),
                            ("21", REST, 21)):
    script(f"gather-{name}", *AWAITED, requester_looks(**IS_AWAITED), (gather(given), answer),
           requester_looks(**IS_AWAITED), (gather(back(ANSWER)), "1 12"))
for name, given, answer in (("20", back(ANSWER), 20), ("20-reply", back(REPLY), 20), ("21", REST, 21)):
    script(f"nothing-awaited-{name}", requester_looks(), (gather(given), answer), requester_looks())

# A later packet that is refused ends the assembly; the awaiting stays, and a new start is gathered.
for name, given, answer, store in (("22", later(TWO[64:], sequence=2), 22, GATHERED),
                                   ("22-same", later(TWO[64:], sequence=0), 22, GATHERED),
                                   ("16", later(bytes(63), eom=0, sequence=1), 16, GATHERED),
                                   ("19", packets(damaged(TWO), to=0)[1], 19, damaged(TWO))):
    script(f"assembly-{name}", *OPEN, requester_looks(**IS_OPEN), (gather(given), answer),
           requester_looks(**IS_AWAITED, store=store), (gather(REST), 21),
           (gather_all(packets(TWO, to=0)), [0, "1 100"]), requester_looks(store=TWO))
script("assembly-23", *FILLED, requester_looks("9:1", "1:4224", store=FULL),
       (gather(later(b"\0", sequence=66)), 23), requester_looks("9:1", store=FULL),
       (gather(later(b"\0", sequence=67)), 21), (gather_all(packets(TWO, to=0)), [0, "1 100"]),
       requester_looks(store=over(TWO, FULL)))
script("assembly-67-packets", *FILLED, (gather(later(bytes(64), eom=0, sequence=66)), 23),
       requester_looks("9:1", store=FULL))
script("assembly-66-packets", *FILLED[:-1], (gather(packets(FULL, to=0)[-1]), "1 4224"),
       requester_looks(store=FULL))

# A start under the awaited source and tag ends the assembly, also if it is refused; the awaiting stays.
for name, given, answer in STARTS:
    script(f"restart-{name}", *OPEN, (gather(given), answer), requester_looks(**IS_AWAITED, store=GATHERED),
           (gather(REST), 21), (gather_all(OTHERS), [0, "1 100"]))
script("restart-19", *OPEN, (gather(back(damaged(ANSWER))), 19),
       requester_looks(**IS_AWAITED, store=over(damaged(ANSWER), GATHERED)), (gather(REST), 21),
       (gather(back(ANSWER)), "1 12"))
script("restart-0", *OPEN, (gather(OTHERS[0]), 0), requester_looks("9:1", "0:64", store=OTHER_GATHERED),
       (gather(OTHERS[1]), "1 100"))
script("restart-1", *OPEN, (gather(back(ANSWER)), "1 12"), requester_looks(store=over(ANSWER, GATHERED)),
       (gather(REST), 21))
script("restart-2", *OPEN, (gather(back(REPLY)), "2 12"), requester_looks(store=over(REPLY, GATHERED)),
       (gather(REST), 21), (gather(FIRST), 20))
# Every other packet leaves it alone.
STRANGE = dict(source=10)
for name, given, answer in (*NOT_OURS, ("15-type", back(b"\x04" + ANSWER[1:], **STRANGE), 15),
                            ("16", back(TWO[:63], eom=0, **STRANGE), 16), ("17", back(ANSWER[:7], tag=2), 17),
                            ("15-ror", back(command(), **STRANGE), 15),
                            ("18", back(REPLY + b"\0", tag=2), 18),
                            ("19-reply", back(damaged(REPLY), **STRANGE), 19),
                            ("20", back(ANSWER, **STRANGE), 20),
                            ("20-damaged", back(damaged(ANSWER), tag=2), 20),
                            ("20-reply", back(REPLY, tag=2), 20),
                            ("20-reply-source", back(REPLY, **STRANGE), 20),
                            ("21", later(TWO[64:], sequence=1, **STRANGE), 21),
                            ("21-tag", later(TWO[64:], sequence=1, tag=0), 21)):
    script(f"stranger-{name}", *OPEN, (gather(given), answer), requester_looks(**IS_OPEN),
           (gather(REST), "1 100"), requester_looks(store=TWO))

# What 19 leaves in the store
script("19-stored", *AWAITED, (gather(back(damaged(ANSWER))), 19),
       requester_looks(**IS_AWAITED, store=damaged(ANSWER)), (gather(back(ANSWER)), "1 12"),
       requester_looks(store=ANSWER))
script("19-reply-not-stored", *AWAITED, (gather(back(damaged(REPLY))), 19), requester_looks(**IS_AWAITED),
       (gather(back(REPLY)), "2 12"), requester_looks(store=REPLY))

# Two faults of a packet: the earlier one in the order of document 01 is answered
script("gather-10-first", *OPEN, (gather(record(1, b"\0\0\x09\x48")), 10), (gather(record(1, b"\0")), 10),
       requester_looks(**IS_OPEN))
script("gather-11-to-14-first", *OPEN, (gather(packet(bytes(65), version=0, destination=9)), 11),
       (gather(packet(b"\0", version=0, destination=9)), 12), (gather(packet(b"\0", destination=9)), 13),
       (gather(packet(b"\0")), 14), requester_looks(**IS_OPEN))
script("gather-15-first", (gather(back(bytes(63), eom=0)), 15), (gather(back(bytes(7))), 15),
       (gather(back(b"\0" + REPLY)), 15), (gather(back(b"\0" + damaged(REPLY)[1:])), 15),
       (gather(back(b"\0" + ANSWER[1:])), 15), requester_looks())
script("gather-16-first", (gather(back(command(), eom=0)), 16), (gather(back(REPLY, eom=0)), 16),
       (gather(back(damaged(REPLY), eom=0)), 16), (gather(back(ANSWER, eom=0)), 16), requester_looks())
script("gather-17-first", (gather(back(b"\x84\x08\0")), 17), (gather(back(REPLY[:7])), 17),
       (gather(back(ANSWER[:7])), 17), requester_looks())
script("gather-ror-first", (gather(back(control(PAUSE) + b"\0")), 15),
       (gather(back(damaged(control(PAUSE)))), 15), (gather(back(control(PAUSE))), 15),
       (gather(back(command())), 15), (gather(back(damaged(command()))), 15), requester_looks())
script("gather-18-and-19-before-20", (gather(back(damaged(REPLY + b"\0"))), 18),
       (gather(back(REPLY + b"\0")), 18), (gather(back(damaged(REPLY))), 19), (gather(back(REPLY)), 20),
       *AWAITED, (gather(back(damaged(REPLY + b"\0"))), 18), (gather(back(damaged(REPLY), tag=2)), 19),
       requester_looks(**IS_AWAITED))
script("gather-20-before-19", (gather(back(damaged(ANSWER))), 20), requester_looks(), *AWAITED,
       (gather(back(damaged(ANSWER), tag=2)), 20), requester_looks(**IS_AWAITED))
script("gather-20-first-packet", (gather(FIRST), 20), requester_looks(), (gather(REST), 21))
script("gather-21-first", *AWAITED, (gather(later(b"\0", eom=0)), 21), (gather(later(b"\0", tag=2)), 21),
       requester_looks(**IS_AWAITED))
for name, given, answer in (("22-before-16", later(b"\0", eom=0, sequence=2), 22),
                            ("22-before-19", packets(damaged(TWO), first=1, to=0)[1], 22)):
    script(f"gather-{name}", *OPEN, (gather(given), answer), requester_looks(**IS_AWAITED, store=GATHERED))
for name, fields, answer in (("22", dict(sequence=67), 22), ("16", dict(sequence=66, eom=0), 16)):
    script(f"gather-{name}-before-23", *FILLED, (gather(later(b"\0", **fields)), answer),
           requester_looks("9:1", store=FULL))

# What is not compared
script("response-8-bytes", *AWAITED, (gather(back(response(b""))), "1 8"),
       requester_looks(store=response(b"")))
for name, odd in (("reserved", sealed(b"\x84\x8e\xfc\xff" + BODY)), ("csi", response(BODY, slot=1)),
                  ("meb", sealed(b"\x84\x88\1\0" + BODY)), ("ciap", sealed(b"\x84\x88\2\0" + BODY)),
                  ("nmimt-3", response(BODY, kind=3)), ("nmimt-15", response(BODY, kind=15)),
                  ("all", sealed(b"\x84\xff\xff\xff" + BODY)), ("status", response(b"\xff\0\0\0"))):
    script(f"response-{name}", *AWAITED, (gather(back(odd)), "1 12"), requester_looks(store=odd))
ODD_REPLY = sealed(bytes((0x84, 0x87, 0xFF, 0xFF, 9, 1, 2, 3)))
script("response-control", *AWAITED, (gather(back(ODD_REPLY)), "2 12"), requester_looks(store=ODD_REPLY))
script("response-version", *AWAITED, (gather(back(ANSWER, version=0xF1)), "1 12"))
for first in (1, 2, 3):
    script(f"response-sequence-{first}", *AWAITED,
           (gather_all(packets(TWO, first=first, to=0)), [0, "1 100"]), requester_looks(store=TWO),
           *AWAITED, (gather(back(REPLY, sequence=first)), "2 12"), requester_looks(store=over(REPLY, TWO)))

# A store of another length: 40 before every other test, and for gathering alone
REFUSED = [given for _, given, _ in (*NOT_OURS, *STARTS)]
REFUSED += [back(ANSWER, tag=2), back(damaged(ANSWER)), later(b"\0", tag=2), later(TWO[64:], sequence=2),
            later(b"\0", eom=0, sequence=1), packets(damaged(TWO), to=0)[1]]
TAKEN_IN = [FIRST, REST, back(ANSWER), back(REPLY)]
for length in (0, 4223, 4225, 4300):
    script(f"40-store-{length}", *OPEN, (requester_store(length), 0), requester_looks(**IS_OPEN, lent=length),
           (gather_all(REFUSED + TAKEN_IN), [40] * len(REFUSED + TAKEN_IN)),
           requester_looks(**IS_OPEN, lent=length), (requester_store(), 0), requester_looks(**IS_OPEN),
           (gather(REST), "1 100"), requester_looks(store=TWO))
script("40-nothing-awaited", (requester_store(0), 0), (gather(back(ANSWER)), 40), (gather(back(REPLY)), 40),
       (gather(REST), 40), requester_looks(lent=0))
script("40-before-23", *FILLED, (requester_store(4300), 0), (gather(later(b"\0", sequence=66)), 40),
       requester_looks("9:1", "1:4224", store=FULL, lent=4300), (requester_store(), 0),
       (gather(later(b"\0", sequence=66)), 23))
script("store-not-lent", (requester_store(0), 0), *AWAITED, (await_from(9, 8), 41),
       (cut_message(COMMAND), written(packets(COMMAND, source=8))), (cut_message(COMMAND, 107), SHORT),
       (primitive(PAUSE), written([ask(PAUSE, source=8)])), (primitive(PAUSE, 2), "30 stays"),
       (requester_setup(7), 38), (requester_setup(9), 0), requester_looks(eid=9, lent=0))

# Setup
for eid, answer, ours in ((0, 38, 8), (7, 38, 8), (8, 0, 8), (254, 0, 254), (255, 38, 8)):
    script(f"setup-{eid}", *OPEN, requester_looks(**IS_OPEN), (requester_setup(eid), answer),
           requester_looks(eid=ours, store=GATHERED),
           (gather(later(TWO[64:], sequence=1, destination=ours)), 21),
           (gather(back(ANSWER, destination=ours)), 20), *AWAITED,
           (gather(back(ANSWER, destination=ours ^ 1)), 13),
           (gather_all(packets(TWO, destination=ours, to=0)), [0, "1 100"]),
           requester_looks(eid=ours, store=TWO))
BOTH = *OPEN, (receive(packets(COMMAND)[0]), 0), (receive(ask(GET_STATE)), 2)
ENDPOINT = dict(slot0="receive:9:1:0:64", reply=reply(1), store0=COMMAND[:64])
script("setup-leaves-the-endpoint", *BOTH, looks(**ENDPOINT), (requester_setup(10), 0), looks(**ENDPOINT),
       (requester_setup(255), 38), looks(**ENDPOINT), requester_looks(store=GATHERED),
       (receive(packets(COMMAND)[1]), 1))
script("setup-leaves-the-requester", *BOTH, (setup(10), 0), looks(eid=10, store0=COMMAND[:64]),
       requester_looks(**IS_OPEN), (setup(255), 38), requester_looks(**IS_OPEN), (RESET, 0),
       requester_looks(**IS_OPEN), (gather(REST), "1 100"), requester_looks(store=TWO))
script("stores-of-each-end", *BOTH, (requester_store(0), 0), (receive(packets(COMMAND)[1]), 1),
       (take(), "0 1"), (read(), f"100 {COMMAND.hex()}"), (complete(1, BODY), 0),
       (poll(), polled(replied(1))), (requester_store(), 0), (stores(0, 4300), 0), (gather(REST), "1 100"),
       requester_looks(store=TWO), (poll(), "40 stays"),
       looks("transmit:9:1:12:0", tickets=(1, 0), last=1, lent=(0, 4300)))

# Each end refuses what the other one takes.
script("ends-not-mixed", *OPEN, (receive(back(ANSWER)), 14), (receive(packet(ANSWER)), 15),
       (gather(MI_COMMAND), 14), (gather(back(command())), 15), (gather(back(control(PAUSE))), 15),
       looks(flags=0x1000), requester_looks("9:1", store=GATHERED))

# Faults: one `bad`, and the records behind it are not read
script("length-8192", (cut_message(bytes(8188), 0), "41 stays"), (gather(record(1, bytes(8192))), 11))
script("length-least", (cut_message(b"", 0), "41 stays"), (gather(record(1)), 10))
for name, right, *wrong in (("setup", requester_setup(), 0, 2, 4), ("store", requester_store(), 0, 1, 3),
                            ("await", await_from(), 0, 1, 3), ("cut", cut_message(b""), 0, 3, 8193),
                            ("primitive", primitive(0), 0, 11, 13), ("receive", gather(FIRST), 8193, 65535),
                            ("look", REQUESTER_LOOK, 1)):
    for length in wrong:
        script(f"bad-{name}-{length}", (poll(), NOTHING), ([record(right[0], bytes(length)), LOOK], "bad"))
for length in (4301, 65535):
    script(f"bad-store-of-{length}", (requester_store(4300), 0), ([requester_store(length), LOOK], "bad"))
script("bad-tag-39", (poll(), NOTHING), ([record(39), LOOK], "bad"))
script("bad-cut-body", (poll(), NOTHING), (cut_message(COMMAND)[:-1], "bad"))
