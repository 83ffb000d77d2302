"""The scripts of request 2026-04, the larger transmission unit.

Each script shows one rule; a number at the end of its name is the unit. Where both ends are in a script the
requester is EID 9 and the endpoint EID 8; else the requester is EID 8 and is answered from EID 9 under tag 1.
A look shows the unit, and by its checks every byte that was gathered.
"""
from call_records import (LOOK, REQUESTER_LOOK, RESET, await_from, complete, cut_message, gather, gather_all,
                          poll, primitive, receive, receive_all, requester_setup, requester_store, room,
                          setup, stores, take, timeout)
from call_steps import (AWAITED, NOTHING, SHORT, TAKEN, WAITING, back, carried, looks, over, polls, reply,
                        requester_looks, written)
from records import ask, command, control, damaged, packet, packets, record
from second.wire import ABORT, ADMIN, GET_STATE, MI, PAUSE, PCIE, REPLAY, RESUME
from steps import BODY, COMMANDS, SLOTS, TAGS, Described, cut, replied, response, sends
from units import UNITS, WRONG_UNITS, fitting, last_begins, packet_count

SCRIPTS = Described()
script = SCRIPTS.add

FILL = bytes(range(251))
REQUEST = command()
LONG = command(4224, fill=FILL)                       # the longest command
FEW = (127, 250)                                      # the units of what is not shown at each
FLAGS = {11: 0x40, 16: 0x200, 21: 0x400}

def body(length):
    """The body of a response of this length."""
    return bytes(i % 253 for i in range(length - 8))

def around(unit):
    """Lengths around the first two multiples of the unit."""
    return [count * unit + far for count in (1, 2) for far in (-1, 0, 1)]

def not_full(unit):
    """Payloads that a packet without EOM can't have."""
    return [size for size in (1, 64, unit - 1) if size != unit]

def answers(length, unit, last):
    """What the packets of a message are answered with; `last` is for the last one."""
    return [0] * (packet_count(length, unit) - 1) + [last]

def at(unit, eid=8):
    """A setup of the endpoint, which also makes its slots Idle."""
    return setup(eid, unit), 0

def requester_at(unit, eid=8):
    return requester_setup(eid, unit), 0

def bounds(unit):
    """Polls with one byte too few and with just enough, where there is nothing to send."""
    return (poll(unit + 3), SHORT), (poll(unit + 4), NOTHING)

# Setup: from a state that has another EID and another unit. Beside 38 and 39 stands the state for EID 8 and
# U 64, whatever was given, and 38 is tested first.
def beside(answer, eid, unit=64):
    """The EID and the unit of the state beside a setup's answer."""
    return dict(eid=eid, unit=unit) if answer == 0 else dict(eid=8, unit=64)

ENDS = ((setup, looks), (requester_setup, requester_looks))

def set_up(*given):
    """Setups of both ends, each with EID and unit, or the EID alone, and its answer."""
    for call, shown in ENDS:
        for *values, answer in given:
            yield from ((call(200, 100), 0), shown(eid=200, unit=100), (call(*values), answer),
                        shown(**beside(answer, *values)))

for unit in sorted((*UNITS, *WRONG_UNITS)):
    answer = 39 if unit in WRONG_UNITS else 0
    ours = beside(answer, 9, unit)
    message = LONG[:ours["unit"] + 1]                 # two packets
    script(f"setup-unit-{unit}", *set_up((0, unit, 38), (7, unit, 38), (255, unit, 38), (9, unit, answer)),
           *bounds(ours["unit"]),
           (cut_message(message, unit=ours["unit"]),
            written(packets(message, source=ours["eid"], unit=ours["unit"]))))
script("setup-bounds", *set_up((8, 64, 0), (254, 64, 0), (8, 250, 0), (254, 250, 0), (8, 63, 39),
                               (254, 63, 39), (8, 251, 39), (254, 251, 39), (8, 0, 39), (8, 320, 39),
                               (254, 506, 39), (7, 64, 38), (255, 250, 38), (7, 63, 38), (255, 251, 38)))
script("setup-without-unit", *set_up((8, 0), (10, 0), (254, 0), (0, 38), (7, 38), (255, 38)), *bounds(64))
for name, right, look in (("setup", setup(), LOOK), ("requester-setup", requester_setup(), REQUESTER_LOOK)):
    for how, wrong in (("half-64", (8, 64)), ("half-250", (8, 250)), ("4", (8, 64, 0, 0))):
        script(f"bad-{name}-{how}", (poll(), NOTHING), ([record(right[0], bytes(wrong)), look], "bad"))
script("setup-of-three-zeros", (poll(), NOTHING), (record(setup()[0], bytes(3)), 38), looks())
script("requester-setup-of-three-zeros", (poll(), NOTHING), (record(requester_setup()[0], bytes(3)), 38),
       requester_looks())

# Setup in the middle, once with the EID alone: of what was under way at U 127 the stores stay.
MIDDLE = ((10, 250, 0), (10, 0), (10, 251, 39), (10, 320, 39), (10, 63, 39), (7, 65, 38))

def middle(call, shown, steps, state, store, rest):
    """Each setup of MIDDLE behind these steps; `rest` says what is done then with the new EID and unit."""
    for *values, answer in MIDDLE:
        ours = beside(answer, *values)
        yield from ((call(8, 127), 0), *steps, shown(**state, unit=127, **store), (call(*values), answer),
                    shown(**ours, **store), *rest(**ours))

PAUSED = command(ciap=1)
STARTED = command(300, fill=FILL)
TOLD = response(body(200))                            # two packets
ONE, TWO = cut(TOLD, unit=127)
COMPLETED = *TAKEN, (complete(1, body(200)), 0)
for name, steps, state, store in (
        ("receive", ((receive(packets(STARTED, unit=127)[0]), 0),), dict(slot0="receive:9:1:0:127"),
         STARTED[:127]),
        ("untaken", WAITING, dict(slot0="process:9:1:1:20:untaken", tickets=(1, 0)), REQUEST),
        ("taken", TAKEN, dict(slot0="process:9:1:1:20:taken", tickets=(1, 0)), REQUEST),
        ("answered", ((receive(packet(PAUSED)), 1), (take(), "0 1"), (complete(1, BODY), 0)),
         dict(slot0="answered:9:1:12", tickets=(1, 0), paused=(1, 0)), over(response(BODY), PAUSED)),
        ("transmit", COMPLETED, dict(slot0="transmit:9:1:200:0", tickets=(1, 0)), TOLD),
        ("begun", (*COMPLETED, polls(ONE, unit=127)),
         dict(slot0="transmit:9:1:200:1", tickets=(1, 0), turn=1), TOLD),
        ("held", (*COMPLETED, polls(ONE, TWO, unit=127)),
         dict(slot0="idle:9:1:200", tickets=(1, 0), turn=1), TOLD),
        ("reply", ((receive(ask(GET_STATE)), 2),), dict(reply=reply(0)), b"")):
    script(f"setup-middle-{name}", *middle(setup, looks, steps, state, dict(store0=store),
                                           lambda eid, unit: bounds(unit)))
for name, steps, state, store in (
        ("awaited", AWAITED, dict(awaits="9:1"), b""),
        ("gathering", (*AWAITED, (gather(packets(TOLD, to=0, unit=127)[0]), 0)),
         dict(awaits="9:1", assembly="0:127"), TOLD[:127]),
        ("refused", (*AWAITED, (gather(back(TOLD[:64], eom=0)), 16)), dict(awaits="9:1"), b"")):
    script(f"requester-setup-middle-{name}",
           *middle(requester_setup, requester_looks, steps, state, dict(store=store),
                   lambda eid, unit: ((gather(back(response(BODY), destination=eid)), 20),)))
script("setup-lent-lengths", (stores(4223, 4225), 0), at(250, 9), looks(eid=9, unit=250, lent=(4223, 4225)),
       (setup(9, 63), 39), looks(lent=(4223, 4225)), (requester_store(0), 0), requester_at(250, 9),
       requester_looks(eid=9, unit=250, lent=0), (requester_setup(9, 63), 39), requester_looks(lent=0))
script("setup-leaves-the-other-end", at(250), requester_at(127), looks(unit=250), requester_looks(unit=127),
       (requester_setup(9, 251), 39), looks(unit=250), requester_looks(), requester_at(66), at(65),
       requester_looks(unit=66), (setup(9, 0), 39), looks(), requester_looks(unit=66), (RESET, 0),
       looks(flags=0x4000), requester_looks(unit=66))
for unit in UNITS[1:]:
    message = command(2 * unit + 1, fill=FILL)
    given, shown = packets(message, destination=9, unit=unit), dict(eid=9, unit=unit)
    script(f"reset-{unit}", at(unit, 9), (receive(given[0]), 0),
           looks(f"receive:9:1:0:{unit}", **shown, store0=message[:unit]), (RESET, 0),
           looks(**shown, flags=0x4000, store0=message[:unit]), *bounds(unit),
           (receive_all(given), [0, 0, 1]),
           looks(f"process:9:1:1:{len(message)}:untaken", **shown, tickets=(1, 0), flags=0x4000,
                 store0=message))

# 11: a packet of U + 5 bytes, whatever else is wrong; it ends no assembly. One of U + 4 bytes is taken in.
for unit in UNITS:
    whole, long, two = (command(length, fill=FILL) for length in (unit, unit + 1, unit + 30))
    first, rest = packets(two, unit=unit)
    wrong = (packet(long, version=2, destination=9, to=0), packet(long, som=0), packet(long, eom=0),
             packet(damaged(long)), packet(b"\x85" + long[1:]), packet(bytes(unit + 200)),
             packet(control(PAUSE) + bytes(unit - 11)))
    script(f"11-{unit}", at(unit), (receive(packet(long)), 11), looks(unit=unit, flags=0x40),
           (receive_all(wrong), [11] * len(wrong)), looks(unit=unit, flags=0x40), (receive(first), 0),
           (receive(packet(long)), 11),
           looks(f"receive:9:1:0:{unit}", unit=unit, flags=0x40, store0=two[:unit]), (receive(rest), 1),
           at(unit), (receive(packet(whole)), 1),
           looks(f"process:9:1:1:{unit}:untaken", tickets=(1, 0), unit=unit, store0=over(whole, two)))

# 16: without EOM, a payload that is not full; and 22, a full one out of its turn
for unit in UNITS:
    message = command(2 * unit + 1, fill=FILL)
    first, full, last = packets(message, unit=unit)
    gathered = dict(unit=unit, flags=0x200, store0=message[:unit])
    script(f"16-{unit}", at(unit),
           *((receive(packet(message[:size], eom=0)), 16) for size in not_full(unit)),
           (receive(packet(command(unit - 1, ror=1), eom=0)), 16),
           (receive(packet(control(PAUSE), eom=0)), 16), looks(unit=unit, flags=0x200),
           *(step for size in not_full(unit)
             for step in ((receive(first), 0), looks(f"receive:9:1:0:{unit}", **gathered),
                          (receive(packet(bytes(size), som=0, eom=0, sequence=1)), 16), looks(**gathered))),
           at(unit), (receive(first), 0), (receive(packet(bytes(unit), som=0, eom=0, sequence=2)), 22),
           looks(**{**gathered, "flags": 0x800}), at(unit), (receive_all([first, full]), [0, 0]),
           looks(f"receive:9:1:1:{2 * unit}", unit=unit, store0=message[:2 * unit]), (receive(last), 1),
           looks(f"process:9:1:1:{2 * unit + 1}:untaken", tickets=(1, 0), unit=unit, store0=message))

# Commands whose lengths are around the first multiples of the unit and around the last
for unit in UNITS:
    steps, store, last = [], b"", last_begins(unit)
    for first, length in enumerate((*around(unit), last, last + 1)):
        message = command(length, fill=FILL)
        store = over(message, store)
        steps += (at(unit), (receive_all(packets(message, first, unit=unit)), answers(length, unit, 1)),
                  looks(f"process:9:1:1:{length}:untaken", tickets=(1, 0), unit=unit, store0=store))
    script(f"commands-{unit}", *steps)

# 23: behind as many full packets as fit, the next full one, and a last one that is too long by one byte; one
# that just fits is taken in, where there is a rest.
def filled(message, unit, to=1):
    """The full packets, and what they hold of the longest message."""
    count = fitting(unit)
    return packets(message + bytes(unit), to=to, unit=unit)[:count], message[:count * unit]

def behind(message, unit, size, **fields):
    """A packet behind them, of as many bytes."""
    held = fitting(unit)
    return packet((message[held * unit:] + bytes(unit))[:size], som=0, **{"sequence": held, **fields})

for unit in UNITS:
    (full, held), rest = filled(LONG, unit), 4224 % unit
    fill = receive_all(full), [0] * len(full)
    script(f"23-{unit}", at(unit), fill,
           looks(f"receive:9:1:{(len(full) - 1) % 4}:{len(held)}", unit=unit, store0=held),
           (receive(behind(LONG, unit, unit, eom=0)), 23), looks(unit=unit, store0=held), fill,
           (receive(behind(LONG, unit, rest + 1)), 23), looks(unit=unit, store0=held),
           *((fill, (receive(behind(LONG, unit, rest)), 1),
              looks("process:9:1:1:4224:untaken", tickets=(1, 0), unit=unit, store0=LONG)) if rest else ()))
for name, fields, answer, flags in (("22", dict(sequence=fitting(250) + 1), 22, 0x800),
                                    ("16", dict(eom=0), 16, 0x200)):
    full, held = filled(LONG, 250)
    script(f"{name}-before-23-250", at(250), (receive_all(full), [0] * len(full)),
           (receive(behind(LONG, 250, 249, **fields)), answer), looks(unit=250, flags=flags, store0=held))

# Responses whose lengths are around a multiple of the unit, the first ones and the last; the last packet is
# never empty
for name, unit, lengths in (*(("responses", unit, around(unit)) for unit in UNITS),
                            *(("long-responses", unit, (last_begins(unit), last_begins(unit) + 1))
                              for unit in FEW)):
    steps, store = [at(unit)], b""
    for ticket, length in enumerate(lengths, 1):
        told = body(length)
        store = over(response(told), over(REQUEST, store))
        shown = dict(tickets=(ticket, 0), unit=unit, store0=store)
        steps += (*WAITING, (take(), f"0 {ticket}"), (complete(ticket, told), 0),
                  looks(f"transmit:9:1:{length}:0", turn=int(ticket > 1), **shown),
                  polls(*sends(0, told, unit), unit=unit), looks(f"idle:9:1:{length}", turn=1, **shown),
                  (poll(unit + 4), NOTHING))
    script(f"{name}-{unit}", *steps)

# 36: a buffer below U + 4 bytes, whatever there is to send
for unit in UNITS:
    told = response(body(unit + 1))
    one, two = cut(told, unit=unit)
    short = [poll(length) for length in sorted({0, 16, 67, 68, unit + 3} - {unit + 4})]
    refused, begins = (short, [SHORT] * len(short)), f"transmit:9:1:{unit + 1}"
    shown = dict(tickets=(1, 0), unit=unit, store0=told)
    script(f"36-{unit}", at(unit), refused, looks(unit=unit), *bounds(unit), (poll(unit + 5), NOTHING),
           (poll(65535), NOTHING), (receive(ask(GET_STATE)), 2), refused, looks(unit=unit, reply=reply(0)),
           polls(replied(0), unit=unit), *TAKEN, (complete(1, body(unit + 1)), 0), refused,
           looks(f"{begins}:0", last=1, **shown), polls(one, unit=unit), refused,
           looks(f"{begins}:1", turn=1, **shown), polls(two, unit=unit),
           looks(f"idle:9:1:{unit + 1}", turn=1, **shown), *bounds(unit))

# Between the packets of a response and of a command
for unit in FEW:
    length = 2 * unit + 1
    told, message, others = response(body(length)), command(length, fill=FILL), command(length, 1, fill=FILL)
    one, two, three = cut(told, unit=unit)
    begun = (at(unit), *TAKEN, (complete(1, body(length)), 0), polls(one, unit=unit))
    shown = dict(tickets=(1, 0), turn=1, unit=unit, store0=told)
    script(f"abort-between-packets-{unit}", *begun, looks(f"transmit:9:1:{length}:1", **shown),
           (receive(ask(ABORT)), 2), looks(reply=reply(0), **shown), polls(replied(0), unit=unit),
           (poll(unit + 4), NOTHING), looks(last=1, **shown))
    # Behind a control reply the response's packet goes first.
    script(f"pause-between-packets-{unit}", *begun, (receive(ask(PAUSE)), 2), polls(replied(1), unit=unit),
           (poll(unit + 4), NOTHING), looks(f"transmit:9:1:{length}:1", paused=(1, 0), last=1, **shown),
           (receive(ask(RESUME)), 2), polls(two, replied(0), three, unit=unit),
           looks(f"idle:9:1:{length}", **shown))
    script(f"reply-between-packets-{unit}", *begun, (receive(ask(GET_STATE)), 2),
           polls(replied(3), two, three, unit=unit), looks(f"idle:9:1:{length}", **shown))
    first, second, third = packets(message, unit=unit)
    gathered = dict(unit=unit, store0=message[:unit])
    script(f"assembly-ended-{unit}", at(unit), (receive(first), 0), (receive(ask(ABORT)), 2),
           looks(reply=reply(1), **gathered), (receive(second), 21), at(unit), (receive(first), 0),
           (timeout(), 0), looks(flags=0x20, **gathered), (receive(second), 21))
    script(f"pause-in-an-assembly-{unit}", at(unit), (receive(first), 0), (receive(ask(PAUSE)), 2),
           (timeout(), 37), looks(f"receive:9:1:0:{unit}", paused=(1, 0), reply=reply(1), **gathered),
           (receive(second), 0), (receive(ask(RESUME)), 2), (receive(third), 1),
           looks(f"process:9:1:1:{length}:untaken", tickets=(1, 0), reply=reply(0), unit=unit,
                 store0=message))
    pairs = zip(packets(message, unit=unit), packets(others, 3, tag=3, unit=unit))
    script(f"two-assemblies-{unit}", at(unit),
           *((receive_all(pair), [answer, answer]) for pair, answer in zip(pairs, (0, 0, 1))),
           looks(f"process:9:1:1:{length}:untaken", f"process:9:3:1:{length}:untaken", tickets=(1, 1),
                 unit=unit, store0=message, store1=others))

# Replay: the same packets once more
for unit in FEW:
    for slot, other in SLOTS:
        told, where = body(unit + 1), f"9:{TAGS[slot]}:{unit + 1}"
        one, two = sends(slot, told, unit)
        shown = {"tickets": (1 - slot, slot), "turn": other, "unit": unit,
                 f"store{slot}": response(told, slot)}
        held, sent = ({f"slot{slot}": f"idle:{where}", **shown},
                      [{f"slot{slot}": f"transmit:{where}:{count}", **shown} for count in (0, 1)])
        script(f"replay-{slot}-{unit}", at(unit), (receive(COMMANDS[slot]), 1), (take(slot), "0 1"),
               (complete(1, told, slot), 0), polls(one, two, unit=unit), looks(**held),
               (receive(ask(REPLAY, slot)), 2), looks(**sent[0], reply=reply(1, slot)),
               polls(replied(1, slot), one, unit=unit), (poll(unit + 3), SHORT), looks(**sent[1]),
               polls(two, unit=unit), looks(**held))

# Sizes that do not follow the unit
for unit in (65, *FEW):
    steps, shown = [], dict(tickets=(1, 0), unit=unit)
    for kind, least in ((MI, 20), (PCIE, 24), (ADMIN, 72)):     # each longer than what is stored before it
        short, whole = command(least - 1, kind=kind), command(least, kind=kind)
        error = response(bytes((5, 0, 0, 0)), kind=kind)
        steps += (at(unit), (receive_all(packets(short, unit=unit)), answers(least - 1, unit, 1)),
                  looks("transmit:9:1:12:0", **shown, store0=over(error, short)), at(unit),
                  (receive_all(packets(whole, unit=unit)), answers(least, unit, 1)),
                  looks(f"process:9:1:{kind}:{least}:untaken", **shown, store0=whole))
    script(f"sizes-of-messages-{unit}", at(unit), (receive(packet(REQUEST[:7])), 17),
           (receive(packet(control(PAUSE) + b"\0")), 18), looks(unit=unit), *steps)
script("sizes-of-bodies-250", at(250), *TAKEN, (complete(1, bytes(3)), 35), (complete(1, bytes(4217)), 35),
       (complete(1, bytes(4216)), 0),
       looks("transmit:9:1:4224:0", tickets=(1, 0), unit=250, store0=response(bytes(4216))),
       requester_at(250), (cut_message(bytes(7), 65535), "41 stays"),
       (cut_message(bytes(4225), 65535), "41 stays"), (cut_message(LONG, room(4224, 250) - 1), SHORT))

# The requester cuts; what is cut is not looked at. A primitive has 16 bytes at each unit.
for unit in UNITS:
    steps = []
    for length in (8, *around(unit)):
        message, exact = LONG[:length], room(length, unit)
        steps += ((cut_message(message, exact), written(packets(message, unit=unit))),
                  (cut_message(message, exact - 1), SHORT))
    script(f"cut-{unit}", requester_at(unit, 9), *steps, (primitive(GET_STATE, length=15), SHORT),
           (primitive(GET_STATE, length=16), written([ask(GET_STATE)])), requester_looks(eid=9, unit=unit))

# The requester gathers.
FULL = response(body(4224))                           # the longest response
for unit in UNITS:
    length = 2 * unit + 1
    told, long = response(body(length)), response(body(unit + 1))
    first, full, last = packets(told, to=0, unit=unit)
    wrong = (packet(long, version=2, destination=9), back(long, som=0), back(long, eom=0),
             back(damaged(long)), back(b"\x85" + long[1:]), back(bytes(unit + 200)))
    begin = requester_at(unit), *AWAITED
    awaited = dict(awaits="9:1", unit=unit)
    gathered = dict(awaited, assembly=f"0:{unit}")
    script(f"gather-{unit}", *begin, (gather(back(long)), 11), (gather_all(wrong), [11] * len(wrong)),
           requester_looks(**awaited), (gather(first), 0), (gather(back(long)), 11),
           requester_looks(**gathered, store=told[:unit]),
           (gather_all([full, last]), [0, f"1 {length}"]), *begin,
           *((gather(back(told[:size], eom=0)), 16) for size in not_full(unit)),
           requester_looks(**awaited, store=told),
           *(step for size in not_full(unit)
             for step in ((gather(first), 0), requester_looks(**gathered, store=told),
                          (gather(back(bytes(size), som=0, eom=0, sequence=1)), 16),
                          requester_looks(**awaited, store=told))),
           (gather(first), 0), (gather(back(told[unit:2 * unit], som=0, eom=0, sequence=2)), 22),
           requester_looks(**awaited, store=told), (gather_all([first, full]), [0, 0]),
           requester_looks(**awaited, assembly=f"1:{2 * unit}", store=told), (gather(last), f"1 {length}"),
           requester_looks(unit=unit, store=told))
    steps, store = [requester_at(unit)], b""
    for start, size in enumerate(around(unit)):
        store = over(response(body(size)), store)
        steps += (*AWAITED, (gather_all(packets(response(body(size)), start, to=0, unit=unit)),
                             answers(size, unit, f"1 {size}")), requester_looks(unit=unit, store=store))
    script(f"gathered-{unit}", *steps)
    (many, held), rest = filled(FULL, unit, to=0), 4224 % unit
    fill = gather_all(many), [0] * len(many)
    script(f"gather-23-{unit}", *begin, fill,
           requester_looks(**awaited, assembly=f"{(len(many) - 1) % 4}:{len(held)}", store=held),
           (gather(behind(FULL, unit, unit, eom=0, to=0)), 23), requester_looks(**awaited, store=held), fill,
           (gather(behind(FULL, unit, rest + 1, to=0)), 23), requester_looks(**awaited, store=held))

# Exchanges: a command that the requester cuts, and its response; of two packets, and of the most. At U 64 the
# most are in a script of 2026-01.
def asked(opcode, cpsr, unit):
    """A primitive that the requester builds, from the awaiting of its reply to the gathering."""
    return ((await_from(8, 2), 0), (primitive(opcode), written([ask(opcode)])), (receive(ask(opcode)), 2),
            *carried([replied(cpsr)], "2 12", unit))

for name, unit, message, length in (
        *(("exchange", unit, command(unit + 1, fill=FILL), 2 * unit) for unit in UNITS),
        *(("exchange-longest", unit, LONG, 4224) for unit in UNITS[1:])):
    told = response(body(length))
    script(f"{name}-{unit}", at(unit), requester_at(unit, 9), (await_from(8), 0),
           (cut_message(message, unit=unit), written(packets(message, unit=unit))),
           (receive_all(packets(message, unit=unit)), answers(len(message), unit, 1)),
           looks(f"process:9:1:1:{len(message)}:untaken", tickets=(1, 0), unit=unit, store0=message),
           (take(), "0 1"), (complete(1, body(length)), 0),
           *carried(cut(told, unit=unit), f"1 {length}", unit),
           requester_looks(eid=9, unit=unit, store=told),
           looks(f"idle:9:1:{length}", tickets=(1, 0), turn=1, unit=unit, store0=over(told, message)))
for unit in FEW:
    told, lines = body(unit + 1), sends(0, body(unit + 1), unit)
    script(f"exchange-replay-{unit}", at(unit), requester_at(unit, 9), *TAKEN, (complete(1, told), 0),
           polls(*lines, unit=unit), *asked(REPLAY, 1, unit), (await_from(8), 0),
           *carried(lines, f"1 {unit + 1}", unit), requester_looks(eid=9, unit=unit, store=response(told)))

# Ends of different units: what one end cuts into several packets is refused by the other, with 11 if its unit
# is smaller and with 16 if it is larger. What goes in one packet passes, if that is not too long.
def met(length, ours, theirs, whole):
    """The answers of an end of unit `theirs` to a message that was cut by `ours`, a second packet of one byte
    too."""
    if length <= ours:
        return [whole if length <= theirs else 11]
    return [11 if ours > theirs else 16, 21]

REPLY = response(bytes((0, 0x5A, 0, 0)), kind=0)
for ours, theirs in ((250, 64), (64, 250), (65, 64), (64, 65), (250, 249), (249, 250), (128, 127),
                     (127, 128)):
    commands, responses, store, gathered = [], [], b"", b""
    for length in sorted({20, min(ours, theirs), min(ours, theirs) + 1, ours, ours + 1}):
        message, told = command(length, fill=FILL), response(body(length))
        found, state, awaits = met(length, ours, theirs, 1), {}, "8:1"
        if found == [1]:
            store, gathered, awaits = over(message, store), over(told, gathered), "-"
            state = dict(slot0=f"process:9:1:1:{length}:untaken", tickets=(1, 0))
        flags = sum(FLAGS.get(answer, 0) for answer in found)
        commands += (at(theirs), (cut_message(message, unit=ours), written(packets(message, unit=ours))),
                     (receive_all(packets(message, unit=ours)), found),
                     looks(**state, unit=theirs, flags=flags, store0=store))
        responses += (at(ours), *TAKEN, (complete(1, body(length)), 0), (await_from(8), 0),
                      polls(*cut(told, unit=ours), unit=ours),
                      (gather_all(packets(told, source=8, destination=9, to=0, unit=ours)),
                       met(length, ours, theirs, f"1 {length}")),
                      requester_looks(awaits, eid=9, unit=theirs, store=gathered))
    script(f"from-{ours}-to-{theirs}", requester_at(ours, 9), *commands, requester_at(theirs, 9), *responses,
           at(ours), *asked(GET_STATE, 0, ours),
           requester_looks(eid=9, unit=theirs, store=over(REPLY, gathered)))
