"""Lines of the calls program, for the descriptions of stored scripts; put together as `steps` does it."""
from call_records import LOOK, REQUESTER_LOOK, await_from, declare, gather_all, poll, receive, take
from records import FULL, ask, command, packet, record
from second import log
from second.wire import ABORT, crc32c
from steps import COMMANDS, MI_COMMAND, OTHER, TAGS, response

MEMORY = 4300

# Steps that many scripts begin with
WAITING = (receive(MI_COMMAND), 1),                   # a command of slot 0 is complete, not taken
TAKEN = *WAITING, (take(), "0 1")
OTHER_TAKEN = (receive(OTHER), 1), (take(1), "0 1")   # the same in slot 1
AWAITED = (await_from(), 0),                          # the requester awaits a response

def taken(slot):
    """A new endpoint's first command of the slot, up to its taking."""
    return (receive(COMMANDS[slot]), 1), (take(slot), "0 1")

def declares(ticket, can, slot=0, answer=0):
    """A declaration, and its answer."""
    return declare(ticket, can, slot), answer

# What a poll prints
NOTHING, SHORT, WRONG_STORES = "0 stays", "36 stays", "40 stays"

def polled(line):
    """A line with which a log's poll hands out a packet, as the calls program has it."""
    answer, packet = line.split()
    return f"{answer} {len(packet) // 2} {packet} stays"

def polls(*lines, unit=FULL):
    """Polls that hand out the packets of these lines of a log."""
    return [poll(unit + 4)] * len(lines), [polled(line) for line in lines]

# What a look prints
def reply(cpsr, slot=0, to=9, tag=2):
    """The reply to a control primitive of `ask` while it waits."""
    return f"{to}:{tag}:" + response(bytes((0, 0x5A)) + cpsr.to_bytes(2, "little"), slot, 0).hex()

def error_reply(slot, *body):
    """The same of a primitive that does not act."""
    return f"9:2:{response(bytes(body), slot, 0).hex()}"

def over(front, store):
    """The bytes of a store after its front was overwritten."""
    return front + store[len(front):]

def lent_check(front, length):
    """The check of so many bytes of a store that holds zeros behind its front."""
    return crc32c(front.ljust(MEMORY, b"\0")[:length])

def looks(slot0="idle", slot1="idle", tickets=(0, 0), paused=(0, 0), busy=(0, 0), eid=8, unit=FULL,
          flags=0, turn=0, last=0, reply="-", store0=b"", store1=b"", lent=(4224, 4224)):
    """A look, and its line: that of a new endpoint but for what is given. Stores hold zeros behind the
    bytes that are given."""
    check0, check1 = (lent_check(store, length) for store, length in zip((store0, store1), lent))
    return LOOK, (f"eid={eid} unit={unit} flags={flags:04x} turn={turn} last={last} reply={reply} "
                  f"slot0={tickets[0]},{paused[0]},{busy[0]},{slot0} "
                  f"slot1={tickets[1]},{paused[1]},{busy[1]},{slot1} "
                  f"check0={check0:08x} check1={check1:08x}")

# What a look shows where one slot was used and the other was not
def of(slot, value):
    """The value for the slot, and 0 for the other."""
    return (value, 0) if slot == 0 else (0, value)

def at(slot, phase="idle", store=b"", tickets=1, **fields):
    """The slot in this state, after so many commands."""
    return {f"slot{slot}": phase, f"store{slot}": store, "tickets": of(slot, tickets), **fields}

def process(slot, how, tickets=1, request=None, **fields):
    """The slot's command in Process: `untaken`, `taken` or `can`."""
    request = request or command(slot=slot)
    return at(slot, f"process:9:{TAGS[slot]}:1:{len(request)}:{how}", request, tickets, **fields)

def both(one, other, **fields):
    """The same where both were used; what is of no slot is as for `one`."""
    tickets = tuple(map(sum, zip(one["tickets"], other["tickets"])))
    return {**other, **one, "tickets": tickets, **fields}

def aborts(slot, cpsr, state):
    """An Abort of the slot in this state; a look then shows what it has reported, and what it leaves."""
    paused = list(state.get("paused", (0, 0)))
    paused[slot] = 0
    idle = {**state, f"slot{slot}": "idle", "paused": paused, "reply": reply(cpsr, slot)}
    return (receive(ask(ABORT, slot)), 2), looks(**idle)

def requester_looks(awaits="-", assembly="-", eid=8, unit=FULL, store=b"", lent=4224):
    """The same of the requester."""
    return REQUESTER_LOOK, (f"eid={eid} unit={unit} awaits={awaits} assembly={assembly} "
                            f"check={lent_check(store, lent):08x}")

# What the requester writes, and what it is given of the endpoint
def back(payload, **fields):
    """A packet that the requester is given: TO is 0."""
    return packet(payload, to=0, **fields)

def written(packets):
    """The line with which a command or a primitive was written: its packets, end to end."""
    data = b"".join(packet[3:] for packet in packets)
    return f"0 {len(data)} {data.hex()} stays"

def carried(lines, last, unit=FULL):
    """Polls that hand out the packets of these lines of a log, and the requester's gathering of them;
    `last` is what the last one is answered with."""
    packets = [record(log.PACKET, bytes.fromhex(line.split()[1])) for line in lines]
    return polls(*lines, unit=unit), (gather_all(packets), [0] * (len(packets) - 1) + [last])
