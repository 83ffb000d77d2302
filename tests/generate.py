#!/usr/bin/env python3
"""Writes a random log that reaches deep states of the endpoint.

    python3 generate.py SEED N OUT    a log of N records, and on standard output what it reached

The same seed and N give the same log. One log in four ends with a faulty record. Records are
chosen by looking at the second program's endpoint, which runs beside: blind chance would seldom
finish a message of 66 packets or find a slot in the state that a primitive has to meet. What is done
with a response that a slot holds is chosen by `generate_replay`. Values that a later version of the
endpoint gives a meaning (MI opcode 01h, Pause and Resume with CSI 1, reserved bits) are rare.
"""
import argparse
import random

import records
from generate_replay import ReplayGenerator
from reached import LogRun
from runs import TAKEN
from second.wire import ABORT, ADMIN, GET_STATE, MI, PAUSE, PCIE, REPLAY, RESUME
from units import last_begins, too_long

SOURCES = (9, 9, 10, 254)

# Lengths of commands, and of the bodies of responses, which are eight bytes longer; some are around a
# multiple of the unit.

def lengths(unit):
    return (8, 12, 19, 20, 23, 24, unit, unit + 1, 71, 72, 2 * unit - 1, 2 * unit, 2 * unit + 1, 3 * unit,
            250)

def long_lengths(unit):
    return (last_begins(unit), last_begins(unit) + 1, 4223, 4224, 4224)

def bodies(unit):
    return (3, 4, unit - 8, unit - 7, 5, 20, unit - 9, unit - 6, 2 * unit - 9, 2 * unit - 8, 2 * unit - 7,
            200)

def long_bodies(unit):
    return (*(length - 8 for length in long_lengths(unit)), 4217)

class Sender:
    """A requester's message under way: the packets that are still to be sent."""

    def __init__(self, packets, slot, key):
        self.packets, self.slot, self.key = packets, slot, key

class Generator(ReplayGenerator):
    """Chooses the records of a log. A kind of its own for other records says what run they are part of,
    and how a log's record is put."""
    new_run = LogRun
    one_in_faulty = 4           # of so many inputs, one ends with a faulty record

    def __init__(self, seed, count):
        self.random = random.Random(seed)
        self.count, self.run, self.log = count, self.new_run(), []
        self.senders = []

    @property
    def unit(self):
        """The endpoint's; a log's is always the base one."""
        return self.run.endpoint.unit

    @property
    def three_packets(self):
        """The length of a command of three packets, the last of two bytes."""
        return 2 * self.unit + 2

    def chance(self, one_in):
        return self.random.randrange(one_in) == 0

    def write(self, *found):
        """Adds records to the log and runs them, as long as there is room."""
        for record in found:
            if len(self.log) == self.count:
                return
            record = self.put(record)
            self.log.append(record)
            self.run.record(record[0], record[3:])

    def put(self, record):
        """How a log's record stands in what is written."""
        return record

    # What a record can be
    def slot(self, *wanted):
        """A slot in one of the wanted states if there is one, and mostly slot 0 or 1."""
        found = [slot for slot in (0, 1) if self.run.endpoint.state(slot) in wanted]
        if self.chance(60):
            return self.random.choice((2, 3, 255))
        return self.random.choice(found if found and not self.chance(6) else (0, 1))

    def fill(self, kind):
        """Bytes behind the header; the first is the opcode, which is not 01h for MI."""
        found = bytearray(self.random.randbytes(self.random.choice((1, 4, 16, 64))))
        if kind == MI and found[0] == 1 and not self.chance(50):
            found[0] = 0
        return bytes(found)

    def key(self):
        """A source and tag; now and then those of an assembly under way."""
        gathering = list(self.run.endpoint.gathering)
        if gathering and self.chance(3):
            return self.random.choice(gathering)
        return self.random.choice(SOURCES), self.random.randrange(8)

    def start(self):
        slot = self.slot("Idle") & 1
        kind = self.random.choice((MI, MI, MI, ADMIN, PCIE, MI, ADMIN, 3, 5, 15))
        length = self.random.choice((long_lengths if self.chance(12) else lengths)(self.unit))
        if self.chance(8):
            length = self.random.randrange(8, 600)
        message = records.command(length, slot, kind, fill=self.fill(kind),
                                  ciap=self.chance(6), meb=self.chance(12), ror=self.chance(30))
        if self.chance(16):
            message = records.damaged(message)
        if self.chance(40):
            message += bytes(too_long(self.unit) - len(message))
        key = self.key()
        found = self.packets(message, self.random.randrange(4), *key)
        self.senders = [old for old in self.senders if old.key != key]
        self.senders.append(Sender(found, slot, key))
        self.advance(self.senders[-1])

    def packets(self, message, first, source, tag):
        """The message cut by the endpoint's unit."""
        return records.packets(message, first, source, tag, unit=self.unit)

    def advance(self, sender):
        """Sends the next packet; long messages are mostly sent on to their end."""
        rest = len(sender.packets)
        many = rest if self.chance(2) and rest > 8 else self.random.choice((1, 1, 2, rest))
        if not self.chance(3 * rest + 12):
            for _ in range(min(many, rest)):
                self.write(sender.packets.pop(0))
                if self.gives_up(sender):
                    sender.packets.clear()
                    break
                if rest > 8 and self.chance(120):
                    self.other()
        else:
            self.write(self.spoiled(sender.packets.pop(0)))
        if not sender.packets:
            self.senders.remove(sender)

    def gives_up(self, sender):
        """Whether the rest of the message is not sent; a log shows what comes of sending on."""
        return False

    def spoiled(self, record):
        """The packet with one thing wrong."""
        body = bytearray(record[3:])
        way = self.random.randrange(9)
        if way == 0:
            body[3] ^= 0x10 << self.random.randrange(2)    # sequence
        elif way == 1:
            body[3] ^= 0x40                                # EOM
        elif way == 2:
            body[3] ^= 0x80                                # SOM
        elif way == 3:
            del body[self.random.randrange(5, len(body) + 1):]
        elif way == 4:
            body[self.random.randrange(4, len(body))] ^= 1 << self.random.randrange(8)
        elif way == 5:
            body[4] = self.random.choice((0x04, 0x85, 0))  # IC or type
        elif way == 6:
            body += self.random.randbytes(self.random.randrange(1, 8))
        elif way == 7:
            body[2] ^= 3                                   # source
        return records.record(1, bytes(body))              # else: sent once too often or left out

    def header_fault(self, slot=None):
        """A packet that fails before its payload is looked at."""
        slot = self.random.randrange(2) if slot is None else slot
        payload = self.random.choice((records.command(slot=slot), records.control(GET_STATE, slot), b"\x84"))
        source, tag = self.key()
        fields = dict(source=source, tag=tag)
        way = self.random.randrange(5)
        if way == 0:
            self.write(records.record(1, self.random.randbytes(self.random.randrange(5))))
        elif way == 1:
            size = self.unit + self.random.choice((1, 1, 2, 136, 4232))
            self.write(records.packet(self.random.randbytes(size), **fields))
        elif way == 2:
            self.write(records.packet(payload, version=self.random.choice((0, 2, 15, 0x12)),
                                      **fields))
        elif way == 3:
            self.write(records.packet(payload, destination=self.random.choice((0, 9, 255)),
                                      **fields))
        else:
            self.write(records.packet(payload, to=0, **fields))

    def stray(self, source=None, tag=None, slot=None):
        if source is None:
            source, tag = self.key()
        self.write(self.stray_packet(source=source, tag=tag, slot=slot))

    def stray_packet(self, ror=0, slot=None, unit=None, **fields):
        """A packet in the middle of nothing, or a start that is refused for its payload. `ror` is the right
        one, and `unit` that of the end, if it is not the endpoint."""
        way, slot = self.random.randrange(7), self.random.randrange(2) if slot is None else slot
        unit = unit or self.unit
        payload, marks = records.command(unit, slot, ror=ror), dict(sequence=self.random.randrange(4))
        if way == 0:
            marks.update(som=0, eom=self.chance(2))
        elif way == 1:
            payload = self.random.choice((b"\0", b"\x04" + payload[1:], b"\x85" + payload[1:]))
        elif way == 2:
            payload, marks["eom"] = payload[:self.random.randrange(1, unit)], 0
        elif way == 3:
            payload = payload[:self.random.randrange(1, 8)]
        elif way == 4:
            payload = records.command(20, slot, ror=1 - ror)
        elif way == 5:
            payload = records.control(GET_STATE, slot, ror=ror) + bytes(self.random.randrange(1, 5))
        else:
            payload = records.damaged(records.control(self.random.randrange(5), slot, ror=ror))
        return records.packet(payload, **marks, **fields)

    def control(self, opcode=None, slot=None):
        if opcode is None:
            opcode = self.random.choice((PAUSE, RESUME, RESUME, ABORT, GET_STATE, GET_STATE, REPLAY))
        if slot is None:
            busy = "Process answered", "Transmit", "Receive"
            slot = self.slot(*("Idle",) if opcode == REPLAY and self.chance(2) else busy) & 1
        if opcode in (PAUSE, RESUME) and not self.chance(50):
            slot = 0
        if self.chance(25):
            opcode = self.random.choice((5, 6, 7, 128, 255))
        cpsp = self.random.choice((0, 1)) if opcode == GET_STATE else 0
        if opcode == REPLAY and self.chance(10):
            cpsp = self.wrong_cpsp()
        if self.chance(80):
            cpsp |= self.random.randrange(65536)
        message = records.control(opcode, slot, tag=self.random.randrange(256), cpsp=cpsp,
                                  ciap=self.chance(30), meb=self.chance(30))
        if self.chance(80):
            message = records.control(opcode, slot | 6)    # reserved bits of byte 1
        source, tag = self.key() if self.chance(3) else (77, 0)
        self.write(records.packet(message, source=source, tag=tag))

    def complete(self):
        slot = self.slot(*TAKEN)
        size = self.random.choice((long_bodies if self.chance(8) else bodies)(self.unit))
        self.write(records.complete(self.random.randbytes(size), slot))

    def poll(self):
        """One poll, or polls until nothing more comes."""
        if self.chance(5):
            for _ in range(140):
                self.write(records.POLL)
                if self.run.lines[-1].split()[0] == "0" or self.chance(150):
                    return
                if self.chance(40):
                    self.control(GET_STATE)
        else:
            self.write(records.POLL)

    def settle(self):
        """Lets a held endpoint go on, so that a log does not stay paused for long."""
        if self.run.endpoint.paused and self.chance(3):
            self.control(RESUME)
        else:
            self.poll()

    def both_answer(self):
        """Brings both slots to a response at the same time, for the order of sending."""
        if self.chance(2):
            self.control(PAUSE)
        for slot in (0, 1):
            self.write(records.packet(records.command(20, slot), source=9, tag=slot),
                       records.take(slot),
                       records.complete(self.random.randbytes(self.random.choice(bodies(self.unit))), slot))
            if self.chance(4):
                self.control(PAUSE)
            if self.chance(8):
                self.control(ABORT, slot)

    def race(self):
        """Assemblies under way, perhaps paused, and then what may end one: a new start under the
        same source and tag, a timeout, Abort, Resume or reset."""
        for slot in self.random.choice(((0,), (1,), (0, 1), (1, 0))):
            message = records.command(self.three_packets, slot, ciap=self.chance(2))
            self.write(self.packets(message, 0, source=9, tag=slot)[0])
        if self.chance(2):
            self.control(PAUSE)
        slot, again = self.random.randrange(2), dict(source=9, tag=self.random.randrange(2))
        way = self.random.randrange(8)
        if way == 0:
            opcode = self.random.choice((ABORT, GET_STATE, REPLAY))
            self.write(records.packet(records.control(opcode, slot), **again))
        elif way == 1:
            self.write(records.packet(records.command(20, slot), **again))
        elif way == 2:
            self.write(self.packets(records.command(self.three_packets, slot), 0, **again)[0])
        elif way == 3:
            self.stray(**again)
        elif way == 4:
            self.write(records.timeout(slot))
        elif way == 5:
            self.control(self.random.choice((ABORT, RESUME)), slot)
        elif way == 6:
            self.write(records.packet(bytes(60), som=0, eom=0, sequence=1, **again))
        else:
            self.reset()

    def other(self):
        """Anything but a command's packet."""
        self.random.choices((self.control, self.poll, self.settle, self.complete,
                             lambda: self.write(records.take(self.slot("Process untaken"))),
                             lambda: self.write(records.timeout(self.slot("Receive"))),
                             self.header_fault, self.stray, self.reset),
                            (10, 12, 12, 14, 16, 3, 2, 5, 1))[0]()

    def reset(self):
        if self.chance(4):
            self.write(records.RESET)

    def faulty(self):
        """A record that ends the log with `bad`."""
        tag = self.random.randrange(1, 7)
        return self.random.choice((
            records.record(self.random.choice((0, 7, 255)), bytes(3)),
            records.record(tag, bytes(4301)),
            records.record(5) if tag == 5 else records.record(1, bytes(9))[:-1] if tag == 1 else
            records.record(tag, bytes(2)),
            records.record(tag, bytes(1))[:self.random.randrange(1, 3)],
            records.record(5, bytes(4217))[:self.random.randrange(3, 4220)]))

    def step(self):
        if self.chance(40):
            self.random.choice((self.race, self.both_answer, self.race))()
        elif self.chance(60):
            self.replays()
        elif self.senders and self.chance(2):
            self.advance(self.random.choice(self.senders))
        elif self.chance(4):
            self.start()
        else:
            self.other()

def generated(generator):
    """The bytes that the generator chooses, and their Run."""
    fault = generator.faulty() if generator.chance(generator.one_in_faulty) else None
    generator.count -= fault is not None
    while len(generator.log) < generator.count:
        generator.step()
    if fault:
        generator.log.append(fault)
        generator.run.fault(fault)
    return b"".join(generator.log), generator.run

def generate(seed, count):
    """The log's bytes, and its Run."""
    return generated(Generator(seed, count))

def command_line(generate, what):
    parser = argparse.ArgumentParser(
        description=f"Writes a random {what}; the same SEED and N give the same one.")
    parser.add_argument("seed", metavar="SEED", type=int)
    parser.add_argument("count", metavar="N", type=int, help="how many records")
    parser.add_argument("out", metavar="OUT", type=argparse.FileType("wb"), help=f"the {what}'s file")
    given = parser.parse_args()
    written, run = generate(given.seed, given.count)
    with given.out as out:
        out.write(written)
    print("\n".join(sorted(run.reached)))

if __name__ == "__main__":
    command_line(generate, "log")
