#!/usr/bin/env python3
"""Writes a random script for the calls program that reaches deep states and every refusal.

    python3 generate_calls.py SEED N OUT    a script of N records, and on standard output what it reached

The same seed and N give the same script; about half of the scripts end with a faulty record. The script
is steered as a log is, by `generate`: what that chooses is put into the records of the calls program.
Between, calls are made with each argument right or wrong on its own, so that several faults meet in one
call, and the states are looked at often. The requester's part, and what both ends give each other, is chosen
by `generate_requester`, what shows the bounds of other units by `generate_units`, and what is declared of
taken commands by `generate_declare`.
"""
import call_records
import records
from call_records import LOOK, REQUESTER_LOOK, REQUESTER_TAGS, RESET
from generate import bodies, command_line, generated
from generate_declare import DeclareGenerator
from generate_ends import ENDPOINT, OUR_EID
from reached_calls import BUFFERS, LENT, CallsRun
from runs import FAR_SLOTS, HIGH_PARTS, TAKEN
from second import calls, log
from second.calls import MEMORY
from second.endpoint import STORE
from second.wire import ABORT
from units import length_of, longest_packet

FAR = (1 << 32) - 1
UNKNOWN = [tag for tag in range(256) if tag not in calls.LENGTHS]

class CallsGenerator(DeclareGenerator):
    """Chooses the records of a script."""
    new_run = CallsRun
    one_in_faulty = 2

    def write(self, *found):
        """Adds records, and now and then a look."""
        for record in found:
            super().write(record)
            if self.log[-1][0] == calls.TAKE and self.run.lines[-1].startswith("0 "):
                self.taken(*calls.NUMBER.unpack(self.log[-1][3:]))
            if self.chance(10):
                super().write(REQUESTER_LOOK if self.log[-1][0] in REQUESTER_TAGS else LOOK)

    def taken(self, slot):
        """What was taken is mostly read, and now and then declared."""
        if not self.chance(3):
            super().write(call_records.read(slot))
        if self.chance(8):
            super().write(self.right(slot))

    # A log's record as the calls program's
    def put(self, record):
        tag, body = record[0], record[3:]
        if tag == log.PACKET:
            return call_records.receive(records.record(tag, self.to_us(body)))
        if tag == log.POLL:
            return call_records.poll(self.buffer())
        if tag == log.TAKE:
            return call_records.take(self.far(body[0]))
        if tag == log.TIMEOUT:
            return call_records.timeout(self.far(body[0]))
        if tag == log.COMPLETE:
            slot = body[0]
            ticket = self.ticket(slot) if slot > 1 or self.chance(8) else self.endpoint.counts[slot]
            return call_records.complete(ticket, body[1:], self.far(slot))
        return RESET if tag == log.RESET else record

    def to_us(self, packet):
        """The packet, its destination changed to our EID if it was for the usual one."""
        if len(packet) > 1 and packet[1] == OUR_EID and not self.chance(40):
            return packet[:1] + bytes((self.endpoint.eid,)) + packet[2:]
        return packet

    def far(self, slot):
        """The slot, or if there is none of this number, any number above 1."""
        if slot < 2:
            return slot
        return self.random.choice((*FAR_SLOTS, slot, self.random.randrange(2, 1 << 32)))

    @property
    def buffers(self):
        """The buffer that a poll needs, and others."""
        return longest_packet(self.unit), *(length_of(name, self.unit) for name in BUFFERS)

    def buffer(self):
        right, *wrong = self.buffers
        return self.random.choice((*wrong, self.random.randrange(1 << 16))) if self.chance(6) else right

    def ticket(self, slot):
        """A ticket: given once, of the other slot, invented."""
        slot, run = slot & 1, self.run
        present = self.endpoint.counts[slot]
        kept = sorted(run.given[slot] | run.over_reset[slot] | run.over_setup[slot])[-40:]
        other, high = self.endpoint.counts[1 - slot], present + self.random.choice(HIGH_PARTS)
        return self.random.choice((present - 1 & FAR, present + 1, other, other, high, high,
                                   self.random.choice(kept or (0,)),
                                   self.random.choice(kept or (0,)), 0, FAR, self.random.randrange(1 << 32)))

    # Calls with each argument right or wrong on its own
    def any_slot(self, *wanted):
        slot = self.slot(*wanted) & 1
        return self.one_of(slot, self.high(slot), self.high(slot), self.random.choice(FAR_SLOTS))

    def high(self, slot):
        """A number above 1 whose low bits are the slot's."""
        return slot + self.random.choice(HIGH_PARTS)

    def any_take(self):
        wanted = "Process answered" if self.chance(4) else "Process untaken"
        self.make(wanted)
        self.write(call_records.take(self.any_slot(wanted)))

    def any_read(self):
        self.make(*TAKEN)
        self.write(call_records.read(self.any_slot(*TAKEN)))

    def any_timeout(self):
        if not self.endpoint.gathering:
            self.begin()
        self.write(call_records.timeout(self.any_slot("Receive")))

    def make(self, *states):
        """Mostly brings a slot to the first of the states, unless one is in any of them."""
        found = {self.endpoint.state(0), self.endpoint.state(1)}
        if not found.intersection(states) and self.endpoint.stores_fit() and not self.chance(3):
            self.bring(self.slot("Idle") & 1, states[0])

    def any_poll(self):
        self.write(call_records.poll(self.one_of(*self.buffers)))

    def any_complete(self):
        self.make(*TAKEN)
        slot = self.any_slot(*TAKEN, "Process untaken", "Process answered")
        ticket = self.one_of(self.endpoint.counts[slot & 1], self.ticket(slot))
        size = self.one_of(self.random.choice(bodies(self.unit)), 0, 3, 4217,
                           self.random.choice((4216, 4300, 8184)))
        self.write(call_records.complete(ticket, self.random.randbytes(size), slot))

    def any_packet(self):
        """A first packet, or a later one of an assembly if there is one."""
        if self.chance(2):
            self.first_packet(ENDPOINT, *self.key())
            return
        if not self.endpoint.gathering:
            self.begin()
        gathering = sorted(self.endpoint.gathering.items())
        if gathering and not self.chance(4):
            (source, tag), slot = self.random.choice(gathering)
            self.later_packet(ENDPOINT, source, tag, self.endpoint.jobs[slot].sequence + 1)
        else:
            self.later_packet(ENDPOINT, *self.key(), self.random.randrange(4))

    def begin(self):
        """The first packet of a command of three, for a slot that is Idle if there is one."""
        slot = self.slot("Idle") & 1
        message = records.command(self.three_packets, slot)
        self.write(self.packets(message, self.random.randrange(4), *self.key())[0])

    def any_call(self):
        self.random.choices((self.any_packet, self.any_take, self.any_read, self.any_complete, self.any_poll,
                             self.any_timeout, self.any_declare,
                             lambda: super(CallsGenerator, self).write(LOOK)),
                            (22, 4, 4, 10, 4, 4, 3, 2))[0]()

    def gives_up(self, sender):
        """A message whose assembly has ended is not sent to its end: a script has more to try."""
        return sender.key not in self.endpoint.gathering and not self.chance(4)

    # Longer stretches: stores of another length, a message that is too long, tickets that are kept
    def lend(self):
        """Lends stores of another length; `lent_otherwise` says what is done until they are right again."""
        length = self.random.randrange(MEMORY + 1)
        self.write(call_records.stores(*self.random.choice((*LENT, *LENT, (length, STORE), (STORE, length)))))

    def lent_otherwise(self):
        way = self.random.randrange(12)
        if way < 2:
            self.write(call_records.stores())
        elif way == 2:
            self.lend()
        elif way == 3 and self.chance(2):
            self.random.choice((self.reset, self.setup))()
        else:
            self.any_call()

    def too_long(self):
        slot = self.random.randrange(2)
        self.write(self.abort(slot))
        self.overfill(ENDPOINT, slot, 11, self.random.randrange(8), self.lend)

    def kept_tickets(self):
        """A ticket that is kept over a reset or a setup, and used before and after a new command."""
        slot = self.random.randrange(2)
        command = records.packet(records.command(20, slot), source=12, tag=slot)
        self.write(self.abort(slot), command, call_records.take(slot))
        ticket = self.endpoint.counts[slot]
        self.write(RESET if self.chance(2) else call_records.setup(self.random.choice((0, 8, 9)), self.unit))
        for record in (None, command, call_records.take(slot)):
            if record:
                self.write(record)
            if self.chance(2):
                self.write(call_records.declare(ticket, self.mark(), slot))
            body = self.random.randbytes(self.random.choice(bodies(self.unit)))
            self.write(call_records.complete(ticket, body, slot))

    # What a held response outlives or is lost by, beside what a log can show
    def leave(self, slot):
        if not self.chance(3):
            super().leave(slot)
        elif self.chance(2):
            short = call_records.poll(longest_packet(self.unit) - 1)
            self.write(self.random.choice((call_records.read(slot), short, LOOK, self.right(slot))))
        else:
            self.lend()
            self.write(self.random.choice((
                call_records.poll(), call_records.complete(self.endpoint.counts[slot], self.body(), slot),
                self.abort(slot), self.replay_packet(slot, (77, 0)), self.command_packet(slot))))
            self.write(call_records.stores())

    def forget(self):
        if self.chance(2):
            self.setup()
        else:
            super().forget()

    def abort(self, slot):
        return records.packet(records.control(ABORT, slot), source=77, tag=0)

    def faulty(self):
        """A record that ends the script with `bad`."""
        tag = self.random.choice(sorted(calls.LENGTHS))
        least, greatest = calls.LENGTHS[tag]
        above = self.random.choice((MEMORY + 1, 65535))
        return self.random.choice((
            records.record(self.random.choice(UNKNOWN), bytes(self.random.randrange(5))),
            records.record(calls.POLL, bytes(self.random.choice((0, 1, 3)))),
            records.record(tag, bytes(least - 1 if least and self.chance(2) else greatest + 1)),
            records.record(tag, bytes(self.random.choice((8193, 65535)))),
            *(records.record(setup, bytes((8, self.random.randrange(256)))) for setup in calls.SETUPS),
            self.random.choice((call_records.stores(above, STORE), call_records.stores(STORE, above),
                                call_records.requester_store(above))),
            call_records.declare(0, self.random.randrange(2, 256)),
            records.record(tag, bytes(least))[:self.random.randrange(1, 3)],
            records.record(calls.COMPLETE, bytes(4217))[:self.random.randrange(3, 4220)]))

    def step(self):
        if self.multiples:
            self.at_a_multiple()
        elif not self.endpoint.stores_fit():
            self.lent_otherwise()
        elif self.chance(self.one_in_declares):
            self.declares()
        elif self.chance(50):
            self.units()
        elif self.unequal and self.chance(20):
            self.agree()
        elif self.chance(4):
            self.requester_step()
        elif self.chance(40):
            if self.chance(2):
                self.begin()            # what then comes later may be of an assembly
            self.lend()
        elif self.chance(100):
            self.setup()
        elif self.chance(200):
            self.too_long()
        elif self.chance(80):
            self.kept_tickets()
        elif self.chance(70):
            self.replays()
        elif self.chance(3):
            self.any_call()
        else:
            super().step()

def generate_calls(seed, count):
    """The script's bytes, and its Run."""
    return generated(CallsGenerator(seed, count))

if __name__ == "__main__":
    command_line(generate_calls, "script")
