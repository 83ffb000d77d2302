"""Chooses what a random script declares of taken commands: commands of a slot one behind the other, what is
declared of each, with right and wrong arguments, what comes between, and how each ends."""
import call_records
import records
from call_records import LOOK, declare
from generate_replay import AT_ONCE, WRONG
from generate_units import UnitsGenerator
from runs import SCRIPT_STATES, STOPPABLE, TAKEN
from second.wire import ABORT, GET_STATE, PAUSE, REPLAY, RESUME

class DeclareGenerator(UnitsGenerator):
    """A part of `generate_calls.CallsGenerator`."""
    states = SCRIPT_STATES

    def __init__(self, seed, count):
        super().__init__(seed, count)
        self.one_in_declares = 7 if seed % 5 == 4 else 150     # a fifth of the scripts is mostly about this

    def declares(self):
        """Commands of one slot; the other slot may have a command too."""
        slot = self.random.randrange(2)
        if self.chance(3):
            self.bring(1 - slot, self.random.choice(self.states[1:]))
        for _ in range(self.random.randrange(2, 7)):
            self.begin_command(slot)
            if self.chance(3):
                self.write(*[call_records.take(slot)] * self.random.randrange(2), self.abort(slot))
            else:
                self.declared_command(slot)

    def declared_command(self, slot):
        """Takes a command, mostly declares of it, and ends it."""
        if not self.chance(8):
            self.write(call_records.take(slot))
        self.declare_times(slot, 0, 1, 1, 1, 2, 3, 3)
        for _ in range(self.random.randrange(4)):
            self.between(slot)
            self.declare_times(slot, 0, 0, 0, 1)
        if self.chance(3):
            self.write(LOOK)
        self.random.choices((lambda: self.write(self.abort(slot)), lambda: self.finish(slot), self.forget),
                            (8, 4, 3))[0]()

    def bring(self, slot, state):
        super().bring(slot, "Process taken" if state == STOPPABLE else state)
        if state == STOPPABLE:
            self.write(self.right(slot, 1))

    # Declarations

    def mark(self):
        return self.random.choice((1, 1, 0))

    def right(self, slot, mark=None):
        """With the present ticket."""
        return declare(self.endpoint.counts[slot], self.mark() if mark is None else mark, slot)

    def wrong(self, slot, mark=None):
        """With another ticket, or of a slot that is none; the low bits may be right."""
        mark = self.random.randrange(2) if mark is None else mark
        if self.chance(2):
            return declare(self.ticket(slot), mark, slot)
        return declare(self.endpoint.counts[slot], mark, self.high(slot))

    def declare_times(self, slot, *times):
        """As many declarations as one of these numbers says."""
        self.write(*(self.right(slot) for _ in range(self.random.choice(times))))

    def perhaps_declare(self, slot):
        """Mostly where nothing can be declared."""
        if self.chance(3):
            self.write(self.random.choice((self.wrong, self.right))(slot))

    def any_declare(self):
        """With each argument right or wrong on its own, mostly where something is taken."""
        self.make(*TAKEN)
        slot = self.any_slot(*TAKEN, "Process untaken", "Process answered")
        ticket = self.one_of(self.endpoint.counts[slot & 1], self.ticket(slot))
        self.write(declare(ticket, self.mark(), slot))

    # A command comes.

    def begin_command(self, slot):
        """A command of one packet or of three, now and then beside a paused one of the other slot."""
        self.clear(slot)
        self.perhaps_declare(slot)
        if self.chance(6):
            self.write(self.abort(1 - slot), self.one_packet(1 - slot, ciap=1))
        if self.chance(4):
            first, *rest = self.packets(records.command(self.three_packets, slot), 0, 12, slot)
            self.write(first)
            self.perhaps_declare(slot)
            self.write(*rest)
        else:
            wrong = self.random.choice(AT_ONCE) if self.chance(8) else {}
            self.write(self.one_packet(slot, ciap=self.chance(5), **wrong))
        self.perhaps_declare(slot)

    def one_packet(self, slot, **fields):
        return records.packet(records.command(slot=slot, **fields), source=12, tag=slot)

    # What comes between leaves what was declared.

    def between(self, slot):
        """A call, a packet or a primitive for the slot or for the other one."""
        other, count = 1 - slot, self.endpoint.counts[slot]
        self.random.choices((
            lambda: self.write(*(self.wrong(slot, mark) for mark in (0, 1))),
            lambda: self.write(call_records.take(slot)),
            lambda: self.write(call_records.complete(self.ticket(slot), self.body(), slot)),
            lambda: self.write(call_records.complete(count, bytes(self.random.choice((0, 3, 4217))), slot)),
            lambda: self.write(call_records.read(slot), call_records.timeout(slot)),
            lambda: self.write(records.POLL), lambda: self.write(self.one_packet(slot)),
            lambda: self.primitive_between(slot), lambda: self.lent_between(slot),
            lambda: self.write(self.abort(other)), lambda: self.other_declares(other),
            lambda: self.other_slot(other)), (4, 3, 2, 2, 2, 1, 2, 9, 5, 1, 1, 1))[0]()

    def primitive_between(self, slot):
        """One that acts on no command, or an Abort that gets an error reply."""
        message = self.random.choice((
            records.control(PAUSE), records.control(RESUME), records.control(GET_STATE, slot),
            records.control(REPLAY, slot), *(records.control(ABORT, slot, **wrong) for wrong in WRONG)))
        self.write(records.packet(message, source=77, tag=0))

    def lent_between(self, slot):
        """Stores of another length, and what is then refused or, as a declaration, is not."""
        self.lend()
        for _ in range(self.random.randrange(1, 4)):
            self.write(self.random.choice((
                self.right(slot), self.right(slot), self.wrong(slot), self.abort(slot),
                call_records.complete(self.endpoint.counts[slot], self.body(), slot))))
        self.write(call_records.stores())

    def other_declares(self, slot):
        """A command of the other slot is taken, unless one is, and declared; it may be completed."""
        if self.endpoint.state(slot) not in TAKEN:
            self.write(self.abort(slot), self.one_packet(slot), call_records.take(slot))
        self.write(self.right(slot))
        if self.chance(2):
            self.write(call_records.complete(self.endpoint.counts[slot], self.body(), slot))

    # How a command ends

    def finish(self, slot):
        """Completes it, and mostly sends the response; it may be asked for again."""
        if self.chance(3):
            self.write(records.packet(records.control(PAUSE), source=77, tag=0))
        body = self.body() if self.chance(4) else self.random.randbytes(4)
        self.write(call_records.complete(self.endpoint.counts[slot], body, slot))
        if self.endpoint.state(slot) == "Process answered":
            self.write(LOOK, self.right(slot), self.wrong(slot), self.wrong(slot))
        self.perhaps_declare(slot)
        if self.chance(4):
            self.write(self.abort(slot))
        if self.endpoint.paused:
            self.write(records.packet(records.control(RESUME), source=77, tag=0))
        self.send(slot)
        if not self.chance(3):
            self.perhaps_declare(slot)
            self.write(self.replay_packet(slot, (77, 0)))
            self.perhaps_declare(slot)
            self.send(slot)
