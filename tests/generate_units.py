"""Chooses setups of a random script that change the transmission unit, mostly of both ends alike, and what
shows the bounds that follow it."""
import call_records
import records
from call_records import await_from, cut_message, primitive, requester_setup
from generate_ends import ENDPOINT, OUR_EID, REQUESTER
from generate_requester import USUAL_EID, RequesterGenerator
from reached_units import BUILT
from second.endpoint import STORE
from second.wire import GET_STATE
from units import AROUND, BASE_UNIT, UNITS, fitting, longest_packet

# Every multiple of each unit that a message can have, and how many of them are at the front of a script: so
# that the first 49 scripts have them all.
MULTIPLES = [(unit, count) for unit in UNITS for count in range(1, fitting(unit) + 1)]
AT_FRONT = 6

class UnitsGenerator(RequesterGenerator):
    """A part of `generate_calls.CallsGenerator`."""

    def __init__(self, seed, count):
        super().__init__(seed, count)
        self.multiples = [MULTIPLES[(AT_FRONT * seed + i) % len(MULTIPLES)] for i in range(AT_FRONT)]

    def at_a_multiple(self):
        """A command and its response of one length, around a multiple of the unit, from the cutting to the
        last packet that is gathered."""
        unit, count = self.multiples.pop()
        self.set_up_both(unit, unit)
        slot, tag, eid = self.random.randrange(2), self.random.randrange(8), self.endpoint.eid
        length = min(count * unit + self.random.choice(tuple(AROUND)), STORE)
        message = self.message(length, slot, ENDPOINT)
        self.write(await_from(eid, tag), cut_message(message, destination=eid, tag=tag, unit=unit))
        self.write(*self.outgoing)
        body = self.random.randbytes(length - 8)
        self.write(call_records.take(slot), call_records.complete(self.endpoint.counts[slot], body, slot))
        self.fetch(lambda: self.sends(slot))
        self.write(*map(REQUESTER.put, self.coming))

    def units(self):
        """Both ends with one unit, now and then with two, and what follows it; before, setups of any unit."""
        for _ in range(self.random.randrange(4)):
            if self.chance(2) and self.endpoint.stores_fit():
                self.bring(self.random.randrange(2), self.random.choice(self.states[1:]))
            self.random.choice((self.setup, self.requester_setup))()
        unit = self.right_unit()
        self.set_up_both(unit, self.right_unit() if self.chance(5) else unit)
        if self.unequal:
            for _ in range(4):
                self.exchange(False)
        for _ in range(self.random.randrange(3, 7)):
            end = self.random.choice((ENDPOINT, REQUESTER))
            self.random.choices((self.exchange, lambda: self.exchange(True), self.too_long,
                                 self.too_long_response, self.polls_at_the_bound, self.writes_at_the_bound,
                                 lambda: self.packets_at_the_bound(end),
                                 lambda: self.message_at_the_bound(end)),
                                (14, 4, 6, 7, 6, 8, 10, 10))[0]()

    def set_up_both(self, endpoint_unit, requester_unit):
        """In either order, mostly with the usual EIDs."""
        both = [call_records.setup(self.one_of(OUR_EID, 9, 254), endpoint_unit),
                requester_setup(self.one_of(USUAL_EID, 10, 254), requester_unit)]
        self.random.shuffle(both)
        self.write(*both)

    def agree(self):
        """Lets both ends have one unit again."""
        unit = self.random.choice((self.endpoint.unit, self.requester.unit))
        self.set_up_both(unit, unit)

    def packets_at_the_bound(self, end):
        """Packets that are not the last, some with a payload that is not full or too long."""
        slot, unit = self.random.randrange(2), self.unit_of(end)
        source, tag = self.open_to(end, slot)
        message = self.message(4 * unit, slot, end)
        fields = dict(eom=0, source=source, tag=tag, destination=self.eid_of(end), to=end.to)
        for _ in range(self.random.randrange(3, 7)):
            size = self.random.choice((unit - 1, unit, unit + 1, BASE_UNIT))
            if self.chance(2):
                self.write(end.put(records.packet(message[:size], **fields)))
            else:
                sequence = self.random.choice((1, 1, 1, 2))
                self.write(end.put(records.packet(message[:unit], **fields)),
                           end.put(records.packet(message[-size:], som=0, sequence=sequence, **fields)))

    def message_at_the_bound(self, end):
        """A whole message whose length is around a multiple of the unit, or the longest."""
        slot, unit = self.random.randrange(2), self.unit_of(end)
        key = self.open_to(end, slot)
        message = self.message(STORE if self.chance(9) else self.around(unit), slot, end)
        packets = records.packets(message, self.random.randrange(4), *key, self.eid_of(end), end.to, unit)
        self.write(*map(end.put, packets))

    def message(self, length, slot, end):
        """A message whose full packets differ at each unit."""
        return records.command(length, slot, ror=end.ror, fill=b"\0" + self.random.randbytes(252))

    def open_to(self, end, slot):
        """Lets the end take a message's first packet; a source and tag for it."""
        if end is REQUESTER:
            return self.awaited()
        self.clear(slot)
        return 12, self.random.randrange(8)

    def polls_at_the_bound(self):
        """A response and perhaps control replies, polled for with buffers that are just too short and just
        long enough."""
        slot = self.random.randrange(2)
        self.clear(slot)
        self.write(records.packet(records.command(20, slot), source=12, tag=slot), records.take(slot),
                   records.complete(self.random.randbytes(self.around(self.unit) - 8), slot))
        for _ in range(8):
            if self.chance(4):
                self.control(GET_STATE)
            for less in (1, 0):
                if not self.chance(3):
                    self.write(call_records.poll(longest_packet(self.unit) - less))

    def writes_at_the_bound(self):
        """Commands and a primitive, in buffers that are just too short or long enough."""
        for _ in range(self.random.randrange(3, 7)):
            self.bounded_cut()
        self.write(primitive(GET_STATE, length=self.random.choice(tuple(BUILT))))
