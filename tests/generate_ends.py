"""Chooses what either end of a random script can be given: packets with each field right or wrong on its own,
so that several faults meet in one, messages that are too long, and setups."""
import collections

import call_records
import records
from generate import Generator
from reached_replay import WRONG_CPSP
from runs import EIDS
from second.endpoint import STORE
from second.wire import GET_STATE, MI, PAUSE, PCIE, REPLAY, sealed
from units import BASE_UNIT, UNITS, WRONG_UNITS, fitting, too_long

OUR_EID = 8                     # the destination of the packets that `generate` chooses

# The TO and ROR that an end wants, and how a log's packet is put for it. A packet for the endpoint is put
# later, as all records of a log are.
End = collections.namedtuple("End", "to ror put")
ENDPOINT = End(1, 0, lambda packet: packet)
REQUESTER = End(0, 1, call_records.gather)

class EndsGenerator(Generator):
    """Chooses records for either end."""

    @property
    def endpoint(self):
        return self.run.endpoint

    @property
    def requester(self):
        return self.run.requester

    def one_of(self, right, *wrong):
        """What is right, or in one case of three something wrong."""
        return self.random.choice(wrong) if self.chance(3) else right

    def eid_of(self, end):
        return OUR_EID if end is ENDPOINT else self.requester.eid

    @property
    def unequal(self):
        """Whether the ends have different units."""
        return self.endpoint.unit != self.requester.unit

    def unit_of(self, end):
        return (self.endpoint if end is ENDPOINT else self.requester).unit

    def setup(self, put=call_records.setup, usual=OUR_EID):
        """A setup in the middle, mostly with an EID at a bound."""
        eid = self.random.choice((*EIDS, usual, usual, self.random.randrange(256)))
        self.write(put(eid, self.any_unit()))

    def any_unit(self):
        """A unit that an end has, any other, a wrong one, or none."""
        has = self.random.choice((self.endpoint.unit, self.requester.unit))
        wrong = self.random.choice((*WRONG_UNITS, self.random.randrange(1 << 16)))
        return self.random.choice((has, has, has, wrong, wrong, self.right_unit(), None))

    def right_unit(self):
        return self.random.choice((*UNITS, *UNITS, self.random.randrange(UNITS[0], UNITS[-1] + 1)))

    def first_packet(self, end, source, tag):
        slot, unit = self.random.randrange(2), self.unit_of(end)
        control = self.any_control(slot)
        payload = bytearray(self.random.choice((records.command(20, slot), control, control,
                                                records.control(PAUSE, tag=self.random.randrange(256)),
                                                records.command(self.random.choice((8, unit)), slot, PCIE))))
        if self.chance(6):
            payload[0] = 0x85
        if end.ror ^ self.chance(4):
            payload[1] |= 0x80
        if end is REQUESTER and self.chance(3):             # bits that are not looked at there
            payload[1] |= self.random.randrange(8)
            payload[2:4] = self.random.randbytes(2)
        size = self.one_of(len(payload), 0, 1, 7, 7, 12, 13, BASE_UNIT, unit, unit + 1, unit + 6)
        payload = (payload[:-4] + bytes(unit + 16))[:max(size - 4, 0)]
        payload = sealed(payload)[:size]
        if self.chance(5) and payload:
            payload = records.damaged(payload)
        self.faulty_header(end, payload, 1, self.one_of(1, 0), self.random.randrange(4), source, tag)

    def any_control(self, slot):
        return records.control(self.random.choice((GET_STATE, REPLAY, REPLAY, 5, 255)), slot,
                               cpsp=self.random.choice((0, 0, 0, 0, *WRONG_CPSP)), ciap=self.chance(3),
                               meb=self.chance(4))

    def later_packet(self, end, source, tag, sequence):
        unit = self.unit_of(end)
        payload = self.random.randbytes(self.one_of(unit, 0, 1, 1, unit - 1, unit - 1, unit + 1, BASE_UNIT))
        sequence = self.one_of(sequence, sequence + self.random.randrange(1, 4))
        self.faulty_header(end, payload, 0, self.chance(2), sequence, source, tag)

    def faulty_header(self, end, payload, som, eom, sequence, source, tag):
        version = 1 if not self.chance(4) else self.random.choice((0, 2, 0xF1, 0xF1, 0xF1, 0xF2))
        destination = self.eid_of(end) if not self.chance(6) else self.random.choice((0, 8, 9, 255))
        self.write(end.put(records.packet(payload, som, eom, sequence, source, tag, version, destination,
                                          end.to ^ self.chance(6))))

    def overfill(self, end, slot, source, tag, lend):
        """As many full packets without EOM as fit, perhaps other stores, and then what such an assembly can
        be told."""
        unit = self.unit_of(end)
        count, rest = fitting(unit), STORE % unit
        message = records.command(too_long(unit), slot, ror=end.ror, fill=self.fill(MI))
        full = records.packets(message, 0, source, tag, self.eid_of(end), end.to, unit)[:count]
        self.write(*map(end.put, full))
        if self.chance(4):
            lend()
        elif not self.chance(3):
            size, eom = self.random.choice(((rest + 1, 1), (rest + 1, 1), (rest + 1, 1), (unit, 0),
                                            (unit - 1, 0), (unit + 1, 0)))
            self.write(end.put(records.packet(bytes(size), 0, eom, count, source, tag,
                                              destination=self.eid_of(end), to=end.to)))
        for _ in range(16):
            if not self.gathers(end, source, tag):
                return
            self.later_packet(end, source, tag, count)

    def gathers(self, end, source, tag):
        """Whether the end has an assembly of this source and tag."""
        if end is ENDPOINT:
            return (source, tag) in self.endpoint.gathering
        return self.requester.assembly is not None and (source, tag) == self.requester.awaited
