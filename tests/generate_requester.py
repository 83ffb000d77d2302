"""Chooses the requester's records of a random script: exchanges between both ends, mostly whole, and calls
with each argument right or wrong on its own."""
import call_records
import records
from call_records import await_from, cut_message, gather, primitive, requester_setup, requester_store, room
from exchanges import OPCODES, packets_in, written_by
from generate_ends import ENDPOINT, REQUESTER, EndsGenerator
from reached_requester import BUFFERS, EXACT, LENT, SIZES, SLOTS, TAGS
from second import calls, log
from second.calls import MEMORY
from second.endpoint import STORE
from second.wire import ADMIN, MI, PCIE, REPLAY, packet_fields
from units import AROUND, UNITS, length_of, most_packets

USUAL_EID = 9                   # of the requester; most commands of `generate` come from there too
KINDS = (MI, MI, ADMIN, PCIE, 3)
COMMANDS = (8, 19, 20, 100)
BODIES = (4, 92)
MOST = most_packets(min(UNITS))                 # packets that are kept
WRONG_TAGS = [tag for tag, answer in TAGS.items() if answer]

def key_of(packet):
    fields = packet_fields(packet[3:])
    return fields.source, fields.tag

class RequesterGenerator(EndsGenerator):
    """Chooses records of the requester, and of the endpoint in an exchange."""

    def __init__(self, seed, count):
        super().__init__(seed, count)
        self.outgoing = []      # the packets that the requester wrote last
        self.coming = []        # the packets that the endpoint sent to the requester's EID, not yet gathered

    def write(self, *found):
        for record in found:
            super().write(record)
            self.keep_written(self.log[-1][0], self.run.lines[-1])

    def keep_written(self, tag, line):
        if tag == calls.POLL and line.startswith("1 "):
            packet = written_by(line)
            if packet_fields(packet).destination == self.requester.eid:
                self.coming = [*self.coming, records.record(log.PACKET, packet)][-MOST:]
        elif tag in (calls.REQUESTER_CUT, calls.REQUESTER_PRIMITIVE) and line.startswith("0 "):
            packets = packets_in(line, self.requester.unit)
            self.outgoing = [records.record(log.PACKET, packet) for packet in packets]

    # Exchanges

    def around(self, unit):
        """A length around a multiple of the unit, mostly of few packets."""
        many = self.random.randrange(1, most_packets(unit))
        count = self.random.choice((1, 2, 2, 2, 3, 3, 4)) if not self.chance(9) else many
        return count * unit + self.random.choice(tuple(AROUND))

    def exchange(self, long=None):
        """A command, from its cutting to its response; now and then of the most packets both ways. The
        response may be lost, and asked for again."""
        slot, tag, eid = self.random.randrange(2), self.random.randrange(8), self.endpoint.eid
        long = self.chance(14) if long is None else long
        self.clear(slot)
        self.write(await_from(eid, tag), cut_message(self.command(slot, long), destination=eid, tag=tag,
                                                     unit=self.requester.unit))
        self.travel(ENDPOINT, self.outgoing)
        if self.endpoint.state(slot) == "Process untaken":
            sizes = (*BODIES, self.unit - 8, *[self.around(self.unit) - 8] * 3)
            size = STORE - 8 if long else self.random.choice(sizes)
            self.write(call_records.take(slot), call_records.complete(
                self.endpoint.counts[slot], self.random.randbytes(size), slot))
        self.fetch(lambda: self.sends(slot), *[tag] * self.random.randrange(2))     # or nothing is gathered
        for _ in range(1 if long else self.random.randrange(3)):
            if self.endpoint.held(slot):
                self.ask_again(slot, tag)

    def sends(self, slot):
        return self.endpoint.state(slot) == "Transmit"

    def ask_again(self, slot, tag):
        """A Replay under another tag, its reply, and the response once more."""
        asked, eid = (tag + self.random.randrange(1, 8)) % 8, self.endpoint.eid
        self.write(await_from(eid, asked), primitive(REPLAY, slot, room(12), eid, asked))
        self.travel(ENDPOINT, self.outgoing)
        self.fetch(lambda: self.endpoint.reply or self.sends(slot), asked, tag)

    def command(self, slot, long):
        unit = self.requester.unit
        sizes = (*COMMANDS, unit, *[self.around(unit)] * (1 if self.unequal else 4))
        kind, size = (MI, STORE) if long else (self.random.choice(KINDS), self.random.choice(sizes))
        found = records.command(size, slot, kind, fill=self.fill(kind), meb=self.chance(12))
        return records.damaged(found) if self.chance(20) else found

    def ask(self):
        """A primitive, from its building to its reply."""
        slot, tag, eid = self.random.randrange(2), self.random.randrange(8), self.endpoint.eid
        cpsp = self.random.choice((0, 1, self.random.randrange(1 << 16)))
        self.write(await_from(eid, tag),
                   primitive(self.opcode(), slot, room(12), eid, tag, self.random.randrange(256), cpsp))
        self.travel(ENDPOINT, self.outgoing)
        self.fetch(lambda: self.endpoint.reply, tag)

    def opcode(self):
        return self.random.choice((*OPCODES, self.random.randrange(256)))

    def fetch(self, more, *tags):
        """Polls while there is more to come, and gathers what came under each of the tags. The first one is
        awaited; the others are from here on, in their turn."""
        self.coming = []
        for _ in range(140):
            if not more():
                break
            self.write(records.POLL)
        came = self.coming
        for tag in tags:
            if tag != tags[0]:
                self.write(await_from(self.endpoint.eid, tag))
            self.travel(REQUESTER, [packet for packet in came if key_of(packet)[1] == tag])

    def travel(self, end, packets):
        """Gives an end packets: mostly in order and each once, sometimes with other calls between."""
        if packets and self.chance(6):
            packets = self.disordered(packets)
        between = self.chance(4)
        for packet in packets:
            self.write(end.put(packet))
            if self.unequal and not self.chance(4):
                return                              # the rest can't be gathered
            if between and self.chance(1 + len(packets) // 4):
                self.random.choice((self.other, self.any_requester_call, self.any_cut, self.other_packet))()

    def disordered(self, packets):
        """The packets with one damaged, left out, repeated or late."""
        at = self.random.randrange(len(packets))
        one, rest = packets[at], packets[at + 1:]
        return packets[:at] + self.random.choice(([self.spoiled(one), *rest], rest, [one, one, *rest],
                                                  [*rest[:1], one, *rest[1:]]))

    def collect(self):
        """Gathers what the endpoint has sent, whoever asked; the first is mostly awaited."""
        found, self.coming = self.coming, []
        if found and not self.chance(6):
            self.write(await_from(*key_of(found[0])))
        self.travel(REQUESTER, found)

    # Calls with each argument right or wrong on its own

    def any_await(self):
        source, tag = self.requester.awaited or (self.endpoint.eid, self.random.randrange(8))
        self.write(await_from(self.one_of(source, 0, 255, source ^ 1),
                              self.one_of(tag, 0, 7, tag ^ 1, tag | 8, *WRONG_TAGS)))

    def destination_and_tag(self):
        return (self.one_of(self.endpoint.eid, 0, 255, self.random.randrange(256)),
                self.one_of(self.random.randrange(8), 0, 7, *WRONG_TAGS, *WRONG_TAGS))

    def any_cut(self):
        unit = self.requester.unit
        size = length_of(self.one_of(self.random.choice((*COMMANDS, "U", "U + 1", "2 U")), *SIZES), unit)
        exact = room(size, unit)
        length = self.one_of(exact, 0, max(exact - 1, 0), exact + 1, 65535)
        self.write(cut_message(self.random.randbytes(size), length, *self.destination_and_tag()))

    def bounded_cut(self):
        """A buffer that is one byte too short, just right or one byte too long."""
        unit = self.requester.unit
        size = length_of(self.random.choice((*EXACT, STORE, *[self.around(unit)] * 4)), unit)
        length = room(size, unit) + self.random.choice((-1, -1, 0, 0, 1))
        self.write(cut_message(self.random.randbytes(size), length))

    def any_primitive(self):
        slot, length = self.one_of(self.random.randrange(2), *SLOTS), self.one_of(room(12), *BUFFERS)
        self.write(primitive(self.opcode(), slot, length, *self.destination_and_tag(),
                             cpsp=self.random.randrange(1 << 16)))

    def any_gather(self):
        """A first packet, or a later one of an assembly if there is one."""
        if self.chance(2):
            if self.requester.awaited is None and self.chance(2):
                self.any_await()
            self.first_packet(REQUESTER, *self.key_to_gather())
            return
        if self.requester.assembly is None and not self.chance(4):
            self.begin_response()
        assembly = self.requester.assembly
        sequence = assembly.sequence + 1 if assembly else self.random.randrange(4)
        self.later_packet(REQUESTER, *self.key_to_gather(), sequence)

    def key_to_gather(self):
        """The source and tag that are awaited, or now and then others."""
        if self.requester.awaited and not self.chance(4):
            return self.requester.awaited
        return self.endpoint.eid, self.random.randrange(8)

    def awaited(self):
        """The source and tag that are awaited; if there are none, some are from here on."""
        if self.requester.awaited is None:
            self.write(await_from(self.endpoint.eid, self.random.randrange(8)))
        return self.requester.awaited or (0, 0)             # nothing is awaited if the script is full

    def begin_response(self):
        """Gives the requester the first of three packets of a response that is awaited; the other two."""
        (source, tag), unit = self.awaited(), self.requester.unit
        first, *rest = records.packets(records.command(2 * unit + 2, ror=1, fill=self.fill(MI)),
                                       self.random.randrange(4), source, tag, self.requester.eid, 0, unit)
        self.write(gather(first))
        return rest

    def any_requester_call(self):
        self.random.choices((self.any_gather, self.any_await, self.any_cut, self.bounded_cut,
                             self.any_primitive), (15, 3, 3, 1, 3))[0]()

    # Longer stretches: what an assembly may meet, a response that is too long, other stores

    def pass_by(self):
        """An assembly, what may happen in it, the rest of it, and perhaps another response."""
        rest = self.begin_response()
        for _ in range(self.random.randrange(1, 3)):
            self.random.choices((self.other_packet, self.any_gather, self.any_await, self.any_cut,
                                 self.any_primitive, self.setup, self.reset, self.lend_between),
                                (4, 1, 1, 1, 1, 1, 1, 1))[0]()
        self.travel(REQUESTER, rest)
        if self.requester.awaited and self.chance(2):
            self.travel(REQUESTER, self.begin_response())

    def other_packet(self):
        """A packet under the awaited source and tag or under others, mostly with one thing wrong."""
        source, tag = self.requester.awaited or (0, 0)
        way = self.random.randrange(3)
        source, tag = source ^ (way == 0), tag ^ (way == 1)
        fields = dict(source=source, tag=tag, destination=self.requester.eid, to=0)
        if self.chance(3):
            self.first_packet(REQUESTER, source, tag)
        elif self.chance(8):
            self.write(gather(records.packet(records.damaged(records.command(ror=1)), **fields)))
        else:
            self.write(gather(self.stray_packet(1, unit=self.requester.unit, **fields)))

    def lend_between(self):
        self.requester_lend()
        self.any_gather()
        self.write(requester_store())

    def too_long_response(self):
        self.overfill(REQUESTER, 0, *self.awaited(), self.requester_lend)

    def requester_setup(self):
        self.setup(requester_setup, USUAL_EID)

    def requester_lend(self):
        self.write(requester_store(self.random.choice((*LENT, *LENT, self.random.randrange(MEMORY + 1)))))

    def requester_step(self):
        if len(self.requester.store) != STORE and self.chance(5):
            self.write(requester_store())
        else:
            self.random.choices((self.exchange, self.ask, self.collect, self.any_requester_call, self.pass_by,
                                 self.too_long_response, self.requester_setup, self.requester_lend),
                                (18, 16, 16, 190, 30, 3, 8, 6))[0]()
