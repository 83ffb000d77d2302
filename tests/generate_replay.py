"""Chooses what a random log or script does with a response that a slot holds: calls that leave it, what it is
lost by, Replays, and what may happen while it is sent again."""
import records
from reached_replay import WRONG_CPSP
from runs import STATES, TAKEN
from second.wire import ABORT, GET_STATE, PAUSE, REPLAY, RESUME
from units import too_long

WRONG = (dict(meb=1), dict(ciap=1), dict(meb=1, ciap=1))
AT_ONCE = (dict(kind=3), dict(meb=1), dict(length=19))          # of a command that is answered at once

def bodies(unit):
    """Of responses of one to four packets."""
    return 4, unit - 8, unit - 7, 2 * unit - 8, 2 * unit - 7, 3 * unit - 8, 200, 4 * unit - 8

class ReplayGenerator:
    """A part of `generate.Generator`."""
    states = STATES             # that a slot can be brought to

    def replays(self):
        """Replays of what a slot holds, with the other slot in any state."""
        slot = self.random.randrange(2)
        for _ in range(self.random.randrange(1, 4)):
            self.hold(slot)
            if self.chance(2):
                self.bring(1 - slot, self.random.choice(self.states[1:]))
            for _ in range(self.random.randrange(3)):
                self.leave(slot)
            if self.chance(3):
                self.lose(slot)
            self.replay(slot if not self.chance(8) else 1 - slot)
            self.sent_again(slot)

    def clear(self, slot):
        """Makes the slot Idle, and lets a paused endpoint go on."""
        if self.run.endpoint.state(slot) != "Idle":
            self.write(records.packet(records.control(ABORT, slot), source=77, tag=0))
        if self.run.endpoint.paused:
            self.write(records.packet(records.control(RESUME), source=77, tag=0))

    def bring(self, slot, state):
        """Brings a slot to a state but Idle; its response may be begun, and the slot may be paused."""
        self.clear(slot)
        message = records.command(self.three_packets if state == "Receive" else 20, slot,
                                  ciap=state == "Process answered")
        self.write(self.packets(message, 0, *self.key())[0])
        if state in STATES[3:]:
            self.write(records.take(slot))
        if state in STATES[4:]:
            self.write(records.complete(self.body(), slot))
        if state == "Transmit" and self.chance(2):
            self.write(records.POLL)
        if self.chance(3):
            self.control(PAUSE)

    def body(self):
        return self.random.randbytes(self.random.choice(bodies(self.unit)))

    def hold(self, slot):
        """Lets the slot send a response whole, unless it holds one."""
        if self.run.endpoint.held(slot) is not None:
            return
        self.clear(slot)
        source, tag = self.key()
        if self.chance(4):
            message = records.command(slot=slot, **self.random.choice(AT_ONCE))
            self.write(records.packet(message, source=source, tag=tag))
        else:
            body = self.random.randbytes(4216) if self.chance(25) else self.body()
            self.write(records.packet(records.command(slot=slot), source=source, tag=tag), records.take(slot),
                       records.complete(body, slot))
        self.send(slot)

    def send(self, slot):
        """Polls until the slot has sent what it has to send."""
        for _ in range(140):
            if self.run.endpoint.paused or self.run.endpoint.state(slot) != "Transmit":
                return
            self.write(records.POLL)

    # Replay, mostly right, from anybody, from the command's requester, or under an assembly's source and tag

    def replay(self, slot):
        endpoint = self.run.endpoint
        held, keys = endpoint.held(slot), 3 * list(endpoint.gathering)
        if held is not None:
            keys += [held.who, (held.who[0], held.who[1] ^ 1)]
        key = self.random.choice(keys) if keys and not self.chance(3) else (77, 0)
        wrong = self.random.choice(WRONG) if self.chance(20) else {}
        self.write(self.replay_packet(slot, key, self.wrong_cpsp() if self.chance(12) else 0, **wrong))

    def replay_packet(self, slot, key, cpsp=0, **wrong):
        source, tag = key
        message = records.control(REPLAY, slot, tag=self.random.randrange(256), cpsp=cpsp, **wrong)
        return records.packet(message, source=source, tag=tag)

    def wrong_cpsp(self):
        return self.random.choice((*WRONG_CPSP, self.random.randrange(1, 65536)))

    # What leaves a held response

    def leave(self, slot):
        self.random.choices((lambda: self.header_fault(slot), lambda: self.stray(slot=slot), self.poll,
                             lambda: self.other_slot(1 - slot),
                             lambda: self.control(self.random.choice((PAUSE, RESUME, GET_STATE)), slot),
                             lambda: self.wrong_primitive(slot),
                             lambda: self.write(self.random.choice((
                                 records.take(slot), records.timeout(slot),
                                 records.complete(self.body(), slot))))),
                            (4, 4, 1, 5, 3, 3, 3))[0]()

    def wrong_primitive(self, slot):
        """An Abort or a Replay that gets an error reply."""
        if self.chance(3):
            self.write(self.replay_packet(slot, (77, 0), self.wrong_cpsp()))
        else:
            message = records.control(self.random.choice((ABORT, REPLAY)), slot, **self.random.choice(WRONG))
            self.write(records.packet(message, source=77, tag=0))

    def other_slot(self, slot):
        """What the other slot can do next, or what can always be asked of it."""
        state = self.run.endpoint.state(slot)
        if self.chance(4):
            self.control(self.random.choice((ABORT, GET_STATE, REPLAY)), slot)
        elif state == "Idle" or self.chance(5):
            self.write(self.command_packet(slot))
        elif state == "Receive":
            self.write(records.timeout(slot))
        elif state == "Process untaken":
            self.write(records.take(slot))
        elif state in TAKEN:
            self.write(records.complete(self.body(), slot))
        else:
            self.settle()

    def command_packet(self, slot):
        """A command of one packet, right or wrong, or the first packet of one of several."""
        way = self.random.randrange(4)
        message = records.command(self.three_packets if way == 0 else 20, slot, ciap=self.chance(4))
        return self.packets(records.damaged(message) if way == 1 else message, 0, *self.key())[0]

    # What a response is lost by

    def lose(self, slot):
        way = self.random.randrange(8)
        if way == 0:
            self.control(ABORT, slot)
        elif way == 1:
            self.forget()
        elif way == 2:
            self.write(records.packet(records.damaged(records.command(slot=slot)), source=77, tag=1))
        elif way < 5:
            self.bring(slot, self.random.choice(self.states[1:]))
            if self.chance(2):
                self.random.choice((lambda: self.control(ABORT, slot), self.forget))()
        else:
            self.lose_to_an_assembly(slot)

    def forget(self):
        """Something that both slots lose what they hold by."""
        self.write(records.RESET)

    def lose_to_an_assembly(self, slot):
        """The first packet of a command that is too long, and mostly what ends its assembly."""
        source, tag = key = self.key()
        first, *rest = self.packets(records.command(too_long(self.unit), slot), 0, *key)
        fields = dict(som=0, source=source, tag=tag)
        self.write(first)
        self.random.choices((
            lambda: self.write(records.timeout(slot)),
            lambda: self.write(records.packet(bytes(36), sequence=2, **fields)),                # 22
            lambda: self.write(records.packet(bytes(self.unit - 1), eom=0, sequence=1, **fields)),  # 16
            lambda: self.write(records.packet(bytes(36), sequence=1, **fields)),                # 19
            lambda: self.write(*rest),                                                          # 23
            lambda: self.stray(source, tag), lambda: self.control(ABORT, slot), self.forget, lambda: None),
            (2, 2, 2, 2, 1, 2, 2, 2, 2))[0]()

    # While it is sent again

    def sent_again(self, slot):
        """Polls, and what may happen between them; where that took the response, a Replay that finds none."""
        self.write(*[records.POLL] * self.random.randrange(4))
        for _ in range(self.random.randrange(8)):
            if self.run.endpoint.state(slot) != "Transmit":
                break
            self.random.choices((lambda: self.write(records.POLL), self.settle, lambda: self.replay(slot),
                                 lambda: self.control(PAUSE), lambda: self.other_slot(1 - slot),
                                 lambda: self.write(self.command_packet(slot)),
                                 lambda: self.control(GET_STATE, slot), lambda: self.control(ABORT, slot),
                                 self.forget),
                                (14, 4, 3, 2, 6, 2, 2, 2, 2))[0]()
        if self.run.endpoint.state(slot) == "Idle" and self.run.endpoint.held(slot) is None:
            self.replay(slot)
        elif not self.chance(4):
            if self.run.endpoint.paused:
                self.control(RESUME)
            self.send(slot)
